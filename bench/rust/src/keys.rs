//! The keys of all rows at one size, which look random and are the same in each run.

/// Marsaglia's xorshift of 64 bits. Its numbers differ from each other over the whole period.
pub struct Xorshift {
    state: u64,
}

impl Xorshift {
    pub fn new() -> Self {
        Xorshift {
            state: 0x9e37_79b9_7f4a_7c15,
        }
    }

    fn next(&mut self) -> u64 {
        self.state ^= self.state << 13;
        self.state ^= self.state >> 7;
        self.state ^= self.state << 17;
        self.state
    }

    fn numbers(&mut self, count: usize) -> Vec<u64> {
        (0..count).map(|_| self.next()).collect()
    }

    fn shuffle(&mut self, keys: &[u64]) -> Vec<u64> {
        let mut keys = keys.to_vec();
        for at in (1..keys.len()).rev() {
            let other = (self.next() % (at as u64 + 1)) as usize;
            keys.swap(at, other);
        }
        keys
    }

    /// Keys out of a list, as many as it has.
    ///
    /// Each is one of the first n, n/2, n/4 and so on, in as many parts as are given, each part as often.
    pub fn choose(&mut self, keys: &[u64], parts: u64) -> Vec<u64> {
        let mut chosen = Vec::new();
        for _ in keys {
            let part = keys.len() as u64 >> (self.next() % parts);
            let rank = (self.next() >> 11) % part.max(1);
            chosen.extend(keys.get(rank as usize));
        }
        chosen
    }
}

/// Lists of keys. None is in both `held` and `absent`.
pub struct Keys {
    /// The keys of a full container, in the order in which they come in.
    pub held: Vec<u64>,
    /// As many others.
    pub absent: Vec<u64>,
    /// Those that are held, in two other orders.
    pub mixed: Vec<u64>,
    pub mixed_again: Vec<u64>,
    /// The others in another order.
    pub absent_mixed: Vec<u64>,
    /// The numbers below the size.
    pub places: Vec<u64>,
    /// The number 0.
    pub zero: Vec<u64>,
}

impl Keys {
    pub fn new(size: usize) -> Self {
        let mut random = Xorshift::new();
        let held = random.numbers(size);
        let absent = random.numbers(size);
        Keys {
            mixed: random.shuffle(&held),
            mixed_again: random.shuffle(&held),
            absent_mixed: random.shuffle(&absent),
            held,
            absent,
            places: (0..size as u64).collect(),
            zero: vec![0],
        }
    }

    pub fn size(&self) -> usize {
        self.held.len()
    }

    /// Half of the size, and at least one.
    pub fn half(&self) -> usize {
        (self.held.len() / 2).max(1)
    }
}

/// Tokens of 32 bytes.
pub fn tokens(keys: &[u64]) -> Vec<String> {
    keys.iter()
        .map(|key| format!("{key:016x}{:016x}", !key))
        .collect()
}

/// Statements of a database, of 77 bytes, which all begin and end alike.
pub fn statements(keys: &[u64]) -> Vec<String> {
    let text = |key| format!("SELECT name, price FROM articles WHERE shop = {key:020} AND id = ?");
    keys.iter().map(text).collect()
}
