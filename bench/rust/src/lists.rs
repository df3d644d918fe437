//! What the calls of a pass are given.

use crate::keys::{Keys, Xorshift};

/// Which keys the calls are given, and in which order.
#[derive(Clone, Copy, PartialEq)]
pub enum Order {
    /// Those that are held, as they came in.
    Held,
    /// Others.
    Absent,
    /// Those that are held, mixed.
    Mixed,
    /// The same in two orders by turns, so that a key's neighbours are not those of the last time.
    MixedByTurns,
    /// The others and those that are held, by turns.
    AbsentAndHeld,
    /// Those that are held, mixed, each with another that comes for it, and back in the next pass.
    Exchanges,
    /// Those that are held, the first ones the most often, about as by Zipf's law, others in each pass.
    Zipf,
    /// Places in the list of those that are held, chosen in the same way.
    ZipfPlaces,
    /// Those that are held, each as often, others in each pass.
    Uniform,
    /// A single call, for each entry of a container.
    Whole,
    /// A single call, for each entry of two.
    Both,
}

impl Order {
    /// How many operations a pass has.
    pub fn operations(self, size: usize) -> usize {
        if self == Order::Both {
            size * 2
        } else {
            size
        }
    }
}

/// What a call is given.
pub trait Item: Sized {
    /// Of a key, and of the one that comes for it.
    fn of(key: u64, other: u64) -> Self;
}

impl Item for u64 {
    fn of(key: u64, _other: u64) -> u64 {
        key
    }
}

impl Item for (u64, u64) {
    fn of(key: u64, other: u64) -> (u64, u64) {
        (key, other)
    }
}

/// An element of a set that only rows of one place have.
impl Item for (u64, ()) {
    fn of(key: u64, _other: u64) -> (u64, ()) {
        (key, ())
    }
}

/// The key alone, in 20 bytes.
impl Item for String {
    fn of(key: u64, _other: u64) -> String {
        format!("{key:020}")
    }
}

impl Item for (String, String) {
    fn of(key: u64, other: u64) -> (String, String) {
        (String::of(key, other), String::of(other, key))
    }
}

/// The items of one pass after the other.
pub struct Lists {
    order: Order,
    random: Xorshift,
    passes: u64,
}

impl Lists {
    pub fn new(order: Order) -> Self {
        Lists {
            order,
            random: Xorshift::new(),
            passes: 0,
        }
    }

    /// How many passes had a list.
    pub fn passes(&self) -> u64 {
        self.passes
    }

    /// The items of the next pass.
    pub fn next<T: Item>(&mut self, keys: &Keys) -> Vec<T> {
        let is_back = self.passes % 2 == 1;
        self.passes += 1;
        let parts = u64::from((keys.size() as u64).max(1).ilog2()) + 1;
        match self.order {
            Order::Zipf => self.chosen(&keys.held, parts),
            Order::ZipfPlaces => self.chosen(&keys.places, parts),
            Order::Uniform => self.chosen(&keys.held, 1),
            order => items_of(keys, order, is_back),
        }
    }

    fn chosen<T: Item>(&mut self, keys: &[u64], parts: u64) -> Vec<T> {
        let chosen = self.random.choose(keys, parts);
        items(&chosen, &chosen)
    }
}

/// The items of a pass whose keys are not chosen by chance.
fn items_of<T: Item>(keys: &Keys, order: Order, is_back: bool) -> Vec<T> {
    let (now, other) = match order {
        Order::Absent => (&keys.absent, &keys.absent),
        Order::Mixed => (&keys.mixed, &keys.mixed),
        Order::MixedByTurns if is_back => (&keys.mixed_again, &keys.mixed),
        Order::MixedByTurns => (&keys.mixed, &keys.mixed_again),
        Order::AbsentAndHeld if !is_back => (&keys.absent, &keys.held),
        Order::Exchanges if is_back => (&keys.absent_mixed, &keys.held),
        Order::Exchanges => (&keys.mixed, &keys.absent),
        Order::Whole | Order::Both => (&keys.zero, &keys.zero),
        _ => (&keys.held, &keys.absent),
    };
    items(now, other)
}

/// The items of keys and of those that come for them.
pub fn items<T: Item>(keys: &[u64], others: &[u64]) -> Vec<T> {
    let pairs = keys.iter().zip(others);
    pairs.map(|(key, other)| T::of(*key, *other)).collect()
}
