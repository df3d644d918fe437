//! What `misscurve` does, in Rust over hashlink, to compare its time with (docs/dev/speed.md).
//!
//! curve-bench            one pass over the trace on standard input, by the same algorithm
//! curve-bench caches N   N caches, of N capacities up to the number of distinct keys, given the same keys

use hashlink::{LinkedHashMap, LruCache};
use std::io::{self, BufRead};
use std::process::ExitCode;

/// So many entries of a row have one sum.
const BLOCK: usize = 64;

/// So many places are built for each key.
const PLACES: usize = 16;

/// Marks at places, and above them rows of sums, each of the blocks of the row below.
struct Marks {
    row: Vec<u8>,
    sums: Vec<Vec<usize>>,
}

impl Marks {
    fn with_places(places: usize) -> Marks {
        let mut sums = Vec::new();
        let mut width = places;
        while width > BLOCK {
            width = width / BLOCK + 1;
            sums.push(vec![0; width]);
        }
        Marks { row: vec![0; places], sums }
    }

    fn before(&self, place: usize) -> usize {
        let mut node = place / BLOCK;
        let mut count = self.row[BLOCK * node..place].iter().map(|byte| usize::from(*byte)).sum();
        for row in &self.sums {
            let next = node / BLOCK;
            count += row[BLOCK * next..node].iter().sum::<usize>();
            node = next;
        }
        count
    }

    fn add(&mut self, place: usize, change: i8) {
        self.row[place] = self.row[place].wrapping_add_signed(change);
        let mut node = place / BLOCK;
        for row in &mut self.sums {
            row[node] = row[node].wrapping_add_signed(change.into());
            node /= BLOCK;
        }
    }
}

/// Keys in the order of their last uses, and how often each number of others was used between two uses.
struct Curve {
    places: LinkedHashMap<Vec<u8>, usize>,
    marks: Marks,
    next: usize,
    reuses: Vec<u64>,
}

impl Curve {
    fn new() -> Curve {
        Curve { places: LinkedHashMap::new(), marks: Marks::with_places(PLACES), next: 0, reuses: Vec::new() }
    }

    fn record(&mut self, key: Vec<u8>) {
        if self.next == self.marks.row.len() {
            self.renumber();
        }
        let count = self.places.len();
        match self.places.insert(key, self.next) {
            Some(place) => {
                self.reuses[count - 1 - self.marks.before(place)] += 1;
                self.marks.add(place, -1);
            }
            None => self.reuses.push(0),
        }
        self.marks.add(self.next, 1);
        self.next += 1;
    }

    fn renumber(&mut self) {
        self.marks = Marks::with_places(PLACES * (self.places.len() + 1));
        for (place, (_, old)) in self.places.iter_mut().enumerate() {
            *old = place;
            self.marks.add(place, 1);
        }
        self.next = self.places.len();
    }
}

fn usage() -> ExitCode {
    eprintln!("usage: curve-bench [caches N] < TRACE");
    ExitCode::from(2)
}

/// The N of `caches N`.
fn number_of_caches(arguments: &[String]) -> Option<usize> {
    match arguments {
        [word, number] if word == "caches" => number.parse().ok().filter(|number| *number > 0),
        _ => None,
    }
}

fn main() -> ExitCode {
    let lines = io::stdin().lock().split(b'\n').map(|line| line.expect("reading failed"));
    let arguments: Vec<String> = std::env::args().skip(1).collect();
    if !arguments.is_empty() {
        return match number_of_caches(&arguments) {
            Some(number) => run_caches(lines.collect(), number),
            None => usage(),
        };
    }
    let mut curve = Curve::new();
    let mut uses = 0;
    for key in lines {
        curve.record(key);
        uses += 1;
    }
    println!("# {} uses of {} keys", uses, curve.places.len());
    let mut misses = uses;
    for (others, count) in curve.reuses.iter().enumerate() {
        misses -= count;
        if *count > 0 {
            println!("{} {}", others + 1, misses);
        }
    }
    ExitCode::SUCCESS
}

/// Prints how often a cache of each of so many capacities misses.
fn run_caches(keys: Vec<Vec<u8>>, number: usize) -> ExitCode {
    let distinct = keys.iter().collect::<std::collections::HashSet<_>>().len();
    for part in 1..=number {
        let capacity = distinct * part / number;
        let mut cache = LruCache::new(capacity);
        let mut misses = 0;
        for key in &keys {
            if cache.get(key).is_none() {
                misses += 1;
                cache.insert(key.clone(), ());
            }
        }
        println!("{capacity} {misses}");
    }
    ExitCode::SUCCESS
}
