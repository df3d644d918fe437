//! How a row is timed and told.

use crate::command::Request;
use crate::keys::Keys;
use crate::lists::{Item, Lists, Order};
use std::time::{Duration, Instant};

/// About so many operations make a round.
const OPERATIONS: usize = 1_000_000;

/// The rows that are asked for, at one size.
pub struct Plan<'a> {
    pub request: &'a Request,
    pub keys: &'a Keys,
    /// Whether all rows that are told next are asked for.
    has_kind: bool,
    /// Whether a row was asked for.
    has_rows: bool,
}

/// A row: calls on a container, or on two.
struct Row<M, F> {
    /// What the calls are given.
    order: Order,
    /// Whether the container is made anew for each pass.
    is_afresh: bool,
    /// Makes the container, which is not timed.
    make: M,
    /// The call that is timed, of the container, the item's place in the list, and the item. It returns the
    /// answer as a number.
    call: F,
}

/// Folds an answer into a sum.
#[inline(always)]
pub fn fold(sum: u64, answer: u64) -> u64 {
    sum.rotate_left(5) ^ answer
}

impl<'a> Plan<'a> {
    pub fn new(request: &'a Request, keys: &'a Keys) -> Self {
        Plan {
            request,
            keys,
            has_kind: false,
            has_rows: false,
        }
    }

    /// Tells of which kind the next rows are.
    pub fn kind(&mut self, kind: &str) {
        self.has_kind = self.request.what == kind || self.request.what == "all";
    }

    /// Whether a row was asked for.
    pub fn has_rows(&self) -> bool {
        self.has_rows
    }

    /// A row whose calls are made on the same container in each pass.
    pub fn row<S, T: Item>(
        &mut self,
        name: &str,
        order: Order,
        make: impl Fn(&Keys) -> S,
        call: impl Fn(&mut S, u64, &T) -> u64,
    ) {
        let row = Row {
            order,
            is_afresh: false,
            make,
            call,
        };
        self.run::<false, S, T, _, _>(name, &row);
    }

    /// A row whose calls are made on a new container in each pass.
    pub fn row_afresh<S, T: Item>(
        &mut self,
        name: &str,
        order: Order,
        make: impl Fn(&Keys) -> S,
        call: impl Fn(&mut S, u64, &T) -> u64,
    ) {
        let row = Row {
            order,
            is_afresh: true,
            make,
            call,
        };
        self.run::<false, S, T, _, _>(name, &row);
    }

    /// A row of calls which the program makes at one place only.
    pub fn row_from_one<S, T: Item>(
        &mut self,
        name: &str,
        order: Order,
        make: impl Fn(&Keys) -> S,
        call: impl Fn(&mut S, u64, &T) -> u64,
    ) {
        let row = Row {
            order,
            is_afresh: false,
            make,
            call,
        };
        self.run::<true, S, T, _, _>(name, &row);
    }

    /// Whether the row is asked for.
    pub fn wants(&mut self, name: &str) -> bool {
        let is_asked = self.has_kind || self.request.what == name;
        self.has_rows |= is_asked;
        is_asked
    }

    /// Does a row if it is asked for, and writes its line.
    fn run<const FROM_ONE: bool, S, T: Item, M, F>(&mut self, name: &str, row: &Row<M, F>)
    where
        M: Fn(&Keys) -> S,
        F: Fn(&mut S, u64, &T) -> u64,
    {
        if !self.wants(name) {
            return;
        }
        let lists = &mut Lists::new(row.order);
        let state = &mut (row.make)(self.keys);
        if self.request.rounds == 0 {
            let (sum, _) = self.pass::<FROM_ONE, S, T, M, F>(row, lists, state, 0);
            println!("{name} {} {sum:016x}", self.keys.size());
            return;
        }
        let operations = row.order.operations(self.keys.size());
        let passes = (OPERATIONS / operations.max(1)).max(1);
        let timed = (passes * operations).max(1) as u128;
        let mut least = u128::MAX;
        let mut sum: u64 = 0;
        for _ in 0..self.request.rounds {
            let mut spent = Duration::ZERO;
            for _ in 0..passes {
                // Not linear as the folds are, so that equal passes don't cancel out.
                sum = sum.wrapping_add(1).wrapping_mul(0x9e37_79b9_7f4a_7c15);
                let (answers, time) = self.pass::<FROM_ONE, S, T, M, F>(row, lists, state, sum);
                sum = answers;
                spent += time;
            }
            least = least.min(spent.as_nanos() * 100 / timed);
        }
        self.print_time(name, least, timed, sum);
    }

    /// Does a pass, and returns the sum with the answers and the time that they took.
    fn pass<const FROM_ONE: bool, S, T: Item, M, F>(
        &self,
        row: &Row<M, F>,
        lists: &mut Lists,
        state: &mut S,
        sum: u64,
    ) -> (u64, Duration)
    where
        M: Fn(&Keys) -> S,
        F: Fn(&mut S, u64, &T) -> u64,
    {
        let pass = lists.passes();
        let items: Vec<T> = lists.next(self.keys);
        if row.is_afresh {
            *state = (row.make)(self.keys);
        }
        let start = Instant::now();
        let sum = if FROM_ONE {
            call_each::<0, S, T, F>(&row.call, state, &items, sum)
        } else {
            call_from_ten(pass, &row.call, state, &items, sum)
        };
        (sum, start.elapsed())
    }

    pub fn print_time(&self, name: &str, hundredths: u128, timed: u128, sum: u64) {
        let size = self.keys.size();
        println!(
            "{name} {size} {}.{:02} {timed}",
            hundredths / 100,
            hundredths % 100
        );
        eprintln!("checksum {name} {size} {sum:016x}");
    }
}

/// Calls on each item, and folds the answers into the sum. Each pass goes through another of ten places, so
/// that no call is fast because it has one caller.
fn call_from_ten<S, T, F: Fn(&mut S, u64, &T) -> u64>(
    pass: u64,
    call: &F,
    state: &mut S,
    items: &[T],
    sum: u64,
) -> u64 {
    match pass % 10 {
        0 => call_each::<0, S, T, F>(call, state, items, sum),
        1 => call_each::<1, S, T, F>(call, state, items, sum),
        2 => call_each::<2, S, T, F>(call, state, items, sum),
        3 => call_each::<3, S, T, F>(call, state, items, sum),
        4 => call_each::<4, S, T, F>(call, state, items, sum),
        5 => call_each::<5, S, T, F>(call, state, items, sum),
        6 => call_each::<6, S, T, F>(call, state, items, sum),
        7 => call_each::<7, S, T, F>(call, state, items, sum),
        8 => call_each::<8, S, T, F>(call, state, items, sum),
        _ => call_each::<9, S, T, F>(call, state, items, sum),
    }
}

/// Calls on each item, and folds the answers into the sum, and the place too: so no two of these functions
/// are alike, and none is replaced by another.
#[inline(never)]
fn call_each<const PLACE: u64, S, T, F: Fn(&mut S, u64, &T) -> u64>(
    call: &F,
    state: &mut S,
    items: &[T],
    sum: u64,
) -> u64 {
    let mut sum = sum ^ PLACE;
    for (place, item) in items.iter().enumerate() {
        sum = fold(sum, call(state, place as u64, item));
    }
    sum
}
