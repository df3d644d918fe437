//! The longest insert of all, which is one for which a map grows.

use crate::fill::{empty, Map};
use crate::inserts::insert;
use crate::lists::Order;
use crate::plan::{fold, Plan};
use std::time::{Duration, Instant};

/// The time of the longest insert, as all keys come into an empty map, and the sum with the answers.
fn longest_insert(plan: &Plan) -> (Duration, u64) {
    let mut map = Map::new();
    let mut longest = Duration::ZERO;
    let mut sum: u64 = 0;
    for (place, key) in plan.keys.held.iter().enumerate() {
        let start = Instant::now();
        let answer = insert(&mut map, place as u64, key);
        longest = longest.max(start.elapsed());
        sum = fold(sum, answer);
    }
    (longest, sum)
}

/// Writes the least of the rounds.
fn time_longest(plan: &Plan) {
    let mut least = u128::MAX;
    let mut sum: u64 = 0;
    for _ in 0..plan.request.rounds {
        let (longest, answers) = longest_insert(plan);
        least = least.min(longest.as_nanos() * 100);
        sum = answers;
    }
    plan.print_time("insert_longest", least, 1, sum);
}

pub fn rows(plan: &mut Plan) {
    plan.kind("growth");
    if plan.request.rounds == 0 {
        plan.row_afresh("insert_longest", Order::Held, empty, insert);
    } else if plan.wants("insert_longest") {
        time_longest(plan);
    }
}
