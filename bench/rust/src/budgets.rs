//! The calls of a cache with a budget, where a key weighs from 1 to 16. hashlink has no type for these: a map
//! has the values with their weights.

use crate::keys::Keys;
use crate::lists::Order;
use crate::plan::{fold, Plan};
use hashlink::LinkedHashMap;
use std::hint::black_box;

/// Values with weights, which sum to no more than a budget.
struct Cache {
    map: LinkedHashMap<u64, (u64, u64)>,
    total: u64,
    budget: u64,
}

impl Cache {
    fn new(budget: u64) -> Self {
        Cache {
            map: LinkedHashMap::new(),
            total: 0,
            budget,
        }
    }

    #[inline(always)]
    fn insert(&mut self, key: u64, value: u64, weight: u64) -> Option<u64> {
        self.insert_evicting(key, value, weight, |_, _| {})
    }

    #[inline(always)]
    fn insert_evicting(
        &mut self,
        key: u64,
        value: u64,
        weight: u64,
        mut on_evicted: impl FnMut(u64, u64),
    ) -> Option<u64> {
        let old = self.map.insert(key, (value, weight));
        self.total += weight;
        if let Some((_, weight)) = old {
            self.total -= weight;
        }
        while self.total > self.budget {
            let (key, (value, weight)) = self.map.pop_front()?;
            self.total -= weight;
            on_evicted(key, value);
        }
        old.map(|(value, _)| value)
    }

    #[inline(always)]
    fn get(&mut self, key: &u64) -> Option<&u64> {
        self.map.to_back(key).map(|(value, _)| &*value)
    }
}

/// An empty cache with a budget for about half of the keys.
fn tight(keys: &Keys) -> Cache {
    Cache::new((keys.size() as u64 * 4).max(16))
}

fn insert_each(cache: &mut Cache, keys: &Keys) {
    for (place, key) in keys.held.iter().enumerate() {
        insert(cache, place as u64, key);
    }
}

/// All keys that are held, in a cache with a budget for them.
fn full(keys: &Keys) -> Cache {
    let mut cache = Cache::new((keys.size() as u64 * 16).max(16));
    insert_each(&mut cache, keys);
    black_box(cache)
}

/// As many of the keys that are held as the budget of an empty cache is for.
fn tight_and_full(keys: &Keys) -> Cache {
    let mut cache = tight(keys);
    insert_each(&mut cache, keys);
    black_box(cache)
}

/// A look-up of a key, and an insert where it is not there.
#[inline(always)]
fn use_key(cache: &mut Cache, place: u64, key: &u64) -> u64 {
    match cache.get(key) {
        Some(value) => *value,
        None => insert(cache, place, key),
    }
}

#[inline(always)]
fn insert(cache: &mut Cache, place: u64, key: &u64) -> u64 {
    cache.insert(*key, place, 1 + *key % 16).unwrap_or(*key)
}

/// Counts what is evicted.
#[inline(always)]
fn insert_evicting(cache: &mut Cache, place: u64, key: &u64) -> u64 {
    let mut count: u64 = 0;
    let on_evicted = |_, _| count += 1;
    let old = cache.insert_evicting(*key, place, 1 + *key % 16, on_evicted);
    fold(count, old.unwrap_or(*key))
}

#[inline(always)]
fn peek(cache: &mut Cache, _place: u64, key: &u64) -> u64 {
    cache.map.get(key).map_or(*key, |(value, _)| *value)
}

#[inline(always)]
fn get(cache: &mut Cache, _place: u64, key: &u64) -> u64 {
    cache.get(key).copied().unwrap_or(*key)
}

#[inline(always)]
fn remove(cache: &mut Cache, _place: u64, key: &u64) -> u64 {
    match cache.map.remove(key) {
        Some((value, weight)) => {
            cache.total -= weight;
            value
        }
        None => *key,
    }
}

#[inline(always)]
fn iter(cache: &mut Cache, _place: u64, _item: &u64) -> u64 {
    let mut sum: u64 = 0;
    for (key, (value, weight)) in cache.map.iter() {
        sum = fold(fold(fold(sum, *key), *value), *weight);
    }
    sum
}

pub fn rows(plan: &mut Plan) {
    plan.kind("budgets");
    plan.row("weighted_zipf", Order::Zipf, tight, use_key);
    plan.row("weighted_peek_hit", Order::Mixed, full, peek);
    plan.row("weighted_peek_miss", Order::Absent, full, peek);
    plan.row("weighted_get_hit", Order::MixedByTurns, full, get);
    plan.row("weighted_get_miss", Order::Absent, full, get);
    plan.row(
        "weighted_insert_new",
        Order::AbsentAndHeld,
        tight_and_full,
        insert,
    );
    plan.row("weighted_insert_present", Order::MixedByTurns, full, insert);
    plan.row_afresh("weighted_remove_hit", Order::Mixed, full, remove);
    plan.row("weighted_iter", Order::Whole, full, iter);
    plan.row(
        "weighted_insert_evicting",
        Order::AbsentAndHeld,
        tight_and_full,
        insert_evicting,
    );
}
