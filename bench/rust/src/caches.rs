//! The calls of a cache.

use crate::fill::{full_cache, half_cache, lone_cache, Cache, LoneCache};
use crate::keys::Keys;
use crate::lists::Order;
use crate::plan::{fold, Plan};
use crate::walks::{sum_of_owned, sum_of_pairs};

/// A look-up of a key, and an insert where it is not there.
#[inline(always)]
fn use_key(cache: &mut Cache, place: u64, key: &u64) -> u64 {
    match cache.get(key) {
        Some(value) => *value,
        None => insert(cache, place, key),
    }
}

#[inline(always)]
fn insert(cache: &mut Cache, place: u64, key: &u64) -> u64 {
    cache.insert(*key, place).unwrap_or(*key)
}

#[inline(always)]
fn peek(cache: &mut Cache, _place: u64, key: &u64) -> u64 {
    cache.peek(key).copied().unwrap_or(*key)
}

#[inline(always)]
fn peek_lone(cache: &mut LoneCache, _place: u64, key: &u64) -> u64 {
    match cache.peek(key) {
        Some(value) => u64::from(*value),
        None => *key,
    }
}

#[inline(always)]
fn peek_mut(cache: &mut Cache, _place: u64, key: &u64) -> u64 {
    match cache.peek_mut(key) {
        Some(value) => {
            *value = value.wrapping_add(1);
            *value
        }
        None => *key,
    }
}

#[inline(always)]
fn get(cache: &mut Cache, _place: u64, key: &u64) -> u64 {
    cache.get(key).copied().unwrap_or(*key)
}

#[inline(always)]
fn get_lone(cache: &mut LoneCache, _place: u64, key: &u64) -> u64 {
    match cache.get(key) {
        Some(value) => u64::from(*value),
        None => *key,
    }
}

#[inline(always)]
fn get_mut(cache: &mut Cache, _place: u64, key: &u64) -> u64 {
    match cache.get_mut(key) {
        Some(value) => {
            *value = value.wrapping_add(1);
            *value
        }
        None => *key,
    }
}

#[inline(always)]
fn contains_key(cache: &mut Cache, _place: u64, key: &u64) -> u64 {
    u64::from(cache.contains_key(key))
}

/// The entry that an insert of the key would evict. hashlink has no `evicted_by`.
#[inline(always)]
fn evicted_by(cache: &mut Cache, _place: u64, key: &u64) -> u64 {
    if cache.len() < cache.capacity() || cache.contains_key(key) {
        return *key;
    }
    match cache.iter().next() {
        Some((stored, value)) => fold(*stored, *value),
        None => *key,
    }
}

/// hashlink has no `push`.
#[inline(always)]
fn push(cache: &mut Cache, place: u64, key: &u64) -> u64 {
    let mut left = None;
    if cache.len() >= cache.capacity() && !cache.contains_key(key) {
        left = cache.remove_lru();
    }
    let old = cache.insert(*key, place);
    match old.map(|value| (*key, value)).or(left) {
        Some((left, value)) => fold(left, value),
        None => *key,
    }
}

/// hashlink has no `get_or_insert_with`.
#[inline(always)]
fn get_or_insert_with(cache: &mut Cache, place: u64, key: &u64) -> u64 {
    *cache.entry(*key).or_insert_with(|| place)
}

/// The entry may be one too many until the next call.
#[inline(always)]
fn entry_or_insert(cache: &mut Cache, place: u64, key: &u64) -> u64 {
    *cache.entry(*key).or_insert(place)
}

#[inline(always)]
fn remove(cache: &mut Cache, _place: u64, key: &u64) -> u64 {
    cache.remove(key).unwrap_or(*key)
}

#[inline(always)]
fn remove_lru(cache: &mut Cache, _place: u64, key: &u64) -> u64 {
    match cache.remove_lru() {
        Some((stored, value)) => fold(stored, value),
        None => *key,
    }
}

#[inline(always)]
fn raw_get(cache: &mut Cache, _place: u64, key: &u64) -> u64 {
    match cache.raw_entry().from_key(key) {
        Some((stored, value)) => fold(*stored, *value),
        None => *key,
    }
}

/// As `entry_or_insert`.
#[inline(always)]
fn raw_or_insert(cache: &mut Cache, place: u64, key: &u64) -> u64 {
    let (stored, value) = cache.raw_entry_mut().from_key(key).or_insert(*key, place);
    fold(*stored, *value)
}

#[inline(always)]
fn remove_entry(cache: &mut Cache, _place: u64, key: &u64) -> u64 {
    match cache.remove_entry(key) {
        Some((stored, value)) => fold(stored, value),
        None => *key,
    }
}

/// Evicts the first half of the entries.
#[inline(always)]
fn set_capacity(cache: &mut Cache, _place: u64, _item: &u64) -> u64 {
    cache.set_capacity(cache.len() / 2);
    cache.len() as u64
}

#[inline(always)]
fn iter(cache: &mut Cache, _place: u64, _item: &u64) -> u64 {
    sum_of_pairs(cache.iter())
}

#[inline(always)]
fn drain(cache: &mut Cache, _place: u64, _item: &u64) -> u64 {
    sum_of_owned(cache.drain())
}

/// Keeps about half of the entries.
#[inline(always)]
fn retain(cache: &mut Cache, _place: u64, _item: &u64) -> u64 {
    cache.retain(|key, _| *key % 2 == 0);
    cache.len() as u64
}

fn two_full(keys: &Keys) -> (Cache, Cache) {
    (full_cache(keys), full_cache(keys))
}

#[inline(always)]
fn copy(caches: &mut (Cache, Cache), _place: u64, _item: &u64) -> u64 {
    caches.1 = caches.0.clone();
    caches.1.len() as u64
}

/// With the pairs that it has.
#[inline(always)]
fn extend(caches: &mut (Cache, Cache), _place: u64, _item: &u64) -> u64 {
    let pairs = caches.0.iter().map(|(key, value)| (*key, *value));
    caches.1.extend(pairs);
    caches.1.len() as u64
}

fn uses(plan: &mut Plan) {
    plan.row("lru_hit", Order::MixedByTurns, full_cache, use_key);
    plan.row("lru_zipf", Order::Zipf, half_cache, use_key);
    plan.row("lru_uniform", Order::Uniform, half_cache, use_key);
}

fn peeks(plan: &mut Plan) {
    plan.row("lru_peek_hit", Order::Mixed, full_cache, peek);
    plan.row("lru_peek_miss", Order::Absent, full_cache, peek);
    plan.row("lru_peek_mut_hit", Order::Mixed, full_cache, peek_mut);
    plan.row(
        "lru_contains_key_hit",
        Order::Mixed,
        full_cache,
        contains_key,
    );
    plan.row(
        "lru_contains_key_miss",
        Order::Absent,
        full_cache,
        contains_key,
    );
    plan.row("lru_evicted_by", Order::Absent, full_cache, evicted_by);
}

fn gets(plan: &mut Plan) {
    plan.row("lru_get_hit", Order::MixedByTurns, full_cache, get);
    plan.row("lru_get_miss", Order::Absent, full_cache, get);
    plan.row("lru_get_mut_hit", Order::MixedByTurns, full_cache, get_mut);
}

/// An insert of a new key evicts the entry at the front.
fn inserts(plan: &mut Plan) {
    plan.row("lru_insert_new", Order::AbsentAndHeld, full_cache, insert);
    plan.row(
        "lru_insert_present",
        Order::MixedByTurns,
        full_cache,
        insert,
    );
    plan.row("lru_push_new", Order::AbsentAndHeld, full_cache, push);
    plan.row("lru_push_present", Order::MixedByTurns, full_cache, push);
    plan.row(
        "lru_get_or_insert_with_new",
        Order::AbsentAndHeld,
        full_cache,
        get_or_insert_with,
    );
    plan.row(
        "lru_get_or_insert_with_present",
        Order::MixedByTurns,
        full_cache,
        get_or_insert_with,
    );
    plan.row(
        "lru_entry_or_insert_new",
        Order::AbsentAndHeld,
        full_cache,
        entry_or_insert,
    );
}

fn removals(plan: &mut Plan) {
    plan.row_afresh("lru_remove_hit", Order::Mixed, full_cache, remove);
    plan.row_afresh("lru_remove_lru", Order::Held, full_cache, remove_lru);
    plan.row_afresh("lru_set_capacity", Order::Whole, full_cache, set_capacity);
}

fn others(plan: &mut Plan) {
    plan.row("lru_raw_get_hit", Order::Mixed, full_cache, raw_get);
    plan.row(
        "lru_raw_or_insert_new",
        Order::AbsentAndHeld,
        full_cache,
        raw_or_insert,
    );
    plan.row_afresh(
        "lru_remove_entry_hit",
        Order::Mixed,
        full_cache,
        remove_entry,
    );
}

fn wholes(plan: &mut Plan) {
    plan.row("lru_iter", Order::Whole, full_cache, iter);
    plan.row_afresh("lru_drain", Order::Whole, full_cache, drain);
    plan.row_afresh("lru_retain", Order::Whole, full_cache, retain);
    plan.row_afresh("lru_clone", Order::Whole, two_full, copy);
    plan.row("lru_extend", Order::Whole, two_full, extend);
}

fn from_one(plan: &mut Plan) {
    plan.row_from_one("lru_peek_hit_from_one", Order::Mixed, lone_cache, peek_lone);
    plan.row_from_one(
        "lru_peek_miss_from_one",
        Order::Absent,
        lone_cache,
        peek_lone,
    );
    plan.row_from_one(
        "lru_get_hit_from_one",
        Order::MixedByTurns,
        lone_cache,
        get_lone,
    );
    plan.row_from_one("lru_get_miss_from_one", Order::Absent, lone_cache, get_lone);
}

pub fn rows(plan: &mut Plan) {
    plan.kind("caches");
    uses(plan);
    peeks(plan);
    gets(plan);
    inserts(plan);
    removals(plan);
    others(plan);
    wholes(plan);
    from_one(plan);
}
