//! Look-ups of a map.

use crate::fill::{full, lone, LoneMap, Map};
use crate::lists::Order;
use crate::plan::{fold, Plan};
use hashlink::linked_hash_map::RawEntryMut;
use std::hash::BuildHasher;

#[inline(always)]
fn get(map: &mut Map, _place: u64, key: &u64) -> u64 {
    map.get(key).copied().unwrap_or(*key)
}

#[inline(always)]
fn get_lone(map: &mut LoneMap, _place: u64, key: &u64) -> u64 {
    match map.get(key) {
        Some(value) => u64::from(*value),
        None => *key,
    }
}

#[inline(always)]
fn get_key_value(map: &mut Map, _place: u64, key: &u64) -> u64 {
    match map.get_key_value(key) {
        Some((stored, value)) => fold(*stored, *value),
        None => *key,
    }
}

#[inline(always)]
fn contains_key(map: &mut Map, _place: u64, key: &u64) -> u64 {
    u64::from(map.contains_key(key))
}

#[inline(always)]
fn contains_key_lone(map: &mut LoneMap, _place: u64, key: &u64) -> u64 {
    u64::from(map.contains_key(key))
}

#[inline(always)]
fn get_mut(map: &mut Map, _place: u64, key: &u64) -> u64 {
    match map.get_mut(key) {
        Some(value) => {
            *value = value.wrapping_add(1);
            *value
        }
        None => *key,
    }
}

/// A test, and then the value of a key that is present.
#[inline(always)]
fn index(map: &mut Map, _place: u64, key: &u64) -> u64 {
    if map.contains_key(key) {
        map[key]
    } else {
        *key
    }
}

#[inline(always)]
fn raw_get(map: &mut Map, _place: u64, key: &u64) -> u64 {
    match map.raw_entry().from_key(key) {
        Some((stored, value)) => fold(*stored, *value),
        None => *key,
    }
}

#[inline(always)]
fn raw_hashed(map: &mut Map, _place: u64, key: &u64) -> u64 {
    let hash = map.hasher().hash_one(key);
    match map.raw_entry().from_key_hashed_nocheck(hash, key) {
        Some((stored, value)) => fold(*stored, *value),
        None => *key,
    }
}

#[inline(always)]
fn raw_mut(map: &mut Map, _place: u64, key: &u64) -> u64 {
    match map.raw_entry_mut().from_key(key) {
        RawEntryMut::Occupied(entry) => *entry.get(),
        RawEntryMut::Vacant(_) => *key,
    }
}

/// A test, and then a write to the value of a key that is present.
#[inline(always)]
fn index_mut(map: &mut Map, place: u64, key: &u64) -> u64 {
    if map.contains_key(key) {
        map[key] = place;
        place
    } else {
        *key
    }
}

#[inline(always)]
fn raw_from_hash(map: &mut Map, _place: u64, key: &u64) -> u64 {
    let hash = map.hasher().hash_one(key);
    match map.raw_entry().from_hash(hash, |stored| stored == key) {
        Some((stored, value)) => fold(*stored, *value),
        None => *key,
    }
}

#[inline(always)]
fn raw_mut_from_hash(map: &mut Map, _place: u64, key: &u64) -> u64 {
    let hash = map.hasher().hash_one(key);
    match map.raw_entry_mut().from_hash(hash, |stored| stored == key) {
        RawEntryMut::Occupied(entry) => *entry.get(),
        RawEntryMut::Vacant(_) => *key,
    }
}

/// By the map's own calls.
fn plain(plan: &mut Plan) {
    plan.row("get_hit", Order::Mixed, full, get);
    plan.row("get_miss", Order::Absent, full, get);
    plan.row("get_key_value_hit", Order::Mixed, full, get_key_value);
    plan.row("get_key_value_miss", Order::Absent, full, get_key_value);
    plan.row("contains_key_hit", Order::Mixed, full, contains_key);
    plan.row("contains_key_miss", Order::Absent, full, contains_key);
    plan.row("get_mut_hit", Order::Mixed, full, get_mut);
    plan.row("get_mut_miss", Order::Absent, full, get_mut);
    plan.row("index_hit", Order::Mixed, full, index);
}

/// By raw entries, and by an index for writing.
fn raw(plan: &mut Plan) {
    plan.row("raw_get_hit", Order::Mixed, full, raw_get);
    plan.row("raw_get_miss", Order::Absent, full, raw_get);
    plan.row("raw_hashed_hit", Order::Mixed, full, raw_hashed);
    plan.row("raw_mut_hit", Order::Mixed, full, raw_mut);
    plan.row("raw_mut_miss", Order::Absent, full, raw_mut);
    plan.row("index_mut_hit", Order::Mixed, full, index_mut);
    plan.row("raw_from_hash_hit", Order::Mixed, full, raw_from_hash);
    plan.row("raw_from_hash_miss", Order::Absent, full, raw_from_hash);
    plan.row(
        "raw_mut_from_hash_hit",
        Order::Mixed,
        full,
        raw_mut_from_hash,
    );
}

/// From one place of the program.
fn from_one(plan: &mut Plan) {
    plan.row_from_one("get_hit_from_one", Order::Mixed, lone, get_lone);
    plan.row_from_one("get_miss_from_one", Order::Absent, lone, get_lone);
    plan.row_from_one(
        "contains_key_hit_from_one",
        Order::Mixed,
        lone,
        contains_key_lone,
    );
    plan.row_from_one(
        "contains_key_miss_from_one",
        Order::Absent,
        lone,
        contains_key_lone,
    );
}

pub fn rows(plan: &mut Plan) {
    plan.kind("lookups");
    plain(plan);
    raw(plan);
    from_one(plan);
}
