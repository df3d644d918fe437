//! Removals from a map, in most rows until it is empty.

use crate::fill::{full, Map};
use crate::lists::Order;
use crate::plan::{fold, Plan};
use hashlink::linked_hash_map::{Entry, RawEntryMut};

#[inline(always)]
fn remove(map: &mut Map, _place: u64, key: &u64) -> u64 {
    map.remove(key).unwrap_or(*key)
}

/// The answer for a pair that was removed, if one was.
#[inline(always)]
fn removed(pair: Option<(u64, u64)>, key: u64) -> u64 {
    match pair {
        Some((stored, value)) => fold(stored, value),
        None => key,
    }
}

#[inline(always)]
fn remove_entry(map: &mut Map, _place: u64, key: &u64) -> u64 {
    removed(map.remove_entry(key), *key)
}

#[inline(always)]
fn entry_remove(map: &mut Map, _place: u64, key: &u64) -> u64 {
    match map.entry(*key) {
        Entry::Occupied(entry) => entry.remove(),
        Entry::Vacant(_) => *key,
    }
}

#[inline(always)]
fn raw_remove(map: &mut Map, _place: u64, key: &u64) -> u64 {
    match map.raw_entry_mut().from_key(key) {
        RawEntryMut::Occupied(entry) => entry.remove(),
        RawEntryMut::Vacant(_) => *key,
    }
}

#[inline(always)]
fn pop_front(map: &mut Map, _place: u64, key: &u64) -> u64 {
    removed(map.pop_front(), *key)
}

#[inline(always)]
fn pop_back(map: &mut Map, _place: u64, key: &u64) -> u64 {
    removed(map.pop_back(), *key)
}

/// Of the entry at the front.
#[inline(always)]
fn cursor_remove(map: &mut Map, _place: u64, key: &u64) -> u64 {
    match map.cursor_front_mut().current_entry() {
        Ok(entry) => entry.remove(),
        Err(_) => *key,
    }
}

/// Of the entry at the back.
#[inline(always)]
fn back_entry_remove(map: &mut Map, _place: u64, key: &u64) -> u64 {
    match map.back_entry() {
        Some(entry) => entry.remove(),
        None => *key,
    }
}

/// A removal of a key that is there and an insert of one that is not: the map keeps its length.
#[inline(always)]
fn exchange(map: &mut Map, _place: u64, (leaves, comes): &(u64, u64)) -> u64 {
    let left = map.remove(leaves).unwrap_or(u64::MAX);
    fold(left, map.insert(*comes, *leaves).unwrap_or(*comes))
}

/// A removal of the first entry and an insert of a new key, as in a queue.
#[inline(always)]
fn queue(map: &mut Map, place: u64, key: &u64) -> u64 {
    let (first, value) = map.pop_front().unwrap_or((*key, place));
    fold(fold(first, value), map.insert(*key, place).unwrap_or(*key))
}

fn of_keys(plan: &mut Plan) {
    plan.row_afresh("remove_hit", Order::Mixed, full, remove);
    plan.row("remove_miss", Order::Absent, full, remove);
    plan.row_afresh("remove_entry_hit", Order::Mixed, full, remove_entry);
    plan.row_afresh("entry_remove_hit", Order::Mixed, full, entry_remove);
    plan.row_afresh("raw_remove_hit", Order::Mixed, full, raw_remove);
    plan.row("churn", Order::Exchanges, full, exchange);
}

fn at_ends(plan: &mut Plan) {
    plan.row_afresh("pop_front", Order::Held, full, pop_front);
    plan.row_afresh("pop_back", Order::Held, full, pop_back);
    plan.row_afresh("cursor_remove", Order::Held, full, cursor_remove);
    plan.row_afresh("back_entry_remove", Order::Held, full, back_entry_remove);
    plan.row("pop_insert", Order::AbsentAndHeld, full, queue);
}

pub fn rows(plan: &mut Plan) {
    plan.kind("removals");
    of_keys(plan);
    at_ends(plan);
}
