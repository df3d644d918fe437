//! The calls of one set.

use crate::fill::{empty_set, full_set, lone_set, LoneSet, Set};
use crate::keys::Keys;
use crate::lists::Order;
use crate::plan::{fold, Plan};
use crate::walks::sum_of;
use std::hash::BuildHasher;

#[inline(always)]
fn contains(set: &mut Set, _place: u64, key: &u64) -> u64 {
    u64::from(set.contains(key))
}

#[inline(always)]
fn contains_lone(set: &mut LoneSet, _place: u64, key: &(u64, ())) -> u64 {
    u64::from(set.contains(key))
}

#[inline(always)]
fn get(set: &mut Set, place: u64, key: &u64) -> u64 {
    set.get(key).copied().unwrap_or(place)
}

#[inline(always)]
fn insert(set: &mut Set, place: u64, key: &u64) -> u64 {
    if set.insert(*key) {
        *key
    } else {
        place
    }
}

#[inline(always)]
fn replace(set: &mut Set, place: u64, key: &u64) -> u64 {
    set.replace(*key).unwrap_or(place)
}

#[inline(always)]
fn get_or_insert(set: &mut Set, _place: u64, key: &u64) -> u64 {
    *set.get_or_insert(*key)
}

#[inline(always)]
fn to_back(set: &mut Set, _place: u64, key: &u64) -> u64 {
    u64::from(set.to_back(key))
}

#[inline(always)]
fn remove(set: &mut Set, _place: u64, key: &u64) -> u64 {
    u64::from(set.remove(key))
}

#[inline(always)]
fn take(set: &mut Set, place: u64, key: &u64) -> u64 {
    set.take(key).unwrap_or(place)
}

/// A removal of the first element and an insert of a new one, as in a queue.
#[inline(always)]
fn queue(set: &mut Set, place: u64, key: &u64) -> u64 {
    let first = set.pop_front().unwrap_or(place);
    fold(first, u64::from(set.insert(*key)))
}

#[inline(always)]
fn get_or_insert_with(set: &mut Set, _place: u64, key: &u64) -> u64 {
    *set.get_or_insert_with(key, |key| *key)
}

#[inline(always)]
fn to_front(set: &mut Set, _place: u64, key: &u64) -> u64 {
    u64::from(set.to_front(key))
}

/// Folds all elements.
#[inline(always)]
fn sum_of_owned(elements: impl Iterator<Item = u64>) -> u64 {
    let mut sum: u64 = 0;
    for element in elements {
        sum = fold(sum, element);
    }
    sum
}

#[inline(always)]
fn iter(set: &mut Set, _place: u64, _item: &u64) -> u64 {
    sum_of(set.iter())
}

fn once(keys: &Keys) -> Option<Set> {
    Some(full_set(keys))
}

#[inline(always)]
fn into_iter(set: &mut Option<Set>, place: u64, _item: &u64) -> u64 {
    match set.take() {
        Some(set) => sum_of_owned(set.into_iter()),
        None => place,
    }
}

#[inline(always)]
fn drain(set: &mut Set, _place: u64, _item: &u64) -> u64 {
    sum_of_owned(set.drain())
}

#[inline(always)]
fn clear(set: &mut Set, _place: u64, _item: &u64) -> u64 {
    set.clear();
    set.len() as u64
}

/// Keeps about half of the elements.
#[inline(always)]
fn retain(set: &mut Set, _place: u64, _item: &u64) -> u64 {
    set.retain(|element| *element % 2 == 0);
    set.len() as u64
}

fn full_and_empty(keys: &Keys) -> (Set, Set) {
    (full_set(keys), Set::new())
}

fn two_full(keys: &Keys) -> (Set, Set) {
    (full_set(keys), full_set(keys))
}

#[inline(always)]
fn copy(sets: &mut (Set, Set), _place: u64, _item: &u64) -> u64 {
    sets.1 = sets.0.clone();
    sets.1.len() as u64
}

#[inline(always)]
fn is_equal(sets: &mut (Set, Set), _place: u64, _item: &u64) -> u64 {
    u64::from(sets.0 == sets.1)
}

/// Of both, which are hashed alike as they are equal.
#[inline(always)]
fn hash(sets: &mut (Set, Set), _place: u64, _item: &u64) -> u64 {
    let hasher = sets.0.hasher();
    u64::from(hasher.hash_one(&sets.0) == hasher.hash_one(&sets.1))
}

#[inline(always)]
fn extend_ref(sets: &mut (Set, Set), _place: u64, _item: &u64) -> u64 {
    sets.1.extend(sets.0.iter());
    sets.1.len() as u64
}

fn lookups(plan: &mut Plan) {
    plan.row("set_contains_hit", Order::Mixed, full_set, contains);
    plan.row("set_contains_miss", Order::Absent, full_set, contains);
    plan.row("set_get_hit", Order::Mixed, full_set, get);
    plan.row("set_get_miss", Order::Absent, full_set, get);
}

fn inserts(plan: &mut Plan) {
    plan.row_afresh("set_insert", Order::Held, empty_set, insert);
    plan.row("set_update", Order::MixedByTurns, full_set, insert);
    plan.row_afresh("set_replace_new", Order::Held, empty_set, replace);
    plan.row("set_replace_present", Order::Mixed, full_set, replace);
    plan.row_afresh(
        "set_get_or_insert_new",
        Order::Held,
        empty_set,
        get_or_insert,
    );
    plan.row(
        "set_get_or_insert_present",
        Order::MixedByTurns,
        full_set,
        get_or_insert,
    );
    plan.row("set_to_back_hit", Order::MixedByTurns, full_set, to_back);
}

fn removals(plan: &mut Plan) {
    plan.row_afresh("set_remove_hit", Order::Mixed, full_set, remove);
    plan.row("set_remove_miss", Order::Absent, full_set, remove);
    plan.row_afresh("set_take_hit", Order::Mixed, full_set, take);
    plan.row("set_pop_insert", Order::AbsentAndHeld, full_set, queue);
}

fn wholes(plan: &mut Plan) {
    plan.row("set_iter", Order::Whole, full_set, iter);
    plan.row_afresh("set_into_iter", Order::Whole, once, into_iter);
    plan.row_afresh("set_drain", Order::Whole, full_set, drain);
    plan.row_afresh("set_clear", Order::Whole, full_set, clear);
    plan.row_afresh("set_retain", Order::Whole, full_set, retain);
    plan.row_afresh("set_clone", Order::Whole, full_and_empty, copy);
    plan.row("set_eq", Order::Whole, two_full, is_equal);
}

fn others(plan: &mut Plan) {
    plan.row_afresh(
        "set_get_or_insert_with_new",
        Order::Held,
        empty_set,
        get_or_insert_with,
    );
    plan.row(
        "set_get_or_insert_with_present",
        Order::MixedByTurns,
        full_set,
        get_or_insert_with,
    );
    plan.row("set_to_front_hit", Order::MixedByTurns, full_set, to_front);
    plan.row("set_hash", Order::Both, two_full, hash);
    plan.row_afresh("set_extend_ref", Order::Whole, full_and_empty, extend_ref);
}

fn from_one(plan: &mut Plan) {
    plan.row_from_one(
        "set_contains_hit_from_one",
        Order::Mixed,
        lone_set,
        contains_lone,
    );
    plan.row_from_one(
        "set_contains_miss_from_one",
        Order::Absent,
        lone_set,
        contains_lone,
    );
}

pub fn rows(plan: &mut Plan) {
    plan.kind("sets");
    lookups(plan);
    inserts(plan);
    removals(plan);
    wholes(plan);
    others(plan);
    from_one(plan);
}
