//! Iterators over a map, to the end and broken off in the middle, and a cursor's walk.

use crate::fill::{full, moved, Map};
use crate::lists::Order;
use crate::plan::{fold, Plan};
use hashlink::linked_hash_map::RawEntryMut;
use std::mem;

/// Folds all pairs.
#[inline(always)]
pub fn sum_of_pairs<'a>(pairs: impl Iterator<Item = (&'a u64, &'a u64)>) -> u64 {
    let mut sum: u64 = 0;
    for (key, value) in pairs {
        sum = fold(fold(sum, *key), *value);
    }
    sum
}

/// Folds all pairs.
#[inline(always)]
pub fn sum_of_owned(pairs: impl Iterator<Item = (u64, u64)>) -> u64 {
    let mut sum: u64 = 0;
    for (key, value) in pairs {
        sum = fold(fold(sum, key), value);
    }
    sum
}

/// Folds all numbers.
#[inline(always)]
pub fn sum_of<'a>(numbers: impl Iterator<Item = &'a u64>) -> u64 {
    let mut sum: u64 = 0;
    for number in numbers {
        sum = fold(sum, *number);
    }
    sum
}

#[inline(always)]
fn iter(map: &mut Map, _place: u64, _item: &u64) -> u64 {
    sum_of_pairs(map.iter())
}

#[inline(always)]
fn iter_reversed(map: &mut Map, _place: u64, _item: &u64) -> u64 {
    sum_of_pairs(map.iter().rev())
}

#[inline(always)]
fn iter_half(map: &mut Map, _place: u64, _item: &u64) -> u64 {
    sum_of_pairs(map.iter().take(map.len() / 2))
}

#[inline(always)]
fn keys(map: &mut Map, _place: u64, _item: &u64) -> u64 {
    sum_of(map.keys())
}

#[inline(always)]
fn values(map: &mut Map, _place: u64, _item: &u64) -> u64 {
    sum_of(map.values())
}

#[inline(always)]
fn keys_reversed(map: &mut Map, _place: u64, _item: &u64) -> u64 {
    sum_of(map.keys().rev())
}

#[inline(always)]
fn values_reversed(map: &mut Map, _place: u64, _item: &u64) -> u64 {
    sum_of(map.values().rev())
}

/// Adds one to each value.
#[inline(always)]
fn iter_mut(map: &mut Map, _place: u64, _item: &u64) -> u64 {
    let mut sum: u64 = 0;
    for (key, value) in map.iter_mut() {
        *value = value.wrapping_add(1);
        sum = fold(fold(sum, *key), *value);
    }
    sum
}

/// The same from the back.
#[inline(always)]
fn iter_mut_reversed(map: &mut Map, _place: u64, _item: &u64) -> u64 {
    let mut sum: u64 = 0;
    for (key, value) in map.iter_mut().rev() {
        *value = value.wrapping_add(1);
        sum = fold(fold(sum, *key), *value);
    }
    sum
}

/// Adds one to each value.
#[inline(always)]
fn values_mut(map: &mut Map, _place: u64, _item: &u64) -> u64 {
    let mut sum: u64 = 0;
    for value in map.values_mut() {
        *value = value.wrapping_add(1);
        sum = fold(sum, *value);
    }
    sum
}

/// Adds one to each value in the second half, from the back.
#[inline(always)]
fn values_mut_half(map: &mut Map, _place: u64, _item: &u64) -> u64 {
    let mut sum: u64 = 0;
    let half = map.len() / 2;
    for value in map.values_mut().rev().take(half) {
        *value = value.wrapping_add(1);
        sum = fold(sum, *value);
    }
    sum
}

#[inline(always)]
fn into_iter(map: &mut Map, _place: u64, _item: &u64) -> u64 {
    sum_of_owned(mem::take(map).into_iter())
}

#[inline(always)]
fn into_iter_reversed(map: &mut Map, _place: u64, _item: &u64) -> u64 {
    sum_of_owned(mem::take(map).into_iter().rev())
}

#[inline(always)]
fn into_iter_half(map: &mut Map, _place: u64, _item: &u64) -> u64 {
    let half = map.len() / 2;
    sum_of_owned(mem::take(map).into_iter().take(half))
}

#[inline(always)]
fn drain(map: &mut Map, _place: u64, _item: &u64) -> u64 {
    sum_of_owned(map.drain())
}

#[inline(always)]
fn drain_half(map: &mut Map, _place: u64, _item: &u64) -> u64 {
    let half = map.len() / 2;
    sum_of_owned(map.drain().take(half))
}

#[inline(always)]
fn drain_reversed(map: &mut Map, _place: u64, _item: &u64) -> u64 {
    sum_of_owned(map.drain().rev())
}

/// A cursor from the front to the back.
#[inline(always)]
fn cursor_walk(map: &mut Map, _place: u64, _item: &u64) -> u64 {
    let mut sum: u64 = 0;
    let count = map.len();
    let mut cursor = map.cursor_front_mut();
    for _ in 0..count {
        if let Some((key, value)) = cursor.current() {
            sum = fold(fold(sum, *key), *value);
        }
        cursor.move_next();
    }
    sum
}

/// From the entry of the key on, four entries. hashlink has no `iter_from`.
#[inline(always)]
fn iter_from(map: &mut Map, _place: u64, key: &u64) -> u64 {
    let mut sum: u64 = 0;
    if let RawEntryMut::Occupied(entry) = map.raw_entry_mut().from_key(key) {
        let mut cursor = entry.cursor_mut();
        for _ in 0..4 {
            let Some((key, value)) = cursor.current() else {
                break;
            };
            sum = fold(fold(sum, *key), *value);
            cursor.move_next();
        }
    }
    sum
}

fn borrowing(plan: &mut Plan) {
    plan.row("iter", Order::Whole, full, iter);
    plan.row("iter_moved", Order::Whole, moved, iter);
    plan.row("iter_reversed", Order::Whole, full, iter_reversed);
    plan.row("iter_half", Order::Whole, full, iter_half);
    plan.row("iter_from", Order::Mixed, full, iter_from);
    plan.row("keys", Order::Whole, full, keys);
    plan.row("values", Order::Whole, full, values);
}

fn writing(plan: &mut Plan) {
    plan.row("iter_mut", Order::Whole, full, iter_mut);
    plan.row("iter_mut_reversed", Order::Whole, full, iter_mut_reversed);
    plan.row("values_mut", Order::Whole, full, values_mut);
    plan.row("values_mut_half", Order::Whole, full, values_mut_half);
    plan.row("cursor_walk", Order::Whole, full, cursor_walk);
}

fn owning(plan: &mut Plan) {
    plan.row_afresh("into_iter", Order::Whole, full, into_iter);
    plan.row_afresh("into_iter_moved", Order::Whole, moved, into_iter);
    plan.row_afresh("into_iter_reversed", Order::Whole, full, into_iter_reversed);
    plan.row_afresh("into_iter_half", Order::Whole, full, into_iter_half);
    plan.row_afresh("drain", Order::Whole, full, drain);
    plan.row_afresh("drain_half", Order::Whole, full, drain_half);
}

fn reversed(plan: &mut Plan) {
    plan.row("keys_reversed", Order::Whole, full, keys_reversed);
    plan.row("values_reversed", Order::Whole, full, values_reversed);
    plan.row_afresh("drain_reversed", Order::Whole, full, drain_reversed);
}

pub fn rows(plan: &mut Plan) {
    plan.kind("walks");
    borrowing(plan);
    writing(plan);
    owning(plan);
    reversed(plan);
}
