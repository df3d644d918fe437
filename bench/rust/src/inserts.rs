//! Inserts into a map, and moves of its entries. An insert of a new key comes to a map that is empty in each
//! pass, and that grows.

use crate::fill::{empty, full, roomy, Map};
use crate::lists::Order;
use crate::plan::{fold, Plan};

#[inline(always)]
pub fn insert(map: &mut Map, place: u64, key: &u64) -> u64 {
    map.insert(*key, place).unwrap_or(*key)
}

#[inline(always)]
fn insert_front(map: &mut Map, place: u64, key: &u64) -> u64 {
    map.insert_front(*key, place).unwrap_or(*key)
}

#[inline(always)]
fn replace(map: &mut Map, place: u64, key: &u64) -> u64 {
    map.replace(*key, place).unwrap_or(*key)
}

/// hashlink has no `get_or_insert_with`.
#[inline(always)]
fn get_or_insert_with(map: &mut Map, place: u64, key: &u64) -> u64 {
    *map.entry(*key).or_insert_with(|| place)
}

#[inline(always)]
fn entry_or_insert(map: &mut Map, place: u64, key: &u64) -> u64 {
    *map.entry(*key).or_insert(place)
}

#[inline(always)]
fn raw_or_insert(map: &mut Map, place: u64, key: &u64) -> u64 {
    let (stored, value) = map.raw_entry_mut().from_key(key).or_insert(*key, place);
    fold(*stored, *value)
}

/// Before the last entry.
#[inline(always)]
fn cursor_insert(map: &mut Map, place: u64, key: &u64) -> u64 {
    let mut cursor = map.cursor_back_mut();
    cursor.insert_before(*key, place).unwrap_or(*key)
}

#[inline(always)]
fn to_back(map: &mut Map, _place: u64, key: &u64) -> u64 {
    match map.to_back(key) {
        Some(value) => *value,
        None => *key,
    }
}

#[inline(always)]
fn to_front(map: &mut Map, _place: u64, key: &u64) -> u64 {
    match map.to_front(key) {
        Some(value) => *value,
        None => *key,
    }
}

/// Of new keys and of keys that are present.
fn inserts(plan: &mut Plan) {
    plan.row_afresh("insert", Order::Held, empty, insert);
    plan.row_afresh("insert_roomy", Order::Held, roomy, insert);
    plan.row("update", Order::MixedByTurns, full, insert);
    plan.row_afresh("insert_front_new", Order::Held, empty, insert_front);
    plan.row(
        "insert_front_present",
        Order::MixedByTurns,
        full,
        insert_front,
    );
    plan.row_afresh("replace_new", Order::Held, empty, replace);
    plan.row("replace_present", Order::Mixed, full, replace);
    plan.row_afresh(
        "get_or_insert_with_new",
        Order::Held,
        empty,
        get_or_insert_with,
    );
    plan.row(
        "get_or_insert_with_present",
        Order::MixedByTurns,
        full,
        get_or_insert_with,
    );
    plan.row_afresh("entry_or_insert_new", Order::Held, empty, entry_or_insert);
    plan.row(
        "entry_or_insert_present",
        Order::MixedByTurns,
        full,
        entry_or_insert,
    );
    plan.row_afresh("raw_or_insert_new", Order::Held, empty, raw_or_insert);
    plan.row(
        "raw_or_insert_present",
        Order::MixedByTurns,
        full,
        raw_or_insert,
    );
    plan.row_afresh("cursor_insert_new", Order::Held, empty, cursor_insert);
    plan.row(
        "cursor_insert_present",
        Order::MixedByTurns,
        full,
        cursor_insert,
    );
}

fn moves(plan: &mut Plan) {
    plan.row("to_back_hit", Order::MixedByTurns, full, to_back);
    plan.row("to_back_miss", Order::Absent, full, to_back);
    plan.row("to_front_hit", Order::MixedByTurns, full, to_front);
    plan.row("to_front_miss", Order::Absent, full, to_front);
}

pub fn rows(plan: &mut Plan) {
    plan.kind("inserts");
    inserts(plan);
    moves(plan);
}
