//! Entries and raw entries of a map, by closures and by defaults. A new key comes to a map that is empty in
//! each pass, and that grows.

use crate::fill::{empty, full, Map};
use crate::lists::Order;
use crate::plan::{fold, Plan};

#[inline(always)]
fn or_insert_with(map: &mut Map, place: u64, key: &u64) -> u64 {
    *map.entry(*key).or_insert_with(|| place)
}

/// hashlink has no `or_default`.
#[inline(always)]
fn or_default(map: &mut Map, _place: u64, key: &u64) -> u64 {
    *map.entry(*key).or_insert_with(u64::default)
}

/// Adds one to the value of a key that is present, and inserts one that is absent.
#[inline(always)]
fn and_modify(map: &mut Map, place: u64, key: &u64) -> u64 {
    let entry = map.entry(*key).and_modify(|value| *value = value.wrapping_add(1));
    *entry.or_insert(place)
}

#[inline(always)]
fn raw_or_insert_with(map: &mut Map, place: u64, key: &u64) -> u64 {
    let entry = map.raw_entry_mut().from_key(key);
    let (stored, value) = entry.or_insert_with(|| (*key, place));
    fold(*stored, *value)
}

#[inline(always)]
fn raw_and_modify(map: &mut Map, place: u64, key: &u64) -> u64 {
    let entry = map.raw_entry_mut().from_key(key);
    let entry = entry.and_modify(|_, value| *value = value.wrapping_add(1));
    let (stored, value) = entry.or_insert(*key, place);
    fold(*stored, *value)
}

fn both(
    plan: &mut Plan,
    new: &str,
    present: &str,
    call: impl Fn(&mut Map, u64, &u64) -> u64 + Copy,
) {
    plan.row_afresh(new, Order::Held, empty, call);
    plan.row(present, Order::MixedByTurns, full, call);
}

pub fn rows(plan: &mut Plan) {
    plan.kind("inserts");
    both(
        plan,
        "entry_or_insert_with_new",
        "entry_or_insert_with_present",
        or_insert_with,
    );
    both(
        plan,
        "entry_or_default_new",
        "entry_or_default_present",
        or_default,
    );
    both(
        plan,
        "entry_and_modify_new",
        "entry_and_modify_present",
        and_modify,
    );
    both(
        plan,
        "raw_or_insert_with_new",
        "raw_or_insert_with_present",
        raw_or_insert_with,
    );
    both(
        plan,
        "raw_and_modify_new",
        "raw_and_modify_present",
        raw_and_modify,
    );
}
