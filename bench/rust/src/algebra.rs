//! Set algebra, by lazy iterators, operators and tests.

use crate::fill::{set_of, Set};
use crate::keys::Keys;
use crate::lists::Order;
use crate::plan::Plan;
use crate::walks::sum_of;
use std::hint::black_box;

type Sets = (Set, Set);

/// The keys, each of which comes from one of the lists, where a key of the first is even or not.
fn mixture(even: &[u64], odd: &[u64]) -> Set {
    let mut set = Set::new();
    for (key, other) in even.iter().zip(odd) {
        set.insert(if key % 2 == 0 { *key } else { *other });
    }
    black_box(set)
}

/// All keys, and in another order about half of them, with as many others as they lack.
fn overlapping(keys: &Keys) -> Sets {
    (set_of(&keys.held), mixture(&keys.mixed, &keys.absent))
}

/// The same elements in two orders.
fn alike(keys: &Keys) -> Sets {
    (set_of(&keys.mixed), set_of(&keys.held))
}

/// Two sets that have none in common.
fn apart(keys: &Keys) -> Sets {
    (set_of(&keys.held), set_of(&keys.absent))
}

#[inline(always)]
fn union(sets: &mut Sets, _place: u64, _item: &u64) -> u64 {
    sum_of(sets.0.union(&sets.1))
}

#[inline(always)]
fn intersection(sets: &mut Sets, _place: u64, _item: &u64) -> u64 {
    sum_of(sets.0.intersection(&sets.1))
}

#[inline(always)]
fn difference(sets: &mut Sets, _place: u64, _item: &u64) -> u64 {
    sum_of(sets.0.difference(&sets.1))
}

#[inline(always)]
fn symmetric_difference(sets: &mut Sets, _place: u64, _item: &u64) -> u64 {
    sum_of(sets.0.symmetric_difference(&sets.1))
}

#[inline(always)]
fn or(sets: &mut Sets, _place: u64, _item: &u64) -> u64 {
    (&sets.0 | &sets.1).len() as u64
}

#[inline(always)]
fn and(sets: &mut Sets, _place: u64, _item: &u64) -> u64 {
    (&sets.0 & &sets.1).len() as u64
}

#[inline(always)]
fn xor(sets: &mut Sets, _place: u64, _item: &u64) -> u64 {
    (&sets.0 ^ &sets.1).len() as u64
}

#[inline(always)]
fn minus(sets: &mut Sets, _place: u64, _item: &u64) -> u64 {
    (&sets.0 - &sets.1).len() as u64
}

#[inline(always)]
fn is_subset(sets: &mut Sets, _place: u64, _item: &u64) -> u64 {
    u64::from(sets.0.is_subset(&sets.1))
}

#[inline(always)]
fn is_superset(sets: &mut Sets, _place: u64, _item: &u64) -> u64 {
    u64::from(sets.0.is_superset(&sets.1))
}

#[inline(always)]
fn is_disjoint(sets: &mut Sets, _place: u64, _item: &u64) -> u64 {
    u64::from(sets.0.is_disjoint(&sets.1))
}

fn lazy(plan: &mut Plan) {
    plan.row("set_union", Order::Both, overlapping, union);
    plan.row("set_intersection", Order::Whole, overlapping, intersection);
    plan.row("set_difference", Order::Whole, overlapping, difference);
    plan.row(
        "set_symmetric_difference",
        Order::Both,
        overlapping,
        symmetric_difference,
    );
}

/// The new set is dropped within the time.
fn operators(plan: &mut Plan) {
    plan.row("set_or", Order::Both, overlapping, or);
    plan.row("set_and", Order::Whole, overlapping, and);
    plan.row("set_xor", Order::Both, overlapping, xor);
    plan.row("set_sub", Order::Whole, overlapping, minus);
}

/// Each looks at all elements.
fn comparisons(plan: &mut Plan) {
    plan.row("set_is_subset", Order::Whole, alike, is_subset);
    plan.row("set_is_superset", Order::Whole, alike, is_superset);
    plan.row("set_is_disjoint", Order::Whole, apart, is_disjoint);
}

pub fn rows(plan: &mut Plan) {
    plan.kind("algebra");
    lazy(plan);
    operators(plan);
    comparisons(plan);
}
