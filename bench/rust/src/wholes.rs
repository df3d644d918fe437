//! Calls that go over all entries of a map, or of two.

use crate::fill::{full, full_and_empty, two_full, Map};
use crate::keys::Keys;
use crate::lists::{items, Order};
use crate::plan::Plan;
use hashlink::LinkedHashMap;
use std::hash::BuildHasher;

#[inline(always)]
fn clear(map: &mut Map, _place: u64, _item: &u64) -> u64 {
    map.clear();
    map.len() as u64
}

/// The end of a map.
#[inline(always)]
fn end(map: &mut Map, _place: u64, _item: &u64) -> u64 {
    *map = LinkedHashMap::new();
    map.len() as u64
}

/// Keeps about half of the entries.
#[inline(always)]
fn retain(map: &mut Map, _place: u64, _item: &u64) -> u64 {
    map.retain(|key, _| *key % 2 == 0);
    map.len() as u64
}

#[inline(always)]
fn reserve(map: &mut Map, _place: u64, _item: &u64) -> u64 {
    map.reserve(map.len());
    map.len() as u64
}

/// Gives back the room and the spare nodes.
#[inline(always)]
fn shrink(map: &mut Map, _place: u64, _item: &u64) -> u64 {
    map.shrink_to_fit();
    map.len() as u64
}

#[inline(always)]
fn copy(maps: &mut (Map, Map), _place: u64, _item: &u64) -> u64 {
    maps.1 = maps.0.clone();
    maps.1.len() as u64
}

#[inline(always)]
fn extend_ref(maps: &mut (Map, Map), _place: u64, _item: &u64) -> u64 {
    maps.1.extend(maps.0.iter());
    maps.1.len() as u64
}

#[inline(always)]
fn is_equal(maps: &mut (Map, Map), _place: u64, _item: &u64) -> u64 {
    u64::from(maps.0 == maps.1)
}

#[inline(always)]
fn is_at_most(maps: &mut (Map, Map), _place: u64, _item: &u64) -> u64 {
    u64::from(maps.0 <= maps.1)
}

/// Of both, which are hashed alike as they are equal.
#[inline(always)]
fn hash(maps: &mut (Map, Map), _place: u64, _item: &u64) -> u64 {
    let hasher = maps.0.hasher();
    u64::from(hasher.hash_one(&maps.0) == hasher.hash_one(&maps.1))
}

/// Pairs, and a map for them.
type Pairs = (Vec<(u64, u64)>, Map);

/// The keys that are held, each with another as its value.
fn pairs(keys: &Keys) -> Pairs {
    (items(&keys.held, &keys.absent), Map::new())
}

#[inline(always)]
fn build(pairs: &mut Pairs, _place: u64, _item: &u64) -> u64 {
    pairs.1 = Map::from_iter(pairs.0.iter().copied());
    pairs.1.len() as u64
}

#[inline(always)]
fn extend(pairs: &mut Pairs, _place: u64, _item: &u64) -> u64 {
    pairs.1.extend(pairs.0.iter().copied());
    pairs.1.len() as u64
}

/// By an iterator that is kept. hashlink has no `extend_from`.
#[inline(always)]
fn extend_from(pairs: &mut Pairs, _place: u64, _item: &u64) -> u64 {
    let mut items = pairs.0.iter().copied();
    pairs.1.extend(&mut items);
    pairs.1.len() as u64
}

/// By a closure that is kept. hashlink has no `retain_from`.
#[inline(always)]
fn retain_from(map: &mut Map, _place: u64, _item: &u64) -> u64 {
    let mut is_even = |key: &u64, _value: &mut u64| *key % 2 == 0;
    map.retain(&mut is_even);
    map.len() as u64
}

/// A map a quarter of whose entries are gone.
fn thinned(keys: &Keys) -> Map {
    let mut map = full(keys);
    map.retain(|key, _| *key % 4 != 0);
    map
}

fn of_one(plan: &mut Plan) {
    plan.row_afresh("clear", Order::Whole, full, clear);
    plan.row_afresh("drop", Order::Whole, full, end);
    plan.row_afresh("retain", Order::Whole, full, retain);
    plan.row_afresh("reserve", Order::Whole, full, reserve);
    plan.row_afresh("shrink_to_fit", Order::Whole, thinned, shrink);
    plan.row_afresh("from_iter", Order::Whole, pairs, build);
    plan.row_afresh("extend", Order::Whole, pairs, extend);
}

fn of_two(plan: &mut Plan) {
    plan.row_afresh("clone", Order::Whole, full_and_empty, copy);
    plan.row_afresh("extend_ref", Order::Whole, full_and_empty, extend_ref);
    plan.row("eq", Order::Whole, two_full, is_equal);
    plan.row("le", Order::Whole, two_full, is_at_most);
    plan.row("hash", Order::Both, two_full, hash);
}

/// By an iterator or a closure that is kept.
fn kept(plan: &mut Plan) {
    plan.row_afresh("extend_from", Order::Whole, pairs, extend_from);
    plan.row_afresh("retain_from", Order::Whole, full, retain_from);
}

pub fn rows(plan: &mut Plan) {
    plan.kind("wholes");
    of_one(plan);
    of_two(plan);
    kept(plan);
}
