//! The calls of maps and caches whose keys are texts, which are asked for by `&str`. An insert takes a copy
//! of the text that it is given.

use crate::keys::{statements as statement_texts, tokens as token_texts, Keys};
use crate::lists::{items, Order};
use crate::plan::{fold, Plan};
use hashlink::{LinkedHashMap, LruCache};
use std::hint::black_box;

type Map = LinkedHashMap<String, u64>;

type Cache = LruCache<String, u64>;

/// Texts that come into a map, the last one first, which are made before.
type Coming = (Vec<String>, Map);

fn coming(keys: &Keys) -> Coming {
    (items(&keys.held, &keys.held), Map::new())
}

#[inline(always)]
fn insert(coming: &mut Coming, place: u64, key: &u64) -> u64 {
    let Some(text) = coming.0.pop() else {
        return place;
    };
    coming.1.insert(text, place).unwrap_or(*key)
}

/// The map that all of these have come into.
fn full(keys: &Keys) -> Map {
    let mut coming = coming(keys);
    for (place, key) in keys.held.iter().enumerate() {
        insert(&mut coming, place as u64, key);
    }
    black_box(coming.1)
}

/// The same texts in the order of the keys.
fn in_order(keys: &Keys) -> Map {
    let texts: Vec<String> = items(&keys.held, &keys.held);
    let mut map = Map::new();
    for (place, text) in texts.iter().enumerate() {
        update(&mut map, place as u64, text);
    }
    black_box(map)
}

#[inline(always)]
fn get(map: &mut Map, place: u64, text: &String) -> u64 {
    map.get(text.as_str()).copied().unwrap_or(place)
}

#[inline(always)]
fn contains_key(map: &mut Map, _place: u64, text: &String) -> u64 {
    u64::from(map.contains_key(text.as_str()))
}

/// An insert, of a text that may be present.
#[inline(always)]
fn update(map: &mut Map, place: u64, text: &String) -> u64 {
    map.insert(text.clone(), place).unwrap_or(place)
}

#[inline(always)]
fn remove(map: &mut Map, place: u64, text: &String) -> u64 {
    map.remove(text.as_str()).unwrap_or(place)
}

/// A removal of a text that is there and an insert of one that is not.
#[inline(always)]
fn exchange(map: &mut Map, place: u64, (leaves, comes): &(String, String)) -> u64 {
    let left = map.remove(leaves.as_str()).unwrap_or(u64::MAX);
    fold(left, update(map, place, comes))
}

/// A removal of the first entry and an insert of a text, as in a queue.
#[inline(always)]
fn queue(map: &mut Map, place: u64, text: &String) -> u64 {
    let first = match map.pop_front() {
        Some((text, value)) => fold(last_byte(&text), value),
        None => place,
    };
    fold(first, update(map, place, text))
}

#[inline(always)]
fn last_byte(text: &str) -> u64 {
    text.as_bytes().last().map_or(0, |byte| u64::from(*byte))
}

fn maps(plan: &mut Plan) {
    plan.row_afresh("text_insert", Order::Held, coming, insert);
    plan.row("text_update", Order::MixedByTurns, full, update);
    plan.row("text_get_hit", Order::Mixed, full, get);
    plan.row("text_get_miss", Order::Absent, full, get);
    plan.row("text_contains_key_hit", Order::Mixed, full, contains_key);
    plan.row("text_contains_key_miss", Order::Absent, full, contains_key);
    plan.row_afresh("text_remove_hit", Order::Mixed, full, remove);
    plan.row("text_churn", Order::Exchanges, in_order, exchange);
    plan.row("text_pop_insert", Order::AbsentAndHeld, in_order, queue);
}

fn full_cache(keys: &Keys) -> Cache {
    let texts: Vec<String> = items(&keys.held, &keys.held);
    let mut cache = Cache::new(keys.size());
    for (place, text) in texts.iter().enumerate() {
        cache_insert(&mut cache, place as u64, text);
    }
    black_box(cache)
}

#[inline(always)]
fn cache_peek(cache: &mut Cache, place: u64, text: &String) -> u64 {
    cache.peek(text.as_str()).copied().unwrap_or(place)
}

#[inline(always)]
fn cache_get(cache: &mut Cache, place: u64, text: &String) -> u64 {
    cache.get(text.as_str()).copied().unwrap_or(place)
}

#[inline(always)]
fn cache_insert(cache: &mut Cache, place: u64, text: &String) -> u64 {
    cache.insert(text.clone(), place).unwrap_or(place)
}

#[inline(always)]
fn cache_remove(cache: &mut Cache, place: u64, text: &String) -> u64 {
    cache.remove(text.as_str()).unwrap_or(place)
}

fn caches(plan: &mut Plan) {
    plan.row("lru_text_peek_hit", Order::Mixed, full_cache, cache_peek);
    plan.row("lru_text_peek_miss", Order::Absent, full_cache, cache_peek);
    plan.row(
        "lru_text_get_hit",
        Order::MixedByTurns,
        full_cache,
        cache_get,
    );
    plan.row("lru_text_get_miss", Order::Absent, full_cache, cache_get);
    plan.row(
        "lru_text_insert_new",
        Order::AbsentAndHeld,
        full_cache,
        cache_insert,
    );
    plan.row_afresh(
        "lru_text_remove_hit",
        Order::Mixed,
        full_cache,
        cache_remove,
    );
}

/// Texts, and a cache for some of them.
type Uses = (Vec<String>, Cache);

/// A look-up of the text at a place, and an insert of a copy of it where it is not there.
#[inline(always)]
fn use_text((texts, cache): &mut Uses, place: u64, at: &u64) -> u64 {
    let Some(text) = texts.get(*at as usize) else {
        return place;
    };
    if let Some(value) = cache.get(text.as_str()) {
        return *value;
    }
    cache.insert(text.clone(), place).unwrap_or(*at)
}

/// Tokens, and a cache for half of them that is full: each was used, the first one last.
fn tokens(keys: &Keys) -> Uses {
    let mut uses = (token_texts(&keys.held), Cache::new(keys.half()));
    for place in keys.places.iter().rev() {
        use_text(&mut uses, *place, place);
    }
    black_box(uses)
}

/// Statements, and an empty cache for all of them.
fn statements(keys: &Keys) -> Uses {
    (statement_texts(&keys.held), Cache::new(keys.size()))
}

/// The texts come about as by Zipf's law.
fn uses(plan: &mut Plan) {
    plan.row("lru_text", Order::ZipfPlaces, tokens, use_text);
    plan.row("statement_get", Order::ZipfPlaces, statements, use_text);
}

pub fn rows(plan: &mut Plan) {
    plan.kind("texts");
    maps(plan);
    caches(plan);
    uses(plan);
}
