//! The rows of bench/rust that the crate lru can do: the same keys, the same calls, the same lines and
//! checksums.
//!
//! usage: lru-bench WHAT ROUNDS [N ..], where only caches, texts, all and their rows have rows

// Some of what these have is for other containers alone.
#[path = "../../rust/src/command.rs"]
mod command;
#[allow(dead_code)]
#[path = "../../rust/src/keys.rs"]
mod keys;
#[allow(dead_code)]
#[path = "../../rust/src/lists.rs"]
mod lists;
#[allow(dead_code)]
#[path = "../../rust/src/plan.rs"]
mod plan;

use keys::{statements as statement_texts, tokens as token_texts, Keys};
use lists::Order;
use lru::LruCache;
use plan::Plan;
use std::hash::Hash;
use std::process::ExitCode;

type Cache = LruCache<u64, u64>;

/// An empty cache.
fn empty<K: Eq + Hash>(capacity: usize) -> LruCache<K, u64> {
    // A `usize` in versions below 0.8, and not zero in others.
    #[allow(clippy::useless_conversion)]
    LruCache::new(capacity.max(1).try_into().unwrap())
}

/// A look-up of a key, and an insert where it is not there.
#[inline(always)]
fn use_key(cache: &mut Cache, place: u64, key: &u64) -> u64 {
    if let Some(value) = cache.get(key) {
        return *value;
    }
    cache.put(*key, place).unwrap_or(*key)
}

/// A cache that the keys went into, the first one last.
fn cache_of(keys: &Keys, capacity: usize) -> Cache {
    let mut cache = empty(capacity);
    for (place, key) in keys.held.iter().rev().enumerate() {
        use_key(&mut cache, place as u64, key);
    }
    cache
}

fn full_cache(keys: &Keys) -> Cache {
    cache_of(keys, keys.size())
}

fn half_cache(keys: &Keys) -> Cache {
    cache_of(keys, keys.half())
}

fn caches(plan: &mut Plan) {
    plan.kind("caches");
    plan.row("lru_hit", Order::MixedByTurns, full_cache, use_key);
    plan.row("lru_zipf", Order::Zipf, half_cache, use_key);
    plan.row("lru_uniform", Order::Uniform, half_cache, use_key);
}

/// Texts, and a cache for some of them.
type Uses = (Vec<String>, LruCache<String, u64>);

/// A look-up of the text at a place, and an insert of a copy of it where it is not there.
#[inline(always)]
fn use_text((texts, cache): &mut Uses, place: u64, at: &u64) -> u64 {
    let Some(text) = texts.get(*at as usize) else {
        return place;
    };
    if let Some(value) = cache.get(text.as_str()) {
        return *value;
    }
    cache.put(text.clone(), place).unwrap_or(*at)
}

/// Tokens, and a cache for half of them that is full: each was used, the first one last.
fn tokens(keys: &Keys) -> Uses {
    let mut uses = (token_texts(&keys.held), empty(keys.half()));
    for place in keys.places.iter().rev() {
        use_text(&mut uses, *place, place);
    }
    uses
}

/// Statements, and an empty cache for all of them.
fn statements(keys: &Keys) -> Uses {
    (statement_texts(&keys.held), empty(keys.size()))
}

fn texts(plan: &mut Plan) {
    plan.kind("texts");
    plan.row("lru_text", Order::ZipfPlaces, tokens, use_text);
    plan.row("statement_get", Order::ZipfPlaces, statements, use_text);
}

fn main() -> ExitCode {
    command::run("lru-bench", |plan| {
        caches(plan);
        texts(plan);
    })
}
