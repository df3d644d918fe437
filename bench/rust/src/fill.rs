//! Containers for the rows.

use crate::keys::Keys;
use hashlink::{LinkedHashMap, LinkedHashSet, LruCache};
use std::hint::black_box;

pub type Map = LinkedHashMap<u64, u64>;

/// A map of a type of its own, whose calls are functions that no other rows call.
pub type LoneMap = LinkedHashMap<u64, u32>;

pub type Set = LinkedHashSet<u64>;

/// As `LoneMap`.
pub type LoneSet = LinkedHashSet<(u64, ())>;

pub type Cache = LruCache<u64, u64>;

/// As `LoneMap`.
pub type LoneCache = LruCache<u64, u32>;

pub fn empty(_keys: &Keys) -> Map {
    Map::new()
}

/// An empty map with room for the keys.
pub fn roomy(keys: &Keys) -> Map {
    Map::with_capacity(keys.size())
}

/// Inserts each key with its place in the list as its value.
fn insert_each(map: &mut Map, keys: &[u64]) {
    for (place, key) in keys.iter().enumerate() {
        map.insert(*key, place as u64);
    }
}

/// The keys that are held.
pub fn full(keys: &Keys) -> Map {
    let mut map = Map::new();
    insert_each(&mut map, &keys.held);
    black_box(map)
}

/// The same in another order, so that neighbours are not together in memory.
pub fn moved(keys: &Keys) -> Map {
    let mut map = full(keys);
    insert_each(&mut map, &keys.mixed);
    black_box(map)
}

pub fn full_and_empty(keys: &Keys) -> (Map, Map) {
    (full(keys), Map::new())
}

/// Two equal maps.
pub fn two_full(keys: &Keys) -> (Map, Map) {
    (full(keys), full(keys))
}

pub fn lone(keys: &Keys) -> LoneMap {
    let mut map = LoneMap::new();
    for (key, place) in keys.held.iter().zip(0..) {
        map.insert(*key, place);
    }
    black_box(map)
}

pub fn empty_set(_keys: &Keys) -> Set {
    Set::new()
}

pub fn set_of(elements: &[u64]) -> Set {
    let mut set = Set::new();
    for element in elements {
        set.insert(*element);
    }
    black_box(set)
}

pub fn full_set(keys: &Keys) -> Set {
    set_of(&keys.held)
}

pub fn lone_set(keys: &Keys) -> LoneSet {
    let mut set = LoneSet::new();
    for key in &keys.held {
        set.insert((*key, ()));
    }
    black_box(set)
}

/// A cache that the keys went into, the first one last.
fn cache_of(keys: &Keys, capacity: usize) -> Cache {
    let mut cache = Cache::new(capacity);
    for (place, key) in keys.held.iter().rev().enumerate() {
        cache.insert(*key, place as u64);
    }
    black_box(cache)
}

pub fn full_cache(keys: &Keys) -> Cache {
    cache_of(keys, keys.size())
}

/// A cache for half of the keys.
pub fn half_cache(keys: &Keys) -> Cache {
    cache_of(keys, keys.half())
}

pub fn lone_cache(keys: &Keys) -> LoneCache {
    let mut cache = LoneCache::new(keys.size());
    for (key, place) in keys.held.iter().zip(0..) {
        cache.insert(*key, place);
    }
    black_box(cache)
}
