//! What a lookup costs in maps of few entries and of many: std's `BTreeMap` and `HashMap`, keys of 16 bytes, and for each a row on the heap, as
//! a shard's store has them. Between two lookups some 32 KiB are written, as a statement that is read, planned and answered does. Prints for
//! each map and number of rows the nanoseconds of a lookup: the middle one of nine rounds, without what lies between the lookups.
use std::collections::{BTreeMap, HashMap};
use std::hint::black_box;
use std::time::Instant;

type Key = (u64, u64);

/// A row's list of values, and what a slot has besides.
struct Slot {
    row: Vec<[u64; 3]>,
    _beside: u64,
}

const LOOKUPS: u64 = 100_000;

fn slot(id: u64) -> Slot {
    Slot {
        row: vec![[id; 3], [id + 1; 3]],
        _beside: 0,
    }
}

fn next(seed: &mut u64) -> u64 {
    *seed ^= *seed << 13;
    *seed ^= *seed >> 7;
    *seed ^= *seed << 17;
    *seed
}

/// Nanoseconds of a round, each step of which writes the 32 KiB and looks a key up.
fn round(rows: u64, between: &mut [u64], seed: &mut u64, look: &dyn Fn(&Key) -> u64) -> f64 {
    let begun = Instant::now();
    for _ in 0..LOOKUPS {
        let given = look(&(0, next(seed) % rows));
        for word in between.iter_mut().step_by(8) {
            *word = word.wrapping_add(given);
        }
    }
    begun.elapsed().as_nanos() as f64 / LOOKUPS as f64
}

fn middle(mut all: Vec<f64>) -> f64 {
    all.sort_by(f64::total_cmp);
    all[all.len() / 2]
}

/// Nanoseconds of a lookup, without what lies between.
fn lookup(rows: u64, look: &dyn Fn(&Key) -> u64) -> f64 {
    let mut between = vec![0; 4096];
    let mut seed = 88_172_645_463_325_252;
    let given = (0..9).map(|_| {
        let with = round(rows, &mut between, &mut seed, look);
        with - round(rows, &mut between, &mut seed, &|key| black_box(key.1))
    });
    middle(given.collect())
}

fn main() {
    for rows in [1_000, 1_000_000] {
        let ordered: BTreeMap<Key, Slot> = (0..rows).map(|id| ((0, id), slot(id))).collect();
        println!("BTreeMap {rows} {:.0}", lookup(rows, &|key| ordered[key].row[1][2]));
        drop(ordered);
        let hashed: HashMap<Key, Slot> = (0..rows).map(|id| ((0, id), slot(id))).collect();
        println!("HashMap {rows} {:.0}", lookup(rows, &|key| hashed[key].row[1][2]));
    }
}
