//! What replay is measured beside: the same rules of replacement in plain Rust, with std alone.
//!
//! `replaying TRACE CAPACITY POLICY WAY` reads a webcache trace, numbers its objects by the HashMap of std with its own
//! hasher, keeps the number and the next request of each request, and replays the policy over them. It prints what
//! `bound_cli replay` prints. `lru`, `fifo`, `clock` and `sieve` are lists linked by index, and their entries are found by
//! an array over the objects (`array`) or by a HashMap (`map`). `s3fifo` and `wtinylfu` have queues that are linked in an
//! array over the objects (`array`). `lfu`, `belady`, `gdsf`, `lfuda` and `gdsf98` keep entries in a binary heap with an array of places (`heap`);
//! `lfu` and `belady` also their order in a BTreeSet and their entries in a BTreeMap (`tree`). `replaying TRACE` only reads
//! and numbers.
mod lines;
mod queues;
mod ranks;
mod rings;
mod webcache;

use lines::each_line;
use queues::{S3Fifo, WTinyLfu};
use ranks::{Aging, Belady, Heap, Lfu, Order, Tree};
use rings::{Ring, Rule};
use std::collections::HashMap;
use std::error::Error;
use webcache::parse;

const NONE: u32 = u32::MAX;

#[derive(Default)]
struct Trace {
    numbers: HashMap<(u64, u64), u32>,
    // Of each object.
    sizes: Vec<u64>,
    latest: Vec<u32>,
    // Of each request.
    objects: Vec<u32>,
    next: Vec<u32>,
    dropped: u64,
}

impl Trace {
    fn push(&mut self, id: u64, size: u64) {
        if size == 0 {
            self.dropped += 1;
            return;
        }
        let (request, unused) = (self.objects.len() as u32, self.sizes.len() as u32);
        let object = *self.numbers.entry((id, size)).or_insert(unused);
        if object == unused {
            self.sizes.push(size);
            self.latest.push(NONE);
        }
        let former = std::mem::replace(&mut self.latest[object as usize], request);
        if former != NONE {
            self.next[former as usize] = request;
        }
        self.objects.push(object);
        self.next.push(NONE);
    }
}

fn load(path: &str) -> Result<Trace, Box<dyn Error>> {
    let mut trace = Trace::default();
    each_line(path, |text| {
        if let Some((id, size)) = parse(text)? {
            trace.push(id, size);
        }
        Some(())
    })?;
    Ok(trace)
}

// One request; whether it hits.
trait Policy {
    fn request(&mut self, now: u64, object: u32, size: u64, next: u32) -> bool;
}

fn replay(trace: &Trace, mut policy: impl Policy) -> (u64, u128) {
    let (mut hits, mut bytes) = (0, 0);
    for (now, (object, next)) in trace.objects.iter().zip(&trace.next).enumerate() {
        let size = trace.sizes[*object as usize];
        if policy.request(now as u64, *object, size, *next) {
            hits += 1;
            bytes += u128::from(size);
        }
    }
    (hits, bytes)
}

fn replay_by(trace: &Trace, capacity: u64, policy: &str, way: &str) -> Option<(u64, u128)> {
    let objects = trace.sizes.len();
    let used = 0;
    match (policy, way) {
        ("lru" | "fifo" | "clock" | "sieve", _) => {
            let rule = match policy {
                "lru" => Rule::Lru,
                "fifo" => Rule::Fifo,
                "clock" => Rule::Clock,
                _ => Rule::Sieve,
            };
            match way {
                "array" => Some(replay(
                    trace,
                    Ring::<Vec<u32>>::new(rule, capacity, objects),
                )),
                "map" => Some(replay(
                    trace,
                    Ring::<HashMap<u32, u32>>::new(rule, capacity, objects),
                )),
                _ => None,
            }
        }
        ("s3fifo", "array") => Some(replay(trace, S3Fifo::new(capacity, objects))),
        ("wtinylfu", "array") => Some(replay(trace, WTinyLfu::new(capacity, objects))),
        ("lfu", "heap") => {
            let order = Heap::new(objects);
            Some(replay(
                trace,
                Lfu {
                    capacity,
                    used,
                    order,
                },
            ))
        }
        ("lfu", "tree") => {
            let order = Tree::new(objects);
            Some(replay(
                trace,
                Lfu {
                    capacity,
                    used,
                    order,
                },
            ))
        }
        ("belady", "heap") => {
            let order = Heap::new(objects);
            Some(replay(
                trace,
                Belady {
                    capacity,
                    used,
                    order,
                },
            ))
        }
        ("belady", "tree") => {
            let order = Tree::new(objects);
            Some(replay(
                trace,
                Belady {
                    capacity,
                    used,
                    order,
                },
            ))
        }
        ("gdsf" | "lfuda" | "gdsf98", "heap") => {
            let aging = Aging {
                capacity,
                used,
                by_size: policy != "lfuda",
                admits: policy == "gdsf98",
                floor: 0,
                counts: vec![0; objects],
                order: Heap::new(objects),
                aside: Vec::new(),
            };
            Some(replay(trace, aging))
        }
        _ => None,
    }
}

fn main() -> Result<(), Box<dyn Error>> {
    let words: Vec<String> = std::env::args().skip(1).collect();
    let usage = "replaying TRACE [CAPACITY POLICY WAY]";
    let trace = load(words.first().ok_or(usage)?)?;
    let (requests, objects) = (trace.objects.len(), trace.sizes.len());
    println!(
        "trace requests {requests} objects {objects} dropped {}",
        trace.dropped
    );
    if let [_, capacity, policy, way] = &words[..] {
        let (hits, bytes) = replay_by(&trace, capacity.parse()?, policy, way).ok_or(usage)?;
        println!("policy {policy} capacity {capacity}\nhits {hits} bytes {bytes}");
    }
    Ok(())
}
