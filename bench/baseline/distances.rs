//! What LRU's hits at many capacities are measured beside: distances in bytes in plain Rust, with std alone.
//!
//! `distances TRACE CAPACITY..` reads a webcache trace, numbers its objects by the HashMap of std with its own hasher, keeps
//! the bytes of the latest request of each object in a tree of sums, and prints at each capacity, which ascend from the
//! greatest size on, LRU's hits and their bytes.
mod lines;
mod webcache;

use lines::each_line;
use std::collections::HashMap;
use std::error::Error;
use webcache::parse;

const NONE: u32 = u32::MAX;

#[derive(Default)]
struct Trace {
    numbers: HashMap<(u64, u64), u32>,
    objects: Vec<u32>,
    sizes: Vec<u64>,
}

/// Sums over places: the leaves stand behind the nodes above them.
struct Sums(Vec<u64>);

impl Sums {
    fn set(&mut self, place: usize, bytes: u64) {
        let mut node = place + self.0.len() / 2;
        self.0[node] = bytes;
        while node > 1 {
            node /= 2;
            self.0[node] = self.0[2 * node] + self.0[2 * node + 1];
        }
    }

    fn between(&self, from: usize, to: usize) -> u64 {
        let places = self.0.len() / 2;
        let (mut low, mut high, mut sum) = (from + places, to + places, 0);
        while low < high {
            if low % 2 == 1 {
                sum += self.0[low];
                low += 1;
            }
            if high % 2 == 1 {
                high -= 1;
                sum += self.0[high];
            }
            low /= 2;
            high /= 2;
        }
        sum
    }
}

fn load(path: &str) -> Result<Trace, Box<dyn Error>> {
    let mut trace = Trace::default();
    each_line(path, |text| {
        if let Some((id, size)) = parse(text)? {
            if size > 0 {
                let unused = trace.numbers.len() as u32;
                let object = *trace.numbers.entry((id, size)).or_insert(unused);
                if object == unused {
                    trace.sizes.push(size);
                }
                trace.objects.push(object);
            }
        }
        Some(())
    })?;
    Ok(trace)
}

/// Hits and their bytes at each capacity.
fn hits(trace: &Trace, capacities: &[u64]) -> Vec<(u64, u64)> {
    let mut sums = Sums(vec![0; 2 * trace.objects.len()]);
    let mut latest = vec![NONE; trace.sizes.len()];
    let mut found = vec![(0, 0); capacities.len() + 1];
    for (now, object) in trace.objects.iter().enumerate() {
        let size = trace.sizes[*object as usize];
        let last = std::mem::replace(&mut latest[*object as usize], now as u32);
        if last != NONE {
            let distance = sums.between(last as usize, now);
            let place = capacities.partition_point(|capacity| *capacity < distance);
            found[place].0 += 1;
            found[place].1 += size;
            sums.set(last as usize, 0);
        }
        sums.set(now, size);
    }
    for place in 1..capacities.len() {
        found[place].0 += found[place - 1].0;
        found[place].1 += found[place - 1].1;
    }
    found
}

fn main() -> Result<(), Box<dyn Error>> {
    let mut words = std::env::args().skip(1);
    let path = words.next().ok_or("distances TRACE CAPACITY..")?;
    let capacities = words.map(|word| word.parse()).collect::<Result<Vec<u64>, _>>()?;
    let trace = load(&path)?;
    for (capacity, (hits, bytes)) in capacities.iter().zip(hits(&trace, &capacities)) {
        println!("capacity {capacity} lru {hits} bytes {bytes}");
    }
    Ok(())
}
