//! What the curve is measured beside: stack distances in plain Rust, with std alone.
//!
//! `curving TRACE` reads a webcache trace of one size, numbers its objects by the HashMap of std with its own hasher, keeps
//! a mark on the latest request of each object in a Fenwick tree, and prints what `bound_cli curve` prints.
mod lines;
mod webcache;

use lines::each_line;
use std::collections::HashMap;
use std::error::Error;
use webcache::parse;

const NONE: u32 = u32::MAX;

/// Sums of the marks before a place.
struct Fenwick(Vec<u32>);

impl Fenwick {
    fn add(&mut self, place: usize, change: u32) {
        let mut node = place + 1;
        while node < self.0.len() {
            self.0[node] = self.0[node].wrapping_add(change);
            node += node & node.wrapping_neg();
        }
    }

    fn before(&self, place: usize) -> u32 {
        let (mut node, mut sum) = (place, 0_u32);
        while node > 0 {
            sum = sum.wrapping_add(self.0[node]);
            node &= node - 1;
        }
        sum
    }
}

#[derive(Default)]
struct Trace {
    numbers: HashMap<u64, u32>,
    objects: Vec<u32>,
    size: u64,
    dropped: u64,
}

fn load(path: &str) -> Result<Trace, Box<dyn Error>> {
    let mut trace = Trace::default();
    each_line(path, |text| {
        if let Some((id, size)) = parse(text)? {
            if size == 0 {
                trace.dropped += 1;
            } else {
                let unused = trace.numbers.len() as u32;
                let object = *trace.numbers.entry(id).or_insert(unused);
                trace.objects.push(object);
                trace.size = size;
            }
        }
        Some(())
    })?;
    Ok(trace)
}

fn distances(trace: &Trace) -> Vec<u32> {
    let mut marks = Fenwick(vec![0; trace.objects.len() + 1]);
    let mut latest = vec![NONE; trace.numbers.len()];
    let mut counts = vec![0; trace.numbers.len() + 1];
    for (now, object) in trace.objects.iter().enumerate() {
        let last = std::mem::replace(&mut latest[*object as usize], now as u32);
        if last != NONE {
            let last = last as usize;
            let distance = marks.before(now).wrapping_sub(marks.before(last + 1)) + 1;
            counts[distance as usize] += 1;
            marks.add(last, 1_u32.wrapping_neg());
        }
        marks.add(now, 1);
    }
    counts
}

fn main() -> Result<(), Box<dyn Error>> {
    let path = std::env::args().nth(1).ok_or("curving TRACE")?;
    let trace = load(&path)?;
    let (requests, objects) = (trace.objects.len(), trace.numbers.len());
    let mut text = format!(
        "trace requests {requests} objects {objects} dropped {}\nsize {}\n",
        trace.dropped, trace.size
    );
    let mut hits = 0_u64;
    for (slots, count) in distances(&trace).iter().enumerate() {
        hits += u64::from(*count);
        if *count > 0 {
            text += &format!("slots {slots} hits {hits}\n");
        }
    }
    print!("{text}");
    Ok(())
}
