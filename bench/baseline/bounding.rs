//! What bounds in mode constant is measured beside: the same bounds and the same certificate in plain Rust, with std
//! alone.
//!
//! `bounding TRACE CERT CAPACITY` reads a webcache trace, numbers its objects by the HashMap of std with its own hasher,
//! finds the eligible intervals, their unit, the least constant price over 2^48 and its bound, rounds a schedule in
//! order of rank over loads in levels, and writes the certificate of the objective object.
mod levels;
mod lines;
mod webcache;

use levels::{Answer, Loads, Rise};
use lines::each_line;
use std::collections::HashMap;
use std::error::Error;
use std::io::Write;
use webcache::parse;

const DENOMINATOR: u128 = 1 << 48;
const SAMPLE: usize = 64;

struct Interval {
    start: u32,
    end: u32,
    size: u64,
}

impl Interval {
    fn steps(&self) -> u64 {
        u64::from(self.end - self.start)
    }

    // Size times steps covered: over a gain of 1 this is the rank.
    fn rank(&self) -> u128 {
        u128::from(self.size) * u128::from(self.steps())
    }
}

// How many requests there are, and the eligible intervals in order of start.
fn read_intervals(path: &str, capacity: u64) -> Result<(u32, Vec<Interval>), Box<dyn Error>> {
    const NONE: u32 = u32::MAX;
    let mut objects: HashMap<(u64, u64), u32> = HashMap::new();
    let (mut sizes, mut next) = (Vec::new(), Vec::new());
    each_line(path, |text| {
        if let Some((id, size)) = parse(text)?.filter(|request| request.1 > 0) {
            let request = next.len() as u32;
            if let Some(previous) = objects.insert((id, size), request) {
                next[previous as usize] = request;
            }
            next.push(NONE);
            sizes.push(size);
        }
        Some(())
    })?;
    let all = next.iter().zip(&sizes).enumerate();
    let eligible = all.filter(|(_, (end, size))| **end != NONE && **size <= capacity);
    let intervals = eligible.map(|(start, (end, size))| Interval {
        start: start as u32,
        end: *end,
        size: *size,
    });
    Ok((next.len() as u32, intervals.collect()))
}

fn gcd(a: u64, b: u64) -> u64 {
    if b == 0 {
        a
    } else {
        gcd(b, a % b)
    }
}

// A constant price on the steps but the last, and what it bounds.
struct Constant<'a> {
    intervals: &'a [Interval],
    unit: u64,
    // The units times the steps that have the price.
    growth: u128,
}

impl Constant<'_> {
    fn weight(&self, interval: &Interval) -> u128 {
        u128::from(interval.size / self.unit) * u128::from(interval.steps())
    }

    fn bound(&self, price: u128) -> u128 {
        let surplus = |it: &Interval| DENOMINATOR.saturating_sub(self.weight(it) * price);
        self.growth * price + self.intervals.iter().map(surplus).sum::<u128>()
    }

    // Whether the next price has a smaller bound.
    fn falls_at(&self, price: u128) -> bool {
        let fall = |it: &Interval| {
            let weight = self.weight(it);
            DENOMINATOR.saturating_sub(weight * price).min(weight)
        };
        self.intervals.iter().map(fall).sum::<u128>() > self.growth
    }

    // The least price from which the bound falls no more: from that of a sample outward, then by halving.
    fn least(&self) -> u128 {
        let mut worths: Vec<u128> = self
            .intervals
            .iter()
            .step_by(SAMPLE)
            .map(|it| DENOMINATOR / self.weight(it))
            .collect();
        worths.sort_unstable();
        let (mut low, mut high) = (0, DENOMINATOR);
        let (mut first, mut last) = (0, worths.len());
        while last - first > 1 {
            let middle = (first + last) / 2;
            if worths[middle] > low && worths[middle] < high {
                if self.falls_at(worths[middle]) {
                    low = worths[middle] + 1;
                } else {
                    high = worths[middle];
                }
            }
            if worths[middle] < low {
                first = middle;
            } else {
                last = middle;
            }
        }
        while low < high {
            let middle = (low + high) / 2;
            if self.falls_at(middle) {
                low = middle + 1;
            } else {
                high = middle;
            }
        }
        low
    }
}

// The requests that are kept: in order of rank each interval that fits.
fn round(intervals: &[Interval], steps: u32, capacity: u64) -> Vec<bool> {
    let ranked = intervals.iter().enumerate();
    let mut order: Vec<u128> = ranked
        .map(|(number, it)| it.rank() << 32 | number as u128)
        .collect();
    order.sort_unstable();
    let mut loads = Loads::new(steps);
    let lowest = loads.lowest;
    let mut keeps = vec![false; steps as usize];
    for key in order {
        let it = &intervals[key as u32 as usize];
        let (low, high) = (it.start as usize, it.end as usize - 1);
        let room = capacity - it.size;
        if let Answer::Fits = loads.look(lowest, (low, high), room) {
            let rise = Rise {
                low,
                low_by: it.size,
                high,
                high_by: it.size,
                between: it.size,
            };
            loads.raise(lowest, rise);
            keeps[low] = true;
        }
    }
    keeps
}

fn main() -> Result<(), Box<dyn Error>> {
    let words: Vec<String> = std::env::args().skip(1).collect();
    let [trace, cert, capacity] = &words[..] else {
        return Err("bounding TRACE CERT CAPACITY".into());
    };
    let capacity: u64 = capacity.parse()?;
    let (requests, intervals) = read_intervals(trace, capacity)?;
    let unit = intervals
        .iter()
        .fold(0, |unit, it| gcd(it.size, unit))
        .max(1);
    let constant = Constant {
        intervals: &intervals,
        unit,
        growth: u128::from(capacity / unit) * u128::from(requests.saturating_sub(1)),
    };
    let price = constant.least();
    let upper = constant.bound(price);
    let keeps = round(&intervals, requests, capacity);
    let lower = keeps.iter().filter(|keep| **keep).count();
    let mut text = Vec::new();
    writeln!(
        text,
        "cache-bound-certificate 1\nobjective object\ncapacity {capacity}\nrequests {requests}"
    )?;
    writeln!(text, "unit {unit}\ndenominator {DENOMINATOR}\nform plain\nupper {upper}\nflow 0\nlower {lower}\nrecords")?;
    for (step, keep) in keeps.iter().enumerate() {
        let price = if step + 1 < keeps.len() { price } else { 0 };
        writeln!(text, "{price} {} 0", u8::from(*keep))?;
    }
    writeln!(text, "end")?;
    std::fs::write(cert, text)?;
    println!("price {price} upper {upper} lower {lower}");
    Ok(())
}
