//! What a sweep is measured beside: the bounds of one pass in plain Rust, with std alone.
//!
//! `sweeping TRACE CAPACITY..` reads a webcache trace, keeps the last request of each object in a HashMap of std, whose hasher
//! is two multiplications, sums up areas in one table a capacity, and prints what `bound_cli sweep` prints.
mod lines;
mod webcache;

use lines::each_line;
use std::collections::HashMap;
use std::error::Error;
use std::hash::{BuildHasherDefault, Hasher};
use webcache::parse;

/// How many classes areas have, and lengths.
const AREAS: usize = 143_360;
const LENGTHS: usize = 45_056;

#[derive(Default)]
struct Mixed(u64);

impl Hasher for Mixed {
    fn finish(&self) -> u64 {
        self.0 ^ (self.0 >> 29)
    }

    fn write(&mut self, bytes: &[u8]) {
        for byte in bytes {
            self.write_u64(u64::from(*byte));
        }
    }

    fn write_u64(&mut self, word: u64) {
        self.0 = (self.0 ^ word).wrapping_mul(0x9E37_79B9_7F4A_7C15).rotate_left(32);
    }
}

/// The place of the greatest number of at most 12 binary digits that is not above this one, among all such.
fn class_of(number: u128) -> usize {
    if number < 4096 {
        return number as usize;
    }
    let zeros = number.ilog2() - 11;
    (zeros as usize) * 2048 + (number >> zeros) as usize
}

/// The number at a place.
fn short_at(class: usize) -> u128 {
    if class < 4096 {
        return class as u128;
    }
    let zeros = class / 2048 - 1;
    ((class - zeros * 2048) as u128) << zeros
}

/// What hits gain and the areas that they take, by class.
#[derive(Clone)]
struct Sums(Vec<(u128, u128)>);

impl Sums {
    fn add(&mut self, class: usize, gain: u128, area: u128) {
        let sum = &mut self.0[class];
        sum.0 += gain;
        sum.1 += area;
    }

    fn join(&mut self, other: &Sums) {
        for (sum, more) in self.0.iter_mut().zip(&other.0) {
            sum.0 += more.0;
            sum.1 += more.1;
        }
    }

    /// The least floor over the edges, with its edge and numerator.
    fn least(&self, area: u128) -> (u128, u128, u128) {
        let all: u128 = self.0.iter().map(|sum| sum.0).sum();
        let (mut best, mut gains, mut areas) = ((all, 1, all), 0, 0);
        for (class, sum) in self.0.iter().enumerate().filter(|(_, sum)| sum.0 > 0) {
            for at in [class, class + 1] {
                let edge = short_at(at);
                if edge > 1 {
                    let upper = area + edge * gains - areas;
                    best = best.min((upper / edge, edge, upper));
                }
                if at == class {
                    gains += sum.0;
                    areas += sum.1;
                }
            }
        }
        best
    }
}

fn main() -> Result<(), Box<dyn Error>> {
    let words: Vec<String> = std::env::args().skip(1).collect();
    let capacities = words[1..].iter().map(|word| word.parse()).collect::<Result<Vec<u64>, _>>()?;
    let mut hits = vec![Sums(vec![(0, 0); AREAS]); capacities.len()];
    let mut bytes = vec![Sums(vec![(0, 0); LENGTHS]); capacities.len()];
    let mut latest: HashMap<(u64, u64), u32, BuildHasherDefault<Mixed>> = HashMap::default();
    let (mut requests, mut dropped) = (0_u32, 0_u64);
    each_line(&words[0], |text| {
        if let Some((id, size)) = parse(text)? {
            if size == 0 {
                dropped += 1;
                return Some(());
            }
            if let Some(last) = latest.insert((id, size), requests) {
                let place = capacities.partition_point(|capacity| *capacity < size);
                if place < capacities.len() {
                    let length = u128::from(requests - last);
                    let area = u128::from(size) * length;
                    hits[place].add(class_of(area), 1, area);
                    bytes[place].add(class_of(length), u128::from(size), area);
                }
            }
            requests += 1;
        }
        Some(())
    })?;
    println!("trace requests {requests} objects {} dropped {dropped}", latest.len());
    println!("sweep capacities {} policies 0", capacities.len());
    for place in 0..capacities.len() {
        if place > 0 {
            let (before, now) = hits.split_at_mut(place);
            now[0].join(&before[place - 1]);
            let (before, now) = bytes.split_at_mut(place);
            now[0].join(&before[place - 1]);
        }
        let area = u128::from(capacities[place]) * u128::from(requests.saturating_sub(1));
        for (word, sums) in [("object", &hits[place]), ("bytes", &bytes[place])] {
            let (floor, edge, upper) = sums.least(area);
            println!("capacity {} {word} upper {upper}/{edge} floor {floor}", capacities[place]);
        }
    }
    Ok(())
}
