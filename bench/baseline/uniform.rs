//! What bounds in mode flow is measured beside where all arcs cost the same: the same rule in plain Rust, with std's heap.
//!
//! `uniform TRACE CAPACITY` reads a webcache trace and solves the instance of its eligible intervals in one window, where a
//! unit of each interval earns one: blocks of one size, or any sizes with the objective `bytes`. Where more is over a step
//! than fits, the interval that ends last loses flow, Belady 1966; then prices are chosen from the last step to the first. It
//! prints the seconds of that alone, the value of the prices and what the flows earn, in units.
mod lines;
mod webcache;

use lines::each_line;
use std::collections::{BinaryHeap, HashMap};
use std::error::Error;
use std::time::Instant;
use webcache::parse;

struct Arc {
    start: usize,
    end: u32,
    weight: u64,
}

struct Solution {
    prices: Vec<u128>,
    flows: Vec<u64>,
}

fn gcd(a: u64, b: u64) -> u64 {
    if b == 0 {
        a
    } else {
        gcd(b, a % b)
    }
}

// How many steps there are, the bytes of a unit, and the arcs in order of start.
fn read(path: &str, capacity: u64) -> Result<(usize, u64, Vec<Arc>), Box<dyn Error>> {
    let (mut latest, mut arcs, mut requests) = (HashMap::new(), Vec::new(), 0);
    each_line(path, |text| {
        if let Some((id, weight)) = parse(text)?.filter(|request| request.1 > 0) {
            if let Some(start) = latest.insert((id, weight), requests) {
                if weight <= capacity {
                    let end = requests as u32;
                    arcs.push(Arc { start, end, weight });
                }
            }
            requests += 1;
        }
        Some(())
    })?;
    arcs.sort_unstable_by_key(|arc| arc.start);
    let unit = arcs.iter().fold(0, |unit, arc| gcd(arc.weight, unit)).max(1);
    for arc in &mut arcs {
        arc.weight /= unit;
    }
    Ok((requests, unit, arcs))
}

// The flows, and for each step the least end of the arcs that lost flow there, or 0.
fn play(steps: usize, units: u128, arcs: &[Arc]) -> (Vec<u64>, Vec<u32>) {
    let mut flows = vec![0; arcs.len()];
    let mut leaving = vec![0_u128; steps + 1];
    let mut cuts = vec![0; steps];
    let mut waiting = BinaryHeap::new();
    let (mut load, mut next) = (0_u128, 0);
    for step in 0..steps {
        load -= leaving[step];
        while let Some(arc) = arcs.get(next).filter(|arc| arc.start == step) {
            flows[next] = arc.weight;
            leaving[arc.end as usize] += u128::from(arc.weight);
            load += u128::from(arc.weight);
            waiting.push((arc.end, next as u32));
            next += 1;
        }
        while load > units {
            let Some(&(end, number)) = waiting.peek() else {
                break;
            };
            let flow = &mut flows[number as usize];
            let amount = (load - units).min(u128::from(*flow));
            *flow -= amount as u64;
            leaving[end as usize] -= amount;
            load -= amount;
            cuts[step] = end;
            if *flow == 0 {
                waiting.pop();
            }
        }
    }
    (flows, cuts)
}

fn choose(cuts: &[u32]) -> Vec<u128> {
    let mut prices = vec![0; cuts.len()];
    let mut next = cuts.len();
    for step in (0..cuts.len()).rev() {
        if cuts[step] > 0 && cuts[step] as usize <= next {
            prices[step] = 1;
            next = step;
        }
    }
    prices
}

// The units at the prices, and what the arcs earn above them.
fn value(units: u128, arcs: &[Arc], prices: &[u128]) -> u128 {
    let mut sums = vec![0; prices.len() + 1];
    for (step, price) in prices.iter().enumerate() {
        sums[step + 1] = sums[step] + price;
    }
    let surplus = arcs.iter().map(|arc| {
        let price = sums[arc.end as usize] - sums[arc.start];
        u128::from(arc.weight) * 1_u128.saturating_sub(price)
    });
    units * sums[prices.len()] + surplus.sum::<u128>()
}

fn main() -> Result<(), Box<dyn Error>> {
    let words: Vec<String> = std::env::args().collect();
    let path = words.get(1).ok_or("uniform TRACE CAPACITY")?;
    let capacity = words.get(2).ok_or("no capacity")?.parse()?;
    let (steps, unit, arcs) = read(path, capacity)?;
    let units = u128::from(capacity / unit);
    let start = Instant::now();
    let (flows, cuts) = play(steps, units, &arcs);
    let solution = Solution {
        prices: choose(&cuts),
        flows,
    };
    let seconds = start.elapsed().as_secs_f64();
    println!(
        "{seconds:.3} s for {} arcs, prices worth {} and flows {} units of {unit} bytes",
        arcs.len(),
        value(units, &arcs, &solution.prices),
        solution.flows.iter().map(|flow| u128::from(*flow)).sum::<u128>(),
    );
    Ok(())
}
