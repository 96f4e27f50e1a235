//! The rounds of a refinement: blocks of steps are solved one after another, with the prices outside of them fixed.
use super::{Arc, Counts, first_prices, settle, settle_level, value};
use std::time::Instant;

/// One price on every step but the last: the least of those that make the bound least.
pub fn constant_prices(steps: usize, units: u64, arcs: &[Arc]) -> Vec<u128> {
    let at = |price: u128| {
        let mut prices = vec![price; steps];
        prices[steps - 1] = 0;
        prices
    };
    let (mut low, mut high) = (0, 1 << 49);
    while low < high {
        let middle = (low + high) / 2;
        if value(units, arcs, &at(middle)) <= value(units, arcs, &at(middle + 1)) {
            high = middle;
        } else {
            low = middle + 1;
        }
    }
    at(low)
}

// Least prices, from nothing.
pub fn solved(steps: usize, units: u64, arcs: &mut [Arc], counts: &mut Counts) -> Vec<u128> {
    let mut prices = first_prices(steps, units, arcs);
    let mut width = 1024.max(steps / 64);
    while width <= steps / 2 {
        settle_level(width, units, arcs, &mut prices, counts);
        width *= 4;
    }
    if steps >= 2048 {
        settle_level(steps / 3 + 1, units, arcs, &mut prices, counts);
    }
    settle(units, arcs, &mut prices, counts);
    prices
}

// The arcs that meet the steps from `first` to before `past`, cut to them, at the prices outside.
fn parts(arcs: &[Arc], open: &[u32], sums: &[u128], first: usize, past: usize) -> Vec<Arc> {
    let part = |number: &u32| {
        let arc = arcs[*number as usize];
        let (start, end) = ((arc.start as usize).max(first), (arc.end as usize).min(past));
        let outside = sums[start] - sums[arc.start as usize] + sums[arc.end as usize] - sums[end];
        let cost = arc.cost.saturating_sub(outside);
        let (start, end) = ((start - first) as u32, (end - first) as u32);
        (cost > 0).then_some(Arc { start, end, cost, ..arc })
    };
    open.iter().filter_map(part).collect()
}

// One round over the blocks of a width. Better prices of a block take the place of those that stand.
fn round(width: usize, units: u64, arcs: &[Arc], prices: &mut [u128]) {
    let last = prices.len() - 1;
    let mut sums: Vec<u128> = std::iter::once(0).chain(prices.iter().scan(0, |sum, price| {
        *sum += price;
        Some(*sum)
    })).collect();
    let (mut open, mut next, mut first): (Vec<u32>, usize, usize) = (Vec::new(), 0, 0);
    let mut past = (width / 2).min(last);
    while first < last {
        open.retain(|number| arcs[*number as usize].end as usize > first);
        while next < arcs.len() && (arcs[next].start as usize) < past {
            open.push(next as u32);
            next += 1;
        }
        let mut cut = parts(arcs, &open, &sums, first, past);
        let found = solved(past - first, units, &mut cut, &mut Counts::default());
        if value(units, &cut, &found) < value(units, &cut, &prices[first..past]) {
            prices[first..past].copy_from_slice(&found);
        }
        let behind = sums[past];
        for step in first..past {
            sums[step + 1] = sums[step] + prices[step];
        }
        let moved = sums[past].wrapping_sub(behind);
        for sum in &mut sums[past + 1..] {
            *sum = sum.wrapping_add(moved);
        }
        (first, past) = (past, (past + width).min(last));
    }
}

/// Prints after each round how long all took and by how much of it the bound is above the least one.
pub fn print_rounds(width: usize, rounds: usize, units: u64, arcs: &[Arc], least: u128) {
    let steps = arcs.iter().map(|arc| arc.end as usize + 1).max().unwrap_or(1);
    let mut prices = constant_prices(steps, units, arcs);
    let above = |prices: &[u128]| 100.0 * (value(units, arcs, prices) as f64 / least as f64 - 1.0);
    println!("one price: {:.4}% above", above(&prices));
    let began = Instant::now();
    for number in 1..=rounds {
        round(width, units, arcs, &mut prices);
        println!("round {number}: {:.2} s, {:.4}% above", began.elapsed().as_secs_f64(), above(&prices));
    }
}
