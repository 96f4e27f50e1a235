//! What bounds is measured beside: the same reading of an ARC or MSR trace in plain Rust, with std alone.
//!
//! `blocks arc FILE` and `blocks msr FILE BLOCK` parse each line, number the volumes of an MSR trace by the HashMap of
//! std with its own hasher, and add up the blocks. A line of no blocks is parsed and dropped, its volume not numbered,
//! as bounds does.
mod lines;

use lines::{each_line, find, is_gap};
use std::collections::HashMap;
use std::slice::Iter;

fn is_comma(byte: &u8) -> bool {
    *byte == b','
}

// The number of that first byte and of the rest up to an end, which is taken too.
fn number(first: Option<&u8>, rest: &mut Iter<u8>, is_end: fn(&u8) -> bool) -> Option<u64> {
    let mut byte = *first.filter(|byte| !is_end(byte))?;
    let mut value = 0_u64;
    loop {
        let digit = byte.wrapping_sub(b'0');
        if digit > 9 {
            return None;
        }
        value = value.checked_mul(10)?.checked_add(u64::from(digit))?;
        match rest.next() {
            Some(next) if !is_end(next) => byte = *next,
            _ => return Some(value),
        }
    }
}

fn number_after_gap(bytes: &mut Iter<u8>) -> Option<u64> {
    number(bytes.find(|byte| !is_gap(byte)), bytes, is_gap)
}

fn number_to_comma(bytes: &mut Iter<u8>) -> Option<u64> {
    number(bytes.next(), bytes, is_comma)
}

// The comma is taken too.
fn word_to_comma<'a>(bytes: &mut Iter<'a, u8>) -> Option<&'a [u8]> {
    let rest = bytes.as_slice();
    let end = bytes.position(is_comma)?;
    Some(&rest[..end])
}

enum Line<'a> {
    Skipped,
    Dropped,
    // The host and the disk of MSR, the first block and the last.
    Blocks(Option<(&'a [u8], u64)>, u64, u64),
}

// Nothing where the line is refused.
fn parse_arc(text: &[u8]) -> Option<Line<'_>> {
    let mut bytes = text.iter();
    let (first, count) = (number_after_gap(&mut bytes)?, number_after_gap(&mut bytes)?);
    if count == 0 {
        return Some(Line::Dropped);
    }
    let last = first.checked_add(count - 1)?;
    Some(Line::Blocks(None, first, last))
}

fn parse_msr(text: &[u8], block: u64) -> Option<Line<'_>> {
    if find(b'"', text).is_some() {
        return None;
    }
    let mut bytes = text[find(b',', text)? + 1..].iter();
    let host = word_to_comma(&mut bytes)?;
    let disk = number_to_comma(&mut bytes)?;
    let kind = word_to_comma(&mut bytes)?;
    if !kind.eq_ignore_ascii_case(b"read") && !kind.eq_ignore_ascii_case(b"write") {
        return None;
    }
    let (offset, size) = (number_to_comma(&mut bytes)?, number_to_comma(&mut bytes)?);
    if size == 0 {
        return Some(Line::Dropped);
    }
    let last = offset.checked_add(size - 1)? / block;
    Some(Line::Blocks(Some((host, disk)), offset / block, last))
}

// By the form: the block of MSR, or none for ARC.
fn parse(text: &[u8], block: Option<u64>) -> Option<Line<'_>> {
    if text.iter().all(is_gap) {
        return Some(Line::Skipped);
    }
    match block {
        None => parse_arc(text),
        Some(block) => parse_msr(text, block),
    }
}

// A key is the host and then the 8 bytes of the disk. It is put together in the one buffer, and copied where it is new.
#[derive(Default)]
struct Volumes {
    numbers: HashMap<Vec<u8>, u64>,
    key: Vec<u8>,
}

impl Volumes {
    fn number(&mut self, host: &[u8], disk: u64) -> u64 {
        self.key.clear();
        self.key.extend_from_slice(host);
        self.key.extend_from_slice(&disk.to_le_bytes());
        if let Some(volume) = self.numbers.get(&self.key) {
            return *volume;
        }
        let volume = self.numbers.len() as u64;
        self.numbers.insert(self.key.clone(), volume);
        volume
    }
}

fn main() -> Result<(), Box<dyn std::error::Error>> {
    let words: Vec<String> = std::env::args().skip(1).collect();
    let words: Vec<&str> = words.iter().map(String::as_str).collect();
    let (path, block) = match words[..] {
        ["arc", path] => (path, None),
        ["msr", path, block] => (path, Some(block.parse::<std::num::NonZeroU64>()?.get())),
        _ => return Err("blocks arc FILE, or blocks msr FILE BLOCK".into()),
    };
    let mut volumes = Volumes::default();
    let (mut requests, mut dropped, mut checksum) = (0_u64, 0_u64, 0_u64);
    each_line(path, |text| {
        match parse(text, block)? {
            Line::Skipped => {}
            Line::Dropped => dropped += 1,
            Line::Blocks(volume, first, last) => {
                let volume = volume.map_or(0, |(host, disk)| volumes.number(host, disk));
                for block in first..=last {
                    requests += 1;
                    checksum = checksum.wrapping_mul(31).wrapping_add(block ^ volume);
                }
            }
        }
        Some(())
    })?;
    let volumes = volumes.numbers.len();
    println!("requests {requests} dropped {dropped} checksum {checksum} volumes {volumes}");
    Ok(())
}
