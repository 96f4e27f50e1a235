//! What check is measured beside: one pass over a webcache trace and a certificate of it in plain Rust, with std alone.
//!
//! `checking TRACE CERT` reads the two side by side, finds the objects by the HashMap of std with its own hasher, keeps
//! an entry an object, and prints the sums that a check compares. It compares none of them.
// It reads the lines of two files in turn, and so not by each_line.
#[allow(dead_code)]
mod lines;
mod webcache;

use lines::{find, without_cr, Pieces};
use std::collections::HashMap;
use std::error::Error;

struct Lines {
    pieces: Pieces,
    start: usize,
}

impl Lines {
    fn open(path: &str) -> Result<Self, Box<dyn Error>> {
        let pieces = Pieces::open(path)?;
        Ok(Lines { pieces, start: 0 })
    }

    // The text of the next line; none at the end.
    fn next_text(&mut self) -> Result<Option<&[u8]>, Box<dyn Error>> {
        if self.start == self.pieces.lines().len() {
            self.pieces.read_on()?;
            self.start = 0;
        }
        let rest = &self.pieces.lines()[self.start..];
        Ok(find(b'\n', rest).map(|end| {
            self.start += end + 1;
            &rest[..end]
        }))
    }

    // The id and the size of the next request.
    fn next_request(&mut self) -> Result<Option<(u64, u64)>, Box<dyn Error>> {
        while let Some(text) = self.next_text()? {
            match webcache::parse(without_cr(text)).ok_or("a line of the trace is refused")? {
                Some((_, 0)) | None => {}
                request => return Ok(request),
            }
        }
        Ok(None)
    }

    // What follows that word and a space on the next line.
    fn value(&mut self, name: &str) -> Result<&str, Box<dyn Error>> {
        let text = std::str::from_utf8(self.next_text()?.ok_or("the header ends early")?)?;
        let rest = text.strip_prefix(name).and_then(|it| it.strip_prefix(' '));
        rest.ok_or_else(|| format!("no {name}").into())
    }
}

fn digit(byte: &u8) -> Option<u8> {
    Some(byte.wrapping_sub(b'0')).filter(|digit| *digit < 10)
}

// A number without a leading zero. One of 19 digits is below 2^64.
fn number(word: &[u8]) -> Option<u128> {
    if word.is_empty() || word.len() > 1 && word[0] == b'0' {
        return None;
    }
    if word.len() < 20 {
        let value = word.iter().try_fold(0_u64, |value, byte| {
            Some(value * 10 + u64::from(digit(byte)?))
        });
        return value.map(u128::from);
    }
    word.iter().try_fold(0_u128, |value, byte| {
        value.checked_mul(10)?.checked_add(u128::from(digit(byte)?))
    })
}

struct Header {
    is_bytes: bool,
    capacity: u64,
    requests: u64,
    unit: u64,
    denominator: u128,
}

impl Header {
    // The eleven lines up to the records.
    fn read(cert: &mut Lines) -> Result<Self, Box<dyn Error>> {
        cert.value("cache-bound-certificate")?;
        let header = Header {
            is_bytes: cert.value("objective")? == "bytes",
            capacity: cert.value("capacity")?.parse()?,
            requests: cert.value("requests")?.parse()?,
            unit: cert.value("unit")?.parse()?,
            denominator: cert.value("denominator")?.parse()?,
        };
        for name in ["form", "upper", "flow", "lower"] {
            cert.value(name)?;
        }
        cert.next_text()?;
        Ok(header)
    }
}

struct Record {
    price: u128,
    keep: bool,
    flow: u64,
}

impl Record {
    fn parse(text: &[u8]) -> Option<Self> {
        let mut words = text.split(|byte| *byte == b' ');
        let price = number(words.next()?)?;
        let keep = match words.next()? {
            b"0" => false,
            b"1" => true,
            _ => return None,
        };
        let flow = u64::try_from(number(words.next()?)?).ok()?;
        let record = Record { price, keep, flow };
        words.next().is_none().then_some(record)
    }
}

// Of the latest request of an object; `before` are the prices before its step.
struct Latest {
    before: u128,
    keep: bool,
    flow: u64,
}

#[derive(Default)]
struct Sums {
    latest: HashMap<(u64, u64), Latest>,
    prices: u128,
    surplus: u128,
    value: u128,
    score: u128,
    load: u128,
    flows: u128,
    most_load: u128,
    most_flows: u128,
}

impl Sums {
    fn step(&mut self, header: &Header, (id, size): (u64, u64), record: &Record) {
        let latest = Latest {
            before: self.prices,
            keep: record.keep,
            flow: record.flow,
        };
        if let Some(ended) = self.latest.insert((id, size), latest) {
            self.end_interval(header, size, &ended);
        }
        self.prices += record.price;
        self.load += if record.keep { u128::from(size) } else { 0 };
        self.flows += u128::from(record.flow);
        self.most_load = self.most_load.max(self.load);
        self.most_flows = self.most_flows.max(self.flows);
    }

    fn end_interval(&mut self, header: &Header, size: u64, ended: &Latest) {
        let gain = if header.is_bytes { u128::from(size) } else { 1 };
        if size <= header.capacity {
            let weight = u128::from(size / header.unit);
            let worth = header.denominator * gain;
            self.surplus += worth.saturating_sub(weight * (self.prices - ended.before));
            self.value += worth / weight * u128::from(ended.flow);
        }
        if ended.keep {
            self.score += gain;
            self.load -= u128::from(size);
        }
        self.flows -= u128::from(ended.flow);
    }
}

fn main() -> Result<(), Box<dyn Error>> {
    let words: Vec<String> = std::env::args().skip(1).collect();
    let [trace, cert] = &words[..] else {
        return Err("checking TRACE CERT".into());
    };
    let (mut trace, mut cert) = (Lines::open(trace)?, Lines::open(cert)?);
    let header = Header::read(&mut cert)?;
    let mut sums = Sums::default();
    let mut requests = 0;
    while let Some(request) = trace.next_request()? {
        let text = cert.next_text()?.ok_or("the records end early")?;
        let record = Record::parse(text).ok_or("a record is refused")?;
        sums.step(&header, request, &record);
        requests += 1;
    }
    if requests != header.requests || cert.next_text()? != Some(b"end") {
        return Err("the records don't end with the trace".into());
    }
    let units = u128::from(header.capacity / header.unit);
    println!("upper {}", units * sums.prices + sums.surplus);
    println!("flow {}", sums.value);
    println!("lower {}", sums.score);
    println!("objects {}", sums.latest.len());
    println!("loads {} {}", sums.most_load, sums.most_flows);
    Ok(())
}
