//! What bounds is measured beside: the same reading of a webcache or an oracleGeneral trace in plain Rust, with std alone.
//!
//! `reading FORM FILE` parses each line of `webcache`, or each record of `oracle`. `reading FORM FILE objects` also numbers
//! the objects, by the HashMap of std with its own hasher, and keeps the object of each request and its previous and next
//! request.
mod lines;
mod webcache;

use lines::each_line;
use std::collections::HashMap;
use std::error::Error;
use std::fs::File;
use std::io::Read;
use webcache::parse;

const NONE: u32 = u32::MAX;

const RECORD: usize = 24;

#[derive(Default)]
struct Objects {
    numbers: HashMap<(u64, u64), u32>,
    latest: Vec<u32>,
    object: Vec<u32>,
    previous: Vec<u32>,
    next: Vec<u32>,
}

impl Objects {
    fn push(&mut self, id: u64, size: u64) {
        let (request, unused) = (self.object.len() as u32, self.latest.len() as u32);
        let object = *self.numbers.entry((id, size)).or_insert(unused);
        if object == unused {
            self.latest.push(NONE);
        }
        let previous = std::mem::replace(&mut self.latest[object as usize], request);
        if previous != NONE {
            self.next[previous as usize] = request;
        }
        self.object.push(object);
        self.previous.push(previous);
        self.next.push(NONE);
    }
}

// Gives the id and the size of each record.
fn each_record(path: &str, mut take: impl FnMut(u64, u64)) -> Result<(), Box<dyn Error>> {
    let mut file = File::open(path)?;
    let mut buffer = vec![0; RECORD * 2730];
    let mut len = 0;
    loop {
        let read = file.read(&mut buffer[len..])?;
        len += read;
        let whole = len - len % RECORD;
        for record in buffer[..whole].chunks_exact(RECORD) {
            let id = u64::from_le_bytes(record[4..12].try_into()?);
            let size = u32::from_le_bytes(record[12..16].try_into()?);
            take(id, u64::from(size));
        }
        buffer.copy_within(whole..len, 0);
        len -= whole;
        if read == 0 {
            return if len == 0 { Ok(()) } else { Err("a part of a record".into()) };
        }
    }
}

fn main() -> Result<(), Box<dyn Error>> {
    let words: Vec<String> = std::env::args().collect();
    let [_, form, path, ..] = &words[..] else {
        return Err("reading FORM FILE [objects]".into());
    };
    let mut objects = words.get(3).map(|_| Objects::default());
    let (mut requests, mut dropped, mut checksum) = (0_u64, 0_u64, 0_u64);
    let mut take = |id: u64, size: u64| {
        checksum = checksum.wrapping_add(id).wrapping_add(size);
        if size == 0 {
            dropped += 1;
            return;
        }
        requests += 1;
        if let Some(objects) = &mut objects {
            objects.push(id, size);
        }
    };
    if form == "oracle" {
        each_record(path, take)?;
    } else {
        each_line(path, |text| {
            if let Some((id, size)) = parse(text)? {
                take(id, size);
            }
            Some(())
        })?;
    }
    println!("requests {requests} dropped {dropped} checksum {checksum}");
    if let Some(objects) = objects {
        let intervals = objects.next.iter().filter(|next| **next != NONE).count();
        println!("objects {} intervals {intervals}", objects.latest.len());
    }
    Ok(())
}
