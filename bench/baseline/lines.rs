//! The lines of a file, read in pieces, for the programs beside this file.
use std::error::Error;
use std::fs::File;
use std::io::Read;

const PIECE: usize = 65_536;
const MOST_TEXT: usize = 65_535;

extern "C" {
    fn memchr(bytes: *const u8, byte: i32, len: usize) -> *const u8;
}

/// The place of the first such byte, by the C library's search. `iter().position` was slower; a search by words of 8
/// bytes was as fast on short lines and slower on long ones.
pub fn find(byte: u8, bytes: &[u8]) -> Option<usize> {
    // SAFETY: the pointer and the length are of one slice, and what is found lies in it.
    let found = unsafe { memchr(bytes.as_ptr(), i32::from(byte), bytes.len()) };
    (!found.is_null()).then(|| found as usize - bytes.as_ptr() as usize)
}

pub fn is_gap(byte: &u8) -> bool {
    *byte == b' ' || *byte == b'\t'
}

/// A CR at the end is no part of a text.
pub fn without_cr(text: &[u8]) -> &[u8] {
    text.strip_suffix(b"\r").unwrap_or(text)
}

/// What is answered where a line is refused.
pub fn bad_line(line: u64) -> Box<dyn Error> {
    format!("bad line {line}").into()
}

/// A file in pieces of whole lines.
pub struct Pieces {
    file: File,
    // Whole lines, and then the front of the next one, up to `len`.
    buffer: Vec<u8>,
    whole: usize,
    len: usize,
}

impl Pieces {
    pub fn open(path: &str) -> Result<Self, Box<dyn Error>> {
        Ok(Pieces {
            file: File::open(path)?,
            buffer: vec![0; 2 * PIECE],
            whole: 0,
            len: 0,
        })
    }

    /// The lines at hand, each with its LF; none before the first `read_on` and at the end.
    pub fn lines(&self) -> &[u8] {
        &self.buffer[..self.whole]
    }

    /// Leaves the lines at hand and reads until there is one. The last line may lack its LF.
    pub fn read_on(&mut self) -> Result<(), Box<dyn Error>> {
        self.buffer.copy_within(self.whole..self.len, 0);
        self.len -= self.whole;
        self.whole = 0;
        while self.whole == 0 {
            let start = self.len;
            if start > MOST_TEXT {
                return Err("a line is too long".into());
            }
            let read = self.file.read(&mut self.buffer[start..start + PIECE])?;
            self.len += read;
            if read == 0 {
                if start > 0 {
                    self.buffer[start] = b'\n';
                    self.len += 1;
                }
                self.whole = self.len;
                return Ok(());
            }
            let new = &self.buffer[start..self.len];
            let last = new.iter().rposition(|byte| *byte == b'\n');
            self.whole = last.map_or(0, |last| start + last + 1);
        }
        Ok(())
    }
}

/// Gives the text of each line, up to the first that is refused. A CR at its end is dropped.
pub fn each_line(
    path: &str,
    mut take: impl FnMut(&[u8]) -> Option<()>,
) -> Result<(), Box<dyn Error>> {
    let mut pieces = Pieces::open(path)?;
    let mut number = 0_u64;
    loop {
        pieces.read_on()?;
        let lines = pieces.lines();
        if lines.is_empty() {
            return Ok(());
        }
        let mut start = 0;
        while let Some(end) = find(b'\n', &lines[start..]) {
            number += 1;
            let text = &lines[start..start + end];
            let fits = text.len() <= MOST_TEXT;
            fits.then(|| take(without_cr(text)))
                .flatten()
                .ok_or_else(|| bad_line(number))?;
            start += end + 1;
        }
    }
}
