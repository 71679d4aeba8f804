//! The lines of a script.

use crate::digits;
use crate::message::{Entry, SUBMIT_MAX};
use std::io::BufRead;

const LINES_MOST: u32 = 65_536;
const LINE_MOST: usize = 16_384;

/// Whose bytes a script has: what a client sends goes up, what a device sends comes down.
#[derive(Clone, Copy, PartialEq, Eq)]
pub enum Way {
    Up,
    Down,
}

/// What is wrong with a line.
#[derive(Debug)]
pub enum Fault {
    Unknown,
    Words,
    Number,
    Hex,
    TooLong,
    TooMany,
    Twice,
}

#[derive(Clone, Copy)]
pub enum Phase {
    Op,
    Urb,
}

/// What a line behind the first says.
pub enum Line {
    Adds(u32, Entry),
    /// A piece, which stands in the buffer.
    Bytes,
}

/// The lines of a source, each without its NL, which the last may lack.
pub fn lines(source: &[u8]) -> impl Iterator<Item = &[u8]> {
    let mut rest = source;
    std::iter::from_fn(move || {
        let all = rest;
        // A slice cannot fail, and std looks for the NL by words.
        let used = rest.skip_until(b'\n').ok()?;
        let line = &all[..used];
        (used > 0).then(|| line.strip_suffix(b"\n").unwrap_or(line))
    })
}

impl Phase {
    pub fn of_line(line: &[u8]) -> Result<Phase, Fault> {
        if line.len() > LINE_MOST {
            return Err(Fault::TooLong);
        }
        let mut words = words(line);
        match (words.next(), words.next(), words.next()) {
            (Some(b"phase"), Some(b"op"), None) => Ok(Phase::Op),
            (Some(b"phase"), Some(b"urb"), None) => Ok(Phase::Urb),
            (Some(b"phase"), ..) => Err(Fault::Words),
            _ => Err(Fault::Unknown),
        }
    }
}

/// What a line behind the first says.
pub fn read(way: Way, number: u32, line: &[u8], piece: &mut Vec<u8>) -> Result<Line, Fault> {
    if number > LINES_MOST {
        return Err(Fault::TooMany);
    }
    if line.len() > LINE_MOST {
        return Err(Fault::TooLong);
    }
    let mut words = words(line);
    match (way, words.next().unwrap_or(&[])) {
        (_, b"bytes") => {
            let [word] = exactly(words)?;
            if word == b"-" {
                piece.clear();
            } else if word.is_empty() || !digits::decode(word, piece) {
                return Err(Fault::Hex);
            }
            Ok(Line::Bytes)
        }
        (Way::Down, b"submit") => {
            let [seqnum, direction, length] = exactly(words)?;
            let inward = match direction {
                b"in" => true,
                b"out" => false,
                _ => return Err(Fault::Words),
            };
            let seqnum = number_of(seqnum)?;
            let length = number_of(length)?;
            if length > SUBMIT_MAX {
                return Err(Fault::Number);
            }
            Ok(Line::Adds(seqnum, Entry::Submit { inward, length }))
        }
        (Way::Down, b"unlink") => {
            let [seqnum] = exactly(words)?;
            Ok(Line::Adds(number_of(seqnum)?, Entry::Unlink))
        }
        _ => Err(Fault::Unknown),
    }
}

fn words(line: &[u8]) -> impl Iterator<Item = &[u8]> {
    line.split(|byte| *byte == b' ')
}

fn exactly<'a, const N: usize>(mut words: impl Iterator<Item = &'a [u8]>) -> Result<[&'a [u8]; N], Fault> {
    let mut all = [&[][..]; N];
    for place in &mut all {
        *place = words.next().ok_or(Fault::Words)?;
    }
    match words.next() {
        None => Ok(all),
        Some(_) => Err(Fault::Words),
    }
}

/// A decimal number without sign or leading zero.
fn number_of(word: &[u8]) -> Result<u32, Fault> {
    match word {
        [b'0'] | [b'1'..=b'9', ..] => std::str::from_utf8(word)
            .ok()
            .and_then(|text| text.parse().ok())
            .ok_or(Fault::Number),
        _ => Err(Fault::Number),
    }
}
