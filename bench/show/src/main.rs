//! `show up` and `show down` in plain Rust, to compare `./tmc show` with.

mod digits;
mod message;
mod script;
mod text;

use message::Reader;
use script::{Fault, Line, Phase, Way};
use std::io::{self, Read, Write};
use std::process::ExitCode;

fn main() -> ExitCode {
    let words: Vec<String> = std::env::args().skip(1).collect();
    let way = match words.iter().map(String::as_str).collect::<Vec<_>>()[..] {
        ["show", "up"] => Way::Up,
        ["show", "down"] => Way::Down,
        _ => return print(b"usage\n", 1),
    };
    let mut source = Vec::new();
    if io::stdin().lock().read_to_end(&mut source).is_err() {
        return ExitCode::from(3);
    }
    match shown(way, &source) {
        Ok(text) => print(&text, 0),
        Err((line, fault)) => print(format!("refused line {line} {fault:?}\n").as_bytes(), 2),
    }
}

fn print(text: &[u8], status: u8) -> ExitCode {
    match io::stdout().lock().write_all(text) {
        Ok(()) => ExitCode::from(status),
        Err(_) => ExitCode::from(4),
    }
}

/// What is shown of a script, or its first wrong line.
fn shown(way: Way, source: &[u8]) -> Result<Vec<u8>, (u32, Fault)> {
    let mut lines = script::lines(source).zip(1..);
    let (first, number) = lines.next().ok_or((1, Fault::Unknown))?;
    let phase = Phase::of_line(first).map_err(|fault| (number, fault))?;
    let mut reader = Reader::new(way, phase);
    let mut piece = Vec::new();
    let mut text = Vec::new();
    for (line, number) in lines {
        let at = |fault| (number, fault);
        match script::read(way, number, line, &mut piece).map_err(at)? {
            Line::Adds(seqnum, entry) => reader.add(seqnum, entry).map_err(at)?,
            Line::Bytes => reader.give(&piece, &mut text),
        }
    }
    reader.end(&mut text);
    Ok(text)
}
