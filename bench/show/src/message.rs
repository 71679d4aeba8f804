//! USB/IP messages, read from pieces.

use crate::script::{Fault, Phase, Way};
use crate::text;

pub const SUBMIT_MAX: u32 = 70_000;
const DEVID: u32 = 0x0001_0002;
const DIRS_MAX: usize = 16;
const VERSION: u16 = 0x0111;
const HEADER: usize = 48;

/// What is outstanding.
#[derive(Clone, Copy)]
pub enum Entry {
    Submit { inward: bool, length: u32 },
    Unlink,
}

/// What is read now.
#[derive(Clone, Copy)]
enum Stream {
    Requests,
    Urbs,
    Parts { devices: u32, interfaces: u8 },
    Answers,
}

/// Why no message is whole.
enum Stop {
    More,
    /// The layer, the name and the offset of a field.
    Bad(&'static str, &'static str, u32),
}

/// A stream, as far as it was read.
pub struct Reader {
    stream: Stream,
    entries: Vec<(u32, Entry)>,
    held: Vec<u8>,
    bad: bool,
}

impl Reader {
    pub fn new(way: Way, phase: Phase) -> Reader {
        let stream = match (way, phase) {
            (Way::Up, Phase::Op) => Stream::Requests,
            (Way::Up, Phase::Urb) => Stream::Urbs,
            (Way::Down, Phase::Op) => Stream::Parts { devices: 0, interfaces: 0 },
            (Way::Down, Phase::Urb) => Stream::Answers,
        };
        Reader { stream, entries: Vec::with_capacity(DIRS_MAX), held: Vec::new(), bad: false }
    }

    pub fn add(&mut self, seqnum: u32, entry: Entry) -> Result<(), Fault> {
        if self.entries.iter().any(|(other, _)| *other == seqnum) {
            return Err(Fault::Twice);
        }
        if self.entries.len() == DIRS_MAX {
            return Err(Fault::TooMany);
        }
        self.entries.push((seqnum, entry));
        Ok(())
    }

    /// Reads a piece, and prints the messages that it completes.
    pub fn give(&mut self, piece: &[u8], out: &mut Vec<u8>) {
        if self.bad {
            return;
        }
        if self.held.is_empty() {
            let used = self.read_all(piece, out);
            self.held.extend_from_slice(&piece[used..]);
        } else {
            let mut held = std::mem::take(&mut self.held);
            held.extend_from_slice(piece);
            let used = self.read_all(&held, out);
            held.drain(..used);
            self.held = held;
        }
    }

    pub fn end(&self, out: &mut Vec<u8>) {
        if !self.bad {
            text::more(self.held.len(), out);
        }
    }

    /// Prints the messages at the front, and gives the number of their bytes.
    fn read_all(&mut self, bytes: &[u8], out: &mut Vec<u8>) -> usize {
        let mut at = 0;
        loop {
            match self.read(&bytes[at..], out) {
                Ok(used) => at += used,
                Err(Stop::More) => return at,
                Err(Stop::Bad(layer, name, offset)) => {
                    text::bad(layer, name, offset, out);
                    self.bad = true;
                    return bytes.len();
                }
            }
        }
    }

    /// Prints the message at the front, and gives its length.
    fn read(&mut self, bytes: &[u8], out: &mut Vec<u8>) -> Result<usize, Stop> {
        match self.stream {
            Stream::Requests => read_request(bytes, out),
            Stream::Urbs => read_urb(bytes, out),
            Stream::Parts { devices, interfaces } => {
                let (used, stream) = read_part(devices, interfaces, bytes, out)?;
                self.stream = stream;
                Ok(used)
            }
            Stream::Answers => self.read_answer(bytes, out),
        }
    }

    fn read_answer(&mut self, bytes: &[u8], out: &mut Vec<u8>) -> Result<usize, Stop> {
        let command = be32(bytes, 0)?;
        if command != 3 && command != 4 {
            return Err(Stop::Bad("urb", "command", 0));
        }
        let seqnum = be32(bytes, 4)?;
        let place = self.entries.iter().position(|(other, _)| *other == seqnum);
        let used = match place.map(|place| self.entries[place].1) {
            Some(Entry::Submit { inward, length }) if command == 3 => {
                let actual = be32(bytes, 24)?;
                if actual > length {
                    return Err(Stop::Bad("urb", "actual_length", 24));
                }
                judge_packets(bytes)?;
                let used = HEADER + if inward { actual as usize } else { 0 };
                let data = bytes.get(HEADER..used).ok_or(Stop::More)?;
                text::ret_submit(seqnum, be32(bytes, 20)? as i32, actual, data, out);
                used
            }
            Some(Entry::Unlink) if command == 4 => {
                whole(bytes, HEADER)?;
                text::ret_unlink(seqnum, be32(bytes, 20)? as i32, out);
                HEADER
            }
            _ => return Err(Stop::Bad("urb", "seqnum", 4)),
        };
        self.entries.retain(|(other, _)| *other != seqnum);
        Ok(used)
    }
}

fn read_request(bytes: &[u8], out: &mut Vec<u8>) -> Result<usize, Stop> {
    if be16(bytes, 0)? != VERSION {
        return Err(Stop::Bad("op", "version", 0));
    }
    match be16(bytes, 2)? {
        0x8005 => {
            whole(bytes, 8)?;
            text::devlist(out);
            Ok(8)
        }
        0x8003 => {
            let busid = bytes.get(8..40).ok_or(Stop::More)?;
            text::busid("import", busid, out);
            Ok(40)
        }
        _ => Err(Stop::Bad("op", "code", 2)),
    }
}

fn read_urb(bytes: &[u8], out: &mut Vec<u8>) -> Result<usize, Stop> {
    let command = be32(bytes, 0)?;
    if command != 1 && command != 2 {
        return Err(Stop::Bad("urb", "command", 0));
    }
    if be32(bytes, 8)? != DEVID {
        return Err(Stop::Bad("urb", "devid", 8));
    }
    let seqnum = be32(bytes, 4)?;
    if command == 2 {
        whole(bytes, HEADER)?;
        text::unlink(seqnum, be32(bytes, 20)?, out);
        return Ok(HEADER);
    }
    let direction = be32(bytes, 12)?;
    if direction > 1 {
        return Err(Stop::Bad("urb", "direction", 12));
    }
    let ep = be32(bytes, 16)?;
    if ep > 15 {
        return Err(Stop::Bad("urb", "endpoint", 16));
    }
    let length = be32(bytes, 24)?;
    if length > SUBMIT_MAX {
        return Err(Stop::Bad("urb", "buffer_length", 24));
    }
    judge_packets(bytes)?;
    let used = HEADER + if direction == 0 { length as usize } else { 0 };
    let data = bytes.get(HEADER..used).ok_or(Stop::More)?;
    text::submit(seqnum, direction == 1, ep, length, &bytes[40..HEADER], data, out);
    Ok(used)
}

/// One part of the answers to operations, and what is awaited behind it.
fn read_part(devices: u32, interfaces: u8, bytes: &[u8], out: &mut Vec<u8>) -> Result<(usize, Stream), Stop> {
    if interfaces > 0 {
        whole(bytes, 4)?;
        text::interface(bytes[0], bytes[1], bytes[2], out);
        return Ok((4, Stream::Parts { devices, interfaces: interfaces - 1 }));
    }
    if devices > 0 {
        whole(bytes, 312)?;
        text::busid("device", &bytes[256..288], out);
        return Ok((312, Stream::Parts { devices: devices - 1, interfaces: bytes[311] }));
    }
    if be16(bytes, 0)? != VERSION {
        return Err(Stop::Bad("op", "version", 0));
    }
    let code = be16(bytes, 2)?;
    let none = Stream::Parts { devices: 0, interfaces: 0 };
    match code {
        5 => {
            let status = be32(bytes, 4)?;
            let devices = be32(bytes, 8)?;
            text::count(status, devices, out);
            Ok((12, Stream::Parts { devices, interfaces: 0 }))
        }
        3 => match be32(bytes, 4)? {
            0 => {
                whole(bytes, 320)?;
                text::busid("reply 0", &bytes[264..296], out);
                Ok((320, none))
            }
            status => {
                text::no_reply(status, out);
                Ok((8, none))
            }
        },
        _ => Err(Stop::Bad("op", "code", 2)),
    }
}

fn judge_packets(bytes: &[u8]) -> Result<(), Stop> {
    match be32(bytes, 32)? {
        0 | 0xffff_ffff => Ok(()),
        _ => Err(Stop::Bad("urb", "packets", 32)),
    }
}

fn whole(bytes: &[u8], size: usize) -> Result<(), Stop> {
    if bytes.len() < size { Err(Stop::More) } else { Ok(()) }
}

fn be16(bytes: &[u8], at: usize) -> Result<u16, Stop> {
    let field = bytes.get(at..at + 2).ok_or(Stop::More)?;
    Ok(u16::from_be_bytes([field[0], field[1]]))
}

fn be32(bytes: &[u8], at: usize) -> Result<u32, Stop> {
    let field = bytes.get(at..at + 4).ok_or(Stop::More)?;
    Ok(u32::from_be_bytes([field[0], field[1], field[2], field[3]]))
}
