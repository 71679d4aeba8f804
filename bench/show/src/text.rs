//! The line of each message. A `Vec` takes every write.

use crate::digits;
use std::io::Write;

fn hex(bytes: &[u8], out: &mut Vec<u8>) {
    if bytes.is_empty() {
        out.push(b'-');
    } else {
        digits::encode(bytes, out);
    }
}

fn hex_line(bytes: &[u8], out: &mut Vec<u8>) {
    hex(bytes, out);
    out.push(b'\n');
}

pub fn more(count: usize, out: &mut Vec<u8>) {
    let _ = writeln!(out, "more {count}");
}

pub fn bad(layer: &str, name: &str, offset: u32, out: &mut Vec<u8>) {
    let _ = writeln!(out, "bad {layer} {name} {offset}");
}

pub fn devlist(out: &mut Vec<u8>) {
    out.extend_from_slice(b"devlist\n");
}

/// A bus id is printed by its bytes before the first zero.
pub fn busid(head: &str, busid: &[u8], out: &mut Vec<u8>) {
    let end = busid.iter().position(|byte| *byte == 0).unwrap_or(busid.len());
    out.extend_from_slice(head.as_bytes());
    out.push(b' ');
    hex_line(&busid[..end], out);
}

pub fn submit(seqnum: u32, inward: bool, ep: u32, length: u32, setup: &[u8], data: &[u8], out: &mut Vec<u8>) {
    let direction = if inward { "in" } else { "out" };
    let _ = write!(out, "submit {seqnum} {direction} {ep} {length} ");
    digits::encode(setup, out);
    out.push(b' ');
    hex_line(data, out);
}

pub fn unlink(seqnum: u32, target: u32, out: &mut Vec<u8>) {
    let _ = writeln!(out, "unlink {seqnum} {target}");
}

pub fn count(status: u32, devices: u32, out: &mut Vec<u8>) {
    let _ = writeln!(out, "count {status} {devices}");
}

pub fn interface(class: u8, subclass: u8, protocol: u8, out: &mut Vec<u8>) {
    let _ = writeln!(out, "interface {class} {subclass} {protocol}");
}

pub fn no_reply(status: u32, out: &mut Vec<u8>) {
    let _ = writeln!(out, "reply {status} -");
}

pub fn ret_submit(seqnum: u32, status: i32, actual: u32, data: &[u8], out: &mut Vec<u8>) {
    let _ = write!(out, "ret_submit {seqnum} {status} {actual} ");
    hex_line(data, out);
}

pub fn ret_unlink(seqnum: u32, status: i32, out: &mut Vec<u8>) {
    let _ = writeln!(out, "ret_unlink {seqnum} {status}");
}
