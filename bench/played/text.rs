//! The lines of a transcript.

use super::events::{Answer, Event};
use crate::codec::{Data, Name, Octets};
use std::io::{self, Write};

/// So many octets of a transcript there is room for at first for each event: enough where data has 100 octets.
pub const ROOM: usize = 62;

fn put_hex(out: &mut Octets, octets: &[u8]) {
    const DIGITS: &[u8; 16] = b"0123456789abcdef";
    let at = out.len();
    out.resize(at + 2 * octets.len(), 0);
    for (pair, octet) in out[at..].chunks_exact_mut(2).zip(octets) {
        pair[0] = DIGITS[usize::from(octet >> 4)];
        pair[1] = DIGITS[usize::from(octet & 15)];
    }
}

fn put_data(out: &mut Octets, payload: &Data) -> io::Result<()> {
    match payload {
        Data::Absent => out.write_all(b"none"),
        Data::Octet(octets) if octets.is_empty() => out.write_all(b"octet -"),
        Data::Octet(octets) => {
            out.extend_from_slice(b"octet ");
            put_hex(out, octets);
            Ok(())
        }
        Data::Struct(..) => unreachable!(),
    }
}

fn put_line(out: &mut Octets, client: &Name, op: u32, answer: &Answer) -> io::Result<()> {
    out.extend_from_slice(client.octets());
    write!(out, " {op} ")?;
    match answer {
        Answer::Success(code, payload) => {
            write!(out, "OK {code} ")?;
            put_data(out, payload)?;
        }
        Answer::Failed(code, payload) => {
            write!(out, "TPESVCFAIL {code} ")?;
            put_data(out, payload)?;
        }
        Answer::Error(_) => out.extend_from_slice(b"TPENOENT"),
    }
    out.push(b'\n');
    Ok(())
}

/// The line that the event tells of its client, if it tells one.
pub fn put_told(out: &mut Octets, client: &Name, event: &Event) -> io::Result<()> {
    match event {
        Event::Answer { op, answer, .. } => put_line(out, client, *op, answer),
        Event::Refuse { op, fault, .. } => put_line(out, client, *op, &Answer::Error(*fault)),
        _ => Ok(()),
    }
}
