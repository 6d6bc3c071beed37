//! The reader of scripts whose calls have no data, a text, or one octet so many times.

use super::events::{Ask, Op};
use crate::codec::{Data, Name, Octets};
use std::fs::File;
use std::io::{self, Read};

const PIECE: usize = 8192;

pub struct Client {
    pub name: Name,
    pub ops: Vec<Op>,
}

enum Line {
    Skipped,
    Client(Name),
    Call(Op),
}

fn skip_spaces(octets: &[u8]) -> &[u8] {
    &octets[octets.iter().position(|octet| *octet != b' ').unwrap_or(octets.len())..]
}

fn next_word(octets: &[u8]) -> (&[u8], &[u8]) {
    let front = skip_spaces(octets);
    front.split_at(front.iter().position(|octet| *octet == b' ').unwrap_or(front.len()))
}

fn text_in(octets: &[u8]) -> Option<Data> {
    let mut rest = skip_spaces(octets).strip_prefix(b"\"")?;
    let mut text = Vec::with_capacity(rest.len());
    loop {
        let plain = rest.iter().position(|octet| matches!(octet, b'"' | b'\\'))?;
        text.extend_from_slice(&rest[..plain]);
        match &rest[plain..] {
            [b'"', behind @ ..] => return skip_spaces(behind).is_empty().then_some(Data::Octet(text)),
            [_, octet @ (b'"' | b'\\'), behind @ ..] => {
                text.push(*octet);
                rest = behind;
            }
            _ => return None,
        }
    }
}

fn count_in(digits: &[u8]) -> Option<usize> {
    if digits.is_empty() || digits.len() > 5 || (digits.len() > 1 && digits[0] == b'0') {
        return None;
    }
    let mut count = 0;
    for digit in digits {
        count = 10 * count + usize::from(digit.is_ascii_digit().then(|| digit - b'0')?);
    }
    (count <= 70_000).then_some(count)
}

fn half(digit: u8) -> Option<u8> {
    match digit {
        b'0'..=b'9' => Some(digit - b'0'),
        b'a'..=b'f' => Some(digit - b'a' + 10),
        _ => None,
    }
}

fn fill_in(octets: &[u8]) -> Option<Data> {
    let (digits, rest) = next_word(octets);
    let (octet, rest) = next_word(rest);
    let [high, low] = *octet else {
        return None;
    };
    let octet = half(high)? << 4 | half(low)?;
    skip_spaces(rest).is_empty().then_some(Data::Octet(vec![octet; count_in(digits)?]))
}

fn payload_in(octets: &[u8]) -> Option<Data> {
    match next_word(octets) {
        (b"text", rest) => text_in(rest),
        (b"fill", rest) => fill_in(rest),
        (b"none", rest) => skip_spaces(rest).is_empty().then_some(Data::Absent),
        _ => None,
    }
}

fn line_in(line: &[u8]) -> Option<Line> {
    if !line.iter().fold(true, |all, octet| all & (b' '..=b'~').contains(octet)) {
        return None;
    }
    if line.starts_with(b"#") || skip_spaces(line).is_empty() {
        return Some(Line::Skipped);
    }
    let (first, rest) = next_word(line);
    let (second, rest) = next_word(rest);
    match first {
        b"client" if skip_spaces(rest).is_empty() => Some(Line::Client(Name::read(second)?)),
        b"call" if (1..=255).contains(&second.len()) => Some(Line::Call(Op::Call(Ask {
            service: second.to_vec(),
            payload: payload_in(rest)?,
            flags: [false; 5],
            expect: None,
            direction: 0,
        }))),
        _ => None,
    }
}

fn may_begin(clients: &[Client], name: &Name, most: usize) -> bool {
    clients.len() < most && clients.iter().all(|client| client.name.octets() != name.octets())
}

/// The clients of a script that has that many at most.
pub fn script_in(octets: &[u8], most: usize) -> Option<Vec<Client>> {
    let mut clients: Vec<Client> = Vec::new();
    for line in octets.split(|octet| *octet == b'\n') {
        match line_in(line.strip_suffix(b"\r").unwrap_or(line))? {
            Line::Skipped => {}
            Line::Client(name) if may_begin(&clients, &name, most) => clients.push(Client { name, ops: Vec::new() }),
            Line::Client(_) => return None,
            Line::Call(op) => clients.last_mut()?.ops.push(op),
        }
    }
    Some(clients)
}

pub fn read_all(input: &mut File) -> io::Result<Octets> {
    let (mut all, mut piece) = (Vec::new(), [0; PIECE]);
    loop {
        match input.read(&mut piece)? {
            0 => return Ok(all),
            count => all.extend_from_slice(&piece[..count]),
        }
    }
}
