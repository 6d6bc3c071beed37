//! What `frames` of crates/xa_reads does, with a codec written by hand. No word copies, `read` and `octets` count.
use std::io::{self, Read, Write};

// Of the codec `append` serves bench/play.rs alone.
#[allow(dead_code)]
mod codec;

use codec::{Octets, Reader, encode};

fn count(reader: &mut Reader) -> Result<u64, ()> {
    let mut frames = 0;
    while reader.next()?.is_some() {
        frames += 1;
    }
    Ok(frames)
}

fn copy(reader: &mut Reader, out: &mut Octets) -> Result<u64, ()> {
    let mut frames = 0;
    while let Some(frame) = reader.next()? {
        out.extend_from_slice(&encode(&frame));
        frames += 1;
    }
    Ok(frames)
}

fn main() -> Result<(), ()> {
    let word = std::env::args().nth(1);
    let (mut input, mut output) = (io::stdin().lock(), io::stdout());
    let mut reader = Reader::default();
    let mut piece = vec![0; 65_536];
    let mut out = Vec::new();
    let mut frames = 0;
    loop {
        let n = input.read(&mut piece).map_err(|_| ())?;
        if n == 0 {
            break;
        }
        if word.as_deref() == Some("octets") {
            for octet in &piece[..n] {
                reader.feed(&[*octet]);
                frames += count(&mut reader)?;
            }
            continue;
        }
        reader.feed(&piece[..n]);
        frames += if word.is_none() { copy(&mut reader, &mut out)? } else { count(&mut reader)? };
        output.write_all(&out).map_err(|_| ())?;
        out.clear();
    }
    if !reader.is_empty() {
        return Err(());
    }
    if word.is_some() {
        println!("{frames}");
    }
    Ok(())
}
