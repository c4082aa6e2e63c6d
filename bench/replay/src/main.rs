//! Answers a tape of inductions in plain Rust, as a measure for `srtgw replay`.

mod sha256;

use std::io::{self, BufWriter, Write};

fn unhex(text: &[u8], into: &mut [u8]) -> Option<usize> {
    let digit = |b: u8| match b {
        b'0'..=b'9' => Some(b - b'0'),
        b'a'..=b'f' => Some(b - b'a' + 10),
        b'A'..=b'F' => Some(b - b'A' + 10),
        _ => None,
    };
    if text.len() % 2 != 0 || text.len() / 2 > into.len() {
        return None;
    }
    for (byte, pair) in into.iter_mut().zip(text.chunks_exact(2)) {
        *byte = digit(pair[0])? << 4 | digit(pair[1])?;
    }
    Some(text.len() / 2)
}

fn number(text: &[u8]) -> Option<u64> {
    std::str::from_utf8(text).ok()?.parse().ok()
}

fn word(bytes: &[u8], at: usize) -> u32 {
    u32::from_be_bytes(bytes[at..at + 4].try_into().unwrap())
}

/// The answer to a line that is a well-formed induction; None for every other line.
fn answer(secret: &[u8; 32], line: &[u8]) -> Option<[u8; 64]> {
    let mut fields = line.split(|b| *b == b' ');
    if fields.next()? != b"A" {
        return None;
    }
    let moment = number(fields.next()?)?;
    let mut ip = [0u8; 16];
    unhex(fields.next()?, &mut ip)?;
    let port = u16::try_from(number(fields.next()?)?).ok()?;
    let mut datagram = [0u8; 2048];
    let len = unhex(fields.next()?, &mut datagram)?;
    let bytes = &datagram[..len];
    if len < 64 || word(bytes, 0) >> 16 != 0x8000 || word(bytes, 12) != 0 || word(bytes, 36) != 1 {
        return None;
    }
    let mut hashed = [0u8; 58];
    hashed[..32].copy_from_slice(secret);
    hashed[32..48].copy_from_slice(&ip);
    hashed[48..50].copy_from_slice(&port.to_be_bytes());
    hashed[50..58].copy_from_slice(&(moment / 60_000_000).to_be_bytes());
    let front = word(&sha256::digest(&hashed), 0);
    let cookie = if front == 0 { 1 } else { front };
    let words = [0x8000_0000, 0, 0, word(bytes, 40), 5, 0x4a17, word(bytes, 24), 1500, 8192, 1, 1, cookie];
    let mut out = [0u8; 64];
    for (into, word) in out.chunks_exact_mut(4).zip(words) {
        into.copy_from_slice(&word.to_be_bytes());
    }
    Some(out)
}

fn main() -> io::Result<()> {
    let path = std::env::args().nth(1).expect("a tape");
    let tape = std::fs::read(path)?;
    let mut secret = [0u8; 32];
    for (i, byte) in secret.iter_mut().enumerate() {
        *byte = i as u8;
    }
    let mut out = BufWriter::new(io::stdout().lock());
    let mut text = [0u8; 136];
    for line in tape.split(|b| *b == b'\n').filter(|line| !line.is_empty()) {
        let bytes = answer(&secret, line).expect("an induction");
        text[..7].copy_from_slice(b"answer ");
        for (pair, byte) in text[7..135].chunks_exact_mut(2).zip(bytes) {
            pair[0] = b"0123456789abcdef"[usize::from(byte >> 4)];
            pair[1] = b"0123456789abcdef"[usize::from(byte & 15)];
        }
        text[135] = b'\n';
        out.write_all(&text)?;
    }
    out.flush()
}
