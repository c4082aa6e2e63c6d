//! Decodes and encodes data packets of 1316 bytes of payload in plain Rust, as a measure for `srt_packet`.

use std::hint::black_box;
use std::time::Instant;

const PACKETS: usize = 64;
const ROUNDS: usize = 100_000;

enum Kind<'a> {
    Data { number: u32, encryption: u8, payload: &'a [u8] },
    Handshake(&'a [u8]),
    KeepAlive,
    Ack(u32, &'a [u8]),
    Nak(&'a [u8]),
    Congestion,
    Shutdown,
    AckAck(u32),
    DropRequest(u32, u32, u32),
    PeerError,
    UserDefined,
}

struct PacketRef<'a> {
    stamp: u32,
    dest: u32,
    kind: Kind<'a>,
}

fn word(bytes: &[u8], at: usize) -> u32 {
    u32::from_be_bytes(bytes[at..at + 4].try_into().unwrap())
}

fn decode(bytes: &[u8]) -> Option<PacketRef<'_>> {
    if bytes.len() < 16 || bytes.len() > 1472 {
        return None;
    }
    let (first, second, rest) = (word(bytes, 0), word(bytes, 4), &bytes[16..]);
    let kind = if first < 1 << 31 {
        if rest.is_empty() {
            return None;
        }
        Kind::Data { number: first, encryption: (second >> 27 & 3) as u8, payload: rest }
    } else {
        match first >> 16 {
            0x8000 => Kind::Handshake(rest),
            0x8001 => Kind::KeepAlive,
            0x8002 if rest.len() >= 4 => Kind::Ack(second, rest),
            0x8003 if rest.len() >= 4 => Kind::Nak(rest),
            0x8004 => Kind::Congestion,
            0x8005 => Kind::Shutdown,
            0x8006 => Kind::AckAck(second),
            0x8007 if rest.len() >= 8 => Kind::DropRequest(second, word(rest, 0), word(rest, 4)),
            0x8008 => Kind::PeerError,
            0xffff => Kind::UserDefined,
            _ => return None,
        }
    };
    Some(PacketRef { stamp: word(bytes, 8), dest: word(bytes, 12), kind })
}

struct Media {
    stamp: u32,
    dest: u32,
    number: u32,
    message: u32,
    again: bool,
    payload: Vec<u8>,
}

fn encode(packet: &Media, out: &mut [u8; 1472]) -> usize {
    let marks = if packet.again { 0xe400_0000 } else { 0xe000_0000u32 };
    out[0..4].copy_from_slice(&packet.number.to_be_bytes());
    out[4..8].copy_from_slice(&(marks + packet.message).to_be_bytes());
    out[8..12].copy_from_slice(&packet.stamp.to_be_bytes());
    out[12..16].copy_from_slice(&packet.dest.to_be_bytes());
    let end = 16 + packet.payload.len();
    out[16..end].copy_from_slice(&packet.payload);
    end
}

fn mix(sum: u32, word: u32) -> u32 {
    sum.wrapping_mul(31).wrapping_add(word)
}

fn weigh(packet: &PacketRef<'_>) -> u32 {
    let of_kind = match &packet.kind {
        Kind::Data { number, encryption, payload } => number ^ u32::from(*encryption) ^ payload.len() as u32,
        Kind::Handshake(rest) | Kind::Nak(rest) => rest.len() as u32,
        Kind::Ack(number, rest) => number ^ rest.len() as u32,
        Kind::AckAck(number) => *number,
        Kind::DropRequest(message, first, last) => message ^ first ^ last,
        Kind::KeepAlive | Kind::Congestion | Kind::Shutdown | Kind::PeerError | Kind::UserDefined => 1,
    };
    of_kind ^ packet.stamp ^ packet.dest
}

fn main() {
    let packets: Vec<Media> = (0..PACKETS as u32)
        .map(|k| Media { stamp: 1000 * k, dest: 2, number: 7 + k, message: 1 + k, again: k % 8 == 0, payload: vec![k as u8; 1316] })
        .collect();
    let mut datagrams = Vec::new();
    for packet in &packets {
        let mut out = [0u8; 1472];
        let end = encode(packet, &mut out);
        datagrams.push(out[..end].to_vec());
    }
    let mut sum = 0;
    let start = Instant::now();
    for _ in 0..ROUNDS {
        for datagram in black_box(&datagrams) {
            sum = mix(sum, decode(datagram).map_or(0, |packet| weigh(&packet)));
        }
    }
    let decoding = start.elapsed().as_micros();
    let mut out = [0u8; 1472];
    let start = Instant::now();
    for _ in 0..ROUNDS {
        for packet in black_box(&packets) {
            encode(packet, &mut out);
            sum = mix(sum, u32::from(out[(sum % 1024) as usize]));
        }
    }
    let encoding = start.elapsed().as_micros();
    println!("{decoding} {encoding} {sum}");
}
