//! Times this stack's sum, its segments and its worlds, and the same sums and segments in plain Rust.

mod check;
mod fields;
mod plain;
mod proved;
mod timing;

use fields::{Bits, Fields};
use std::hint::black_box;
use timing::{Measurement, time};

/// The octets of a full segment.
const PAYLOAD_LEN: usize = 1460;
const HEADER_LEN: usize = 20;
const SRC: u32 = u32::from_be_bytes([10, 0, 0, 1]);
const DST: u32 = u32::from_be_bytes([10, 0, 0, 2]);

/// The rounds of six steps that make, with the handshake, some 100,000 steps.
const ROUNDS: u64 = 16_665;

fn main() {
    check::same_answers();
    let segment = full_segment();
    let mut measurements = Vec::new();
    measurements.extend(sums(&segment[HEADER_LEN..]));
    measurements.extend(copies(&segment[HEADER_LEN..]));
    measurements.extend(parsings(&segment));
    measurements.extend(emissions(&segment));
    measurements.push(world());
    time(&mut measurements);
    for measurement in &measurements {
        println!("{measurement}");
    }
}

fn sums(octets: &[u8]) -> [Measurement<'_>; 2] {
    let of = |side, sum: fn(&[u8]) -> u16| {
        Measurement::new("sum", side, move || sum(black_box(octets))).of_octets(PAYLOAD_LEN)
    };
    [of("proved", proved::sum), of("Rust", plain::sum)]
}

fn copies(octets: &[u8]) -> [Measurement<'_>; 2] {
    let of = |side, copy_sum: fn(&[u8], &mut [u8]) -> u16| {
        let mut to = vec![0; octets.len()];
        Measurement::new("copy", side, move || {
            copy_sum(black_box(octets), black_box(&mut to))
        })
        .of_octets(PAYLOAD_LEN)
    };
    [
        of("proved", proved::copy_sum),
        of("Rust", plain::copy_sum),
    ]
}

fn parsings(segment: &[u8]) -> [Measurement<'_>; 2] {
    let of = |side, parse: fn(u32, u32, &[u8]) -> Option<Fields>| {
        Measurement::new("parse", side, move || {
            parse(black_box(SRC), black_box(DST), black_box(segment))
        })
        .of_octets(PAYLOAD_LEN)
    };
    [of("proved", proved::parse), of("Rust", plain::parse)]
}

fn emissions(segment: &[u8]) -> [Measurement<'static>; 2] {
    let of = |side, emit: fn(u32, u32, &Fields, &mut [u8]) -> Option<usize>| {
        let mut out = segment.to_vec();
        let fields = data_fields();
        Measurement::new("emit", side, move || {
            emit(
                black_box(SRC),
                black_box(DST),
                black_box(&fields),
                black_box(&mut out),
            )
        })
        .of_octets(PAYLOAD_LEN)
    };
    [of("proved", proved::emit), of("Rust", plain::emit)]
}

fn world() -> Measurement<'static> {
    let tally = proved::world(ROUNDS).expect("there is memory");
    assert_eq!(tally.octets, ROUNDS * PAYLOAD_LEN as u64);
    Measurement::new("world", "proved", || proved::world(black_box(ROUNDS)))
        .of_octets(tally.octets as usize)
        .of_steps(tally.steps as usize)
}

/// The fields of a full segment in the middle of a connection.
fn data_fields() -> Fields {
    Fields {
        number: 0xfedc_ba98,
        acknowledgement: 0x0123_4567,
        source: 49_152,
        destination: 80,
        window: 65_535,
        urgent: 0,
        payload_len: PAYLOAD_LEN as u16,
        bits: Bits {
            psh: true,
            ack: true,
            ..Bits::default()
        },
    }
}

fn full_segment() -> Vec<u8> {
    let mut segment = octets(HEADER_LEN + PAYLOAD_LEN, 1);
    plain::emit(SRC, DST, &data_fields(), &mut segment).expect("the buffer has room");
    segment
}

/// So many arbitrary octets, the same for one seed each time (xorshift, 64 bits).
fn octets(len: usize, seed: u64) -> Vec<u8> {
    let mut state = seed.wrapping_mul(0x9e37_79b9_7f4a_7c15);
    (0..len)
        .map(|_| {
            state ^= state << 13;
            state ^= state >> 7;
            state ^= state << 17;
            (state >> 32) as u8
        })
        .collect()
}
