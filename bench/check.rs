//! Whether both sides give the same answers, on what is timed and on much else.

use crate::fields::{Bits, Fields};
use crate::{DST, PAYLOAD_LEN, SRC, data_fields, octets, plain, proved};

/// How many segments with arbitrary headers are tried.
const ARBITRARY_SEGMENTS: u64 = 100_000;

/// Stops where the two sides differ.
pub fn same_answers() {
    same_sums();
    for fields in samples() {
        same_segment(&fields);
    }
    for seed in 1..=ARBITRARY_SEGMENTS {
        same_arbitrary(seed);
    }
}

fn same_sums() {
    let octets = octets(PAYLOAD_LEN, 1);
    for len in 0..=octets.len() {
        same_sum(&octets[..len]);
        same_sum(&[0xff; PAYLOAD_LEN][..len]);
    }
}

fn same_sum(octets: &[u8]) {
    let sum = proved::sum(octets);
    assert_eq!(sum, plain::sum(octets));
    let mut copied = vec![0; octets.len()];
    assert_eq!(proved::copy_sum(octets, &mut copied), sum);
    assert_eq!(copied, octets);
}

fn samples() -> [Fields; 4] {
    let data = data_fields();
    let syn = Bits {
        syn: true,
        ..Bits::default()
    };
    let all = Bits {
        fin: true,
        syn: true,
        rst: true,
        psh: true,
        ack: true,
        urg: true,
    };
    [
        data,
        Fields {
            payload_len: 0,
            ..data
        },
        Fields {
            payload_len: 0,
            bits: syn,
            ..data
        },
        Fields {
            payload_len: 7,
            bits: all,
            ..data
        },
    ]
}

/// Emits a segment, parses it, and parses it with each of its octets changed and each of its lengths.
fn same_segment(fields: &Fields) {
    let mut segment = octets(PAYLOAD_LEN + 24, 2);
    let mut other = segment.clone();
    let len = proved::emit(SRC, DST, fields, &mut segment);
    assert_eq!(len, plain::emit(SRC, DST, fields, &mut other));
    assert_eq!(segment, other);
    segment.truncate(len.expect("the buffer has room"));
    assert_eq!(proved::parse(SRC, DST, &segment), Some(*fields));
    assert_eq!(
        proved::emit(SRC, DST, fields, &mut other[..segment.len() - 1]),
        None
    );
    for at in 0..segment.len() {
        segment[at] ^= 0x10;
        same_parse(&segment);
        segment[at] ^= 0x10;
        same_parse(&segment[..at]);
    }
    same_parse(&segment);
}

/// Parses a segment whose header is arbitrary, but for a checksum that is right.
fn same_arbitrary(seed: u64) {
    let mut segment = octets(20 + seed as usize % 44, seed);
    // Kinds and lengths of options that come up often.
    for octet in segment.iter_mut().skip(20) {
        *octet %= 6;
    }
    segment[12] = 0x50 + (segment[12] & 0x3f);
    segment[16..18].fill(0);
    let checksum = !plain::sum_between(SRC, DST, &segment);
    segment[16..18].copy_from_slice(&checksum.to_be_bytes());
    same_parse(&segment);
}

fn same_parse(segment: &[u8]) {
    assert_eq!(
        proved::parse(SRC, DST, segment),
        plain::parse(SRC, DST, segment)
    );
}
