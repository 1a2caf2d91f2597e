//! The same work in plain Rust, with no proof: sums, and a segment of TCP both ways (RFC 9293 section 3.1).

use crate::fields::{Bits, Fields};

const FIXED_LEN: usize = 20;
const END_OF_OPTIONS: u8 = 0;
const NO_OPERATION: u8 = 1;
const MAXIMUM_SEGMENT_SIZE: u8 = 2;
const MSS: u16 = 1460;
const TCP: u32 = 6;

/// The one's complement sum of `octets`, an odd last one padded with zero.
#[inline(never)]
pub fn sum(octets: &[u8]) -> u16 {
    folded(words(octets))
}

/// Copies `from` to `to`, which has as many octets, and answers the one's complement sum of what was copied.
#[inline(never)]
pub fn copy_sum(from: &[u8], to: &mut [u8]) -> u16 {
    to.copy_from_slice(from);
    sum(from)
}

/// What a segment from `src` for `dst` says, where it is well-formed.
#[inline(never)]
pub fn parse(src: u32, dst: u32, segment: &[u8]) -> Option<Fields> {
    let fields = form(segment)?;
    (sum_between(src, dst, segment) == u16::MAX).then_some(fields)
}

/// Writes a header before the payload, which stands in `out` already, and answers the length of the segment, where `out` has room.
#[inline(never)]
pub fn emit(src: u32, dst: u32, fields: &Fields, out: &mut [u8]) -> Option<usize> {
    let header_len = if fields.bits.syn { 24 } else { 20 };
    let len = header_len + usize::from(fields.payload_len);
    if len > usize::from(u16::MAX) {
        return None;
    }
    let segment = out.get_mut(..len)?;
    write_header(fields, segment);
    let checksum = !sum_between(src, dst, segment);
    segment[16..18].copy_from_slice(&checksum.to_be_bytes());
    Some(len)
}

/// The words of at most 65,535 octets, which 32 bits hold.
fn words(octets: &[u8]) -> u32 {
    let (words, rest) = octets.as_chunks::<2>();
    let last = rest.first().map_or(0, |last| u32::from(*last) << 8);
    words
        .iter()
        .map(|word| u32::from(u16::from_be_bytes(*word)))
        .sum::<u32>()
        + last
}

fn folded(mut total: u32) -> u16 {
    while total > 0xffff {
        total = (total & 0xffff) + (total >> 16);
    }
    total as u16
}

/// The sum of a segment behind its pseudo header.
pub fn sum_between(src: u32, dst: u32, segment: &[u8]) -> u16 {
    let addresses = words(&src.to_be_bytes()) + words(&dst.to_be_bytes());
    folded(addresses + TCP + segment.len() as u32 + words(segment))
}

/// What the header says, whatever its checksum is.
fn form(segment: &[u8]) -> Option<Fields> {
    if segment.len() < FIXED_LEN || segment.len() > usize::from(u16::MAX) {
        return None;
    }
    let header_len = 4 * usize::from(segment[12] >> 4);
    let options = segment.get(FIXED_LEN..header_len)?;
    if !are_options(options) {
        return None;
    }
    Some(Fields {
        number: u32_at(segment, 4),
        acknowledgement: u32_at(segment, 8),
        source: u16_at(segment, 0),
        destination: u16_at(segment, 2),
        window: u16_at(segment, 14),
        urgent: u16_at(segment, 18),
        payload_len: (segment.len() - header_len) as u16,
        bits: bits_of(segment[13]),
    })
}

fn are_options(mut options: &[u8]) -> bool {
    while let [kind, tail @ ..] = options {
        let behind = match (*kind, tail) {
            (END_OF_OPTIONS, _) => return true,
            (NO_OPERATION, _) => Some(tail),
            (MAXIMUM_SEGMENT_SIZE, [4, _, _, rest @ ..]) => Some(rest),
            (MAXIMUM_SEGMENT_SIZE, _) | (_, []) => None,
            (_, [len, rest @ ..]) => usize::from(*len)
                .checked_sub(2)
                .and_then(|body| rest.get(body..)),
        };
        let Some(behind) = behind else {
            return false;
        };
        options = behind;
    }
    true
}

fn write_header(fields: &Fields, segment: &mut [u8]) {
    segment[0..2].copy_from_slice(&fields.source.to_be_bytes());
    segment[2..4].copy_from_slice(&fields.destination.to_be_bytes());
    segment[4..8].copy_from_slice(&fields.number.to_be_bytes());
    segment[8..12].copy_from_slice(&fields.acknowledgement.to_be_bytes());
    segment[12] = if fields.bits.syn { 0x60 } else { 0x50 };
    segment[13] = octet_of(fields.bits);
    segment[14..16].copy_from_slice(&fields.window.to_be_bytes());
    segment[16..20].fill(0);
    if fields.bits.syn {
        let [high, low] = MSS.to_be_bytes();
        segment[20..24].copy_from_slice(&[MAXIMUM_SEGMENT_SIZE, 4, high, low]);
    }
}

fn bits_of(octet: u8) -> Bits {
    Bits {
        fin: octet & 0x01 != 0,
        syn: octet & 0x02 != 0,
        rst: octet & 0x04 != 0,
        psh: octet & 0x08 != 0,
        ack: octet & 0x10 != 0,
        urg: octet & 0x20 != 0,
    }
}

fn octet_of(bits: Bits) -> u8 {
    u8::from(bits.fin)
        | u8::from(bits.syn) << 1
        | u8::from(bits.rst) << 2
        | u8::from(bits.psh) << 3
        | u8::from(bits.ack) << 4
        | u8::from(bits.urg) << 5
}

fn u16_at(segment: &[u8], at: usize) -> u16 {
    u16::from_be_bytes([segment[at], segment[at + 1]])
}

fn u32_at(segment: &[u8], at: usize) -> u32 {
    u32::from(u16_at(segment, at)) << 16 | u32::from(u16_at(segment, at + 2))
}
