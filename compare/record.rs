//! Writes a sample of the Rust's answers to standard output: 256 groups of 1028 bytes.
//!
//! A group has 48 bytes of pixels, 16 entries and the block (16) and error (4, lowest byte first) that choosing over the sixteen
//! candidates in order ends with. An entry has 60 bytes: the candidate (16: mode, partition, red, green and blue of four endpoints,
//! p-bits, and 0 for fixed or 1 for free), the finished block (16) and its error (4), sixteen indices of four bits (8, pixel 0 in the
//! low half of the first byte), and the block (16) that packing makes of the candidate's fields and these indices. Entry k of group g
//! is in cell (16 * g + k) mod 256.

mod candidate;
mod draw;
mod rust;

use candidate::{nibbles, Candidate, Finished};
use std::io::{self, Write};

/// The generator's seed.
const SEED: u64 = 7;

/// The bytes of a candidate.
fn candidate_bytes(candidate: &Candidate) -> Vec<u8> {
    let channels = candidate.ends.iter().flat_map(|end| end.to_le_bytes().into_iter().take(3));
    let first = [candidate.mode as u8, candidate.partition as u8];
    first.into_iter().chain(channels).chain([candidate.p as u8, candidate.free as u8]).collect()
}

/// The bytes of a block and its error.
fn finished_bytes(finished: &Finished) -> Vec<u8> {
    [&finished.block[..], &finished.error.to_le_bytes()].concat()
}

/// The bytes of a group.
fn group(draw: &mut draw::Draw, g: u32) -> Vec<u8> {
    let cells: Vec<u32> = (0..16).map(|k| (16 * g + k) % 256).collect();
    let (pixels, candidates) = draw.case(&cells);
    let finished: Vec<Finished> = candidates.iter().map(|candidate| rust::finish(&pixels, candidate)).collect();
    let mut bytes = pixels.to_vec();
    for (candidate, finished) in candidates.iter().zip(&finished) {
        let indices = draw.indices(candidate);
        bytes.extend(candidate_bytes(candidate));
        bytes.extend(finished_bytes(finished));
        bytes.extend(nibbles(&indices).to_le_bytes());
        bytes.extend(rust::pack(candidate, &indices));
    }
    bytes.extend(finished_bytes(&rust::choose(finished.into_iter())));
    bytes
}

/// Writes all groups.
fn main() -> io::Result<()> {
    let mut draw = draw::Draw(SEED);
    (0..256).try_for_each(|g| io::stdout().write_all(&group(&mut draw, g)))
}
