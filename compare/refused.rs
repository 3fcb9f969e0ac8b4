//! Candidates that an offer declines.

use crate::candidate::Candidate;
use crate::draw::Draw;

/// The number of the first check that declines a candidate, or 0.
pub fn number(candidate: &Candidate) -> u32 {
    let largest = candidate.largest_channel();
    let outside = |end: &u32| *end >= 1 << 24 || end.to_le_bytes().iter().any(|&channel| channel > largest);
    match candidate {
        Candidate { mode, .. } if *mode != 1 && *mode != 3 => 3,
        Candidate { partition, .. } if *partition > 63 => 4,
        Candidate { ends, .. } if ends.iter().any(outside) => 5,
        Candidate { p, free: 0, .. } if *p > candidate.largest_p() => 6,
        _ => 0,
    }
}

/// A candidate in range made one that is declined, for one reason or for several.
pub fn spoiled(draw: &mut Draw, mut candidate: Candidate) -> Candidate {
    let reasons = 1 + draw.below(15);
    if reasons & 1 != 0 {
        candidate.free = 0;
        candidate.p = above(draw, candidate.largest_p());
    }
    if reasons & 2 != 0 {
        let end = draw.below(4) as usize;
        let channel = above(draw, candidate.largest_channel().into()).clamp(0, 255);
        candidate.ends[end] = match draw.below(4) {
            3 => above(draw, (1 << 24) - 1),
            c => candidate.ends[end] & !(255 << (8 * c)) | channel << (8 * c),
        };
    }
    if reasons & 4 != 0 {
        candidate.partition = above(draw, 63);
    }
    if reasons & 8 != 0 {
        candidate.mode = [0, 2, 4, 5, 6, 7, 8, 255, 257, 259, u32::MAX][draw.below(11) as usize];
    }
    candidate
}

/// A number above a limit: the next one, or any, or the largest of all.
fn above(draw: &mut Draw, limit: u32) -> u32 {
    match draw.below(4) {
        0 => u32::MAX,
        1 => limit + 1 + draw.below(u32::MAX - limit),
        2 => limit + 1 + draw.below(limit + 1),
        _ => limit + 1,
    }
}
