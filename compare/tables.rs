//! The tables entry by entry, as the library's blocks show them, beside the Rust's.

use crate::candidate::{pixel, Candidate, Indices};
use crate::ours::{self, Read};
use crate::report::{expect, Report};
use crate::rust;

/// All tables in both modes.
pub fn all(report: &mut Report) {
    for mode in [1, 3] {
        for partition in 0..64 {
            subsets(report, mode, partition);
            anchors(report, mode, partition);
        }
        shown(report, mode);
        palettes(report, mode);
    }
}

/// A block packed and read again.
fn packed_and_read(candidate: &Candidate, indices: &Indices) -> Result<Read, u32> {
    ours::pack(candidate, indices).and_then(|block| ours::read(&block))
}

/// The subset of each pixel: those of subset 1 are brighter.
fn subsets(report: &mut Report, mode: u32, partition: u32) {
    let mut candidate = Candidate::zero(mode, partition);
    candidate.set_end(2, [candidate.largest_channel(); 3]);
    candidate.set_end(3, [candidate.largest_channel(); 3]);
    let read = packed_and_read(&candidate, &[0; 16]);
    let palettes = rust::palettes(&candidate);
    for i in 0..16 {
        let subset = rust::subset(partition, i);
        let equal = read.as_ref().is_ok_and(|read| pixel(&read.pixels, i) == palettes[subset][0]);
        report.add("subset of a pixel", expect(equal, || format!("{candidate} pixel {i}: not in subset {subset}")));
    }
}

/// The anchors: a top index bit at pixel i alone exchanges endpoints where i is one.
fn anchors(report: &mut Report, mode: u32, partition: u32) {
    let candidate = Candidate { ends: [1, 2, 3, 4], ..Candidate::zero(mode, partition) };
    for i in 0..16 {
        let mut indices = [0; 16];
        indices[i] = (candidate.largest_index() + 1) / 2;
        let mut ends = candidate.ends;
        if i == 0 {
            ends.swap(0, 1);
        }
        if i == rust::anchor(partition) {
            ends.swap(2, 3);
        }
        let equal = packed_and_read(&candidate, &indices).is_ok_and(|read| read.candidate.ends == ends);
        report.add("anchor", expect(equal, || format!("{candidate} top bit at pixel {i}: not endpoints {ends:?}")));
    }
}

/// Each stored channel with each p-bit as it is shown, at every endpoint and in every colour.
fn shown(report: &mut Report, mode: u32) {
    for end in 0..4 {
        for c in 0..3 {
            for channel in 0..=Candidate::zero(mode, 0).largest_channel() {
                for p in [false, true] {
                    shown_channel(report, mode, end, c, channel, p);
                }
            }
        }
    }
}

/// A stored channel of an endpoint with its p-bit.
fn shown_channel(report: &mut Report, mode: u32, end: usize, c: usize, channel: u8, p: bool) {
    let mut candidate = Candidate::zero(mode, 0);
    candidate.ends[end] = u32::from(channel) << (8 * c);
    candidate.p = u32::from(p) << if mode == 1 { end / 2 } else { end };
    let index = if end % 2 == 0 { 0 } else { candidate.largest_index() };
    let place = if end < 2 { 0 } else { rust::anchor(0) };
    let byte = rust::shown(mode, channel, p);
    let equal = packed_and_read(&candidate, &[index; 16]).is_ok_and(|read| pixel(&read.pixels, place)[c] == byte);
    report.add("shown channel", expect(equal, || format!("{candidate} endpoint {end}: not shown as {byte}")));
}

/// Each pair of shown channels at each index, one way in red and the other way in green.
fn palettes(report: &mut Report, mode: u32) {
    let mut candidate = Candidate::zero(mode, 0);
    let largest = candidate.largest_channel();
    for a in 0..=largest {
        for b in 0..=largest {
            for p in 0..if mode == 1 { 2 } else { 4 } {
                candidate.set_end(0, [a, b, a]);
                candidate.set_end(1, [b, a, a]);
                candidate.p = p;
                palette(report, &candidate);
            }
        }
    }
}

/// The colours of subset 0, its first pixels having an index each.
fn palette(report: &mut Report, candidate: &Candidate) {
    let [colours, _] = rust::palettes(candidate);
    let places = (0..16).filter(|&i| rust::subset(candidate.partition, i) == 0);
    let mut indices = [0; 16];
    places.clone().zip(0..=candidate.largest_index()).for_each(|(i, index)| indices[i] = index);
    let read = packed_and_read(candidate, &indices);
    for (i, colour) in places.zip(colours) {
        let equal = read.as_ref().is_ok_and(|read| pixel(&read.pixels, i) == colour);
        report.add("palette colour", expect(equal, || format!("{candidate} index {}: not {colour:?}", indices[i])));
    }
}
