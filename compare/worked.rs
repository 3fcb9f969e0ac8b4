//! The blocks worked by hand that are finished, P1 to P7 and one of three different channels: both sides give the same bytes.

use crate::candidate::{Block, Candidate, Colour, Finished};
use crate::ours;
use crate::report::{expect, Report};
use crate::rust;

/// The colour of every pixel, mode, whether p-bits are free, p-bits, endpoints, and the block's first bytes and error.
type Row = (Colour, u32, u32, u32, [Colour; 4], &'static [u8], u32);

const ZERO: Colour = [0; 3];

const ROWS: [Row; 8] = [
    ([0; 3], 1, 0, 0, [ZERO; 4], &[0x02], 0),
    ([0; 3], 3, 0, 0, [ZERO; 4], &[0x08], 0),
    ([255; 3], 1, 0, 0, [ZERO; 4], &[0x02], 3121200),
    ([0; 3], 1, 0, 0, [[63; 3], ZERO, ZERO, ZERO], &[0x02, 0xc0, 0x0f, 0, 0xc0, 0x0f, 0, 0xc0, 0x0f], 0),
    ([0; 3], 3, 0, 1, [[127; 3], ZERO, ZERO, ZERO], &[0x08, 0, 0xfe, 0, 0, 0xe0, 0x0f, 0, 0, 0xfe, 0, 0x80], 0),
    ([2; 3], 1, 1, 0, [ZERO; 4], &[0x02, 0, 0, 0, 0, 0, 0, 0, 0, 0, 0x03], 0),
    ([1; 3], 1, 1, 0, [ZERO; 4], &[0x02], 48),
    ([2, 4, 8], 3, 0, 0, [[1, 2, 4]; 4], &[0x08, 0x04, 0x02, 0x81, 0x80, 0x40, 0x20, 0x10, 0x10, 0x08, 0x04, 0x02], 0),
];

/// Every row, on both sides.
pub fn all(report: &mut Report) {
    for (colour, mode, free, p, ends, first, error) in ROWS {
        let mut candidate = Candidate { free, p, ..Candidate::zero(mode, 0) };
        ends.into_iter().enumerate().for_each(|(k, end)| candidate.set_end(k, end));
        let pixels = std::array::from_fn(|i| colour[i % 3]);
        let mut block: Block = [0; 16];
        block[..first.len()].copy_from_slice(first);
        let equal = rust::finish(&pixels, &candidate) == Finished { block, error }
            && ours::finish(&pixels, &candidate) == Ok(Finished { block, error });
        report.add("worked by hand", expect(equal, || format!("{candidate} colour {colour:?}")));
    }
}
