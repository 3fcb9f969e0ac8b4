//! What both sides are handed and what they give: pixels, candidates, indices, blocks and errors.

use std::fmt::{self, Display, Formatter};

pub type Colour = [u8; 3];
pub type Pixels = [u8; 48];
pub type Indices = [u8; 16];
pub type Block = [u8; 16];

/// A block and its error.
#[derive(Clone, Copy, Debug, PartialEq, Eq)]
pub struct Finished {
    pub block: Block,
    pub error: u32,
}

/// A candidate with the numbers of the C interface: an endpoint is red + 256 * green + 65536 * blue, and p-bits are free unless `free`
/// is 0.
#[derive(Clone, Copy, PartialEq, Eq)]
pub struct Candidate {
    pub mode: u32,
    pub partition: u32,
    pub ends: [u32; 4],
    pub p: u32,
    pub free: u32,
}

impl Candidate {
    /// The candidate with fixed p-bits that has all else zero.
    pub fn zero(mode: u32, partition: u32) -> Self {
        Candidate { mode, partition, ends: [0; 4], p: 0, free: 0 }
    }

    /// The candidate of a cell that has all else zero: bit 0 of the cell tells mode 3 from mode 1, bits 1 to 6 are the partition, and
    /// bit 7 says that p-bits are free.
    pub fn of_cell(cell: u32) -> Self {
        Candidate { free: cell >> 7 & 1, ..Candidate::zero(if cell & 1 == 0 { 1 } else { 3 }, cell >> 1 & 63) }
    }

    /// The stored bits of a channel.
    pub fn channel_bits(&self) -> u32 {
        if self.mode == 1 { 6 } else { 7 }
    }

    /// The largest stored channel.
    pub fn largest_channel(&self) -> u8 {
        (1 << self.channel_bits()) - 1
    }

    /// The largest p-bits.
    pub fn largest_p(&self) -> u32 {
        if self.mode == 1 { 3 } else { 15 }
    }

    /// The largest index.
    pub fn largest_index(&self) -> u8 {
        if self.mode == 1 { 7 } else { 3 }
    }

    /// Sets the channels of an endpoint.
    pub fn set_end(&mut self, end: usize, [r, g, b]: Colour) {
        self.ends[end] = u32::from_le_bytes([r, g, b, 0]);
    }
}

impl Display for Candidate {
    /// All of a candidate, the endpoints in hexadecimal as blue, green, red.
    fn fmt(&self, f: &mut Formatter) -> fmt::Result {
        let [e0, e1, e2, e3] = self.ends;
        write!(f, "mode {} partition {} ends {e0:06x} {e1:06x} {e2:06x} {e3:06x} ", self.mode, self.partition)?;
        write!(f, "p {} free {}", self.p, self.free)
    }
}

impl Display for Finished {
    /// The block's bytes and the error.
    fn fmt(&self, f: &mut Formatter) -> fmt::Result {
        write!(f, "{} error {}", hex(&self.block), self.error)
    }
}

/// Bytes in hexadecimal.
pub fn hex(bytes: &[u8]) -> String {
    bytes.iter().map(|byte| format!("{byte:02x}")).collect()
}

/// Sixteen indices of four bits each, that of pixel 0 lowest.
pub fn nibbles(indices: &Indices) -> u64 {
    indices.iter().rev().fold(0, |all, &index| all << 4 | u64::from(index))
}

/// Pixel i of sixteen.
pub fn pixel(pixels: &Pixels, i: usize) -> Colour {
    [pixels[3 * i], pixels[3 * i + 1], pixels[3 * i + 2]]
}
