//! The calls of libbc7_c.a as include/bc7.h declares them. An error is the refusal's number.

use crate::candidate::{nibbles, Block, Candidate, Finished, Indices, Pixels};

mod c {
    extern "C" {
        pub fn bc7_pack(
            mode: u32, partition: u32, e0: u32, e1: u32, e2: u32, e3: u32, p: u32, indices: u64, block: *mut u8, block_len: usize,
        ) -> u32;
        pub fn bc7_finish(
            pixels: *const u8, pixels_len: usize, mode: u32, partition: u32, e0: u32, e1: u32, e2: u32, e3: u32, p: u32, free: u32,
            block: *mut u8, block_len: usize,
        ) -> u64;
        pub fn bc7_start(pixels: *const u8, pixels_len: usize, chooser: *mut u8, chooser_len: usize) -> u32;
        pub fn bc7_offer(
            chooser: *mut u8, chooser_len: usize, mode: u32, partition: u32, e0: u32, e1: u32, e2: u32, e3: u32, p: u32, free: u32,
        ) -> u32;
        pub fn bc7_take(chooser: *const u8, chooser_len: usize, block: *mut u8, block_len: usize) -> u64;
        pub fn bc7_read(
            block: *const u8, block_len: usize, pixels: *mut u8, pixels_len: usize, fields: *mut u8, fields_len: usize,
        ) -> u32;
        pub fn bc7_measure(block: *const u8, block_len: usize, pixels: *const u8, pixels_len: usize) -> u64;
    }
}

/// What a part holds before a call is to write it.
pub const UNWRITTEN: u8 = 0xa5;

/// What stands behind an answer that declines nothing.
fn granted<T>(refusal: u32, value: T) -> Result<T, u32> {
    if refusal == 0 { Ok(value) } else { Err(refusal) }
}

/// The error in an answer of 64 bits.
fn error(answer: u64) -> Result<u32, u32> {
    granted((answer >> 32) as u32, answer as u32)
}

/// Packs a candidate, whose p-bits are taken as fixed, with indices below 16.
pub fn pack(candidate: &Candidate, indices: &Indices) -> Result<Block, u32> {
    let mut block = [UNWRITTEN; 16];
    let refusal = pack_into(candidate, nibbles(indices), &mut block);
    granted(refusal, block)
}

/// Packs a candidate with indices of four bits each into a block, and gives the refusal's number.
pub fn pack_into(candidate: &Candidate, indices: u64, block: &mut Block) -> u32 {
    let Candidate { mode, partition, ends: [e0, e1, e2, e3], p, .. } = *candidate;
    unsafe { c::bc7_pack(mode, partition, e0, e1, e2, e3, p, indices, block.as_mut_ptr(), block.len()) }
}

/// Finishes a candidate over pixels.
pub fn finish(pixels: &Pixels, candidate: &Candidate) -> Result<Finished, u32> {
    let mut block = [UNWRITTEN; 16];
    let answer = finish_into(pixels, candidate, &mut block);
    error(answer).map(|error| Finished { block, error })
}

/// Finishes a candidate over pixels into a block, and gives the answer of 64 bits.
pub fn finish_into(pixels: &Pixels, candidate: &Candidate, block: &mut Block) -> u64 {
    let Candidate { mode, partition, ends: [e0, e1, e2, e3], p, free } = *candidate;
    let (from, to) = (pixels.as_ptr(), block.as_mut_ptr());
    unsafe { c::bc7_finish(from, pixels.len(), mode, partition, e0, e1, e2, e3, p, free, to, block.len()) }
}

/// A chooser's bytes: pixels, the block held and its error.
#[derive(Clone, Copy, PartialEq, Eq)]
pub struct Chooser(pub [u8; 68]);

impl Chooser {
    /// Starts a chooser over pixels.
    pub fn start(pixels: &Pixels) -> Result<Self, u32> {
        let mut bytes = [UNWRITTEN; 68];
        let refusal = unsafe { c::bc7_start(pixels.as_ptr(), pixels.len(), bytes.as_mut_ptr(), bytes.len()) };
        granted(refusal, Chooser(bytes))
    }

    /// Offers a candidate and gives the refusal's number, 0 where it is accepted.
    pub fn offer(&mut self, candidate: &Candidate) -> u32 {
        let Candidate { mode, partition, ends: [e0, e1, e2, e3], p, free } = *candidate;
        unsafe { c::bc7_offer(self.0.as_mut_ptr(), self.0.len(), mode, partition, e0, e1, e2, e3, p, free) }
    }

    /// Takes the block held and its error.
    pub fn take(&self) -> Result<Finished, u32> {
        let mut block = [UNWRITTEN; 16];
        let answer = unsafe { c::bc7_take(self.0.as_ptr(), self.0.len(), block.as_mut_ptr(), block.len()) };
        error(answer).map(|error| Finished { block, error })
    }
}

/// What reading a block gives: its fields, with the p-bits as fixed ones, and its pixels.
pub struct Read {
    pub candidate: Candidate,
    pub indices: Indices,
    pub pixels: Pixels,
}

/// Reads a block.
pub fn read(block: &Block) -> Result<Read, u32> {
    let mut pixels = [UNWRITTEN; 48];
    let mut fields = [UNWRITTEN; 31];
    let (from, to) = (block.as_ptr(), pixels.as_mut_ptr());
    let refusal = unsafe { c::bc7_read(from, block.len(), to, pixels.len(), fields.as_mut_ptr(), fields.len()) };
    let end = |k: usize| u32::from_le_bytes([fields[3 * k + 2], fields[3 * k + 3], fields[3 * k + 4], 0]);
    let candidate = Candidate {
        mode: fields[0].into(),
        partition: fields[1].into(),
        ends: [end(0), end(1), end(2), end(3)],
        p: fields[14].into(),
        free: 0,
    };
    granted(refusal, Read { candidate, indices: std::array::from_fn(|i| fields[15 + i]), pixels })
}

/// Measures a block against pixels.
pub fn measure(block: &Block, pixels: &Pixels) -> Result<u32, u32> {
    error(unsafe { c::bc7_measure(block.as_ptr(), block.len(), pixels.as_ptr(), pixels.len()) })
}
