//! The reference: integer items of the Rust, cut out unchanged, and finishing, packing and choosing made of them.
#![allow(dead_code)]

use crate::candidate::{pixel, Block, Candidate, Colour, Finished, Indices, Pixels};

include!("../target/compare/cut.rs");

/// Stands for the Rust's options, of which the items cut out name this one alone.
struct Bc7Options {
    max_p_bit_combinations: u8,
}

/// Bit k of p-bits.
fn bit(p: u32, k: usize) -> bool {
    p >> k & 1 != 0
}

/// The p-bits of the two subsets in mode 1.
fn shared(p: u32) -> [bool; 2] {
    [bit(p, 0), bit(p, 1)]
}

/// The p-bits of the four endpoints in mode 3, by subset.
fn unique(p: u32) -> [[bool; 2]; 2] {
    [[bit(p, 0), bit(p, 1)], [bit(p, 2), bit(p, 3)]]
}

/// A stored colour from its number.
fn stored<const B: u8>(end: u32) -> Rgb<B> {
    let [r, g, b, _] = end.to_le_bytes();
    Rgb::new(r, g, b)
}

/// A subset with its p-bits: error, indices and p-bits, the first of least error among all where they are free.
fn finish_subset<const B: u8, const I: u8, P: PBitHandling>(
    handling: &P,
    free: bool,
    fixed: P::State,
    ends: &[Rgb<B>],
    pixels: &[Rgb<8>],
) -> (u32, IndexList<I>, P::State) {
    let one = [fixed];
    handling.pick_best_of_directly(if free { P::ALL } else { &one }, |p| {
        let [e0, e1] = p.promote_rgb(ends[0], ends[1]);
        let (indexes, error) = closest_rgb::<I>(e0, e1, pixels);
        (error, indexes)
    })
}

/// Both subsets: the sum of their errors, their p-bits and all indices in pixel order.
fn finish_subsets<const B: u8, const I: u8, P: PBitHandling>(
    handling: P,
    pixels: &Pixels,
    candidate: &Candidate,
    ends: &[Rgb<B>; 4],
    fixed: [P::State; 2],
) -> (u32, [P::State; 2], IndexList<I>) {
    let subset = PARTITION_SET_2[candidate.partition as usize];
    let mut sorted = std::array::from_fn(|i| {
        let [r, g, b] = pixel(pixels, i);
        Rgb::new(r, g, b)
    });
    subset.sort_block(&mut sorted);
    let (first, second) = sorted.split_at(subset.count_zeros() as usize);
    let free = candidate.free != 0;
    let (error_0, indexes_0, p_0) = finish_subset(&handling, free, fixed[0], &ends[..2], first);
    let (error_1, indexes_1, p_1) = finish_subset(&handling, free, fixed[1], &ends[2..], second);
    (error_0 + error_1, [p_0, p_1], IndexList::merge2(subset, indexes_0, indexes_1))
}

/// The block and error of pixels and a candidate in range.
pub fn finish(pixels: &Pixels, candidate: &Candidate) -> Finished {
    let partition = candidate.partition as u8;
    let Compressed { block, error } = if candidate.mode == 1 {
        let ends = candidate.ends.map(stored);
        let (error, p, indexes) = finish_subsets(SharedPBit, pixels, candidate, &ends, shared(candidate.p));
        Compressed::mode1(error, partition, ends, p, indexes)
    } else {
        let ends = candidate.ends.map(stored);
        let (error, [p, q], indexes) = finish_subsets(UniquePBits, pixels, candidate, &ends, unique(candidate.p));
        Compressed::mode3(error, partition, ends, [p[0], p[1], q[0], q[1]], indexes)
    };
    Finished { block, error }
}

/// The list of sixteen indices.
fn index_list<const I: u8>(indices: &Indices) -> IndexList<I> {
    let mut list = IndexList::new();
    indices.iter().enumerate().for_each(|(i, &index)| list.set(i, index));
    list
}

/// The word of the list of sixteen indices of a candidate's mode.
pub fn index_word(candidate: &Candidate, indices: &Indices) -> u64 {
    if candidate.mode == 1 { index_list::<3>(indices).indexes } else { index_list::<2>(indices).indexes }
}

/// The block of a candidate with fixed p-bits and the word of its list of indices, all in range.
pub fn pack_word(candidate: &Candidate, indexes: u64) -> Block {
    let partition = candidate.partition as u8;
    if candidate.mode == 1 {
        Compressed::mode1(0, partition, candidate.ends.map(stored), shared(candidate.p), IndexList { indexes }).block
    } else {
        let [p, q] = unique(candidate.p);
        Compressed::mode3(0, partition, candidate.ends.map(stored), [p[0], p[1], q[0], q[1]], IndexList { indexes }).block
    }
}

/// The block of a candidate with fixed p-bits and sixteen indices, all in range.
pub fn pack(candidate: &Candidate, indices: &Indices) -> Block {
    pack_word(candidate, index_word(candidate, indices))
}

/// What choosing over finished candidates ends with.
pub fn choose(offers: impl Iterator<Item = Finished>) -> Finished {
    let chosen = offers
        .map(|Finished { block, error }| Compressed { block, error })
        .fold(Compressed::invalid(), Compressed::better);
    Finished { block: chosen.block, error: chosen.error }
}

/// The colours between two endpoints, one for each index of I bits.
fn palette<const B: u8, const I: usize>(p: impl PBitState, e0: u32, e1: u32) -> Vec<Colour> {
    let [e0, e1] = p.promote_rgb::<B>(stored(e0), stored(e1));
    let colour = |index| interpolate_rgb::<I>(e0, e1, index);
    (0..1 << I).map(colour).map(|c| [c.r, c.g, c.b]).collect()
}

/// The palettes of both subsets, with the candidate's p-bits as they stand.
pub fn palettes(candidate: &Candidate) -> [Vec<Colour>; 2] {
    let [e0, e1, e2, e3] = candidate.ends;
    if candidate.mode == 1 {
        let [p, q] = shared(candidate.p);
        [palette::<6, 3>(p, e0, e1), palette::<6, 3>(q, e2, e3)]
    } else {
        let [p, q] = unique(candidate.p);
        [palette::<7, 2>(p, e0, e1), palette::<7, 2>(q, e2, e3)]
    }
}

/// A stored channel as it is shown with a p-bit.
pub fn shown(mode: u32, channel: u8, p: bool) -> u8 {
    if mode == 1 { Rgb::<6>::new(channel, 0, 0).p_promote(p).r } else { Rgb::<7>::new(channel, 0, 0).p_promote(p).r }
}

/// The subset of a pixel.
pub fn subset(partition: u32, pixel: usize) -> usize {
    PARTITION_SET_2[partition as usize].get_subset_index(pixel as u8).into()
}

/// The anchor pixel of subset 1.
pub fn anchor(partition: u32) -> usize {
    PARTITION_SET_2[partition as usize].fixup_index_2.into()
}
