//! Drawn input: a seeded generator, and from it pixels, candidates and indices of many kinds.

use crate::candidate::{pixel, Candidate, Colour, Indices, Pixels};
use crate::rust;

/// A generator of numbers (splitmix64).
pub struct Draw(pub u64);

impl Draw {
    /// The next number of 64 bits.
    pub fn next(&mut self) -> u64 {
        self.0 = self.0.wrapping_add(0x9e37_79b9_7f4a_7c15);
        let z = (self.0 ^ self.0 >> 30).wrapping_mul(0xbf58_476d_1ce4_e5b9);
        let z = (z ^ z >> 27).wrapping_mul(0x94d0_49bb_1331_11eb);
        z ^ z >> 31
    }

    /// A number below n.
    pub fn below(&mut self, n: u32) -> u32 {
        (((self.next() >> 32) * u64::from(n)) >> 32) as u32
    }

    /// True once in n times.
    pub fn one_in(&mut self, n: u32) -> bool {
        self.below(n) == 0
    }

    /// A byte of at most `largest`.
    fn up_to(&mut self, largest: u8) -> u8 {
        self.below(u32::from(largest) + 1) as u8
    }

    /// A colour with channels of at most `largest`.
    fn colour(&mut self, largest: u8) -> Colour {
        std::array::from_fn(|_| self.up_to(largest))
    }

    /// One of two values.
    fn either<T>(&mut self, a: T, b: T) -> T {
        if self.one_in(2) { a } else { b }
    }

    /// A channel at most `reach` from another, of at most `largest`.
    fn near(&mut self, channel: u8, reach: u8, largest: u8) -> u8 {
        let at = i32::from(channel) + i32::from(self.up_to(2 * reach)) - i32::from(reach);
        at.clamp(0, largest.into()) as u8
    }

    /// Sixteen indices of a candidate's mode.
    pub fn indices(&mut self, candidate: &Candidate) -> Indices {
        let largest = candidate.largest_index();
        match self.below(4) {
            0 => std::array::from_fn(|_| self.either(0, largest)),
            _ => std::array::from_fn(|_| self.up_to(largest)),
        }
    }

    /// Pixels, and a candidate for each cell. Some candidates are near the pixels, and some pixels near a candidate.
    pub fn case(&mut self, cells: &[u32]) -> (Pixels, Vec<Candidate>) {
        let pixels = self.pixels();
        let candidates: Vec<Candidate> = cells.iter().map(|&cell| self.candidate(cell, &pixels)).collect();
        if candidates.is_empty() || !self.one_in(4) {
            return (pixels, candidates);
        }
        let one = self.below(candidates.len() as u32) as usize;
        (self.pixels_of(&candidates[one]), candidates)
    }

    /// Pixels that rest on no candidate.
    fn pixels(&mut self) -> Pixels {
        let (a, b) = (self.colour(255), self.colour(255));
        match self.below(6) {
            0 => by_pixel(|_| self.colour(255)),
            1 => self.gradient(a, b),
            2 => {
                let reach = 1 + self.up_to(7);
                by_pixel(|_| a.map(|channel| self.near(channel, reach, 255)))
            }
            3 => by_pixel(|_| self.either([0; 3], [255; 3])),
            4 => by_pixel(|_| self.either(a, b)),
            _ => by_pixel(|_| a),
        }
    }

    /// Pixels from one colour to another along a direction.
    fn gradient(&mut self, from: Colour, to: Colour) -> Pixels {
        let (across, down) = (self.below(4), self.below(4));
        let span = (3 * (across + down)).max(1);
        by_pixel(|i| {
            let at = across * (i as u32 % 4) + down * (i as u32 / 4);
            std::array::from_fn(|c| ((u32::from(from[c]) * (span - at) + u32::from(to[c]) * at) / span) as u8)
        })
    }

    /// Pixels that are colours of a candidate's palettes, or half way between two neighbours there.
    fn pixels_of(&mut self, candidate: &Candidate) -> Pixels {
        let palettes = rust::palettes(candidate);
        let exact = self.one_in(3);
        by_pixel(|i| {
            let palette = &palettes[rust::subset(candidate.partition, i)];
            let at = self.below(palette.len() as u32) as usize;
            if exact { palette[at] } else { self.middle(palette[at], palette[(at + 1).min(palette.len() - 1)]) }
        })
    }

    /// The middle of two colours, each channel rounded either way.
    fn middle(&mut self, a: Colour, b: Colour) -> Colour {
        std::array::from_fn(|c| ((u32::from(a[c]) + u32::from(b[c]) + self.below(2)) / 2) as u8)
    }

    /// A candidate of a cell, with p-bits in range also where they are free.
    fn candidate(&mut self, cell: u32, pixels: &Pixels) -> Candidate {
        let mut candidate = Candidate::of_cell(cell);
        candidate.p = self.below(candidate.largest_p() + 1);
        let kind = self.below(5);
        for subset in 0..2 {
            let (a, b) = self.ends(kind, &candidate, subset, pixels);
            candidate.set_end(2 * subset, a);
            candidate.set_end(2 * subset + 1, b);
        }
        candidate
    }

    /// The stored endpoints of a subset, of one of five kinds.
    fn ends(&mut self, kind: u32, candidate: &Candidate, subset: usize, pixels: &Pixels) -> (Colour, Colour) {
        let largest = candidate.largest_channel();
        let any = self.colour(largest);
        match kind {
            0 => (any, self.colour(largest)),
            1 => (any.map(|_| self.either(0, largest)), any.map(|_| self.either(0, largest))),
            2 => (any, any),
            3 => (any, any.map(|channel| self.near(channel, 1, largest))),
            _ => self.corners(candidate, subset, pixels),
        }
    }

    /// Two opposite corners of the box around a subset's pixels, as stored.
    fn corners(&mut self, candidate: &Candidate, subset: usize, pixels: &Pixels) -> (Colour, Colour) {
        let inside = (0..16).filter(|&i| rust::subset(candidate.partition, i) == subset).map(|i| pixel(pixels, i));
        let (mut low, mut high) = ([255; 3], [0; 3]);
        for colour in inside {
            for c in 0..3 {
                low[c] = colour[c].min(low[c]);
                high[c] = colour[c].max(high[c]);
            }
        }
        for c in 0..3 {
            (low[c], high[c]) = self.either((low[c], high[c]), (high[c], low[c]));
        }
        let shift = 8 - candidate.channel_bits();
        (low.map(|channel| channel >> shift), high.map(|channel| channel >> shift))
    }
}

/// Sixteen pixels from a colour for each.
fn by_pixel(mut colour: impl FnMut(usize) -> Colour) -> Pixels {
    let mut pixels = [0; 48];
    for (i, part) in pixels.chunks_exact_mut(3).enumerate() {
        part.copy_from_slice(&colour(i));
    }
    pixels
}
