//! Times the library beside the Rust on the same input: bench SAMPLES. See bench.

mod candidate;
mod draw;
#[allow(dead_code)]
mod ours;
mod rust;

use candidate::{nibbles, Candidate, Finished, Indices, Pixels};
use draw::Draw;
use std::hint::black_box;
use std::process::{exit, ExitCode};
use std::time::Instant;

/// The generator's seed.
const SEED: u64 = 5;

/// The candidates of a sample in the first table.
const CANDIDATES: usize = 4096;

/// The longest lists of the second table, and how many they are.
const LONGEST: usize = 1024;
const LISTS: usize = 16;

/// What a call's output holds before it.
const UNWRITTEN: Finished = Finished { block: [ours::UNWRITTEN; 16], error: 0 };

/// What is handed to finishing.
struct ToFinish {
    pixels: Pixels,
    candidate: Candidate,
}

/// What is handed to packing: sixteen indices, as the C interface has them, and as the Rust's list.
struct ToPack {
    candidate: Candidate,
    indices: Indices,
    nibbles: u64,
    word: u64,
}

/// What is handed to choosing.
struct ToChoose {
    pixels: Pixels,
    offers: Vec<Candidate>,
}

/// A drawn cell of a mode and of fixed or free p-bits, in any partition.
fn cell(draw: &mut Draw, mode: u32, free: u32) -> u32 {
    u32::from(mode == 3) | draw.below(64) << 1 | free << 7
}

/// Drawn input for finishing.
fn to_finish(draw: &mut Draw, mode: u32, free: u32) -> ToFinish {
    let cell = cell(draw, mode, free);
    let (pixels, candidates) = draw.case(&[cell]);
    ToFinish { pixels, candidate: candidates[0] }
}

/// Drawn input for packing.
fn to_pack(draw: &mut Draw, mode: u32) -> ToPack {
    let ToFinish { candidate, .. } = to_finish(draw, mode, 0);
    let indices = draw.indices(&candidate);
    ToPack { candidate, indices, nibbles: nibbles(&indices), word: rust::index_word(&candidate, &indices) }
}

/// Drawn input for choosing, with candidates of any cell.
fn to_choose(draw: &mut Draw, length: usize) -> ToChoose {
    let cells: Vec<u32> = (0..length).map(|_| draw.below(256)).collect();
    let (pixels, offers) = draw.case(&cells);
    ToChoose { pixels, offers }
}

/// The same candidates in lists of a length.
fn shortened(lists: &[ToChoose], length: usize) -> Vec<ToChoose> {
    let parts = lists.iter().flat_map(|list| list.offers.chunks(length).map(|part| (list.pixels, part)));
    parts.map(|(pixels, part)| ToChoose { pixels, offers: part.to_vec() }).collect()
}

/// Finishing by the library.
fn finish_ours(input: &ToFinish, out: &mut Finished) {
    out.error = ours::finish_into(&input.pixels, &input.candidate, &mut out.block) as u32;
}

/// Finishing by the Rust.
fn finish_rust(input: &ToFinish, out: &mut Finished) {
    *out = rust::finish(&input.pixels, &input.candidate);
}

/// Packing by the library.
fn pack_ours(input: &ToPack, out: &mut Finished) {
    out.error = ours::pack_into(&input.candidate, input.nibbles, &mut out.block);
}

/// Packing by the Rust: its list is made of the sixteen indices.
fn pack_rust(input: &ToPack, out: &mut Finished) {
    *out = Finished { block: rust::pack(&input.candidate, &input.indices), error: 0 };
}

/// Packing by the Rust, with its list ready made.
fn pack_list(input: &ToPack, out: &mut Finished) {
    *out = Finished { block: rust::pack_word(&input.candidate, input.word), error: 0 };
}

/// Choosing by the library: a start, all offers and a take.
fn choose_ours(input: &ToChoose, out: &mut Finished) {
    let Ok(mut chooser) = ours::Chooser::start(&input.pixels) else { return };
    for offer in &input.offers {
        chooser.offer(offer);
    }
    if let Ok(taken) = chooser.take() {
        *out = taken;
    }
}

/// Choosing by the Rust: every candidate finished, and the better block held.
fn choose_rust(input: &ToChoose, out: &mut Finished) {
    *out = rust::choose(input.offers.iter().map(|offer| rust::finish(&input.pixels, offer)));
}

/// Ends with a line where the two sides of a call differ on an input.
fn check<I>(name: &str, inputs: &[I], ours: impl Fn(&I, &mut Finished), rust: impl Fn(&I, &mut Finished)) {
    for (i, input) in inputs.iter().enumerate() {
        let (mut our, mut their) = (UNWRITTEN, UNWRITTEN);
        ours(input, &mut our);
        rust(input, &mut their);
        if our != their {
            eprintln!("compare: {name}, input {i}: ours {our}, Rust {their}");
            exit(1);
        }
    }
}

/// A sample: the mean time of a call over all inputs, in ns.
#[inline(never)]
fn sample<I>(inputs: &[I], call: impl Fn(&I, &mut Finished)) -> f64 {
    let mut out = UNWRITTEN;
    let start = Instant::now();
    for input in inputs {
        call(black_box(input), black_box(&mut out));
    }
    black_box(&out);
    start.elapsed().as_nanos() as f64 / inputs.len() as f64
}

/// The middle one of numbers.
fn median(numbers: impl Iterator<Item = f64>) -> f64 {
    let mut numbers: Vec<f64> = numbers.collect();
    numbers.sort_by(f64::total_cmp);
    numbers[numbers.len() / 2]
}

/// Medians over all samples: ns of ours, ns of the Rust's, and ours / Rust of neighbouring samples.
struct Timed {
    ours: f64,
    rust: f64,
    ratio: f64,
}

/// Times the two sides of a call in turn, each first in every other pair.
fn time<I>(samples: usize, inputs: &[I], ours: impl Fn(&I, &mut Finished), rust: impl Fn(&I, &mut Finished)) -> Timed {
    let mut pairs = Vec::new();
    for n in 0..samples {
        let early = (n % 2 == 0).then(|| sample(inputs, &ours));
        let rust = sample(inputs, &rust);
        pairs.push((early.unwrap_or_else(|| sample(inputs, &ours)), rust));
    }
    Timed {
        ours: median(pairs.iter().map(|pair| pair.0)),
        rust: median(pairs.iter().map(|pair| pair.1)),
        ratio: median(pairs.iter().map(|pair| pair.0 / pair.1)),
    }
}

/// The first table: its samples, and how many rows it has so far and how many of them not below 1.0.
struct Calls {
    samples: usize,
    rows: u32,
    not_below: u32,
}

impl Calls {
    /// Begins the table.
    fn new(samples: usize) -> Self {
        println!("Medians of {samples} samples over {CANDIDATES} candidates each, ours and the Rust's in turn; ours / Rust is the");
        println!("median of the ratios of neighbouring samples.\n");
        println!("| {:27} | ours, ns | Rust, ns | ours / Rust |", "a call");
        println!("|{:-<29}|---------:|---------:|------------:|", "");
        Calls { samples, rows: 0, not_below: 0 }
    }

    /// Adds the row of a call, whose ratio counts as it is printed.
    fn row<I>(&mut self, name: &str, inputs: &[I], ours: impl Fn(&I, &mut Finished), rust: impl Fn(&I, &mut Finished)) {
        check(name, inputs, &ours, &rust);
        let Timed { ours, rust, ratio } = time(self.samples, inputs, ours, rust);
        println!("| {name:27} | {ours:8.1} | {rust:8.1} | {ratio:11.2} |");
        self.rows += 1;
        self.not_below += u32::from((ratio * 100.0).round() >= 100.0);
    }

    /// Adds all rows, and a line for packing with the Rust's list ready made.
    fn all(&mut self, draw: &mut Draw) {
        for (mode, free, p) in [(1, 0, "fixed"), (1, 1, "free"), (3, 0, "fixed"), (3, 1, "free")] {
            let inputs: Vec<ToFinish> = (0..CANDIDATES).map(|_| to_finish(draw, mode, free)).collect();
            self.row(&format!("finish mode {mode}, p-bits {p}"), &inputs, finish_ours, finish_rust);
        }
        let packs = [1, 3].map(|mode| (mode, (0..CANDIDATES).map(|_| to_pack(draw, mode)).collect::<Vec<_>>()));
        for (mode, inputs) in &packs {
            self.row(&format!("pack mode {mode}"), inputs, pack_ours, pack_rust);
        }
        let inputs: Vec<ToChoose> = (0..CANDIDATES / 16).map(|_| to_choose(draw, 16)).collect();
        self.row("choose over 16 candidates", &inputs, choose_ours, choose_rust);
        println!();
        for (mode, inputs) in &packs {
            let Timed { ours, rust, ratio } = time(self.samples, inputs, pack_ours, pack_list);
            println!("With the Rust's list of indexes ready made, pack mode {mode}: ours {ours:.1} ns, Rust {rust:.1} ns, {ratio:.2}.");
        }
    }
}

/// The second table: choosing over the same candidates in lists of each length.
fn growth(draw: &mut Draw, samples: usize) {
    let lists: Vec<ToChoose> = (0..LISTS).map(|_| to_choose(draw, LONGEST)).collect();
    println!("\nChoosing over the same {} candidates in lists of each length, medians of {samples} samples.\n", LISTS * LONGEST);
    println!("| candidates | ours, ns | Rust, ns | ours, ns a candidate | Rust, ns a candidate |");
    println!("|-----------:|---------:|---------:|---------------------:|---------------------:|");
    for length in (0..=LONGEST.ilog2()).map(|k| 1 << k) {
        let inputs = shortened(&lists, length);
        check("choosing", &inputs, choose_ours, choose_rust);
        let Timed { ours, rust, .. } = time(samples, &inputs, choose_ours, choose_rust);
        let each = |time: f64| time / length as f64;
        println!("| {length:10} | {ours:8.0} | {rust:8.0} | {:20.1} | {:20.1} |", each(ours), each(rust));
    }
}

/// Both tables.
fn main() -> ExitCode {
    let samples: usize = std::env::args().nth(1).and_then(|text| text.parse().ok()).expect("bench SAMPLES");
    let mut draw = Draw(SEED);
    let mut calls = Calls::new(samples);
    calls.all(&mut draw);
    growth(&mut draw, samples.div_ceil(4));
    println!("\n{} rows, {} not below 1.0", calls.rows, calls.not_below);
    ExitCode::from(u8::from(calls.not_below > 0))
}
