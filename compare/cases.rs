//! The kinds of drawn case: finishing, packing, choosing and reading, the Rust and the library on the same input.

use crate::candidate::{hex, nibbles, pixel, Block, Candidate, Finished, Pixels};
use crate::draw::Draw;
use crate::report::{expect, Outcome, Report};
use crate::{ours, refused, rust};

/// Case n: of eight four are finishing, two packing, one choosing and one reading.
pub fn case(n: u64, draw: &mut Draw, report: &mut Report) {
    let (round, kind) = (n / 8, n % 8);
    match kind {
        0..=3 => {
            let cell = ((4 * round + kind) % 256) as u32;
            let name = if cell < 128 { "finishing, fixed p-bits" } else { "finishing, free p-bits" };
            report.add(name, finishing(draw, cell));
        }
        4..=5 => report.add("packing", packing(draw, ((2 * round + kind) % 128) as u32)),
        6 => report.add("choosing", choosing(draw)),
        _ => report.add("reading", reading(draw)),
    }
}

/// The summed squared distance of pixels.
fn distance(a: &Pixels, b: &Pixels) -> u32 {
    a.iter().zip(b).map(|(&x, &y)| u32::from(x.abs_diff(y)).pow(2)).sum()
}

/// A candidate with other numbers where these are not looked at: the p-bits where they are free, and what says so.
fn loosened(draw: &mut Draw, candidate: Candidate) -> Candidate {
    if candidate.free == 0 || draw.one_in(2) {
        return candidate;
    }
    Candidate { p: draw.next() as u32, free: 1 + draw.below(u32::MAX), ..candidate }
}

/// Finishing: block and error, and the error again by measuring the block and by reading it.
fn finishing(draw: &mut Draw, cell: u32) -> Outcome {
    let (pixels, candidates) = draw.case(&[cell]);
    let candidate = loosened(draw, candidates[0]);
    let theirs = rust::finish(&pixels, &candidate);
    let finished = ours::finish(&pixels, &candidate);
    let block = finished.map_or([0; 16], |finished| finished.block);
    let measured = ours::measure(&block, &pixels);
    let read = ours::read(&block).map(|read| distance(&read.pixels, &pixels));
    expect(finished == Ok(theirs) && measured == Ok(theirs.error) && read == Ok(theirs.error), || {
        let input = format!("{candidate} pixels {}", hex(&pixels));
        format!("{input}: Rust {theirs}, ours {}, measured {measured:?}, read {read:?}", answer(finished))
    })
}

/// An answer of the library: a block and error, or the refusal's number.
fn answer(finished: Result<Finished, u32>) -> String {
    finished.map_or_else(|refusal| format!("refusal {refusal}"), |finished| finished.to_string())
}

/// Packing: the block of any indices.
fn packing(draw: &mut Draw, cell: u32) -> Outcome {
    let (_, candidates) = draw.case(&[cell]);
    let candidate = &candidates[0];
    let indices = draw.indices(candidate);
    let (theirs, block) = (rust::pack(candidate, &indices), ours::pack(candidate, &indices));
    expect(block == Ok(theirs), || {
        format!("{candidate} indices {:016x}: Rust {}, ours {block:02x?}", nibbles(&indices), hex(&theirs))
    })
}

/// A list for a chooser: its pixels, its offers, and in bit k whether a take stands before offer k.
struct List {
    pixels: Pixels,
    offers: Vec<Candidate>,
    takes: u32,
}

impl List {
    /// A list of 0 to 24 offers, some of them an earlier one again and some declined.
    fn draw(draw: &mut Draw) -> Self {
        let cells: Vec<u32> = (0..draw.below(25)).map(|_| draw.below(256)).collect();
        let (pixels, mut offers) = draw.case(&cells);
        for k in 0..offers.len() {
            let earlier = offers[draw.below(k as u32 + 1) as usize];
            offers[k] = match draw.below(8) {
                0 => exchanged(earlier),
                1 => earlier,
                2..=3 => refused::spoiled(draw, offers[k]),
                _ => loosened(draw, offers[k]),
            };
        }
        List { pixels, offers, takes: draw.next() as u32 }
    }

    /// All of the list.
    fn text(&self) -> String {
        let offers: String = self.offers.iter().map(|offer| format!("\n  offer {offer}")).collect();
        format!("pixels {} takes {:#x}{offers}", hex(&self.pixels), self.takes)
    }
}

/// A candidate with the endpoints of both subsets exchanged.
fn exchanged(candidate: Candidate) -> Candidate {
    let [e0, e1, e2, e3] = candidate.ends;
    Candidate { ends: [e1, e0, e3, e2], ..candidate }
}

/// Choosing: block and error at every take, each refusal's number, and the chooser's bytes.
fn choosing(draw: &mut Draw) -> Outcome {
    let list = List::draw(draw);
    choose(&list).map_err(|difference| format!("{difference}\n  {}", list.text()))
}

/// Goes through a list, with a take at its end.
fn choose(list: &List) -> Outcome {
    let mut chooser = ours::Chooser::start(&list.pixels).map_err(|refusal| format!("refusal {refusal} at the start"))?;
    let mut accepted = Vec::new();
    for (k, offer) in list.offers.iter().enumerate() {
        if list.takes >> k & 1 != 0 {
            take(&chooser, &list.pixels, &accepted).map_err(|difference| format!("before offer {k} {difference}"))?;
        }
        let (before, number, refusal) = (chooser, refused::number(offer), chooser.offer(offer));
        expect(refusal == number, || format!("refusal {refusal} for {number} at offer {k}"))?;
        if number == 0 {
            accepted.push(rust::finish(&list.pixels, offer));
        } else {
            expect(chooser == before, || format!("a chooser altered by the declined offer {k}"))?;
        }
    }
    take(&chooser, &list.pixels, &accepted).map_err(|difference| format!("at the end {difference}"))
}

/// Takes from a chooser after accepted offers.
fn take(chooser: &ours::Chooser, pixels: &Pixels, accepted: &[Finished]) -> Outcome {
    let theirs = rust::choose(accepted.iter().copied());
    let taken = chooser.take();
    let bytes = [&pixels[..], &theirs.block, &theirs.error.to_le_bytes()].concat();
    expect(taken == Ok(theirs) && chooser.0[..] == bytes, || {
        format!("Rust {theirs}, ours {} from the chooser {}", answer(taken), hex(&chooser.0))
    })
}

/// Sixteen bytes that say mode 1 or 3.
fn any_block(draw: &mut Draw) -> Block {
    let mut block = (u128::from(draw.next()) << 64 | u128::from(draw.next())).to_le_bytes();
    block[0] = if draw.one_in(2) { block[0] & !3 | 2 } else { block[0] & !15 | 8 };
    block
}

/// Reading: the Rust packs the fields read to the same block, its palettes have the pixels read, and measuring goes by these.
fn reading(draw: &mut Draw) -> Outcome {
    let (block, (pixels, _)) = (any_block(draw), draw.case(&[]));
    let text = |what: &str| format!("block {} pixels {}: {what}", hex(&block), hex(&pixels));
    let read = ours::read(&block).map_err(|refusal| text(&format!("refusal {refusal}")))?;
    read_again(&block, &read).map_err(|difference| text(&difference))?;
    let (measured, apart) = (ours::measure(&block, &pixels), distance(&read.pixels, &pixels));
    expect(measured == Ok(apart), || text(&format!("distance {apart}, measured {measured:?}")))
}

/// What was read from a block, against the Rust's packing and palettes.
fn read_again(block: &Block, read: &ours::Read) -> Outcome {
    let fields = &read.candidate;
    let text = |what: &str| format!("{fields} indices {:?} pixels {} {what}", read.indices, hex(&read.pixels));
    let in_range = refused::number(fields) == 0 && read.indices.iter().all(|&index| index <= fields.largest_index());
    expect(in_range, || text("out of range"))?;
    let packed = rust::pack(fields, &read.indices);
    expect(packed == *block, || text(&format!("packed to {}", hex(&packed))))?;
    let palettes = rust::palettes(fields);
    let colour = |i: usize| palettes[rust::subset(fields.partition, i)][read.indices[i] as usize];
    expect((0..16).all(|i| pixel(&read.pixels, i) == colour(i)), || text(&format!("for palettes {palettes:?}")))
}
