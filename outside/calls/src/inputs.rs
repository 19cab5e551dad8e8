//! Inputs of the program: a call's sheet and then its list, as they stand on standard input, and bytes that bend where
//! the sheet ends and where there are too many.

use crate::random::Random;
use crate::{bench_sheets, Call};

/// The most bytes that the program takes in.
const MOST: usize = 16_384;

/// The call as the program is given it: the lengths of its buffers have no place there.
pub fn of_call(call: &Call) -> Vec<u8> {
    [&call.sheet[..], &call.list].concat()
}

/// What every run should try: the bench sheets, B1 cut off at every byte, and B1 with counts and lengths at the limits.
pub fn fixed() -> Vec<Vec<u8>> {
    let mut inputs: Vec<Vec<u8>> = bench_sheets::all().iter().map(|bench| of_call(&bench.call)).collect();
    let b1 = inputs[0].clone();
    inputs.extend((0..b1.len()).map(|end| b1[..end].to_vec()));
    inputs.extend(counts(b1.len()).into_iter().map(|count| with(&b1, b1.len(), count)));
    for length in [MOST - 1, MOST, MOST + 1, MOST + 2, 2 * MOST, 100_000] {
        let counts = [told(&b1), length - 4, length - 3, MOST - 4, 0];
        inputs.extend(counts.iter().map(|&count| with(&b1, length, count)));
    }
    inputs
}

/// Any input: three in four are calls, sound and damaged.
pub fn any(random: &mut Random) -> Vec<u8> {
    let call = of_call(&Call::any(random));
    match random.below(20) {
        0 => few(random),
        1 | 2 => {
            let count = *random.pick(&counts(call.len()));
            with(&call, call.len(), count)
        }
        3 => long_list(random, call),
        4 => near_the_most(random, &call),
        _ => call,
    }
}

/// Fewer bytes than a header has, or just as many.
fn few(random: &mut Random) -> Vec<u8> {
    let length = random.between(0, 8);
    let small = random.chance(70);
    (0..length).map(|_| random.bits() as u8 & if small { 7 } else { 255 }).collect()
}

/// Counts at the limits of an input of this length: sheets that end early, at the input's end, and past it. To add four
/// to the greatest of them takes more than 32 bits.
fn counts(length: usize) -> Vec<usize> {
    let after = length.saturating_sub(4);
    let mut counts = vec![0, 1, 3, 4, 5, MOST - 5, MOST - 4, MOST - 3, 1 << 16, 1 << 24, 1 << 31];
    counts.extend((after.saturating_sub(20)..after + 3).chain(u32::MAX as usize - 5..=u32::MAX as usize));
    counts.extend([16, 24, 31].map(|bit| after + (1 << bit)));
    counts
}

/// A list of up to several thousand bytes: of numbers as a list has them, of one number, or of any bytes.
fn long_list(random: &mut Random, mut call: Vec<u8>) -> Vec<u8> {
    let more = *random.pick(&[16, 17, 100, 255, 256, 257, 1000, 4096, 7000]);
    let kind = random.below(3);
    call.extend((0..more).map(|i| match kind {
        0 => i as u8,
        1 => 0,
        _ => random.bits() as u8,
    }));
    call
}

/// Lengths about the most, and far above: more than a pipe holds.
fn near_the_most(random: &mut Random, call: &[u8]) -> Vec<u8> {
    let (near, above) = (random.between(MOST - 3, MOST + 3), random.between(MOST + 1, 90_000));
    let length = *random.pick(&[MOST, MOST + 1, near, near, above]);
    let count = *random.pick(&[told(call), told(call), length - 5, length - 4, length - 3, MOST - 4]);
    with(call, length, count)
}

/// The count that the first bytes tell; 0 where there are fewer than four.
fn told(input: &[u8]) -> usize {
    input.first_chunk().map_or(0, |&count| u32::from_be_bytes(count) as usize)
}

/// The input cut off or filled up with zeros to this length, with this count as far as it has room.
fn with(input: &[u8], length: usize, count: usize) -> Vec<u8> {
    let mut input = input.to_vec();
    input.resize(length, 0);
    input.iter_mut().zip((count as u32).to_be_bytes()).for_each(|(byte, b)| *byte = b);
    input
}
