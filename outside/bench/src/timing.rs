//! The clock. All implementations take their turns on the same inputs in every round, so that what disturbs the machine
//! disturbs them alike; who comes first changes from round to round. Told are the median time over the rounds, and the
//! median of the rounds' ratios, which a machine that slows down halfway does not move. Inputs and buffers are made ready
//! outside the clock, and the calls of a round are made once before they are timed.

use crate::flint::Batch;
use crate::sheets::{self, Shape};
use crate::{library, systems};
use calls::{Call, Random};
use std::hint::black_box;
use std::time::Instant;

/// How many inputs a round has, after how many rounds they come back, and how many rounds there are. Rounds are short,
/// so that on a busy machine most of them run undisturbed, also those of whoever takes longest.
const BATCH: usize = 8;
const SETS: usize = 4;
const ROUNDS: usize = 1000;

/// The inputs of a round.
fn turn<T>(inputs: &[T], round: usize) -> &[T] {
    inputs.chunks(BATCH).nth(round % SETS).expect("there are inputs for every set")
}

/// Nanoseconds for each of so many calls.
fn nanoseconds(calls: usize, work: impl FnOnce()) -> f64 {
    let start = Instant::now();
    work();
    start.elapsed().as_nanos() as f64 / calls as f64
}

fn median(times: &[f64]) -> Option<f64> {
    let mut times = times.to_vec();
    times.sort_by(f64::total_cmp);
    times.get(times.len() / 2).copied()
}

/// The median of the rounds' ratios.
fn ratio(a: &[f64], b: &[f64]) -> Option<f64> {
    median(&a.iter().zip(b).map(|(a, b)| a / b).collect::<Vec<f64>>())
}

fn cell(value: Option<f64>, digits: usize) -> String {
    value.map_or("-".to_string(), |v| format!("{v:.digits$}"))
}

pub fn tidying() {
    println!("Tidying equalities, ns a system (median of {ROUNDS} rounds of {BATCH} systems)");
    println!(
        "{:<36} {:>8} {:>8} {:>9} {:>9} | {:>12} {:>13} {:>10}",
        "", "library", "twin", "FLINT 17", "FLINT n+1", "library/twin", "FLINT/library", "FLINT/twin"
    );
    for kind in &systems::KINDS {
        let mut random = Random::new(31);
        let all: Vec<[u32; 544]> = (0..BATCH * SETS).map(|_| kind.block(&mut random)).collect();
        // FLINT also at its best: without the columns that a sheet of fewer words leaves empty.
        let mut wide = Batch::new(BATCH, kind.eqs.max(17), 17, kind.p);
        let mut narrow = Batch::new(BATCH, kind.eqs.max(kind.words + 1), kind.words + 1, kind.p);
        let mut times: [Vec<f64>; 4] = Default::default();
        for round in 0..ROUNDS {
            let blocks = turn(&all, round);
            for who in [round % 2, 1 - round % 2] {
                if who == 1 {
                    times[1].push(tidy_round(blocks, |block| twin::tidy(block, kind.eqs, kind.p)));
                } else if library::PRESENT {
                    times[0].push(tidy_round(blocks, |block| library::tidy(block, kind.eqs, kind.p)));
                }
            }
            for (i, batch) in [&mut wide, &mut narrow].into_iter().enumerate() {
                if let Some(batch) = batch {
                    times[2 + i].push(howell_round(blocks, batch));
                }
            }
        }
        let [lib, twin, wide, narrow] = &times;
        let best = if median(wide) < median(narrow) { wide } else { narrow };
        println!(
            "{:<36} {:>8} {:>8} {:>9} {:>9} | {:>12} {:>13} {:>10}",
            kind.title,
            cell(median(lib), 0),
            cell(median(twin), 0),
            cell(median(wide), 0),
            cell(median(narrow), 0),
            cell(ratio(lib, twin), 3),
            cell(ratio(best, lib), 2),
            cell(ratio(best, twin), 2)
        );
    }
    println!();
}

fn tidy_round(blocks: &[[u32; 544]], tidy: impl Fn(&mut [u32; 544]) -> usize) -> f64 {
    let mut blocks = blocks.to_vec();
    nanoseconds(blocks.len(), || {
        for block in &mut blocks {
            black_box(tidy(black_box(block)));
        }
    })
}

fn howell_round(blocks: &[[u32; 544]], batch: &mut Batch) -> f64 {
    blocks.iter().enumerate().for_each(|(i, block)| batch.set(i, block));
    nanoseconds(blocks.len(), || {
        black_box(batch.howell());
    })
}

/// A row of a table: what it is called, and the calls of all rounds.
type Line = (String, Vec<Call>);

/// One round of a set of calls. The buffers are not cleared between calls.
fn call_round(calls: &[Call], hide: impl Fn(&[u8], &[u8], &mut [u8], &mut [u8]) -> usize) -> f64 {
    let (mut out, mut fates) = (vec![0; calls::size(16, 48)], vec![0; 16]);
    let mut once = || {
        for call in calls {
            let (out, fates) = (&mut out[..call.room], &mut fates[..call.fate_room]);
            black_box(hide(black_box(&call.sheet), &call.list, out, fates));
        }
    };
    once();
    nanoseconds(calls.len(), once)
}

/// Times the lines of a table, all of them in every round, so that they can be compared with one another too.
fn table(title: &str, lines: &[Line]) {
    let mut times: Vec<[Vec<f64>; 2]> = vec![Default::default(); lines.len()];
    let twin = |sheet: &[u8], list: &[u8], out: &mut [u8], fates: &mut [u8]| twin::hide(sheet, list, out, fates).length;
    for round in 0..ROUNDS {
        for ((_, all), times) in lines.iter().zip(&mut times) {
            let calls = turn(all, round);
            for who in [round % 2, 1 - round % 2] {
                if who == 1 {
                    times[1].push(call_round(calls, twin));
                } else if library::PRESENT {
                    times[0].push(call_round(calls, library::hide));
                }
            }
        }
    }
    println!("{title}");
    println!("{:<36} {:>8} {:>8} | {:>12}   a call comes to", "", "library", "twin", "library/twin");
    for ((name, calls), times) in lines.iter().zip(times) {
        let [lib, twin] = &times;
        let (ratio, came_to) = (cell(ratio(lib, twin), 3), came_to(calls));
        println!("{name:<36} {:>8} {:>8} | {ratio:>12}   {came_to}", cell(median(lib), 0), cell(median(twin), 0));
    }
    println!();
}

/// What the calls come to, so that the reader sees what work was timed.
fn came_to(calls: &[Call]) -> String {
    let mut fates_seen = [0; 4];
    let (mut walks, mut length, mut refused) = (0, 0, 0);
    for call in calls {
        let (mut out, mut fates) = (vec![0; call.room], vec![0; call.fate_room]);
        let answer = twin::hide(&call.sheet, &call.list, &mut out, &mut fates);
        refused = answer.refused;
        walks += answer.walks;
        length += answer.length;
        fates.iter().for_each(|&fate| fates_seen[fate as usize] += 1);
    }
    if refused != 0 {
        return String::new();
    }
    let each = |sum: usize| sum as f64 / calls.len() as f64;
    let [left, absent, layer1, layer2] = fates_seen.map(each);
    format!(
        "left {left:.1}, absent {absent:.1}, layer1 {layer1:.1}, layer2 {layer2:.1}; {:.1} walks, {:.0} bytes",
        each(walks),
        each(length)
    )
}

fn several(random: &mut Random, shape: Shape) -> Vec<Call> {
    (0..BATCH * SETS).map(|_| sheets::call(random, shape)).collect()
}

pub fn calls() {
    let mut random = Random::new(32);
    let mut lines: Vec<Line> = vec![
        ("full: 16 words, 32 + 32, all listed".to_string(), several(&mut random, sheets::FULL)),
        ("typical: 8 words, 4 + 6, 4 listed".to_string(), several(&mut random, sheets::TYPICAL)),
        ("chain: 16 words, width 1".to_string(), vec![sheets::chain(16); BATCH * SETS]),
    ];
    lines.extend(sheets::refused(&mut random).map(|(title, call)| (title.to_string(), vec![call; BATCH * SETS])));
    table("Whole calls, ns a call", &lines);
}

pub fn growth() {
    let mut random = Random::new(33);
    let mut line = |name: String, shape: Shape| (name, several(&mut random, shape));
    let by_constraints: Vec<Line> = [0, 4, 8, 16, 32, 64]
        .map(|m| line(format!("{m} constraints"), Shape { equalities: m / 2, others: m / 2, ..sheets::FULL }))
        .into();
    let by_list: Vec<Line> =
        [0, 1, 2, 4, 8, 16].map(|listed| line(format!("{listed} listed"), Shape { listed, ..sheets::FULL })).into();
    let by_walks: Vec<Line> =
        [2, 4, 8, 16].map(|words| (format!("{words} words"), vec![sheets::chain(words); BATCH * SETS])).into();
    table("Growth with the constraints: 16 words, p = 32, all listed, ns a call", &by_constraints);
    table("Growth with the list: 16 words, p = 32, 32 equalities and 32 others, ns a call", &by_list);
    table("Growth with the walks: a chain of words at width 1, all listed, ns a call", &by_walks);
}
