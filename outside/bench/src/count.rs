//! Calls for an instruction counter: each implementation runs in one function of its own, whose instructions, with those
//! of everything that it calls, are the implementation's.

use crate::flint::Batch;
use crate::sheets;
use crate::{library, systems};
use calls::{Call, Random};
use std::hint::black_box;

pub const CASES: [&str; 8] = ["dense", "sparse", "powers", "full", "typical", "chain", "refusal-7", "refusal-11"];

type Blocks = Vec<[u32; 544]>;

#[inline(never)]
fn counted_library_tidy(blocks: &mut Blocks, eqs: usize, p: u32) {
    for block in blocks {
        black_box(library::tidy(block, eqs, p));
    }
}

#[inline(never)]
fn counted_twin_tidy(blocks: &mut Blocks, eqs: usize, p: u32) {
    for block in blocks {
        black_box(twin::tidy(block, eqs, p));
    }
}

#[inline(never)]
fn counted_flint_tidy(batch: &mut Batch) {
    black_box(batch.howell());
}

#[inline(never)]
fn counted_library_hide(calls: &[Call], out: &mut [u8], fates: &mut [u8]) {
    for call in calls {
        let (out, fates) = (&mut out[..call.room], &mut fates[..call.fate_room]);
        black_box(library::hide(&call.sheet, &call.list, out, fates));
    }
}

#[inline(never)]
fn counted_twin_hide(calls: &[Call], out: &mut [u8], fates: &mut [u8]) {
    for call in calls {
        let (out, fates) = (&mut out[..call.room], &mut fates[..call.fate_room]);
        black_box(twin::hide(&call.sheet, &call.list, out, fates));
    }
}

/// Makes so many calls of a case, of every implementation that there is.
pub fn run(case: &str, count: usize) {
    match systems::KINDS.iter().find(|kind| kind.name == case) {
        Some(kind) => tidying(kind, count),
        None => hiding(case, count),
    }
}

fn tidying(kind: &systems::Kind, count: usize) {
    let mut random = Random::new(31);
    let blocks: Blocks = (0..count).map(|_| kind.block(&mut random)).collect();
    if library::PRESENT {
        counted_library_tidy(&mut blocks.clone(), kind.eqs, kind.p);
    }
    counted_twin_tidy(&mut blocks.clone(), kind.eqs, kind.p);
    if let Some(mut batch) = Batch::new(count, kind.eqs.max(kind.words + 1), kind.words + 1, kind.p) {
        blocks.iter().enumerate().for_each(|(i, block)| batch.set(i, block));
        counted_flint_tidy(&mut batch);
    }
}

fn hiding(case: &str, count: usize) {
    let mut random = Random::new(32);
    let mut call = || match case {
        "full" => sheets::call(&mut random, sheets::FULL),
        "typical" => sheets::call(&mut random, sheets::TYPICAL),
        "chain" => sheets::chain(16),
        "refusal-7" => sheets::refused(&mut random)[1].1.clone(),
        _ => sheets::refused(&mut random)[2].1.clone(),
    };
    let calls: Vec<Call> = (0..count).map(|_| call()).collect();
    let (mut out, mut fates) = (vec![0; calls::size(16, 48)], vec![0; 16]);
    if library::PRESENT {
        counted_library_hide(&calls, &mut out, &mut fates);
    }
    counted_twin_hide(&calls, &mut out, &mut fates);
}
