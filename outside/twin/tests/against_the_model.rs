//! The twin and the model agree on the bench sheets and on random calls, sound and damaged.

use calls::{Call, Random};

fn compare(call: &Call) {
    let (mut out, mut fates) = (vec![9; call.room], vec![9; call.fate_room]);
    let (mut other_out, mut other_fates) = (out.clone(), fates.clone());
    let wanted = model::hide(&call.sheet, &call.list, &mut out, &mut fates);
    let answer = twin::hide(&call.sheet, &call.list, &mut other_out, &mut other_fates);
    let numbers = (answer.refused, answer.length, answer.walks);
    assert_eq!(numbers, (wanted.refused, wanted.length, wanted.walks), "{}", call.line());
    assert!(out == other_out && fates == other_fates, "{}", call.line());
}

#[test]
fn on_the_bench_sheets() {
    calls::bench_sheets::all().iter().for_each(|bench| compare(&bench.call));
}

#[test]
fn on_random_calls() {
    let mut random = Random::new(2);
    (0..20_000).for_each(|_| compare(&Call::any(&mut random)));
}

#[test]
fn tidying_equalities_alone() {
    let mut random = Random::new(3);
    for _ in 0..2_000 {
        let p = 1 + random.below(32) as u32;
        let eqs = random.index(33);
        let common = random.below(p as u64) as u32;
        let mut rows = [0; 544];
        for v in &mut rows[..17 * eqs] {
            *v = if random.chance(60) { (random.bits() as u32) << common & (u32::MAX >> (32 - p)) } else { 0 };
        }
        let input: Vec<Vec<u64>> = rows.chunks(17).take(eqs).map(|r| r.iter().map(|&v| v as u64).collect()).collect();
        let count = twin::tidy(&mut rows, eqs, p);
        let output: Vec<Vec<u64>> =
            rows.chunks(17).take(count).map(|r| r.iter().map(|&v| v as u64).collect()).collect();
        let one = || (0..17).map(|i| (i == 16) as u64).collect();
        assert_eq!(output, model::howell(&input, 16, p).unwrap_or_else(|| vec![one()]));
    }
}
