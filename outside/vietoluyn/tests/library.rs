//! The library through its safe face: the bench sheets, every refusal, and the tidying for benchmarks.

use vietoluyn::{hide, room, tidy, Accepted, Refusal};

#[test]
fn every_bench_sheet_comes_out_as_the_rules_say() {
    for bench in calls::bench_sheets::all() {
        let call = &bench.call;
        let (mut out, mut fates) = (vec![9; call.room], vec![9; call.fate_room]);
        let wanted = bench.answer.bytes();
        let accepted = hide(&call.sheet, &call.list, &mut out, &mut fates);
        assert_eq!(accepted, Ok(Accepted { length: wanted.len(), walks: bench.walks }), "{}", bench.name);
        assert_eq!(out[..wanted.len()], wanted, "{}", bench.name);
        assert!(out[wanted.len()..].iter().all(|&b| b == 9), "{}", bench.name);
        assert_eq!(fates, bench.fates, "{}", bench.name);
    }
}

#[test]
fn every_refusal_has_its_number_and_changes_nothing() {
    let mut random = calls::Random::new(5);
    for row in 1..=11 {
        for _ in 0..50 {
            let call = calls::damage::with(&mut random, &[row]);
            let (mut out, mut fates) = (vec![9; call.room], vec![9; call.fate_room]);
            let refused = hide(&call.sheet, &call.list, &mut out, &mut fates);
            // The damage asked for is the only one, but for a list that was made far too long on top of it.
            let wanted = if call.list.len() > 17 && row > 9 { 9 } else { row };
            assert_eq!(refused.map_err(|r| r.number() as usize), Err(wanted), "{}", call.line());
            assert!(out.iter().chain(&fates).all(|&b| b == 9), "{}", call.line());
        }
    }
    assert_eq!(Refusal::SheetBuffer.to_string(), "the sheet buffer is shorter than 8 + 48 × (1 + 8 × (n + 1))");
}

#[test]
fn the_room_is_just_enough() {
    let call = &calls::bench_sheets::all()[0].call;
    let (mut out, mut fates) = (vec![0; room(3)], [0]);
    assert!(hide(&call.sheet, &call.list, &mut out, &mut fates).is_ok());
    assert_eq!(hide(&call.sheet, &call.list, &mut out[1..], &mut fates), Err(Refusal::SheetBuffer));
}

#[test]
fn tidying_alone() {
    // 6x + y = 4 at p = 3 becomes 2x + 3y + 4 = 0 and 4y = 0.
    let mut rows = [0; 544];
    (rows[0], rows[1], rows[16]) = (6, 1, 4);
    assert_eq!(tidy(&mut rows, 1, 3), Some(2));
    assert_eq!((rows[0], rows[1], rows[16], rows[17 + 1]), (2, 3, 4, 4));
    assert_eq!((rows[17], rows[17 + 16]), (0, 0));

    // 2x = 1 has no solution.
    let mut rows = [0; 544];
    (rows[0], rows[16]) = (2, 7);
    assert_eq!(tidy(&mut rows, 1, 3), Some(1));
    assert_eq!(rows[..17], [0, 0, 0, 0, 0, 0, 0, 0, 0, 0, 0, 0, 0, 0, 0, 0, 1]);

    let mut rows = [9; 544];
    for (eqs, p) in [(33, 32), (1, 0), (1, 33), (1, 3), (usize::MAX, 32)] {
        assert_eq!(tidy(&mut rows, eqs, p), None);
        assert_eq!(rows, [9; 544]);
    }
}
