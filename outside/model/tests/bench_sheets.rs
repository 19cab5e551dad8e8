//! The fourteen bench sheets of the rules.

#[test]
fn every_bench_sheet_comes_out_as_the_rules_say() {
    for bench in calls::bench_sheets::all() {
        let call = &bench.call;
        let (mut out, mut fates) = (vec![9; call.room], vec![9; call.fate_room]);
        let answer = model::hide(&call.sheet, &call.list, &mut out, &mut fates);
        assert_eq!(
            answer,
            model::Answer { refused: 0, length: bench.answer.bytes().len(), walks: bench.walks },
            "{}",
            bench.name
        );
        assert_eq!(out[..answer.length], bench.answer.bytes(), "{}", bench.name);
        assert!(out[answer.length..].iter().all(|&b| b == 9), "{}", bench.name);
        assert_eq!(fates, bench.fates, "{}", bench.name);
    }
}
