//! The model against the meaning, by trying every assignment at small widths: the demands on a call, and the tidy form
//! by the whole span of the rows.

use calls::sheets::{self, Draft, Maker, EQUAL};
use calls::{Call, Random};
use model::{bytes, howell, meaning, tidy, Kind, Sheet, Term};
use std::collections::{BTreeMap, BTreeSet};

struct Outcome {
    input: Sheet,
    answer: Sheet,
    bytes: Vec<u8>,
    fates: Vec<u8>,
    walks: usize,
}

fn outcome(draft: &Draft, list: &[u8]) -> Outcome {
    let call = Call::new(draft, list);
    let (mut out, mut fates) = (vec![0; call.room], vec![0; call.fate_room]);
    let answer = model::hide(&call.sheet, &call.list, &mut out, &mut fates);
    assert_eq!(answer.refused, 0, "{}", call.line());
    out.truncate(answer.length);
    Outcome { input: bytes::read(&call.sheet), answer: bytes::read(&out), bytes: out, fates, walks: answer.walks }
}

fn hidden(list: &[u8], fates: &[u8]) -> Vec<usize> {
    list.iter().zip(fates).filter(|(_, &fate)| fate != 0).map(|(&x, _)| x as usize).collect()
}

/// Sound sheets whose assignments can all be tried.
fn small(random: &mut Random) -> (Draft, Vec<u8>) {
    loop {
        let (draft, list) = sheets::any(random);
        if draft.p as usize * draft.n <= 9 {
            return (draft, list);
        }
    }
}

#[test]
fn the_answer_holds_exactly_when_hidden_values_exist() {
    let mut random = Random::new(11);
    let mut seen: BTreeMap<String, usize> = BTreeMap::new();
    for _ in 0..6_000 {
        let (draft, list) = small(&mut random);
        let o = outcome(&draft, &list);
        meaning::answers(&o.input, &o.answer, &hidden(&list, &o.fates))
            .unwrap_or_else(|e| panic!("{e}: {draft:?} {list:?}"));
        for fate in &o.fates {
            *seen.entry(format!("fate {fate}")).or_default() += 1;
        }
        *seen.entry(format!("walks {}", o.walks)).or_default() += 1;
        check_fates_and_walks(&list, &o);
    }
    for what in ["fate 0", "fate 1", "fate 2", "fate 3", "walks 0", "walks 1", "walks 2", "walks 3"] {
        assert!(seen.get(what).is_some_and(|&times| times > 30), "too few of {what}: {seen:?}");
    }
}

/// What fates and walks say, from outside: a word that the tidied input lacks is absent; the last walk of a list with a
/// word left hid none, so hiding the left words from the answer once more leaves it as it is.
fn check_fates_and_walks(list: &[u8], o: &Outcome) {
    assert!(o.walks <= list.len() && (o.walks == 0) == list.is_empty());
    let start = tidy(&o.input);
    for (&x, &fate) in list.iter().zip(&o.fates) {
        if !start.has(x as usize) {
            assert_eq!(fate, 1, "word {x} occurs in no constraint");
        }
        if list.len() == 1 && fate == 1 {
            assert!(!start.has(x as usize), "word {x} is called absent");
        }
    }
    let left: Vec<u8> = list.iter().zip(&o.fates).filter(|(_, &fate)| fate == 0).map(|(&x, _)| x).collect();
    assert!(left.is_empty() || left.len() == list.len() || o.walks >= 2);
    let (mut out, mut fates) = (vec![0; bytes::size(16, 48)], vec![9; left.len()]);
    let again = model::hide(&o.bytes, &left, &mut out, &mut fates);
    assert_eq!((again.refused, again.walks), (0, !left.is_empty() as usize));
    assert_eq!(out[..again.length], o.bytes);
    assert!(fates.iter().all(|&fate| fate == 0));
}

#[test]
fn tidying_keeps_what_a_sheet_says() {
    let mut random = Random::new(12);
    for _ in 0..6_000 {
        let (draft, _) = small(&mut random);
        let sheet = bytes::read(&draft.bytes());
        let tidied = tidy(&sheet);
        assert_eq!(tidy(&tidied), tidied);
        assert_eq!(meaning::answers(&sheet, &tidied, &[]), Ok(()));
    }
}

/// All sums of multiples of the rows.
fn span(rows: &[Term], width: usize, p: u32) -> BTreeSet<Term> {
    let mut sums = BTreeSet::from([vec![0; width]]);
    for row in rows {
        let multiples: Vec<Term> = (0..1 << p).map(|q| row.iter().map(|&a| q * a % (1 << p)).collect()).collect();
        let add = |a: &Term, b: &Term| a.iter().zip(b).map(|(a, b)| (a + b) % (1 << p)).collect();
        sums = sums.iter().flat_map(|sum| multiples.iter().map(move |multiple| add(sum, multiple))).collect();
    }
    sums
}

fn leading(row: &Term) -> usize {
    row.iter().position(|&a| a != 0).expect("a row that is not zero")
}

#[test]
fn equalities_take_the_form_that_the_rules_describe() {
    let mut random = Random::new(13);
    let mut unsolvable = 0;
    for _ in 0..4_000 {
        let (p, n) = *random.pick(&[(1, 4), (1, 3), (2, 1), (2, 2), (2, 3), (3, 1), (3, 2), (4, 1)]);
        let m = random.between(0, 4);
        let make = &mut Maker { random: &mut random, p, n };
        let rows: Vec<Term> = (0..m).map(|_| make.term(60).iter().map(|&v| v as u64).collect()).collect();
        let whole = span(&rows, n + 1, p);
        let lacks = |row: &Term, words: usize| row[..words].iter().all(|&a| a == 0);
        let Some(form) = howell(&rows, n, p) else {
            unsolvable += 1;
            let equalities = |assignment: &Vec<u64>| rows.iter().all(|r| meaning::value(r, assignment, p) == 0);
            assert!(!meaning::assignments(p, n).any(|a| equalities(&a)));
            continue;
        };
        assert_eq!(span(&form, n + 1, p), whole, "{rows:?}");
        assert!(form.iter().all(|row| !lacks(row, n)));
        assert!(form.windows(2).all(|pair| leading(&pair[0]) < leading(&pair[1])));
        for (i, row) in form.iter().enumerate() {
            let x = leading(row);
            assert!(row[x].is_power_of_two());
            assert!(form[..i].iter().all(|earlier| earlier[x] < row[x]));
        }
        for words in 1..=n {
            let beyond: Vec<Term> = form.iter().filter(|row| leading(row) >= words).cloned().collect();
            let wanted: BTreeSet<Term> = whole.iter().filter(|row| lacks(row, words)).cloned().collect();
            assert_eq!(span(&beyond, n + 1, p), wanted);
        }
    }
    assert!(unsolvable > 100);
}

/// A sheet of equalities that says the same: rows added to one another, odd multiples, sides exchanged, a row more.
fn said_otherwise(make: &mut Maker, draft: &Draft) -> Draft {
    let top = make.top();
    let mut rows: Vec<Vec<u32>> = draft.constraints.iter().map(|(_, left, _)| left.clone()).collect();
    if !rows.is_empty() && make.random.chance(50) {
        rows.push(vec![0; make.n + 1]);
    }
    for _ in 0..6 {
        if rows.len() > 1 {
            let i = make.random.index(rows.len());
            let j = (i + 1 + make.random.index(rows.len() - 1)) % rows.len();
            let q = make.uniform();
            let from = rows[j].clone();
            rows[i].iter_mut().zip(&from).for_each(|(a, b)| *a = a.wrapping_add(q.wrapping_mul(*b)) & top);
        }
    }
    for row in &mut rows {
        let q = make.with_kappa(0);
        row.iter_mut().for_each(|a| *a = a.wrapping_mul(q) & top);
    }
    make.random.shuffle(&mut rows);
    let zero = vec![0; make.n + 1];
    let constraints = rows
        .into_iter()
        .map(|row| if make.random.chance(50) { (EQUAL, row, zero.clone()) } else { (EQUAL, zero.clone(), row) })
        .collect();
    Draft { constraints, ..*draft }
}

#[test]
fn answers_of_equalities_are_the_same_bytes_exactly_when_they_say_the_same() {
    let mut random = Random::new(14);
    let (mut same, mut different, mut same_by_chance) = (0, 0, 0);
    for _ in 0..6_000 {
        let (p, n) = *random.pick(&[(1, 2), (1, 3), (1, 5), (2, 2), (2, 3), (2, 4), (3, 2), (3, 3), (4, 2)]);
        let make = &mut Maker { random: &mut random, p, n };
        let equalities = |make: &mut Maker| {
            let zero = make.constant(0);
            let m = make.random.between(0, 4);
            Draft { p, n, constraints: (0..m).map(|_| (EQUAL, make.term(60), zero.clone())).collect() }
        };
        let first = equalities(make);
        let mut second = match make.random.below(3) {
            0 => equalities(make),
            _ => said_otherwise(make, &first),
        };
        if make.random.chance(30) && !second.constraints.is_empty() {
            // One number of it changed, which may or may not matter.
            let (i, j) = (make.random.index(second.constraints.len()), make.random.index(n + 1));
            second.constraints[i].1[j] = make.number();
        }
        let count = make.random.between(0, n);
        let list = make.random.words(n, count);
        let mut other_list = list.clone();
        make.random.shuffle(&mut other_list);
        let (a, b) = (outcome(&first, &list), outcome(&second, &other_list));
        assert!(a.fates.iter().chain(&b.fates).all(|&fate| fate != 0), "every word of a sheet of equalities is hidden");
        assert!(a.answer.constraints.iter().all(|c| c.kind == Kind::Equal));
        let words: Vec<usize> = list.iter().map(|&x| x as usize).collect();
        let agree = meaning::projection(&a.input, &words) == meaning::projection(&b.input, &words);
        assert_eq!(a.bytes == b.bytes, agree, "{first:?} {second:?} {list:?}");
        same += agree as usize;
        different += !agree as usize;
        same_by_chance += (agree && tidy(&a.input) != tidy(&b.input)) as usize;
    }
    assert!(same > 500 && different > 500 && same_by_chance > 100, "{same} {different} {same_by_chance}");
}
