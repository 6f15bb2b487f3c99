//! The case format: cases in, answers out, and the comparison of answers.

use second::case::{answer_stream, next_case, Case, Next, Operation, KEPT};
use second::compare::compare;
use second::generate;
use second::tune::worked_tune;

const ALL: [Operation; 9] = [
    Operation::Read,
    Operation::Play,
    Operation::Flatten,
    Operation::Pitch,
    Operation::Listing,
    Operation::Write,
    Operation::Items,
    Operation::Entries,
    Operation::WriteBody,
];

/// Eighty of each operation.
const CASES: u64 = 720;

fn tune_case(operation: Operation) -> Case {
    Case { operation, stated: 102, row: 2, room: 70_000, buffer: worked_tune() }
}

fn answers(cases: &[u8]) -> String {
    let mut text = String::new();
    answer_stream(cases, |answer| text.push_str(answer));
    text
}

fn stream() -> Vec<u8> {
    (0..CASES).flat_map(|number| generate::case(&ALL, 8, number).bytes()).collect()
}

#[test]
fn answers_to_the_tune() {
    let read = "rows 5 code 720a verdict yes\n4d4d4d44 0 94 0\n434e5449 8 5 0\n\
4d545200 21 71 0\n4d737049 35 30 2\n4d747371 73 19 2\n-- kept\n";
    assert_eq!(tune_case(Operation::Read).answer_text(), read);
    let play = "rows 5 end 590\n0 180a0000\n10 08520050\n268 08580200\n300 08520050\n\
558 08580200\n-- kept\n";
    assert_eq!(tune_case(Operation::Play).answer_text(), play);
    let plain = "bytes 27\n000030050a291481022c8000202914\
81022c800020ff0000000000\n-- kept\n";
    assert_eq!(tune_case(Operation::Flatten).answer_text(), plain);
    let listed = tune_case(Operation::Listing).answer_text();
    assert!(listed.starts_with("step ms ch kind value gate\n0 0 0 program 5 0\n"));
    assert!(listed.ends_with("end 590 2360\n-- kept\n"));
    assert_eq!(generate::pitch_case(0x01, 0x84).answer_text(), "pitch -80\n-- kept\n");
    assert_eq!(generate::pitch_case(0x00, 0x00).answer_text(), "refused 19 0\n-- kept\n");
}

#[test]
fn cases_come_back_from_their_bytes() {
    let bytes = stream();
    let mut rest = &bytes[..];
    for number in 0..CASES {
        assert_eq!(next_case(&mut rest), Next::Case(generate::case(&ALL, 8, number)));
    }
    assert_eq!(next_case(&mut rest), Next::End);
}

#[test]
fn bad_cases_end_the_run() {
    let good = tune_case(Operation::Play).bytes();
    let answer = answers(&good);
    let ends = |bad: &[u8]| {
        let text = answers(&[&good[..], bad].concat());
        assert_eq!(text, format!("{answer}bad case\n"), "{bad:?}");
    };
    let head = |letter: u8, room: u32, length: u32| {
        let numbers = [102, 2, room, length].map(u32::to_be_bytes).concat();
        [&[letter][..], &numbers].concat()
    };
    ends(b"x");
    ends(b"r");
    ends(&good[..good.len() - 1]);
    ends(&good[..17]);
    ends(&[head(b'q', 0, 0), good.clone()].concat());
    ends(&[head(b'r', 0, 70_001), vec![0; 70_001]].concat());
    ends(&[head(b'r', 70_001, 0), good.clone()].concat());
    ends(&[head(b't', 70_001, 0), good.clone()].concat());
    let largest = [head(b'r', 70_000, 70_000), vec![0; 70_000]].concat();
    assert_eq!(answers(&largest), "refused 2 0\n-- kept\n");
}

#[test]
fn own_answers_agree() {
    let cases = stream();
    let agreement = compare(&cases, &answers(&cases)).unwrap();
    assert!(agreement.operations.values().all(|count| *count == 80));
    assert_eq!(agreement.refusals.values().sum::<u64>(), CASES);
    assert!(agreement.refusals.contains_key(&0) && agreement.refusals.contains_key(&19));
    assert!(agreement.text().starts_with("720 cases agree\n"));
}

#[test]
fn differences_are_found() {
    let cases = stream();
    let text = answers(&cases);
    let ends: Vec<usize> = text.match_indices(KEPT).map(|(place, _)| place).collect();
    let case_of = |number| Some(generate::case(&ALL, 8, number));
    let found = |other: &str| compare(&cases, other).unwrap_err();

    let mut spoilt = text.clone();
    spoilt.replace_range(ends[7]..ends[7] + KEPT.len(), "-- spoilt\n");
    assert_eq!((found(&spoilt).number, found(&spoilt).case), (7, case_of(7)));

    let mut other = text.clone();
    other.insert_str(ends[30], "0 0 0 0\n");
    assert_eq!((found(&other).number, found(&other).case), (30, case_of(30)));

    let cut = &text[..ends[719]];
    assert_eq!((found(cut).number, found(cut).case), (719, case_of(719)));
    let few = &text[..ends[9] + KEPT.len()];
    assert_eq!((found(few).number, found(few).other), (10, String::new()));

    let long = format!("{text}bad case\n");
    assert_eq!((found(&long).number, found(&long).case), (CASES, None));
    assert_eq!(found(&long).other, "bad case\n");
}

#[test]
fn bad_cases_agree_too() {
    let cases = [&tune_case(Operation::Play).bytes()[..], b"zzz"].concat();
    let text = answers(&cases);
    assert!(text.ends_with("-- kept\nbad case\n"));
    assert!(compare(&cases, &text).is_ok());
    let without = text.strip_suffix("bad case\n").unwrap();
    assert_eq!(compare(&cases, without).unwrap_err().own, "bad case\n");
}

#[test]
fn differences_are_told_shortly() {
    let cases = tune_case(Operation::Play).bytes();
    let other = answers(&cases).replace("268 ", "269 ");
    let told = compare(&cases, &other).unwrap_err().text();
    assert!(told.starts_with("case 0: p stated 102 row 2 room 70000 buffer 102\n"));
    assert!(told.contains("own answer:\n  line 4: 268 08580200\n"));
    assert!(told.contains("other answer:\n  line 4: 269 08580200\n"));
}
