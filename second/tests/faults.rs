//! The table of faults, row by row: what is wrong with an item, and at which
//! byte.

mod shared;

use second::case::Operation;
use second::generate::fault::{cells, fault_case, is_cut, put_fault, Position};
use second::generate::sequence::SequencePlan;
use second::item::{read_sequence, Voice};
use second::random::Random;
use shared::*;

const NOTE: [u8; 3] = [0x00, 0x29, 0x14];

/// Number and place of a score body's refusal.
fn score_fault(body: &[u8]) -> (u32, usize) {
    outcome(read_sequence(body, Voice::Score))
}

fn pcm_fault(body: &[u8]) -> (u32, usize) {
    outcome(read_sequence(body, Voice::Pcm))
}

#[test]
fn bad_second_bytes() {
    for fault in [score_fault, pcm_fault] {
        assert_eq!(fault(&[0xFF, 0x80]), (23, 1));
        assert_eq!(fault(&[0xFF, 0x80, 0x0D, 0x00]), (23, 1));
        assert_eq!(fault(&[0x00, 0x29, 0x80, 0x80]), (23, 3));
        assert_eq!(fault(&[0x81, 0x00, 0x29, 0xFF, 0xFF]), (23, 4));
    }
}

#[test]
fn what_is_cut_is_told_at_the_end() {
    let cut: [&[u8]; 11] = [
        &[0x80],
        &[0x00],
        &[0x81, 0x00],
        &[0x00, 0x00],
        &[0x05, 0x00, 0x34],
        &[0x00, 0x29],
        &[0x00, 0x29, 0xFF],
        &[0x00, 0xFF],
        &[0x00, 0xFF, 0xF0],
        &[0x00, 0xFF, 0xF0, 0x03, 0x43, 0x02],
        &[0x00, 0xFF, 0xF0, 0xFF, 0xF7, 0xF7, 0xF7],
    ];
    for body in cut {
        assert_eq!(score_fault(body), (20, body.len()), "{body:02x?}");
        assert_eq!(pcm_fault(body), (20, body.len()), "{body:02x?}");
        let later = [&NOTE[..], body].concat();
        assert_eq!(score_fault(&later), (20, later.len()), "{later:02x?}");
        let file = score(STREAM, &[(b"Mtsq", &later), (b"MspI", b"")]);
        assert_eq!(refusal(&file), (20, 43 + later.len()));
    }
}

#[test]
fn forbidden_notes_and_waves() {
    for byte in [0x10, 0x2D, 0x0E, 0x3F, 0xC0, 0xFD] {
        assert_eq!(score_fault(&[0x00, byte, 0x01]), (21, 1));
        assert_eq!(score_fault(&[0x80, 0x00, byte]), (21, 2));
    }
    for byte in [0x40, 0x80, 0xC0, 0x3F, 0x7F, 0xBF] {
        assert_eq!(pcm_fault(&[0x00, byte, 0x00]), (21, 1));
    }
    assert_eq!(score_fault(&[0x00, 0x29, 0x00]), (21, 2));
    assert_eq!(pcm_fault(&[0x81, 0x00, 0x29, 0x00]), (21, 3));
}

#[test]
fn reserved_controls_and_events() {
    for bits in [0x5, 0x6, 0x8, 0x9, 0xC, 0xD, 0xE, 0xF] {
        assert_eq!(score_fault(&[0x00, 0x00, 0xF0 | bits, 0xFF]), (22, 2));
        assert_eq!(pcm_fault(&[0x00, 0x00, 0x30 | bits]), (22, 2));
    }
    for second in [0x30, 0x71, 0xB2, 0xF3, 0x20, 0x21, 0x6E, 0xAF] {
        assert_eq!(pcm_fault(&[0x00, 0x00, second]), (22, 2));
    }
    for second in [0x01, 0x7F, 0xEF, 0xF1, 0xFF] {
        assert_eq!(score_fault(&[0x05, 0xFF, second]), (22, 2));
    }
}

#[test]
fn reserved_values() {
    for second in [0x10, 0x40, 0xA0, 0x0F, 0x1F, 0xEF] {
        assert_eq!(score_fault(&[0x00, 0x00, second]), (23, 2));
    }
    assert_eq!(score_fault(&[0x00, 0x00, 0x30, 0x80]), (23, 3));
    assert_eq!(score_fault(&[0x00, 0x00, 0x32, 0x05]), (23, 3));
    assert_eq!(score_fault(&[0x00, 0x00, 0x32, 0x80]), (23, 3));
    assert_eq!(score_fault(&[0x00, 0x00, 0x31, 0xFF]), (0, 0));
    assert_eq!(pcm_fault(&[0x00, 0x00, 0x3B, 0xFF]), (23, 3));
}

#[test]
fn exclusives_of_bad_size_or_ending() {
    for size in 0..3 {
        assert_eq!(score_fault(&[0x00, 0xFF, 0xF0, size, 0xF7, 0xF7, 0xF7]), (23, 3));
        assert_eq!(score_fault(&[0x00, 0xFF, 0xF0, size]), (23, 3));
    }
    assert_eq!(score_fault(&[0x00, 0xFF, 0xF0, 0x03, 0x43, 0xF7, 0x00]), (23, 6));
    assert_eq!(pcm_fault(&[0x00, 0xFF, 0xF0, 0x04, 0x43, 0x02, 0xF7, 0xF6, 0xF7]), (23, 7));
}

#[test]
fn three_zeros() {
    assert_eq!(score_fault(&[0; 3]), (23, 2));
    assert_eq!(pcm_fault(&[0x00, 0x00, 0x00, 0x05]), (23, 2));
    assert_eq!(score_fault(&[0; 4]), (0, 0));
    assert_eq!(score_fault(&[&NOTE[..], &[0; 3]].concat()), (23, 5));
}

/// A fault behind an end mark is told as that fault, at its own byte.
#[test]
fn what_follows_an_end_mark_is_read() {
    let behind: [(&[u8], (u32, usize)); 6] = [
        (&[0x00], (20, 5)),
        (&[0xFF, 0x80], (23, 5)),
        (&[0x05, 0x0D, 0x01], (21, 5)),
        (&[0x05, 0xFF, 0x01], (22, 6)),
        (&[0x00, 0x29, 0x00], (21, 6)),
        (&NOTE, (0, 0)),
    ];
    for (rest, (number, place)) in behind {
        assert_eq!(score_fault(&[&[0; 4], rest].concat()), (number, place));
        let later = [&NOTE[..], &[0; 8], rest].concat();
        let place = if number == 0 { 0 } else { place + 7 };
        assert_eq!(score_fault(&later), (number, place), "{later:02x?}");
    }
}

#[test]
fn zeros_in_a_row() {
    let told = [(11, 0), (20, 1), (20, 2), (23, 2), (0, 0), (20, 5), (20, 6), (23, 6), (0, 0)];
    for (count, fault) in told.into_iter().enumerate() {
        assert_eq!(score_fault(&vec![0; count]), fault, "{count} zeros");
        assert_eq!(pcm_fault(&vec![0; count]), fault, "{count} zeros");
    }
}

#[test]
fn after_setup_and_before_seek() {
    let bad = [0x00, 0x29, 0x00];
    let all: [Leaf; 3] = [(b"MspI", b""), (b"Mtsq", &bad), (b"Mtsu", b"")];
    assert_eq!(refusal(&score(STREAM, &all)).0, 10);
    assert_eq!(refusal(&score(STREAM, &all[..2])), (21, 51 + 2));
}

#[test]
fn generated_faults_stand_where_they_were_put() {
    let (mut all, mut behind_marks) = (0, 0);
    for cell in cells() {
        for number in 0..60 {
            let mut random = Random::for_index(9, number);
            let mut plan = SequencePlan::new(&mut random, cell.voice);
            let told = put_fault(&mut random, &mut plan, cell);
            let body = plan.bytes();
            let refused = read_sequence(&body, cell.voice).unwrap_err();
            assert_eq!((refused.clause, refused.place), (cell.clause, told), "{body:02x?}");
            if cell.position != Position::Last || !is_cut(cell.clause) {
                assert_eq!(cell.position == Position::First, told < plan.items[0].len());
            }
            let mut placed = plan.items.iter().zip(plan.addresses());
            all += 1;
            behind_marks +=
                u32::from(placed.any(|(item, at)| *item == MARK && (at as usize) < told));
        }
    }
    assert!(4 * behind_marks > all, "{behind_marks} of {all} stand behind an end mark");
}

#[test]
fn generated_cases_are_refused_for_their_faults() {
    let operations = [Operation::Read, Operation::Play, Operation::Flatten, Operation::Listing];
    for number in 0..4_000 {
        let (case, cell) = fault_case(&operations, 6, number);
        assert_eq!(case.answer().unwrap_err().clause, cell.clause, "case {number}");
    }
}
