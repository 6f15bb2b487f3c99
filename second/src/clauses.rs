//! Which clauses refused how many of the generated cases.

use crate::case::Operation;
use crate::generate;
use crate::generate::fault::{cells, fault_case, item_clauses};
use crate::progress::progress;
use crate::refusal::Clause;
use std::collections::BTreeMap;

/// Whether a case of the operation can be refused by the clause.
pub fn applies(clause: Clause, operation: Operation) -> bool {
    match Clause::WRITING.contains(&clause) {
        true => applies_to_writing(clause, operation),
        false => applies_to_reading(clause, operation),
    }
}

fn applies_to_writing(clause: Clause, operation: Operation) -> bool {
    match clause {
        Clause::WordKindNotInPcm
        | Clause::WordWaveZero
        | Clause::WordWaveOver62
        | Clause::BodyOverLargest
        | Clause::BodyOverRoom => operation == Operation::WriteBody,
        _ if matches!(clause.number(), 11 | 21..=23) => {
            matches!(operation, Operation::Write | Operation::WriteBody)
        }
        _ => operation == Operation::Write,
    }
}

fn applies_to_reading(clause: Clause, operation: Operation) -> bool {
    match clause {
        Clause::LengthPastBuffer => operation.reads_file() && operation != Operation::Listing,
        Clause::RowOfSomethingElse | Clause::RowPastLast => {
            operation.reads_file() && !matches!(operation, Operation::Read | Operation::Listing)
        }
        Clause::NoReadableTrack => operation == Operation::Listing,
        Clause::OrderListMissing => {
            matches!(operation, Operation::Play | Operation::Flatten | Operation::Listing)
        }
        Clause::ReadTableShort => matches!(operation, Operation::Read | Operation::Listing),
        Clause::PlayTableShort => matches!(operation, Operation::Play | Operation::Listing),
        Clause::ItemTableShort => operation == Operation::Items,
        Clause::EntryTableShort => operation == Operation::Entries,
        Clause::PlainOverLargest | Clause::PlainOverBuffer => operation == Operation::Flatten,
        Clause::PitchNotNote | Clause::PitchShiftReserved => operation == Operation::Pitch,
        _ => operation.reads_file(),
    }
}

/// How many of the cases each clause refused; None stands for accepted.
pub fn count(operations: &[Operation], cases: u64, seed: u64) -> BTreeMap<Option<Clause>, u64> {
    let mut counts = BTreeMap::new();
    for number in 0..cases {
        let answer = generate::case(operations, seed, number).answer();
        *counts.entry(answer.err().map(|refusal| refusal.clause)).or_insert(0) += 1;
        progress(number + 1, "cases");
    }
    counts
}

/// Cases in which each cell of the table of faults is met that often, and how
/// many of them were refused for it, by clause.
pub fn count_faults(
    operations: &[Operation],
    each: u64,
    seed: u64,
) -> BTreeMap<Option<Clause>, u64> {
    let mut counts = BTreeMap::new();
    for number in 0..each * cells().len() as u64 {
        let (case, cell) = fault_case(operations, seed, number);
        let refused = case.answer().err().map(|refusal| refusal.clause);
        if refused == Some(cell.clause) {
            *counts.entry(refused).or_insert(0) += 1;
        }
    }
    counts
}

/// The clauses that apply to the operations and refused nothing.
pub fn missing(operations: &[Operation], counts: &BTreeMap<Option<Clause>, u64>) -> Vec<Clause> {
    let due = |clause: &Clause| {
        operations.iter().any(|operation| applies(*clause, *operation))
            && !counts.contains_key(&Some(*clause))
    };
    Clause::ALL.iter().copied().filter(due).collect()
}

/// One line for each clause that applies.
pub fn table(operations: &[Operation], counts: &BTreeMap<Option<Clause>, u64>) -> String {
    let accepted = counts.get(&None).unwrap_or(&0);
    let mut text = format!("{accepted:8} accepted\n");
    for clause in Clause::ALL {
        if operations.iter().any(|operation| applies(*clause, *operation)) {
            let count = counts.get(&Some(*clause)).unwrap_or(&0);
            text.push_str(&format!("{count:8} {:2} {clause:?}\n", clause.number()));
        }
    }
    text
}

/// One line for each clause of faulty items.
pub fn fault_table(counts: &BTreeMap<Option<Clause>, u64>) -> String {
    let line = |clause: &Clause| {
        let count = counts.get(&Some(*clause)).unwrap_or(&0);
        format!("{count:8} {:2} {clause:?}\n", clause.number())
    };
    item_clauses().iter().map(line).collect()
}
