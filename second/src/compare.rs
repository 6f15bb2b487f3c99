//! Another program's answers held against this one's, case by case.

use crate::case::{next_case, text_of, Case, Next, Operation, BAD_CASE, KEPT, SPOILT};
use crate::check::plain_plays_the_same;
use crate::check_writer::{body_reads_back, file_reads_back};
use crate::description::{BodyDescription, Description};
use crate::file::open;
use crate::plain::flatten;
use crate::progress::progress;
use crate::write::{write_body, write_file};
use std::collections::BTreeMap;

/// The first case on which the two differ.
#[derive(Clone, Debug, PartialEq, Eq)]
pub struct Difference {
    pub number: u64,
    pub case: Option<Case>,
    pub own: String,
    pub other: String,
}

/// How many cases there were by operation and by refusal (0 for accepted).
#[derive(Clone, Debug, Default, PartialEq, Eq)]
pub struct Agreement {
    pub operations: BTreeMap<u8, u64>,
    pub refusals: BTreeMap<u32, u64>,
}

pub fn compare(cases: &[u8], answers: &str) -> Result<Agreement, Box<Difference>> {
    let mut agreement = Agreement::default();
    let mut cases = cases;
    let mut answers = answers;
    for number in 0.. {
        let (own, case) = match next_case(&mut cases) {
            Next::Case(case) => (case_answer(&case, &mut agreement), Some(case)),
            Next::Bad => (String::from(BAD_CASE), None),
            Next::End => (String::new(), None),
        };
        let other = match case {
            Some(_) => next_answer(&mut answers),
            None => std::mem::take(&mut answers),
        };
        let own = match &case {
            Some(case) if own == other => checked(case, own),
            _ => own,
        };
        if own != other {
            let other = String::from(other);
            return Err(Box::new(Difference { number, case, own, other }));
        }
        if case.is_none() {
            break;
        }
        progress(number + 1, "cases");
    }
    Ok(agreement)
}

fn case_answer(case: &Case, agreement: &mut Agreement) -> String {
    let answer = case.answer();
    let refusal = answer.as_ref().err().map_or(0, |refusal| refusal.number());
    *agreement.operations.entry(case.operation.letter()).or_insert(0) += 1;
    *agreement.refusals.entry(refusal).or_insert(0) += 1;
    text_of(&answer)
}

/// Up to the line on lent memory, or all that is left.
fn next_answer<'a>(answers: &mut &'a str) -> &'a str {
    let mut length = 0;
    for line in answers.split_inclusive('\n') {
        length += line.len();
        if line == KEPT || line == SPOILT {
            break;
        }
    }
    let (answer, rest) = answers.split_at(length);
    *answers = rest;
    answer
}

/// What is agreed must also hold together with what it was made from.
fn checked(case: &Case, agreed: String) -> String {
    let held = match case.operation {
        Operation::Flatten => plain_holds(case),
        Operation::Write => file_holds(case),
        Operation::WriteBody => body_holds(case),
        _ => Ok(()),
    };
    match held {
        Ok(()) => agreed,
        Err(what) => format!("both agree, but {what}\n"),
    }
}

/// A plain form plays what its track plays.
fn plain_holds(case: &Case) -> Result<(), String> {
    let Ok(plain) = flatten(&case.buffer, case.stated, case.row, case.room as usize) else {
        return Ok(());
    };
    let melody = open(&case.buffer, case.stated);
    let track = melody.as_ref().ok().and_then(|melody| melody.track(case.row).ok());
    track.map_or(Ok(()), |track| plain_plays_the_same(&case.buffer, track, &plain))
}

/// A written file reads back.
fn file_holds(case: &Case) -> Result<(), String> {
    let Some(description) = Description::from_bytes(&case.buffer) else { return Ok(()) };
    match write_file(&description, case.room as usize) {
        Ok(file) => file_reads_back(&description, &file),
        Err(_) => Ok(()),
    }
}

/// A written body reads back.
fn body_holds(case: &Case) -> Result<(), String> {
    let Some(description) = BodyDescription::from_bytes(&case.buffer) else { return Ok(()) };
    match write_body(&description, case.room as usize) {
        Ok(body) => body_reads_back(&description, &body),
        Err(_) => Ok(()),
    }
}

impl Difference {
    pub fn text(&self) -> String {
        let about = match &self.case {
            None => format!("after the last case, number {}", self.number),
            Some(case) => format!(
                "case {}: {} stated {} row {} room {} buffer {}",
                self.number,
                char::from(case.operation.letter()),
                case.stated,
                case.row,
                case.room,
                case.buffer.len()
            ),
        };
        let (own, other) = shortened(&self.own, &self.other);
        format!("{about}\nown answer:\n{own}other answer:\n{other}")
    }
}

/// Both texts from the first line that differs, a few lines of each.
fn shortened(own: &str, other: &str) -> (String, String) {
    let same = own.lines().zip(other.lines()).take_while(|(one, two)| one == two).count();
    let few = |text: &str| {
        let mut kept = String::new();
        for (number, line) in text.lines().enumerate().skip(same).take(4) {
            let start: String = line.chars().take(200).collect();
            kept.push_str(&format!("  line {}: {start}\n", number + 1));
        }
        if kept.is_empty() {
            kept.push_str("  (ends)\n");
        }
        kept
    };
    (few(own), few(other))
}

impl Agreement {
    pub fn text(&self) -> String {
        let total: u64 = self.operations.values().sum();
        let mut text = format!("{total} cases agree\n");
        for (letter, count) in &self.operations {
            text.push_str(&format!("{count:8} operation {}\n", char::from(*letter)));
        }
        for (refusal, count) in &self.refusals {
            text.push_str(&format!("{count:8} refusal {refusal}\n"));
        }
        text
    }
}
