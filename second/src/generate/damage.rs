//! Damage: a change to a good file that one clause of the paper refuses.

use crate::generate::damage_item::{damage_sequence, damage_setup};
use crate::generate::damage_seek::{damage_entries, damage_points};
use crate::generate::damage_tree::damage_tree;
use crate::generate::file::FilePlan;
use crate::generate::tree::Draft;
use crate::random::Random;
use crate::refusal::Clause;

/// The clauses that a file by itself can be refused by.
pub fn file_clauses() -> Vec<Clause> {
    let of_file = |clause: &Clause| matches!(clause.number(), 2..=14 | 17 | 20..=23);
    Clause::READING.iter().copied().filter(of_file).collect()
}

/// Damages a file by each of the clauses: bodies first, then the tree.
pub fn damaged(random: &mut Random, mut plan: FilePlan, clauses: &[Clause]) -> Draft {
    let in_tree = |clause: &Clause| clause.number() < 10;
    for clause in clauses.iter().filter(|clause| !in_tree(clause)) {
        damage_body(random, &mut plan, *clause);
    }
    let mut draft = plan.draft();
    for clause in clauses.iter().filter(|clause| in_tree(clause)) {
        damage_tree(random, &mut draft, *clause);
    }
    draft
}

fn damage_body(random: &mut Random, plan: &mut FilePlan, clause: Clause) {
    match clause.number() {
        10 => {
            let track = plan.track(random, None, None);
            damage_setup(random, track, clause);
        }
        11 | 20..=23 => damage_sequence(random, plan, clause),
        12 => {
            let track = plan.track(random, None, None);
            damage_entries(random, track, clause);
        }
        _ => damage_points(random, plan, clause),
    }
}
