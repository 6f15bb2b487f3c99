//! Many files and descriptions through every operation, with the answers checked
//! against each other.

use crate::case::Operation;
use crate::check::{hold, plain_plays_the_same, rows_tile};
use crate::check_writer::{body_reads_back, body_writes_back, file_reads_back, layout_writes_back};
use crate::file::open;
use crate::generate::any_file;
use crate::generate::describe::layout_file;
use crate::generate::write_call::{any_body, any_description};
use crate::listing::listing;
use crate::pitch::pitch;
use crate::plain::flatten;
use crate::play::play;
use crate::progress::progress;
use crate::random::Random;
use crate::write::{write_body, write_file};

/// How many files come before descriptions do.
const FILES_TO_ONE: u64 = 4;

/// What became of the files; tracks are counted that played and flattened, files
/// and bodies that were written from descriptions, and files in the writer's
/// layout that were written again.
#[derive(Clone, Copy, Debug, Default, PartialEq, Eq)]
pub struct Tally {
    pub files: u64,
    pub accepted: u64,
    pub played: u64,
    pub flattened: u64,
    pub written: u64,
    pub bodies: u64,
    pub again: u64,
}

/// Runs that many files; the number of the first that fails a check.
pub fn soak(count: u64, seed: u64) -> Result<Tally, String> {
    let mut tally = Tally::default();
    for number in 0..count {
        let mut random = Random::for_index(seed, number);
        let file = any_file(&mut random, Operation::Listing, number % 4_000);
        let mut held = run_file(&mut random, &file, &mut tally);
        if held.is_ok() && number % FILES_TO_ONE == 0 {
            held = run_writer(&mut random, number / FILES_TO_ONE, &mut tally);
        }
        held.map_err(|what| format!("file {number} of seed {seed}: {what}"))?;
        progress(number + 1, "files");
    }
    Ok(tally)
}

fn run_file(random: &mut Random, file: &[u8], tally: &mut Tally) -> Result<(), String> {
    tally.files += 1;
    let length = file.len() as u32;
    let stated = if random.percent(90) { length } else { random.next() as u32 % (length + 9) };
    let _ = pitch(random.byte(), random.byte());
    let _ = listing(file);
    let _ = play(file, stated, random.below(8) as u32, random.below(200));
    let _ = flatten(file, stated, random.next() as u32, random.below(200));
    let Ok(melody) = open(file, stated) else { return Ok(()) };
    tally.accepted += 1;
    rows_tile(&melody, stated as usize)?;
    tally.again += u64::from(layout_writes_back(&file[..stated as usize], &melody)?);
    for (number, track) in &melody.tracks {
        let row = *number as u32;
        body_writes_back(file, track)?;
        tally.played += u64::from(play(file, stated, row, 70_000).is_ok());
        if let Ok(plain) = flatten(file, stated, row, 70_000) {
            tally.flattened += 1;
            plain_plays_the_same(file, track, &plain)?;
        }
    }
    Ok(())
}

/// A description of a file, one of a body, and a file in the writer's layout.
fn run_writer(random: &mut Random, number: u64, tally: &mut Tally) -> Result<(), String> {
    let description = any_description(random, number);
    if let Ok(file) = write_file(&description, 70_000) {
        tally.written += 1;
        file_reads_back(&description, &file)?;
        write_again(&file, tally)?;
    }
    let description = any_body(random, number);
    if let Ok(body) = write_body(&description, 70_000) {
        tally.bodies += 1;
        body_reads_back(&description, &body)?;
    }
    write_again(&layout_file(random), tally)
}

fn write_again(file: &[u8], tally: &mut Tally) -> Result<(), String> {
    let melody = open(file, file.len() as u32).map_err(|refusal| refusal.text())?;
    let again = layout_writes_back(file, &melody)?;
    tally.again += u64::from(again);
    hold(again, "a file is not in the writer's layout")
}

impl Tally {
    pub fn text(&self) -> String {
        let Tally { files, accepted, played, flattened, written, bodies, again } = self;
        format!(
            "{files} files, {accepted} accepted; {played} tracks played, {flattened} flattened; \
{written} descriptions and {bodies} bodies written, {again} files written again\n"
        )
    }
}
