//! The commands of the program.

use second::case::{answer_stream, Case, Operation};
use second::compare::compare;
use second::generate::fault::{cells, fault_case};
use second::listing::listing;
use second::progress::progress;
use second::{clauses, generate, soak, tune, tunes};
use std::io::{BufWriter, Read, Write};
use std::process::ExitCode;

const USAGE: &str = "usage: second list FILE | tune | tunes FOLDER | answer | \
generate OPERATIONS COUNT SEED | generate-all-pitches | \
generate-many-chunks ROWS | generate-faults OPERATIONS EACH SEED | \
faults OPERATIONS EACH SEED | \
compare CASES ANSWERS [DIFFERENCE] | clauses OPERATIONS COUNT SEED | soak COUNT SEED; \
OPERATIONS are letters out of rpftlwmsb";

type Outcome = Result<ExitCode, String>;

fn main() -> ExitCode {
    let arguments: Vec<String> = std::env::args().skip(1).collect();
    let words: Vec<&str> = arguments.iter().map(String::as_str).collect();
    let outcome = match words[..] {
        ["list", path] => list(path),
        ["tune"] => put(&tune::worked_tune()),
        ["tunes", folder] => write_tunes(folder),
        ["answer"] => answer(),
        ["generate", letters, count, seed] => write_cases(letters, count, seed),
        ["generate-many-chunks", rows] => write_many_chunks(rows),
        ["generate-all-pitches"] => put_cases(generate::all_pitches()),
        ["generate-faults", letters, each, seed] => write_faults(letters, each, seed),
        ["faults", letters, each, seed] => count_faults(letters, each, seed),
        ["compare", cases, answers] => compare_files(cases, answers, "difference.case"),
        ["compare", cases, answers, difference] => compare_files(cases, answers, difference),
        ["clauses", letters, count, seed] => count_clauses(letters, count, seed),
        ["soak", count, seed] => run_soak(count, seed),
        _ => Err(String::from(USAGE)),
    };
    outcome.unwrap_or_else(|line| {
        eprintln!("{line}");
        ExitCode::from(2)
    })
}

fn number(word: &str) -> Result<u64, String> {
    word.parse().map_err(|_| format!("{word} is no number; {USAGE}"))
}

fn operations(letters: &str) -> Result<Vec<Operation>, String> {
    let operations: Option<Vec<Operation>> = letters.bytes().map(Operation::from_letter).collect();
    match operations {
        Some(operations) if !operations.is_empty() => Ok(operations),
        _ => Err(format!("{letters} are no operations; {USAGE}")),
    }
}

fn read_file(path: &str) -> Result<Vec<u8>, String> {
    std::fs::read(path).map_err(|error| format!("{path}: {error}"))
}

fn put(bytes: &[u8]) -> Outcome {
    let mut output = std::io::stdout().lock();
    let written = output.write_all(bytes).and_then(|()| output.flush());
    written.map(|()| ExitCode::SUCCESS).map_err(|error| error.to_string())
}

fn list(path: &str) -> Outcome {
    put(listing(&read_file(path)?).unwrap_or_else(|refusal| refusal.text()).as_bytes())
}

/// Each tune and its listing.
fn write_tunes(folder: &str) -> Outcome {
    for tune in tunes::all() {
        let text = listing(&tune.file).unwrap_or_else(|refusal| refusal.text());
        for (bytes, ending) in [(&tune.file[..], "mmf"), (text.as_bytes(), "txt")] {
            let path = format!("{folder}/{}.{ending}", tune.name);
            std::fs::write(&path, bytes).map_err(|error| format!("{path}: {error}"))?;
        }
    }
    Ok(ExitCode::SUCCESS)
}

fn answer() -> Outcome {
    let mut cases = Vec::new();
    std::io::stdin().read_to_end(&mut cases).map_err(|error| error.to_string())?;
    let mut output = BufWriter::new(std::io::stdout().lock());
    let mut failed = None;
    answer_stream(&cases, |text| {
        if let Err(error) = output.write_all(text.as_bytes()) {
            failed.get_or_insert(error);
        }
    });
    match failed.or(output.flush().err()) {
        None => Ok(ExitCode::SUCCESS),
        Some(error) => Err(error.to_string()),
    }
}

fn put_cases(cases: impl Iterator<Item = Case>) -> Outcome {
    let mut output = BufWriter::new(std::io::stdout().lock());
    for (done, case) in (1..).zip(cases) {
        output.write_all(&case.bytes()).map_err(|error| error.to_string())?;
        progress(done, "cases");
    }
    output.flush().map(|()| ExitCode::SUCCESS).map_err(|error| error.to_string())
}

fn write_many_chunks(rows: &str) -> Outcome {
    put_cases(std::iter::once(generate::read_of_many_chunks(number(rows)? as usize)))
}

fn write_cases(letters: &str, count: &str, seed: &str) -> Outcome {
    let (operations, count, seed) = (operations(letters)?, number(count)?, number(seed)?);
    put_cases((0..count).map(|index| generate::case(&operations, seed, index)))
}

/// Operations that read the files in which the table's faults stand.
fn file_operations(letters: &str) -> Result<Vec<Operation>, String> {
    let operations = operations(letters)?;
    match operations.iter().all(|operation| operation.reads_file()) {
        true => Ok(operations),
        false => Err(format!("faults stand in files that are read; {USAGE}")),
    }
}

/// Each cell of the table of faults that often.
fn write_faults(letters: &str, each: &str, seed: &str) -> Outcome {
    let (operations, each, seed) = (file_operations(letters)?, number(each)?, number(seed)?);
    let count = each * cells().len() as u64;
    put_cases((0..count).map(|index| fault_case(&operations, seed, index).0))
}

fn count_faults(letters: &str, each: &str, seed: &str) -> Outcome {
    let (operations, each, seed) = (file_operations(letters)?, number(each)?, number(seed)?);
    let counts = clauses::count_faults(&operations, each, seed);
    put(clauses::fault_table(&counts).as_bytes())?;
    match counts.values().sum::<u64>() == each * cells().len() as u64 {
        true => Ok(ExitCode::SUCCESS),
        false => Err(String::from("a fault is refused for something else")),
    }
}

fn compare_files(cases: &str, answers: &str, difference_path: &str) -> Outcome {
    let cases = read_file(cases)?;
    let answers = String::from_utf8_lossy(&read_file(answers)?).into_owned();
    match compare(&cases, &answers) {
        Ok(agreement) => put(agreement.text().as_bytes()),
        Err(difference) => {
            put(difference.text().as_bytes())?;
            if let Some(case) = &difference.case {
                std::fs::write(difference_path, case.bytes())
                    .map_err(|error| format!("{difference_path}: {error}"))?;
            }
            Ok(ExitCode::FAILURE)
        }
    }
}

fn count_clauses(letters: &str, count: &str, seed: &str) -> Outcome {
    let (operations, count, seed) = (operations(letters)?, number(count)?, number(seed)?);
    let counts = clauses::count(&operations, count, seed);
    put(clauses::table(&operations, &counts).as_bytes())?;
    let missing = clauses::missing(&operations, &counts);
    if missing.is_empty() {
        return Ok(ExitCode::SUCCESS);
    }
    put(format!("without a case: {missing:?}\n").as_bytes())?;
    Ok(ExitCode::FAILURE)
}

fn run_soak(count: &str, seed: &str) -> Outcome {
    match soak::soak(number(count)?, number(seed)?) {
        Ok(tally) => put(tally.text().as_bytes()),
        Err(what) => {
            put(format!("{what}\n").as_bytes())?;
            Ok(ExitCode::FAILURE)
        }
    }
}
