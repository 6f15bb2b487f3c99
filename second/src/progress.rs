//! Progress lines for long work, on standard error.

const STEP: u64 = 100_000;

/// Says how many are done after each hundred thousand.
pub fn progress(done: u64, of_what: &str) {
    if done % STEP == 0 {
        eprintln!("{done} {of_what}");
    }
}
