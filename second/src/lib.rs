//! A second reading of the paper: files, playing, the plain form, pitch, the
//! listing and the writer, with a generator of cases to hold against the main
//! program.

pub mod case;
pub mod check;
pub mod check_code;
pub mod check_writer;
pub mod chunk;
pub mod clauses;
pub mod compare;
pub mod description;
pub mod file;
pub mod frame;
pub mod generate;
pub mod give;
pub mod item;
pub mod layout;
pub mod listing;
pub mod numbers;
pub mod pitch;
pub mod plain;
pub mod play;
pub mod progress;
pub mod random;
pub mod refusal;
pub mod seek;
pub mod setup;
pub mod soak;
pub mod time_base;
pub mod track;
pub mod tune;
pub mod tunes;
pub mod word;
pub mod write;
pub mod write_seek;
