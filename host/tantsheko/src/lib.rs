//! The proved class tree for Rust: a table is prepared from a parent list, and answers which class an entry has at
//! each depth, with the cells that were read, which class two entries share, and what a sum insured costs in its class, by
//! a list of rates or by a sheet of bands. No precondition is left to the caller.

pub mod bands;
pub mod explain;
mod ffi;
pub mod file;
mod lines;
pub mod list;
mod place;
mod premium;
mod question;
pub mod rates;
mod refusal;
mod shape;
mod sheet;
pub mod sums;
mod table;

pub use place::Place;
pub use premium::{Quote, MOST_RATE, MOST_SUM};
pub use question::Question;
pub use refusal::Refusal;
pub use sheet::{check_into, Sheet, MOST_LINES, SHEET_WORDS};
pub use table::{prepare_into, space_words, table_words, Answer, Table, MOST_ENTRIES, TOP};
