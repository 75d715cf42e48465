//! The class tree and its prepared table, written by hand in Rust from the paper. It shares nothing with the proved
//! code, so that the two can be compared, word for word and in time.

mod common;
mod counting;
mod premium;
mod prepare;
mod questions;
mod shapes;
mod sheets;
mod steps;
pub mod trees;

pub use common::{distance, nearest_common_ancestor};
pub use counting::counted;
pub use premium::{premium, Quote};
pub use prepare::{prepare, space_words, table_words};
pub use questions::{ancestry, branch, climb, level, rating, Answer};
pub use sheets::{price, sheet, Fault, Sheet};
pub use steps::level as level_by_steps;

/// The word of a top entry in a parent list, and of a group whose root is the top.
pub const TOP: u32 = u32::MAX;

/// The most entries of a list.
pub const MOST: usize = 1 << 20;

/// KIND of a micro entry starts here.
pub const MICRO: u32 = 1 << 31;

/// What cell 0 holds beside the number of entries.
pub const HEADER: u32 = 1 << 30;

/// Where the sections of a table of n entries start.
#[derive(Clone, Copy)]
pub struct Sections {
    pub n: usize,
}

impl Sections {
    pub fn depth(self) -> usize {
        4
    }
    pub fn kind(self) -> usize {
        4 + self.n
    }
    pub fn ladpos(self) -> usize {
        4 + 2 * self.n
    }
    pub fn order(self) -> usize {
        4 + 3 * self.n
    }
    pub fn pre(self) -> usize {
        4 + 4 * self.n
    }
    pub fn size(self) -> usize {
        4 + 5 * self.n
    }
    pub fn ladders(self) -> usize {
        4 + 6 * self.n
    }
    pub fn groups(self) -> usize {
        4 + 8 * self.n
    }
    pub fn jumps(self) -> usize {
        4 + 11 * self.n
    }
    /// The records that JUMPS has room for.
    pub fn records(self) -> usize {
        self.n / 8
    }
    pub fn words(self) -> usize {
        4 + 11 * self.n + 21 * self.records()
    }
}
