//! The questions of two numbers that a table answers, by the names that the command has for them.

use crate::table::{Answer, Table};

/// A question of two numbers.
#[derive(Clone, Copy, Debug, PartialEq, Eq)]
pub enum Question {
    /// The class of an entry at a depth.
    Class,
    /// The entry so many climbs above another.
    Climb,
    /// The class of an entry at a rating level, or the entry itself where it is less deep.
    Rating,
    /// Whether an entry is at or above another.
    Above,
    /// The child of an entry on the way to another.
    Branch,
    /// The deepest class that holds two entries. It lists no cells.
    Shared,
    /// The climbs between two entries through that class. It lists no cells.
    Distance,
}

impl Question {
    pub const ALL: [Question; 7] = [
        Question::Class,
        Question::Climb,
        Question::Rating,
        Question::Above,
        Question::Branch,
        Question::Shared,
        Question::Distance,
    ];

    pub fn name(self) -> &'static str {
        match self {
            Question::Class => "class",
            Question::Climb => "climb",
            Question::Rating => "rating",
            Question::Above => "above",
            Question::Branch => "branch",
            Question::Shared => "shared",
            Question::Distance => "distance",
        }
    }

    /// The question of a name.
    pub fn named(name: &[u8]) -> Option<Question> {
        Question::ALL
            .into_iter()
            .find(|question| question.name().as_bytes() == name)
    }

    /// What its two numbers are called.
    pub fn arguments(self) -> [&'static str; 2] {
        match self {
            Question::Class => ["ENTRY", "DEPTH"],
            Question::Climb => ["ENTRY", "COUNT"],
            Question::Rating => ["ENTRY", "LEVEL"],
            Question::Above | Question::Branch => ["UPPER", "LOWER"],
            Question::Shared | Question::Distance => ["ENTRY", "ENTRY"],
        }
    }

    /// Asks it of a table.
    pub fn ask(self, table: &Table, a: u32, b: u32) -> Answer {
        match self {
            Question::Class => table.level(a, b),
            Question::Climb => table.climb(a, b),
            Question::Rating => table.rating(a, b),
            Question::Above => table.ancestry(a, b),
            Question::Branch => table.branch(a, b),
            Question::Shared => table.nearest_common_ancestor(a, b),
            Question::Distance => table.distance(a, b),
        }
    }
}
