//! The answers that turn a call away, by the paper's numbers.

use crate::premium::{MOST_RATE, MOST_SUM};
use std::fmt;

/// A refusal with what it names.
#[derive(Clone, Copy, Debug, PartialEq, Eq)]
pub enum Refusal {
    /// 1: the list has no entry, or more than 1,048,576.
    Count,
    /// 2: the table is shorter than W words.
    ShortTable,
    /// 3: the working space is shorter than 6n words.
    ShortSpace,
    /// 4: a word is neither the top mark nor an entry; the lowest such entry.
    Stray(u32),
    /// 5: not exactly one top; the second-lowest top, or n.
    Tops(u32),
    /// 6: an entry's climb never meets the top; the lowest such entry.
    Loop(u32),
    /// 7: an argument is no entry; the first such argument.
    Unknown(u32),
    /// 8: deeper than the entry; the entry. No rating has it.
    TooDeep(u32),
    /// 9: the table is not one that the question can be answered from.
    Broken,
    /// 10: u is not strictly above v; u.
    NotAbove(u32),
    /// 11: the class's rate is over 1,000,000, or past the end of the list of rates.
    BadRate,
    /// 12: the sum insured is outside -2,000,000,000 to 2,000,000,000.
    BadSum,
    /// 13: a line of the sheet is no band of an entry of its level's depth or less; the first such line, from 1.
    BadLine(u32),
    /// 14: an amount of a class is in no band of the sheet; the lowest such class, and its lowest amount.
    Gap { class: u32, amount: u32 },
    /// 15: an amount of a class is in more than one band of the sheet; likewise.
    Overlap { class: u32, amount: u32 },
}

impl Refusal {
    /// The refusal of a number and what it names, with the amount of 14 and 15; none for 0. A number that the paper does
    /// not have is `Broken`: the proved code gives none.
    pub(crate) fn of(number: u32, word: u32, amount: u32) -> Option<Refusal> {
        let class = word;
        match number {
            0 => None,
            1 => Some(Refusal::Count),
            2 => Some(Refusal::ShortTable),
            3 => Some(Refusal::ShortSpace),
            4 => Some(Refusal::Stray(word)),
            5 => Some(Refusal::Tops(word)),
            6 => Some(Refusal::Loop(word)),
            7 => Some(Refusal::Unknown(word)),
            8 => Some(Refusal::TooDeep(word)),
            10 => Some(Refusal::NotAbove(word)),
            11 => Some(Refusal::BadRate),
            12 => Some(Refusal::BadSum),
            13 => Some(Refusal::BadLine(word)),
            14 => Some(Refusal::Gap { class, amount }),
            15 => Some(Refusal::Overlap { class, amount }),
            _ => Some(Refusal::Broken),
        }
    }

    /// The paper's number.
    pub fn number(self) -> u32 {
        match self {
            Refusal::Count => 1,
            Refusal::ShortTable => 2,
            Refusal::ShortSpace => 3,
            Refusal::Stray(_) => 4,
            Refusal::Tops(_) => 5,
            Refusal::Loop(_) => 6,
            Refusal::Unknown(_) => 7,
            Refusal::TooDeep(_) => 8,
            Refusal::Broken => 9,
            Refusal::NotAbove(_) => 10,
            Refusal::BadRate => 11,
            Refusal::BadSum => 12,
            Refusal::BadLine(_) => 13,
            Refusal::Gap { .. } => 14,
            Refusal::Overlap { .. } => 15,
        }
    }

    /// The paper's word.
    pub fn word(self) -> &'static str {
        match self {
            Refusal::Count => "count",
            Refusal::ShortTable => "short table",
            Refusal::ShortSpace => "short space",
            Refusal::Stray(_) => "stray",
            Refusal::Tops(_) => "tops",
            Refusal::Loop(_) => "loop",
            Refusal::Unknown(_) => "unknown",
            Refusal::TooDeep(_) => "too deep",
            Refusal::Broken => "broken",
            Refusal::NotAbove(_) => "not above",
            Refusal::BadRate => "bad rate",
            Refusal::BadSum => "bad sum",
            Refusal::BadLine(_) => "bad line",
            Refusal::Gap { .. } => "gap",
            Refusal::Overlap { .. } => "overlap",
        }
    }

    /// What it names.
    pub fn names(self) -> u32 {
        match self {
            Refusal::Stray(x)
            | Refusal::Tops(x)
            | Refusal::Loop(x)
            | Refusal::Unknown(x)
            | Refusal::TooDeep(x)
            | Refusal::NotAbove(x)
            | Refusal::BadLine(x) => x,
            Refusal::Gap { class, .. } | Refusal::Overlap { class, .. } => class,
            Refusal::Count
            | Refusal::ShortTable
            | Refusal::ShortSpace
            | Refusal::Broken
            | Refusal::BadRate
            | Refusal::BadSum => 0,
        }
    }

    /// The amount that it names beside a class; 0 where it names none.
    pub fn amount(self) -> u32 {
        match self {
            Refusal::Gap { amount, .. } | Refusal::Overlap { amount, .. } => amount,
            _ => 0,
        }
    }
}

impl fmt::Display for Refusal {
    fn fmt(&self, f: &mut fmt::Formatter<'_>) -> fmt::Result {
        match *self {
            Refusal::Count => write!(f, "a list has 1 to 1048576 entries"),
            Refusal::ShortTable => write!(f, "the table is too short for the list"),
            Refusal::ShortSpace => write!(f, "the working space is too short for the list"),
            Refusal::Stray(v) => write!(f, "entry {v} names a parent that is not an entry"),
            Refusal::Tops(v) => write!(f, "a list has exactly one top; see entry {v}"),
            Refusal::Loop(v) => write!(f, "entry {v} never reaches the top"),
            Refusal::Unknown(v) => write!(f, "{v} is not an entry of the table"),
            Refusal::TooDeep(v) => write!(f, "entry {v} is less deep than that"),
            Refusal::Broken => write!(
                f,
                "the table is damaged, or an older program made it: prepare it again"
            ),
            Refusal::NotAbove(u) => write!(f, "entry {u} is not above the other entry"),
            Refusal::BadRate => write!(
                f,
                "the class has no rate from 0 to {MOST_RATE} in the list of rates"
            ),
            Refusal::BadSum => write!(f, "a sum insured is from -{MOST_SUM} to {MOST_SUM}"),
            Refusal::BadLine(line) => write!(
                f,
                "line {line} is not a band of a class that the sheet is to cover"
            ),
            Refusal::Gap { class, amount } => {
                write!(f, "no line holds amount {amount} of class {class}")
            }
            Refusal::Overlap { class, amount } => {
                write!(
                    f,
                    "more than one line holds amount {amount} of class {class}"
                )
            }
        }
    }
}

impl std::error::Error for Refusal {}
