//! What is timed of sheets with bands: the check of a full sheet, and a quotation from it.

use crate::work::{clock, median, seen, seen_by_hand, times};
use std::collections::BTreeSet;
use tantsheko::{Sheet, Table, MOST_LINES, MOST_SUM};

/// The most classes of the level that is timed: eight lines each.
const MOST_CLASSES: usize = 512;

/// A sheet of as many lines as there may be, for a tree.
pub struct Work<'a> {
    table: &'a Table,
    level: u32,
    text: Vec<u8>,
}

/// The deepest level that does not have too many classes, the entries of its depth or less.
fn level_of(depths: &[u32]) -> u32 {
    let mut ordered = depths.to_vec();
    ordered.sort_unstable();
    let deepest = ordered[ordered.len().min(MOST_CLASSES) - 1];
    match ordered.get(MOST_CLASSES) {
        Some(&next) if next == deepest => deepest.saturating_sub(1),
        _ => deepest,
    }
}

/// Bands of a class that hold every amount once, as lines.
fn bands(class: u32, count: usize, below: &mut impl FnMut(usize) -> u32) -> Vec<String> {
    let mut ends = BTreeSet::from([MOST_SUM as u32]);
    while ends.len() < count {
        ends.insert(below(MOST_SUM as usize));
    }
    let starts = [0].into_iter().chain(ends.iter().map(|end| end + 1));
    starts
        .zip(&ends)
        .map(|(from, to)| format!("{class},{from},{to},{}\n", below(1_000_001)))
        .collect()
}

impl<'a> Work<'a> {
    /// The lines stand in any order.
    pub fn new(table: &'a Table, depths: &[u32], below: &mut impl FnMut(usize) -> u32) -> Self {
        let level = level_of(depths);
        let entries = (0..).zip(depths).filter(|(_, &depth)| depth <= level);
        let classes: Vec<u32> = entries.map(|(class, _)| class).collect();
        let mut lines = Vec::new();
        for (i, &class) in classes.iter().enumerate() {
            let left = MOST_LINES - lines.len();
            lines.extend(bands(class, left / (classes.len() - i), below));
        }
        for i in (1..lines.len()).rev() {
            lines.swap(i, below(i + 1) as usize);
        }
        Work {
            table,
            level,
            text: lines.concat().into_bytes(),
        }
    }

    /// Both ways of the check, in microseconds a sheet.
    pub fn check_times(&self) -> [f64; 2] {
        let (mut a, mut b) = (Vec::new(), Vec::new());
        for _ in 0..41 {
            a.push(clock(1_000, || self.checked()));
            b.push(clock(1_000, || self.checked_by_hand()));
        }
        [median(a), median(b)]
    }

    fn checked(&self) -> Sheet {
        Sheet::check(self.table, &self.text, self.level).expect("a good sheet")
    }

    fn checked_by_hand(&self) -> reference::Sheet {
        let checked = reference::sheet(self.table.words(), &self.text, self.level);
        checked.expect("a good sheet")
    }

    /// Both ways of a quotation: entries of every depth, and a sum of any size for each.
    pub fn quote_times(&self, depths: &[u32], below: &mut impl FnMut(usize) -> u32) -> [f64; 2] {
        let (table, words) = (self.table, self.table.words());
        let (ours, theirs) = (self.checked(), self.checked_by_hand());
        let asked: Vec<(u32, i64)> = (0..200_000)
            .map(|_| {
                let v = below(depths.len());
                (v, i64::from(below(4_000_000_001)) - MOST_SUM)
            })
            .collect();
        times(
            &asked,
            |(v, sum)| {
                let r = ours.quote(table, v, sum);
                seen(r.answer()) ^ r.cents() as u32
            },
            |(v, sum)| {
                let r = theirs.quote(words, v, sum);
                seen_by_hand(&r.answer) ^ r.cents as u32
            },
        )
    }
}
