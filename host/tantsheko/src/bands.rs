//! A refused sheet's fault in words: where it stands in the text, and what to write.

use crate::lines;
use crate::premium::MOST_SUM;
use crate::refusal::Refusal;
use crate::sheet::MOST_LINES;
use crate::table::Table;
use std::collections::HashSet;

/// A line of the class at fault.
struct Band {
    line: usize,
    from: u64,
    to: u64,
}

impl Band {
    fn begin(&self) -> String {
        format!("line {} begins at {}", self.line, self.from)
    }

    fn end(&self) -> String {
        format!("line {} ends at {}", self.line, self.to)
    }

    fn begun(&self, amount: u64) -> String {
        format!("let line {} begin at {amount}", self.line)
    }

    fn ended(&self, amount: u64) -> String {
        format!("let line {} end at {amount}", self.line)
    }
}

/// Why a sheet of a level is refused, in words.
pub fn fault(table: &Table, text: &[u8], level: u32, refusal: Refusal) -> String {
    let covered = classes(table, level).len();
    match refusal {
        _ if covered > MOST_LINES => format!(
            "{covered} entries are at depth {level} or less, and a sheet has at most {MOST_LINES} lines: no sheet can cover them, so give a level nearer the top"
        ),
        Refusal::BadLine(line) if line as usize > MOST_LINES => {
            let count = text.split_inclusive(|&b| b == b'\n').count();
            format!("line {line} is past the {MOST_LINES}th: a sheet has at most {MOST_LINES} lines, and this one has {count}: join neighbouring bands of one rate, or leave lines out")
        }
        Refusal::BadLine(line) => bad_line(table, text, level, line),
        Refusal::Gap { class, amount } => {
            gap(&of_class(text, class), class, amount.into()) + &unlisted(table, text, level, class)
        }
        Refusal::Overlap { class, amount } => overlap(&of_class(text, class), class, amount.into()),
        other => other.to_string(),
    }
}

/// The entries that a sheet of a level is to cover.
fn classes(table: &Table, level: u32) -> Vec<u32> {
    let depths = table.words().get(4..4 + table.entries() as usize);
    let entries = (0..).zip(depths.unwrap_or(&[]));
    let covered = entries.filter(|(_, &depth)| depth <= level);
    covered.map(|(class, _)| class).collect()
}

/// Behind a class without lines: why it is one, and which others have none. A sheet for the entries at its level alone lacks
/// all that are above it.
fn unlisted(table: &Table, text: &[u8], level: u32, class: u32) -> String {
    let lines = text.split(|&b| b == b'\n').filter_map(lines::numbers);
    let listed: HashSet<u64> = lines.map(|numbers| numbers[0]).collect();
    if listed.contains(&class.into()) {
        return String::new();
    }
    let mut others = classes(table, level);
    others.retain(|&c| c != class && !listed.contains(&c.into()));
    let named: Vec<String> = others.iter().map(u32::to_string).collect();
    let more = match named.len() {
        0 => String::new(),
        1 => format!(", and 1 other has no lines: {}", joined(named)),
        count => format!(", and {count} others have no lines: {}", joined(named)),
    };
    match level {
        0 => "; the top alone is a class of level 0".to_string(),
        _ => format!("; each entry of depth {level} or less is a class{more}"),
    }
}

/// Names in a row, of which no more than four are shown.
fn joined(mut names: Vec<String>) -> String {
    const SHOWN: usize = 4;
    if names.len() > SHOWN {
        let more = names.len() - SHOWN;
        names.truncate(SHOWN);
        names.push(format!("{more} more"));
    }
    let last = names.pop().unwrap_or_default();
    if names.is_empty() {
        return last;
    }
    format!("{} and {last}", names.join(", "))
}

fn bad_line(table: &Table, text: &[u8], level: u32, line: u32) -> String {
    let mut lines = text.split_inclusive(|&b| b == b'\n');
    let at = (line as usize).saturating_sub(1);
    let bytes = lines.nth(at).unwrap_or(b"");
    let found = lines::faults(bytes, line == 1, table, level);
    if found.is_empty() {
        return Refusal::BadLine(line).to_string();
    }
    let bare = bytes.strip_suffix(b"\n").unwrap_or(bytes);
    format!(
        "line {line}: `{}` {}",
        lines::shown(bare),
        found.join("; it ")
    )
}

/// The lines of a class.
fn of_class(text: &[u8], class: u32) -> Vec<Band> {
    let lines = text.split(|&b| b == b'\n').enumerate();
    let bands = lines.filter_map(|(i, line)| Some((i + 1, lines::numbers(line)?)));
    bands
        .filter(|(_, numbers)| numbers[0] == u64::from(class))
        .map(|(line, [_, from, to, _])| Band { line, from, to })
        .collect()
}

/// An amount that no line holds, with the lines around it.
fn gap(bands: &[Band], class: u32, amount: u64) -> String {
    let before = bands.iter().filter(|b| b.to < amount).max_by_key(|b| b.to);
    let after = bands
        .iter()
        .filter(|b| b.from > amount)
        .min_by_key(|b| b.from);
    let end = after.map_or(MOST_SUM as u64, |b| b.from - 1);
    let (around, or) = match (before, after) {
        (Some(b), Some(a)) => (format!(": {} and {}", b.end(), a.begin()), b.ended(end)),
        (Some(b), None) => (
            format!(": {}, and no line begins after it", b.end()),
            b.ended(end),
        ),
        (None, Some(a)) => (
            format!(": {}, and no line ends before it", a.begin()),
            a.begun(amount),
        ),
        (None, None) => (
            ", which has no lines at all".to_string(),
            format!("lines that hold 0 to {MOST_SUM} between them"),
        ),
    };
    format!("no line holds amount {amount} of class {class}{around}: write `{class},{amount},{end},RATE` or {or}")
}

/// An amount that more than one line holds, with these lines.
fn overlap(bands: &[Band], class: u32, amount: u64) -> String {
    let holding = bands.iter().filter(|b| b.from <= amount && amount <= b.to);
    let named = holding.map(|b| format!("line {} ({} to {})", b.line, b.from, b.to));
    format!(
        "amount {amount} of class {class} is held by {}: let one line alone hold it",
        joined(named.collect())
    )
}
