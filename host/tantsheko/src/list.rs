//! Parent lists as text, and their faults in words.

use crate::refusal::Refusal;
use crate::table::{MOST_ENTRIES, TOP};

/// Reads a list: one parent a line, `-` for the top; or `entry,parent` lines in any order, where the first line may be
/// a heading.
pub fn read(text: &str) -> Result<Vec<u32>, String> {
    let first = text.lines().next().unwrap_or("");
    let parents = if first.contains(',') {
        read_pairs(text)?
    } else {
        read_column(text)?
    };
    if parents.is_empty() {
        return Err("the list is empty: give one parent a line, and - for the top".to_string());
    }
    if parents.len() > MOST_ENTRIES {
        return Err(format!(
            "the list has {} entries, and at most {MOST_ENTRIES} can be prepared",
            parents.len()
        ));
    }
    Ok(parents)
}

fn read_column(text: &str) -> Result<Vec<u32>, String> {
    let mut parents = Vec::new();
    for (i, line) in text.lines().enumerate() {
        parents.push(parent(line.trim(), i + 1)?);
    }
    Ok(parents)
}

fn read_pairs(text: &str) -> Result<Vec<u32>, String> {
    // Each entry's parent, and the line where it stands.
    let mut found: Vec<(u32, usize)> = Vec::new();
    let mut count = 0;
    for (i, line) in text.lines().enumerate() {
        let at = i + 1;
        let Some((left, right)) = line.split_once(',') else {
            return Err(format!(
                "line {at}: `{}` is not `entry,parent`",
                shown(line)
            ));
        };
        if i == 0 && !left.trim().starts_with(|c: char| c.is_ascii_digit()) {
            continue;
        }
        let entry = number(left.trim())
            .ok_or_else(|| format!("line {at}: `{}` is not an entry's number", shown(left)))?;
        if entry as usize >= MOST_ENTRIES {
            return Err(format!(
                "line {at}: entry {entry} is too high: entries are numbered from 0, up to {}",
                MOST_ENTRIES - 1
            ));
        }
        let parent = parent(right.trim(), at)?;
        if found.len() <= entry as usize {
            found.resize(entry as usize + 1, (0, 0));
        }
        if found[entry as usize].1 != 0 {
            return Err(format!(
                "line {at}: entry {entry} stands on line {} already",
                found[entry as usize].1
            ));
        }
        found[entry as usize] = (parent, at);
        count += 1;
    }
    if let Some(missing) = found.iter().position(|f| f.1 == 0) {
        return Err(format!(
            "entry {missing} has no line: {count} entries are given, the highest is {}, and none may be left out",
            found.len() - 1
        ));
    }
    Ok(found.into_iter().map(|f| f.0).collect())
}

fn parent(field: &str, line: usize) -> Result<u32, String> {
    if field == "-" {
        return Ok(TOP);
    }
    number(field).ok_or_else(|| {
        format!(
            "line {line}: `{}` is not a parent: give an entry's number, or - for the top",
            shown(field)
        )
    })
}

pub(crate) fn number(field: &str) -> Option<u32> {
    if field.is_empty() || !field.bytes().all(|b| b.is_ascii_digit()) {
        return None;
    }
    field.parse().ok()
}

/// The start of a field, for a message.
pub(crate) fn shown(field: &str) -> String {
    let short: String = field.chars().take(40).collect();
    if short.len() < field.len() {
        format!("{short}…")
    } else {
        short
    }
}

/// Why a list is refused, in words. `entry` names stand as in the list.
pub fn fault(parents: &[u32], refusal: Refusal) -> String {
    match refusal {
        Refusal::Stray(v) => {
            let word = parents[v as usize];
            format!("entry {v} names {word}, which is not an entry")
        }
        Refusal::Tops(v) => match parents.iter().position(|&p| p == TOP) {
            Some(first) => format!("entries {first} and {v} are both tops"),
            None => "no entry is the top: one entry must have - for its parent".to_string(),
        },
        Refusal::Loop(v) => format!("entry {v} never reaches the top: {}", round(parents, v)),
        other => other.to_string(),
    }
}

/// The climb from an entry until it comes to an entry for the second time.
fn round(parents: &[u32], v: u32) -> String {
    let mut met = vec![false; parents.len()];
    let mut climb = vec![v];
    let mut at = v;
    while !met[at as usize] {
        met[at as usize] = true;
        at = parents[at as usize];
        climb.push(at);
    }
    let names = |part: &[u32]| {
        let names: Vec<String> = part.iter().map(u32::to_string).collect();
        names.join(" → ")
    };
    if climb.len() <= 12 {
        return names(&climb);
    }
    let left_out = climb.len() - 8;
    format!(
        "{} → … {left_out} more … → {}",
        names(&climb[..5]),
        names(&climb[climb.len() - 3..])
    )
}
