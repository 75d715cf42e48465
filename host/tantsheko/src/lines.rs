//! A line of a sheet, `class,from,to,rate`, and what is wrong with it in words.

use crate::list;
use crate::premium::{MOST_RATE, MOST_SUM};
use crate::table::Table;

/// What a sheet's line is to be.
const FORM: &str = "`class,from,to,rate`";

/// The fields of a line, by place and by name.
const FIELDS: [(&str, &str); 4] = [
    ("first", "class"),
    ("second", "from"),
    ("third", "to"),
    ("fourth", "rate"),
];

/// The mark that some editors put at the start of a text: in UTF-8, and in UTF-16 of either order.
const MARK: &[u8] = b"\xef\xbb\xbf";
const WIDE_MARKS: [&[u8]; 2] = [b"\xff\xfe", b"\xfe\xff"];

/// The start of a line or field, for a message.
pub(crate) fn shown(bytes: &[u8]) -> String {
    // A text without line feeds is one line, of which no more than this can be shown.
    let start = &bytes[..bytes.len().min(200)];
    let mut text = String::new();
    for c in String::from_utf8_lossy(start).chars() {
        if c.is_control() || c == '\u{feff}' {
            text.extend(c.escape_default());
        } else {
            text.push(c);
        }
    }
    list::shown(&text)
}

/// A field of one to ten digits.
fn number(field: &[u8]) -> Option<u64> {
    let digits = field.len() <= 10 && field.iter().all(u8::is_ascii_digit);
    let text = std::str::from_utf8(field).ok()?;
    text.parse().ok().filter(|_| digits)
}

/// Class, from, to and rate of a line without its line feed.
pub(crate) fn numbers(line: &[u8]) -> Option<[u64; 4]> {
    let fields: Option<Vec<u64>> = line.split(|&b| b == b',').map(number).collect();
    fields?.try_into().ok()
}

/// What is wrong with a refused line, which stands in front of these words, and what to write: every fault of it, so that
/// one look mends it. Empty where no fault is found.
pub(crate) fn faults(line: &[u8], first: bool, table: &Table, level: u32) -> Vec<String> {
    if first && WIDE_MARKS.iter().any(|mark| line.starts_with(mark)) {
        return vec!["starts a text in UTF-16: save the file as plain text".to_string()];
    }
    let mut found = Vec::new();
    let mut rest = line;
    match rest.strip_suffix(b"\n") {
        Some(whole) => rest = whole,
        None => found.push("is cut short: end it with a line feed".to_string()),
    }
    if let Some(unmarked) = rest.strip_prefix(MARK).filter(|_| first) {
        rest = unmarked;
        found.push("starts with a byte order mark: save the file without one".to_string());
    }
    if let Some(bare) = rest.strip_suffix(b"\r") {
        rest = bare;
        found.push("ends with a carriage return: save the file with line feeds alone".to_string());
    }
    if first && !rest.is_empty() && !rest.iter().any(u8::is_ascii_digit) {
        found.push("is a heading, and a sheet has none: leave it out".to_string());
    } else if let Some(numbers) = numbers(rest) {
        values(numbers, table, level, &mut found);
    } else {
        form(rest, &mut found);
    }
    found
}

/// Faults of the form.
fn form(line: &[u8], found: &mut Vec<String>) {
    let fields: Vec<&[u8]> = line.split(|&b| b == b',').collect();
    match fields.len() {
        1 if line.is_empty() => found.push("is empty: leave it out".to_string()),
        4 => {
            let bad = fields
                .iter()
                .zip(FIELDS)
                .filter(|(f, _)| number(f).is_none());
            found.extend(bad.map(|(field, (place, name))| bad_field(field, place, name)));
        }
        1 => found.push(format!(
            "has 1 field and not 4: write {FORM} with commas between them"
        )),
        many => found.push(format!("has {many} fields and not 4: write {FORM}")),
    }
}

/// Why a field is not a number.
fn bad_field(field: &[u8], place: &str, name: &str) -> String {
    if field.is_empty() {
        return format!("has nothing for its {place} field, {name}: write a whole number");
    }
    let write = if field.iter().all(u8::is_ascii_digit) {
        "write at most 10 digits"
    } else {
        "write digits alone, without blanks, signs, points or quotes"
    };
    format!(
        "has `{}` for its {place} field, {name}: {write}",
        shown(field)
    )
}

/// Faults of a line of four numbers.
fn values([class, from, to, rate]: [u64; 4], table: &Table, level: u32, found: &mut Vec<String>) {
    found.extend(bad_class(class, table, level));
    if from > to {
        found.push(format!(
            "has from {from} above to {to}: write the lower end first"
        ));
    }
    if to > MOST_SUM as u64 {
        found.push(format!(
            "has to {to}, which is over {MOST_SUM}: end the band at {MOST_SUM}"
        ));
    }
    if rate > u64::from(MOST_RATE) {
        found.push(format!(
            "has rate {rate}, which is over {MOST_RATE}: write a rate per million"
        ));
    }
}

/// Why a class is none that the sheet is to cover.
fn bad_class(class: u64, table: &Table, level: u32) -> Option<String> {
    let n = table.entries();
    let last = n.checked_sub(1)?;
    let depths = table.words().get(4..4 + n as usize)?;
    let Some(&depth) = depths.get(class as usize) else {
        return Some(format!(
            "names class {class}, and the table has entries 0 to {last}: name one of depth {level} or less"
        ));
    };
    if depth <= level {
        return None;
    }
    let rated = match table.rating(class as u32, level).result() {
        Ok(upper) => format!(", as it is rated by class {upper}"),
        Err(_) => String::new(),
    };
    Some(format!(
        "names class {class}, which is at depth {depth}, deeper than level {level}: leave it out{rated}, or give the level that the sheet is for"
    ))
}
