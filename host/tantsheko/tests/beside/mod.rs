//! Answers, quotes and sheets of the proved library beside those by hand.
#![allow(dead_code)]

use reference::{counted, Fault};
use tantsheko::{Answer, Quote, Refusal, Sheet, Table};

pub const TOP: u32 = u32::MAX;
pub const MOST: u32 = 2_000_000_000;

/// A line's fields.
pub type Line = [u32; 4];

pub fn text(lines: &[Line]) -> Vec<u8> {
    let lines = lines
        .iter()
        .map(|[class, from, to, rate]| format!("{class},{from},{to},{rate}\n"));
    lines.collect::<String>().into_bytes()
}

pub fn depths(table: &Table) -> &[u32] {
    let n = table.entries() as usize;
    &table.words()[4..4 + n]
}

fn verdict(r: Result<u32, Refusal>) -> (u32, u32, u32) {
    match r {
        Ok(lines) => (0, lines, 0),
        Err(refusal) => (refusal.number(), refusal.names(), refusal.amount()),
    }
}

fn by_hand(r: Result<&reference::Sheet, &Fault>) -> (u32, u32, u32) {
    match r {
        Ok(sheet) => (0, sheet.lines(), 0),
        Err(fault) => (fault.number, fault.word, fault.amount),
    }
}

pub fn same_answer(ours: Answer, theirs: reference::Answer) {
    let (number, word) = match ours.result() {
        Ok(word) => (0, word),
        Err(refusal) => (refusal.number(), refusal.names()),
    };
    assert_eq!((number, word), (theirs.number, theirs.word));
    assert_eq!(ours.cells().len() as u32, theirs.count);
    assert_eq!(ours.places(), &theirs.cells);
}

pub fn same_quote(ours: Quote, theirs: reference::Quote) {
    same_answer(*ours.answer(), theirs.answer);
    assert_eq!((ours.amount(), ours.cents()), (theirs.amount, theirs.cents));
}

/// Checks a sheet in every way: both forms of the check, by hand and, on a table that step 1 opens, by counting. Quotes from it,
/// accepted or not, for each question. Hands back the verdict.
pub fn same(table: &Table, text: &[u8], d: u32, asked: &[(u32, i64)]) -> (u32, u32, u32) {
    let words = table.words();
    let given = verdict(table.sheet_lines(text, d));
    let theirs = reference::sheet(words, text, d);
    let shown = String::from_utf8_lossy(&text[..text.len().min(300)]);
    assert_eq!(given, by_hand(theirs.as_ref()), "level {d} of {shown}");
    if given.0 != 9 {
        assert_eq!(given, counted(depths(table), text, d), "level {d}: {shown}");
    }
    let ours = Sheet::check(table, text, d);
    assert_eq!(
        given,
        verdict(ours.as_ref().map(Sheet::lines).map_err(|&r| r))
    );
    for &(v, sum) in asked {
        let price = table.price(text, v, d, sum);
        same_quote(price, reference::price(words, text, v, d, sum));
        if let (Ok(ours), Ok(theirs)) = (&ours, &theirs) {
            let quote = ours.quote(table, v, sum);
            assert_eq!(quote, price, "{v} {sum}");
            same_quote(quote, theirs.quote(words, v, sum));
        }
    }
    given
}
