//! Sheets with bands: the check of a sheet as text, and the premium of a sum by it.

use crate::ffi;
use crate::premium::{quoted, Quote};
use crate::refusal::Refusal;
use crate::table::Table;

/// The most lines of a sheet.
pub const MOST_LINES: usize = 4_096;

/// The words of a checked sheet.
pub const SHEET_WORDS: usize = 8_193;

/// What a check gives. Laid out as the library's.
#[derive(Default)]
#[repr(C)]
pub(crate) struct Verdict {
    number: u32,
    word: u32,
    amount: u32,
}

impl Verdict {
    /// The number of lines, or why the sheet is refused.
    fn result(&self) -> Result<u32, Refusal> {
        match Refusal::of(self.number, self.word, self.amount) {
            None => Ok(self.word),
            Some(refusal) => Err(refusal),
        }
    }
}

/// An accepted sheet, in the library's form for many quotations.
#[derive(Clone, Debug, PartialEq, Eq)]
pub struct Sheet {
    words: Box<[u64; SHEET_WORDS]>,
    lines: u32,
}

impl Sheet {
    /// Checks a sheet of rating level d for a table: it covers each entry of depth d or less.
    pub fn check(table: &Table, text: &[u8], d: u32) -> Result<Sheet, Refusal> {
        let words = vec![0; SHEET_WORDS].into_boxed_slice();
        let mut words: Box<[u64; SHEET_WORDS]> = words.try_into().expect("as many words");
        let lines = check_into(table, text, d, &mut words)?;
        Ok(Sheet { words, lines })
    }

    /// How many lines it has.
    pub fn lines(&self) -> u32 {
        self.lines
    }

    /// The premium of a sum insured for v, at the level that the sheet was checked for. On another table than it was checked
    /// for, a class without a band for the sum is `Gap`.
    #[inline]
    pub fn quote(&self, table: &Table, v: u32, sum: i64) -> Quote {
        let table = table.words();
        // SAFETY: the pointer and the length are the slice's, the sheet has its words, and the question writes every word
        // of its answer.
        unsafe {
            quoted(|answer, amount, cents| {
                ffi::tantsheko_quotation(
                    table.as_ptr(),
                    table.len(),
                    self.words.as_ptr(),
                    v,
                    sum,
                    answer,
                    amount,
                    cents,
                )
            })
        }
    }
}

impl Table {
    /// Checks a sheet of rating level d: its number of lines on acceptance.
    pub fn sheet_lines(&self, text: &[u8], d: u32) -> Result<u32, Refusal> {
        let mut verdict = Verdict::default();
        // SAFETY: each pointer and length are a slice's.
        unsafe {
            ffi::tantsheko_sheet(
                self.words().as_ptr(),
                self.words().len(),
                text.as_ptr(),
                text.len(),
                d,
                &mut verdict,
            );
        }
        verdict.result()
    }

    /// The premium of a sum insured for v at rating level d, by a sheet as text, which is checked each time: for many premiums
    /// ask a `Sheet`.
    pub fn price(&self, text: &[u8], v: u32, d: u32, sum: i64) -> Quote {
        let table = self.words();
        // SAFETY: each pointer and length are a slice's, and the question writes every word of its answer.
        unsafe {
            quoted(|answer, amount, cents| {
                ffi::tantsheko_price(
                    table.as_ptr(),
                    table.len(),
                    text.as_ptr(),
                    text.len(),
                    v,
                    d,
                    sum,
                    answer,
                    amount,
                    cents,
                )
            })
        }
    }
}

/// Checks a sheet into words of the caller's: its number of lines on acceptance; a refusal leaves the words as they were.
/// `Sheet::check` keeps them; here the tests look at them.
pub fn check_into(
    table: &Table,
    text: &[u8],
    d: u32,
    words: &mut [u64; SHEET_WORDS],
) -> Result<u32, Refusal> {
    let mut verdict = Verdict::default();
    // SAFETY: each pointer and length are a slice's, no two overlap, and the sheet has its words.
    unsafe {
        ffi::tantsheko_checked_sheet(
            table.words().as_ptr(),
            table.words().len(),
            text.as_ptr(),
            text.len(),
            d,
            words.as_mut_ptr(),
            &mut verdict,
        );
    }
    verdict.result()
}
