//! A prepared table and its questions.

use crate::ffi;
use crate::refusal::Refusal;
use std::mem::MaybeUninit;

/// The most entries of a list.
pub const MOST_ENTRIES: usize = 1_048_576;

/// What cell 0 holds beside the number of entries. Tables of groups of up to five entries held the number alone.
pub(crate) const HEADER_MARK: u32 = 1_073_741_824;

/// The word of the top in a parent list.
pub const TOP: u32 = u32::MAX;

/// W, the words of a table for n entries.
pub fn table_words(n: u32) -> u64 {
    // SAFETY: numbers in, a number out.
    unsafe { ffi::tantsheko_table_words(n) }
}

/// The words of the working space for n entries.
pub fn space_words(n: u32) -> u64 {
    // SAFETY: numbers in, a number out.
    unsafe { ffi::tantsheko_space_words(n) }
}

/// What a question gives: its result or a refusal, and the cells that it read. Laid out as the library's.
#[derive(Clone, Copy, Debug, PartialEq, Eq)]
#[repr(C)]
pub struct Answer {
    number: u32,
    word: u32,
    cells: [u32; 15],
    count: u32,
}

impl Answer {
    /// The result, or why there is none. A refusal that names an amount too is whole in its quote alone.
    #[inline]
    pub fn result(&self) -> Result<u32, Refusal> {
        self.result_with(0)
    }

    /// The result, or why there is none, with the amount that the refusal may name.
    #[inline]
    pub(crate) fn result_with(&self, amount: u32) -> Result<u32, Refusal> {
        match Refusal::of(self.number, self.word, amount) {
            None => Ok(self.word),
            Some(refusal) => Err(refusal),
        }
    }

    /// 0, or the refusal's number.
    #[inline]
    pub fn number(&self) -> u32 {
        self.number
    }

    /// The cells read, in the order read.
    #[inline]
    pub fn cells(&self) -> &[u32] {
        &self.cells[..self.count.min(15) as usize]
    }

    /// All fifteen places: those past the count are 0.
    #[inline]
    pub fn places(&self) -> &[u32; 15] {
        &self.cells
    }
}

/// A question as a function of the proved library: a table and two arguments.
type Ask = unsafe extern "C" fn(*const u32, usize, u32, u32, *mut Answer);

/// A table of any contents. On one that was not prepared a question may give `Broken`, never anything worse.
#[derive(Clone, Debug, PartialEq, Eq)]
pub struct Table {
    words: Vec<u32>,
}

impl Table {
    /// Prepares the table of a parent list: a word for each entry, its parent's number or `TOP`.
    pub fn prepare(parents: &[u32]) -> Result<Table, Refusal> {
        // A list of another length is refused before a buffer is looked at.
        let fits = parents.len() <= MOST_ENTRIES;
        let n = if fits { parents.len() as u32 } else { 0 };
        let mut words = vec![0; table_words(n) as usize];
        let mut space = vec![0; space_words(n) as usize];
        match prepare_into(parents, &mut words, &mut space) {
            Ok(_) => Ok(Table { words }),
            Err(refusal) => Err(refusal),
        }
    }

    /// A table from words that were stored.
    pub fn from_words(words: Vec<u32>) -> Table {
        Table { words }
    }

    /// The words of the table.
    pub fn words(&self) -> &[u32] {
        &self.words
    }

    /// How many entries the table says it has: 0 where cell 0 is below its mark, as an older table's is, or the table is empty.
    pub fn entries(&self) -> u32 {
        let cell = self.words.first().copied().unwrap_or(0);
        cell.saturating_sub(HEADER_MARK)
    }

    #[inline]
    fn ask(&self, question: Ask, a: u32, b: u32) -> Answer {
        let mut answer = MaybeUninit::uninit();
        // SAFETY: the pointer and the length are the slice's, and a question writes every word of its answer.
        unsafe {
            question(
                self.words.as_ptr(),
                self.words.len(),
                a,
                b,
                answer.as_mut_ptr(),
            );
            answer.assume_init()
        }
    }

    /// The class of v at depth d.
    #[inline]
    pub fn level(&self, v: u32, d: u32) -> Answer {
        self.ask(ffi::tantsheko_level, v, d)
    }

    /// The entry k above v.
    #[inline]
    pub fn climb(&self, v: u32, k: u32) -> Answer {
        self.ask(ffi::tantsheko_climb, v, k)
    }

    /// The class of v at rating level d, or v itself where it is less deep.
    #[inline]
    pub fn rating(&self, v: u32, d: u32) -> Answer {
        self.ask(ffi::tantsheko_rating, v, d)
    }

    /// Whether u is at or above v: 1 or 0.
    #[inline]
    pub fn ancestry(&self, u: u32, v: u32) -> Answer {
        self.ask(ffi::tantsheko_ancestry, u, v)
    }

    /// The child of u on the way to v.
    #[inline]
    pub fn branch(&self, u: u32, v: u32) -> Answer {
        self.ask(ffi::tantsheko_branch, u, v)
    }

    /// The deepest class that holds both u and v: their nearest common ancestor. It lists no cells.
    #[inline]
    pub fn nearest_common_ancestor(&self, u: u32, v: u32) -> Answer {
        self.ask(ffi::tantsheko_nearest_common_ancestor, u, v)
    }

    /// The number of climbs between u and v through that class. It lists no cells.
    #[inline]
    pub fn distance(&self, u: u32, v: u32) -> Answer {
        self.ask(ffi::tantsheko_distance, u, v)
    }
}

/// Prepares into buffers of the caller's, of any lengths: W on acceptance. For whoever keeps the buffers; the tests
/// compare every word with it.
pub fn prepare_into(parents: &[u32], table: &mut [u32], space: &mut [u32]) -> Result<u32, Refusal> {
    let mut reply = [0u32; 2];
    // SAFETY: each pointer and length are a slice's, no two overlap, and the reply has two words.
    unsafe {
        ffi::tantsheko_prepare(
            parents.as_ptr(),
            parents.len(),
            table.as_mut_ptr(),
            table.len(),
            space.as_mut_ptr(),
            space.len(),
            reply.as_mut_ptr(),
        );
    }
    match Refusal::of(reply[0], reply[1], 0) {
        None => Ok(reply[1]),
        Some(refusal) => Err(refusal),
    }
}
