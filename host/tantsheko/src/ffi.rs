//! The proved functions as the static library has them: a slice is a pointer and a length.

use crate::sheet::Verdict;
use crate::table::Answer;

extern "C" {
    pub fn tantsheko_table_words(n: u32) -> u64;
    pub fn tantsheko_space_words(n: u32) -> u64;
    pub fn tantsheko_prepare(
        parents: *const u32,
        parents_len: usize,
        table: *mut u32,
        table_len: usize,
        space: *mut u32,
        space_len: usize,
        reply: *mut u32,
    );
    pub fn tantsheko_level(table: *const u32, len: usize, v: u32, d: u32, answer: *mut Answer);
    pub fn tantsheko_climb(table: *const u32, len: usize, v: u32, k: u32, answer: *mut Answer);
    pub fn tantsheko_rating(table: *const u32, len: usize, v: u32, d: u32, answer: *mut Answer);
    pub fn tantsheko_ancestry(table: *const u32, len: usize, u: u32, v: u32, answer: *mut Answer);
    pub fn tantsheko_branch(table: *const u32, len: usize, u: u32, v: u32, answer: *mut Answer);
    pub fn tantsheko_nearest_common_ancestor(
        table: *const u32,
        len: usize,
        u: u32,
        v: u32,
        answer: *mut Answer,
    );
    pub fn tantsheko_distance(table: *const u32, len: usize, u: u32, v: u32, answer: *mut Answer);
    pub fn tantsheko_premium(
        table: *const u32,
        table_len: usize,
        rates: *const u32,
        rates_len: usize,
        v: u32,
        d: u32,
        sum: i64,
        answer: *mut Answer,
        cents: *mut i64,
    );
    pub fn tantsheko_sheet(
        table: *const u32,
        table_len: usize,
        text: *const u8,
        text_len: usize,
        d: u32,
        verdict: *mut Verdict,
    );
    pub fn tantsheko_checked_sheet(
        table: *const u32,
        table_len: usize,
        text: *const u8,
        text_len: usize,
        d: u32,
        sheet: *mut u64,
        verdict: *mut Verdict,
    );
    pub fn tantsheko_price(
        table: *const u32,
        table_len: usize,
        text: *const u8,
        text_len: usize,
        v: u32,
        d: u32,
        sum: i64,
        answer: *mut Answer,
        amount: *mut u32,
        cents: *mut i64,
    );
    pub fn tantsheko_quotation(
        table: *const u32,
        table_len: usize,
        sheet: *const u64,
        v: u32,
        sum: i64,
        answer: *mut Answer,
        amount: *mut u32,
        cents: *mut i64,
    );
}
