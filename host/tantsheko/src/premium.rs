//! The premium of a sum insured: the class by the rating lookup, at its rate in a list of rates.

use crate::ffi;
use crate::refusal::Refusal;
use crate::table::{Answer, Table};
use std::mem::MaybeUninit;

/// The greatest rate, per million.
pub const MOST_RATE: u32 = 1_000_000;

/// The greatest size of a sum insured.
pub const MOST_SUM: i64 = 2_000_000_000;

/// What a premium question gives: class and premium or a refusal, and the cells of the rating lookup.
#[derive(Clone, Copy, Debug, PartialEq, Eq)]
#[repr(C)]
pub struct Quote {
    answer: Answer,
    amount: u32,
    cents: i64,
}

impl Quote {
    /// The class and the premium in cents, or why there is none.
    #[inline]
    pub fn result(&self) -> Result<(u32, i64), Refusal> {
        let class = self.answer.result_with(self.amount);
        class.map(|class| (class, self.cents))
    }

    /// The answer without the money, and without the amount that `Gap` and `Overlap` name.
    #[inline]
    pub fn answer(&self) -> &Answer {
        &self.answer
    }

    /// The amount that `Gap` and `Overlap` name; 0 for any other answer.
    #[inline]
    pub fn amount(&self) -> u32 {
        self.amount
    }

    /// The premium in cents; 0 for a refusal.
    #[inline]
    pub fn cents(&self) -> i64 {
        self.cents
    }
}

/// The quote of a premium question, which may leave the amount and the cents at 0. The answer is a local of its own: the
/// compiler then has it written where the quote is wanted, and copies nothing.
///
/// # Safety
/// The question writes every word of its answer.
#[inline]
pub(crate) unsafe fn quoted(ask: impl FnOnce(*mut Answer, &mut u32, &mut i64)) -> Quote {
    let mut answer = MaybeUninit::uninit();
    let (mut amount, mut cents) = (0, 0);
    ask(answer.as_mut_ptr(), &mut amount, &mut cents);
    Quote {
        answer: answer.assume_init(),
        amount,
        cents,
    }
}

impl Table {
    /// The premium of a sum insured for v at rating level d: `rates` has one for each entry, per million.
    #[inline]
    pub fn premium(&self, rates: &[u32], v: u32, d: u32, sum: i64) -> Quote {
        let table = self.words();
        // SAFETY: each pointer and length are a slice's, and the question writes every word of its answer.
        unsafe {
            quoted(|answer, _, cents| {
                ffi::tantsheko_premium(
                    table.as_ptr(),
                    table.len(),
                    rates.as_ptr(),
                    rates.len(),
                    v,
                    d,
                    sum,
                    answer,
                    cents,
                )
            })
        }
    }
}
