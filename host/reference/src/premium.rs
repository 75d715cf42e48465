//! The premium of a sum insured, by whole numbers with their sign.

use crate::questions::{rated, Answer, Refusal};
use crate::sheets::Fault;

/// The greatest rate, per million.
pub(crate) const MOST_RATE: u32 = 1_000_000;

/// The greatest size of a sum.
pub(crate) const MOST_SUM: u32 = 2_000_000_000;

/// An answer with the premium in cents, 0 where it is refused, and the amount that 14 and 15 name, 0 else.
#[derive(Clone, Copy, Debug, PartialEq, Eq)]
pub struct Quote {
    pub answer: Answer,
    pub amount: u32,
    pub cents: i64,
}

/// The premium of a sum for v at rating level d.
#[inline(never)]
pub fn premium(table: &[u32], rates: &[u32], v: u32, d: u32, sum: i64) -> Quote {
    priced(table, v, d, |class| Ok(cents(rates, class, sum)?))
}

/// The quote of a rating: the cents of its class, or why there are none.
#[inline(always)]
pub(crate) fn priced(
    table: &[u32],
    v: u32,
    d: u32,
    cents: impl FnOnce(u32) -> Result<i64, Fault>,
) -> Quote {
    let mut quote = Quote {
        answer: rated(table, v, d),
        amount: 0,
        cents: 0,
    };
    if quote.answer.number == 0 {
        match cents(quote.answer.word) {
            Ok(cents) => quote.cents = cents,
            Err(fault) => {
                (quote.answer.number, quote.answer.word) = (fault.number, fault.word);
                quote.amount = fault.amount;
            }
        }
    }
    quote
}

fn cents(rates: &[u32], class: u32, sum: i64) -> Result<i64, Refusal> {
    match rates.get(class as usize) {
        Some(&rate) if rate <= MOST_RATE => size(sum).map(|_| at_rate(sum, rate)),
        _ => Err((11, 0)),
    }
}

/// A sum without its sign, or 12.
pub(crate) fn size(sum: i64) -> Result<u32, Refusal> {
    match sum.unsigned_abs() {
        size if size <= u64::from(MOST_SUM) => Ok(size as u32),
        _ => Err((12, 0)),
    }
}

/// The premium of a legal sum: sum times rate divided by 10,000, to the nearest, a half away from zero.
pub(crate) fn at_rate(sum: i64, rate: u32) -> i64 {
    let parts = sum * i64::from(rate);
    (parts + 5_000 * parts.signum()) / 10_000
}
