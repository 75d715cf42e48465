//! Lists of rates as text.

use crate::list::{number, shown};
use crate::premium::MOST_RATE;

/// Reads a list of rates: one a line, from entry 0 on. A rate over its limit is refused where its class is asked.
pub fn read(text: &str) -> Result<Vec<u32>, String> {
    let rate = |(entry, line): (usize, &str)| {
        number(line.trim()).ok_or_else(|| {
            format!(
                "line {}: `{}` is not a rate: give the rate of entry {entry}, a whole number from 0 to {MOST_RATE} per million",
                entry + 1,
                shown(line)
            )
        })
    };
    text.lines().enumerate().map(rate).collect()
}
