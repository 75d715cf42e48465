//! Premiums by a list of rates.

use crate::one::without_cells;
use crate::quotes::{quote_lines, sum_of, tell, unquoted};
use crate::{number, open, text_of, Done, Stop};
use tantsheko::{rates, Refusal, MOST_RATE};

/// A list of rates from its file.
fn rates_of(path: &str) -> Result<Vec<u32>, Stop> {
    rates::read(&text_of(path)?).map_err(|e| Stop::Fault(format!("{path}: {e}")))
}

/// Why a class has no rate in the file of rates, with what to do.
fn unrated(path: &str, rates: &[u32], class: u32) -> String {
    let line = u64::from(class) + 1;
    match rates.get(class as usize) {
        Some(rate) => format!(
            "class {class} has rate {rate}, and a rate is at most {MOST_RATE} per million: mend line {line} of {path}"
        ),
        None => format!(
            "class {class} has no rate: {path} has {} lines, and the rate belongs on line {line}: add what is missing",
            rates.len()
        ),
    }
}

pub fn premium(args: &[String]) -> Done {
    let (words, cells) = without_cells(args);
    let [path, list, entry, level, sum] = words[..] else {
        return Err(Stop::Usage(
            "premium takes TABLE RATES ENTRY LEVEL SUM".to_string(),
        ));
    };
    let (entry, level) = (number(entry, "ENTRY")?, number(level, "LEVEL")?);
    let asked = sum_of(sum)?;
    let table = open(path)?;
    let rates = rates_of(list)?;
    let quote = table.premium(&rates, entry, level, asked);
    tell(&quote, cells, |refusal| {
        match (refusal, table.rating(entry, level).result()) {
            (Refusal::BadRate, Ok(class)) => unrated(list, &rates, class),
            _ => unquoted(&table, entry, level, sum, refusal),
        }
    })
}

pub fn premiums(args: &[String]) -> Done {
    let [path, list, level] = args else {
        return Err(Stop::Usage(
            "premiums takes TABLE RATES LEVEL, with `entry,sum` lines on standard input"
                .to_string(),
        ));
    };
    let level = number(level, "LEVEL")?;
    let table = open(path)?;
    let rates = rates_of(list)?;
    quote_lines(|entry, sum| table.premium(&rates, entry, level, sum))
}
