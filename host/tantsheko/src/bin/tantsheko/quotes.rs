//! Premiums as the command asks and prints them: one, and a stream of them.

use crate::one::{cells_line, refused};
use crate::stream::{number as field, put, stream};
use crate::{say, Done, Stop};
use tantsheko::{sums, Question, Quote, Refusal, Table};

/// The sum of a call.
pub fn sum_of(word: &str) -> Result<i64, Stop> {
    sums::read(word.as_bytes()).ok_or_else(|| {
        Stop::Usage(format!(
            "SUM is a whole number, as 25 or -25, and not `{word}`"
        ))
    })
}

/// Prints class and cents, and the cells where they are asked for; or says why there are none.
pub fn tell(quote: &Quote, cells: bool, why: impl FnOnce(Refusal) -> String) -> Done {
    let read = cells_line(quote.answer(), cells);
    match quote.result() {
        Ok((class, cents)) => say(&format!("{class},{cents}\n{read}")),
        Err(refusal) => {
            say(&read)?;
            Err(Stop::Fault(why(refusal)))
        }
    }
}

/// Why there is no premium, where the lookup or the sum is at fault.
pub fn unquoted(table: &Table, entry: u32, level: u32, sum: &str, refusal: Refusal) -> String {
    match refusal {
        Refusal::BadSum => format!("{sum} is out of range: {refusal}"),
        _ => refused(table, Question::Rating, entry, level, refusal),
    }
}

/// The entry and the sum of a line.
fn question(line: &[u8]) -> Option<(u32, i64)> {
    let comma = line.iter().position(|&b| b == b',')?;
    Some((field(&line[..comma])?, sums::read(&line[comma + 1..])?))
}

/// What stands behind a question's line.
fn row(out: &mut Vec<u8>, quote: &Quote) {
    out.push(b',');
    put(out, quote.answer().number().into());
    match quote.result() {
        Ok((class, cents)) => {
            out.push(b',');
            put(out, class.into());
            out.push(b',');
            if cents < 0 {
                out.push(b'-');
            }
            put(out, cents.unsigned_abs());
        }
        Err(_) => out.extend_from_slice(b",-,-"),
    }
    out.push(b',');
    put(out, quote.answer().cells().len() as u64);
}

/// Puts behind each `entry,sum` line what `ask` quotes for it.
pub fn quote_lines(ask: impl Fn(u32, i64) -> Quote) -> Done {
    stream(
        "`entry,sum`: give an entry's number and a whole number, as 7,25 or 7,-25",
        |line, out| {
            let (entry, sum) = question(line)?;
            row(out, &ask(entry, sum));
            Some(())
        },
    )
}
