//! The brokers' price list.

use crate::stream::put;
use crate::{number, open, Done, Stop};
use std::io::{BufWriter, Write};

/// The rating levels of a call.
pub fn levels_of(command: &str, words: &[String]) -> Result<Vec<u32>, Stop> {
    if words.is_empty() {
        return Err(Stop::Usage(format!(
            "{command} takes one rating level or more"
        )));
    }
    words.iter().map(|l| number(l, "a LEVEL")).collect()
}

pub fn pricelist(args: &[String]) -> Done {
    let [path, levels @ ..] = args else {
        return Err(Stop::Usage("pricelist takes TABLE LEVEL..".to_string()));
    };
    let levels = levels_of("pricelist", levels)?;
    let table = open(path)?;
    let mut output = BufWriter::with_capacity(1 << 18, std::io::stdout().lock());
    let mut row = b"entry".to_vec();
    for level in &levels {
        row.extend_from_slice(b",level ");
        put(&mut row, (*level).into());
    }
    row.push(b'\n');
    output.write_all(&row)?;
    for v in 0..table.entries() {
        row.clear();
        put(&mut row, v.into());
        for &level in &levels {
            row.push(b',');
            match table.rating(v, level).result() {
                Ok(class) => put(&mut row, class.into()),
                Err(refusal) => {
                    output.flush()?;
                    return Err(Stop::Fault(format!("entry {v}: {refusal}")));
                }
            }
        }
        row.push(b'\n');
        output.write_all(&row)?;
    }
    output.flush()?;
    Ok(())
}
