//! Sheets with bands: the check of one, and premiums by it.

use crate::one::without_cells;
use crate::quotes::{quote_lines, sum_of, tell, unquoted};
use crate::{bytes_of, number, open, say, Done, Stop};
use tantsheko::{bands, Refusal, Sheet, Table};

/// A table, and a sheet for it as its file has it: whether its lines are good is the library's to say.
struct SheetFile<'a> {
    table: Table,
    path: &'a str,
    text: Vec<u8>,
    level: u32,
}

impl<'a> SheetFile<'a> {
    fn open(table: &str, sheet: &'a str, level: u32) -> Result<SheetFile<'a>, Stop> {
        Ok(SheetFile {
            table: open(table)?,
            path: sheet,
            text: bytes_of(sheet)?,
            level,
        })
    }

    /// Why the sheet is refused, with what to write.
    fn fault(&self, refusal: Refusal) -> String {
        let why = bands::fault(&self.table, &self.text, self.level, refusal);
        format!("{}: {why}", self.path)
    }
}

/// A refused sheet's line on standard output.
fn verdict(refusal: Refusal) -> String {
    let (number, name) = (refusal.number(), refusal.names());
    match refusal {
        Refusal::Gap { amount, .. } | Refusal::Overlap { amount, .. } => {
            format!("{number},{name},{amount}\n")
        }
        _ => format!("{number},{name}\n"),
    }
}

pub fn sheet(args: &[String]) -> Done {
    let [table, sheet, level] = args else {
        return Err(Stop::Usage("sheet takes TABLE SHEET LEVEL".to_string()));
    };
    let file = SheetFile::open(table, sheet, number(level, "LEVEL")?)?;
    match file.table.sheet_lines(&file.text, file.level) {
        Ok(lines) => say(&format!("0,{lines}\n")),
        Err(refusal) => {
            say(&verdict(refusal))?;
            Err(Stop::Fault(file.fault(refusal)))
        }
    }
}

pub fn quote(args: &[String]) -> Done {
    let (words, cells) = without_cells(args);
    let [table, sheet, level, entry, sum] = words[..] else {
        return Err(Stop::Usage(
            "quote takes TABLE SHEET LEVEL ENTRY SUM".to_string(),
        ));
    };
    let (level, entry) = (number(level, "LEVEL")?, number(entry, "ENTRY")?);
    let asked = sum_of(sum)?;
    let file = SheetFile::open(table, sheet, level)?;
    let quote = file.table.price(&file.text, entry, level, asked);
    tell(&quote, cells, |refusal| match refusal.number() {
        13..=15 => file.fault(refusal),
        _ => unquoted(&file.table, entry, level, sum, refusal),
    })
}

pub fn quotes(args: &[String]) -> Done {
    let [table, sheet, level] = args else {
        return Err(Stop::Usage(
            "quotes takes TABLE SHEET LEVEL, with `entry,sum` lines on standard input".to_string(),
        ));
    };
    let file = SheetFile::open(table, sheet, number(level, "LEVEL")?)?;
    let checked = Sheet::check(&file.table, &file.text, file.level)
        .map_err(|refusal| Stop::Fault(file.fault(refusal)))?;
    quote_lines(|entry, sum| checked.quote(&file.table, entry, sum))
}
