//! Where the price lists of two tables differ.

use crate::prices::levels_of;
use crate::stream::put;
use crate::{note, open, Done, Stop};
use std::io::{BufWriter, Write};
use tantsheko::{Refusal, Table};

/// A table with the name of its file.
struct TableFile<'a> {
    path: &'a str,
    table: Table,
}

impl<'a> TableFile<'a> {
    fn open(path: &'a str) -> Result<TableFile<'a>, Stop> {
        let table = open(path)?;
        Ok(TableFile { path, table })
    }

    /// The class of an entry at a rating level, as the price list has it; none for an entry that is not in the table.
    fn class(&self, v: u32, level: u32) -> Result<Option<u32>, Stop> {
        match self.table.rating(v, level).result() {
            Ok(class) => Ok(Some(class)),
            Err(Refusal::Unknown(_)) => Ok(None),
            Err(refusal) => Err(Stop::Fault(format!("{}: entry {v}: {refusal}", self.path))),
        }
    }
}

/// A rating level, and how many entries of both tables have another class there.
struct Level {
    level: u32,
    changed: u32,
}

/// Appends a class, or - for none.
fn put_class(row: &mut Vec<u8>, class: Option<u32>) {
    row.push(b',');
    match class {
        Some(class) => put(row, class.into()),
        None => row.push(b'-'),
    }
}

/// Appends a row for each level at which an entry's class differs, and counts it where the entry is in both tables.
fn put_entry(
    rows: &mut Vec<u8>,
    [old, new]: [&TableFile; 2],
    v: u32,
    levels: &mut [Level],
) -> Done {
    for Level { level, changed } in levels {
        let (before, after) = (old.class(v, *level)?, new.class(v, *level)?);
        if before == after {
            continue;
        }
        *changed += u32::from(before.is_some() && after.is_some());
        put(rows, v.into());
        rows.push(b',');
        put(rows, (*level).into());
        put_class(rows, before);
        put_class(rows, after);
        rows.push(b'\n');
    }
    Ok(())
}

/// Writes the rows of all entries. A table that turns out broken ends them.
fn write_rows(files: [&TableFile; 2], levels: &mut [Level]) -> Done {
    let mut output = BufWriter::with_capacity(1 << 18, std::io::stdout().lock());
    let mut rows = Vec::new();
    let [old, new] = files.map(|file| file.table.entries());
    for v in 0..old.max(new) {
        rows.clear();
        let done = put_entry(&mut rows, files, v, levels);
        output.write_all(&rows)?;
        if done.is_err() {
            output.flush()?;
            return done;
        }
    }
    output.flush()?;
    Ok(())
}

/// The counts in words.
fn summary(old: u32, new: u32, levels: &[Level]) -> String {
    let both = old.min(new);
    let changed: Vec<String> = levels
        .iter()
        .map(|Level { level, changed }| format!("{changed} at level {level}"))
        .collect();
    format!(
        "entries: {both} in both, {} added, {} gone; of those in both changed: {}",
        new - both,
        old - both,
        changed.join(", ")
    )
}

pub fn changes(args: &[String]) -> Done {
    let [old, new, words @ ..] = args else {
        return Err(Stop::Usage("changes takes OLD NEW LEVEL..".to_string()));
    };
    let mut levels = levels_of("changes", words)?;
    levels.sort();
    levels.dedup();
    let changed = 0;
    let mut levels: Vec<Level> = levels
        .into_iter()
        .map(|level| Level { level, changed })
        .collect();
    let (old, new) = (TableFile::open(old)?, TableFile::open(new)?);
    write_rows([&old, &new], &mut levels)?;
    let counts = summary(old.table.entries(), new.table.entries(), &levels);
    let equal = old.table == new.table;
    note(&format!(
        "{}{counts}",
        if equal { "the tables are equal; " } else { "" }
    ));
    Ok(())
}
