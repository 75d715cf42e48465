//! From a list to its table, and back to see that they agree.

use crate::{open, say, text_of, Done, Stop};
use std::io::{IsTerminal, Write};
use std::path::Path;
use tantsheko::{file, list, Table};

/// A line on a terminal that says how far the work is; nothing where standard error is no terminal.
struct Progress {
    shown: bool,
}

impl Progress {
    fn new() -> Progress {
        Progress {
            shown: std::io::stderr().is_terminal(),
        }
    }

    fn say(&self, text: &str) {
        if self.shown {
            eprint!("\r\x1b[K{text}");
            let _ = std::io::stderr().flush();
        }
    }
}

impl Drop for Progress {
    fn drop(&mut self) {
        self.say("");
    }
}

/// A list from its file.
fn parents_of(path: &str) -> Result<Vec<u32>, Stop> {
    list::read(&text_of(path)?).map_err(|e| Stop::Fault(format!("{path}: {e}")))
}

fn table_of(path: &str, progress: &Progress) -> Result<Table, Stop> {
    progress.say(&format!("reading {path}"));
    let parents = parents_of(path)?;
    progress.say(&format!("preparing {} entries", parents.len()));
    Table::prepare(&parents)
        .map_err(|refusal| Stop::Fault(format!("{path}: {}", list::fault(&parents, refusal))))
}

pub fn prepare(args: &[String]) -> Done {
    let [list, path] = args else {
        return Err(Stop::Usage("prepare takes LIST TABLE".to_string()));
    };
    let progress = Progress::new();
    let table = table_of(list, &progress)?;
    let mut tenths = 0;
    let mut tell = |share: f64| {
        let now = (share * 10.0) as u32;
        if now != tenths {
            tenths = now;
            progress.say(&format!("writing {path}: {}0 %", now));
        }
    };
    file::write(Path::new(path), &table, &mut tell)
        .map_err(|e| Stop::Fault(format!("{path} cannot be written: {}", file::reason(&e))))
}

pub fn check(args: &[String]) -> Done {
    let [path, list] = args else {
        return Err(Stop::Usage("check takes TABLE LIST".to_string()));
    };
    let progress = Progress::new();
    let stored = open(path)?;
    let table = table_of(list, &progress)?;
    drop(progress);
    if stored.words().len() != table.words().len() {
        return Err(Stop::Fault(format!(
            "{path} has {} entries, and {list} has {}",
            stored.entries(),
            table.entries()
        )));
    }
    let differs = (0..table.words().len()).find(|&i| stored.words()[i] != table.words()[i]);
    if let Some(cell) = differs {
        return Err(Stop::Fault(format!(
            "{path} is not the table of {list}: cell {cell} holds {}, and the list gives {}",
            stored.words()[cell],
            table.words()[cell]
        )));
    }
    say(&format!(
        "{path} is the table of {list}: {} entries, {} words\n",
        table.entries(),
        table.words().len()
    ))
}
