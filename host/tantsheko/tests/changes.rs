//! Where the price lists of two tables differ: beside plain climbs of both lists, and as an analyst asks for it.

mod beside;
mod folder;

use beside::TOP;
use folder::{Folder, CHAIN};
use reference::trees::{below, make as tree};
use std::fs;
use std::path::Path;
use std::process::Command;
use tantsheko::{file, Table};

const README: &str = include_str!("../../../README.md");

fn write(path: &Path, table: &Table) {
    file::write(path, table, &mut |_| ()).unwrap();
}

/// The class of an entry at a rating level by climbing: the entry itself where it is less deep, `-` where it is in no list.
fn rated(parents: &[u32], v: usize, level: usize) -> String {
    if v >= parents.len() {
        return "-".to_string();
    }
    let mut climb = vec![v as u32];
    while parents[*climb.last().unwrap() as usize] != TOP {
        climb.push(parents[*climb.last().unwrap() as usize]);
    }
    climb.reverse();
    climb[level.min(climb.len() - 1)].to_string()
}

/// The rows of two lists at increasing levels, and the line of counts.
fn differing(old: &[u32], new: &[u32], levels: &[usize]) -> (String, String) {
    let both = old.len().min(new.len());
    let (mut rows, mut changed) = (String::new(), vec![0; levels.len()]);
    for v in 0..old.len().max(new.len()) {
        for (level, changed) in levels.iter().zip(&mut changed) {
            let (before, after) = (rated(old, v, *level), rated(new, v, *level));
            if before != after {
                rows += &format!("{v},{level},{before},{after}\n");
                *changed += usize::from(v < both);
            }
        }
    }
    let at = levels.iter().zip(changed);
    let at: Vec<String> = at.map(|(l, c)| format!("{c} at level {l}")).collect();
    let counts = format!(
        "entries: {both} in both, {} added, {} gone; of those in both changed: {}\n",
        new.len() - both,
        old.len() - both,
        at.join(", ")
    );
    (rows, counts)
}

#[test]
fn random_lists() {
    let f = Folder::new("changes-random");
    let mut seed = 41;
    for k in 0..120usize {
        let n = 1 + below(&mut seed, 300) as usize;
        let old = tree(k, n, &mut seed, false);
        let mut new = old.clone();
        for _ in 0..below(&mut seed, 4) {
            let v = below(&mut seed, n) as usize;
            new[v] = if v == 0 { TOP } else { below(&mut seed, v) };
        }
        match k % 3 {
            0 => new.extend((0..k as u32).map(|i| i % n as u32)),
            1 => new.truncate(1 + n / 2),
            _ => {}
        }
        let tables = [&old, &new].map(|list| Table::prepare(list).unwrap());
        write(&f.0.join("old"), &tables[0]);
        write(&f.0.join("new"), &tables[1]);
        let (rows, counts) = differing(&old, &new, &[0, 1, 3, 40]);
        let equal = if old == new {
            "the tables are equal; "
        } else {
            ""
        };
        assert_eq!(
            f.run(&["changes", "old", "new", "40", "1", "3", "1", "0"], ""),
            (0, rows, format!("{equal}{counts}"))
        );
    }
}

/// Entries 3 and 4 change places, 7 moves to below the top, and 8 is added below it.
#[test]
fn moved_and_added_entries() {
    let f = Folder::new("changes-moved");
    f.file("old.txt", CHAIN);
    f.file("new.txt", "-\n0\n1\n4\n2\n3\n5\n0\n7\n");
    f.ok(&["prepare", "old.txt", "old"], "");
    f.ok(&["prepare", "new.txt", "new"], "");
    let (status, out, err) = f.run(&["changes", "old", "new", "3", "1"], "");
    assert_eq!(
        (status, out.as_str(), err.as_str()),
        (
            0,
            "3,3,3,4\n4,3,3,4\n5,3,3,4\n6,3,3,4\n7,1,1,7\n7,3,3,7\n8,1,-,7\n8,3,-,8\n",
            "entries: 8 in both, 1 added, 0 gone; of those in both changed: 1 at level 1, 5 at level 3\n"
        )
    );
    let (_, out, err) = f.run(&["changes", "new", "old", "1"], "");
    assert_eq!(
        (out.as_str(), err.as_str()),
        (
            "7,1,7,1\n8,1,7,-\n",
            "entries: 8 in both, 0 added, 1 gone; of those in both changed: 1 at level 1\n"
        )
    );
}

/// Each row is where the two price lists differ.
#[test]
fn beside_the_price_lists() {
    let f = Folder::new("changes-prices");
    let mut seed = 42;
    for (name, n) in [("old", 500), ("new", 520)] {
        let table = Table::prepare(&tree(2, n, &mut seed, true)).unwrap();
        write(&f.0.join(name), &table);
    }
    let prices = |name: &str| f.ok(&["pricelist", name, "1", "2", "5"], "");
    let (old, new) = (prices("old"), prices("new"));
    let classes = |text: &str, row: usize| -> Vec<String> {
        let row = text.lines().nth(row).unwrap_or("");
        let fields = row.split(',').map(String::from);
        fields
            .skip(1)
            .chain(["-", "-", "-"].map(String::from))
            .take(3)
            .collect()
    };
    let mut rows = String::new();
    for v in 0..520 {
        let (before, after) = (classes(&old, v + 1), classes(&new, v + 1));
        for (i, level) in [1, 2, 5].iter().enumerate() {
            if before[i] != after[i] {
                rows += &format!("{v},{level},{},{}\n", before[i], after[i]);
            }
        }
    }
    let (status, out, _) = f.run(&["changes", "old", "new", "1", "2", "5"], "");
    assert_eq!((status, out), (0, rows));
}

#[test]
fn equal_tables_and_equal_classes() {
    let f = Folder::new("changes-equal");
    f.file("list", "-\n0\n0\n1\n");
    f.file("other", "-\n0\n0\n2\n");
    f.ok(&["prepare", "list", "a"], "");
    f.ok(&["prepare", "list", "b"], "");
    f.ok(&["prepare", "other", "c"], "");
    let counts = "entries: 4 in both, 0 added, 0 gone; of those in both changed: 0 at level 0, 0 at level 2\n";
    let said = |old: &str, new: &str| f.run(&["changes", old, new, "0", "2"], "");
    assert_eq!(
        said("a", "b"),
        (0, String::new(), format!("the tables are equal; {counts}"))
    );
    assert_eq!(said("a", "c"), (0, String::new(), counts.to_string()));
}

#[test]
fn bad_calls_and_bad_tables() {
    let f = Folder::new("changes-calls");
    f.file("list", CHAIN);
    f.ok(&["prepare", "list", "table"], "");
    let about = "; see `tantsheko changes --help`";
    for (args, text) in [
        (&["table"][..], "changes takes OLD NEW LEVEL.."),
        (
            &["table", "table"],
            "changes takes one rating level or more",
        ),
        (
            &["table", "table", "x"],
            "a LEVEL is a whole number from 0 to 4294967295, and not `x`",
        ),
        (
            &["table", "table", "1", "--all"],
            "changes has no option `--all`",
        ),
    ] {
        f.fails(&[&["changes"], args].concat(), 2, &format!("{text}{about}"));
    }
    let fails = |old: &str, new: &str, text: &str| {
        f.fails(&["changes", old, new, "1"], 1, text);
    };
    fails(
        "list",
        "table",
        "list is not a prepared table: make one with `tantsheko prepare`",
    );
    fails(
        "table",
        "none",
        "none cannot be read: there is no such file or folder",
    );
    let mut bytes = fs::read(f.0.join("table")).unwrap();
    bytes[8] = 1;
    fs::write(f.0.join("older"), &bytes).unwrap();
    fails(
        "older",
        "table",
        "older is a table of version 1, and this program reads version 2: prepare it again",
    );
    bytes[8] = 2;
    bytes[100] ^= 1;
    fs::write(f.0.join("damaged"), &bytes).unwrap();
    fails(
        "table",
        "damaged",
        "damaged is damaged: its checksum is wrong; prepare it again",
    );
    assert!(f
        .ok(&["changes", "--help"], "")
        .contains("`entry,level,old,new`"));
}

/// A file whose checksum is right, of a table that no list has: the rows before the fault, then the file and the entry.
#[test]
fn a_table_of_no_list() {
    let f = Folder::new("changes-broken");
    f.file("list", CHAIN);
    f.ok(&["prepare", "list", "table"], "");
    let mut words = file::read(&f.0.join("table")).unwrap().words().to_vec();
    words[4 + 1] = 0;
    words[4 + 5] = 8;
    write(&f.0.join("bad"), &Table::from_words(words));
    let why = "tantsheko: bad: entry 5: the table is damaged, or an older program made it: prepare it again\n";
    assert_eq!(
        f.run(&["changes", "table", "bad", "0"], ""),
        (1, "1,0,0,1\n".to_string(), why.to_string())
    );
    assert_eq!(
        f.run(&["changes", "bad", "bad", "0"], ""),
        (1, String::new(), why.to_string())
    );
}

/// Standard error is a pipe without a reader: the rows and the status are the same.
#[test]
fn nobody_reads_the_counts() {
    let f = Folder::new("changes-unread");
    f.file("old.txt", CHAIN);
    f.file("new.txt", "-\n0\n0\n");
    f.ok(&["prepare", "old.txt", "old"], "");
    f.ok(&["prepare", "new.txt", "new"], "");
    let run = |args: &[&str]| {
        let (reader, writer) = std::io::pipe().unwrap();
        drop(reader);
        let mut command = Command::new(env!("CARGO_BIN_EXE_tantsheko"));
        let call = command.args(args).current_dir(&f.0).stderr(writer);
        let out = call.output().unwrap();
        (out.status.code().unwrap(), out.stdout)
    };
    let (rows, _) = differing(&[TOP, 0, 1, 2, 3, 4, 5, 6], &[TOP, 0, 0], &[1]);
    assert_eq!(run(&["changes", "old", "new", "1"]), (0, rows.into()));
    assert_eq!(run(&["changes", "old", "none", "1"]), (1, Vec::new()));
    assert_eq!(run(&["changes", "old"]), (2, Vec::new()));
}

/// The call and the output of the README.
#[test]
fn the_readmes_example() {
    let f = Folder::new("changes-readme");
    f.file("old.txt", "-\n0\n1\n1\n");
    f.file("new.txt", "-\n0\n0\n1\n2\n");
    f.ok(&["prepare", "old.txt", "old.table"], "");
    f.ok(&["prepare", "new.txt", "new.table"], "");
    let call = "changes old.table new.table 1 2";
    let (_, out, err) = f.run(&call.split(' ').collect::<Vec<_>>(), "");
    let lines = format!("$ tantsheko {call}\n{out}{err}");
    let shown: String = lines.lines().map(|l| format!("    {l}\n")).collect();
    assert!(README.contains(&format!("\n{shown}\n")), "{shown}");
}
