//! The command as its users call it: what it prints, what it says of bad input, and that no half-written file is left.

mod folder;

use folder::{Folder, CHAIN};
use std::fs;

#[test]
fn from_text_to_price_list() {
    let f = Folder::new("prices");
    f.file("list", CHAIN);
    assert_eq!(f.ok(&["prepare", "list", "table"], ""), "");
    assert_eq!(f.names(), ["list", "table"]);
    assert_eq!(
        f.ok(&["class", "table", "7", "1", "--cells"], ""),
        "1\ncells 0 11 19 69 68 29\n"
    );
    assert_eq!(f.ok(&["climb", "table", "7", "2"], ""), "5\n");
    assert_eq!(f.ok(&["above", "table", "2", "5"], ""), "yes\n");
    assert_eq!(
        f.ok(&["above", "--cells", "table", "5", "2"], ""),
        "no\ncells 0 41 49 38\n"
    );
    assert_eq!(f.ok(&["branch", "table", "2", "5"], ""), "3\n");
    let prices = f.ok(&["pricelist", "table", "0", "6"], "");
    assert_eq!(
        prices,
        "entry,level 0,level 6\n0,0,0\n1,0,1\n2,0,2\n3,0,3\n4,0,4\n5,0,5\n6,0,6\n7,0,6\n"
    );
    assert_eq!(
        f.ok(&["check", "table", "list"], ""),
        "table is the table of list: 8 entries, 113 words\n"
    );
}

#[test]
fn lists_of_both_forms() {
    let f = Folder::new("forms");
    f.file("column", CHAIN);
    f.file(
        "pairs",
        "entry,parent\r\n7,6\r\n3,2\r\n0,-\r\n1,0\r\n2,1\r\n6,5\r\n5,4\r\n4,3\r\n",
    );
    f.ok(&["prepare", "column", "a"], "");
    f.ok(&["prepare", "pairs", "b"], "");
    assert_eq!(
        fs::read(f.0.join("a")).unwrap(),
        fs::read(f.0.join("b")).unwrap()
    );
}

#[test]
fn a_stream_of_questions() {
    let f = Folder::new("batch");
    f.file("list", CHAIN);
    f.ok(&["prepare", "list", "table"], "");
    let questions =
        "7,1\n7,8\n8,0\nclass,7,5\nclimb,7,2\nrating,7,1\nrating,2,7\nrating,8,0\nabove,2,5\nbranch,2,5\nbranch,5,2\n";
    let answers = "7,1,0,1,6\n7,8,8,-,2\n8,0,7,-,1\nclass,7,5,0,5,6\nclimb,7,2,0,5,6\nrating,7,1,0,1,6\nrating,2,7,0,2,2\nrating,8,0,7,-,1\nabove,2,5,0,1,4\nbranch,2,5,0,3,11\nbranch,5,2,10,-,4\n";
    assert_eq!(f.ok(&["batch", "table"], questions), answers);
    assert_eq!(f.ok(&["batch", "table"], "7,1"), "7,1,0,1,6\n");
    for bad in [
        "7",
        "7,x",
        "7,1,2,3",
        "climb,7",
        "7,4294967296",
        "",
        "up,1,2",
        "7,-1",
    ] {
        let (status, out, err) = f.run(&["batch", "table"], &format!("7,1\n{bad}\n7,5\n"));
        let text =
            format!("tantsheko: line 2: `{bad}` is not a question; see `tantsheko batch --help`\n");
        assert_eq!((status, out.as_str(), err), (1, "7,1,0,1,6\n", text));
    }
}

#[test]
fn refused_lists_in_words() {
    let f = Folder::new("refused");
    let fails = |text: &str, why: &str| {
        f.file("list", text);
        f.fails(&["prepare", "list", "table"], 1, &format!("list: {why}"));
        assert_eq!(f.names(), ["list"], "no table is left");
    };
    fails(
        "-\n0\n900001\n",
        "entry 2 names 900001, which is not an entry",
    );
    fails("1\n-\n0\n-\n", "entries 1 and 3 are both tops");
    fails(
        "1\n0\n",
        "no entry is the top: one entry must have - for its parent",
    );
    fails("-\n2\n1\n", "entry 1 never reaches the top: 1 → 2 → 1");
    fails(
        "-\n3\n3\n4\n3\n",
        "entry 1 never reaches the top: 1 → 3 → 4 → 3",
    );
    fails("-\n1\n", "entry 1 never reaches the top: 1 → 1");
    fails(
        "",
        "the list is empty: give one parent a line, and - for the top",
    );
    fails(
        "-\nx\n",
        "line 2: `x` is not a parent: give an entry's number, or - for the top",
    );
    fails(
        "-\n\n0\n",
        "line 2: `` is not a parent: give an entry's number, or - for the top",
    );
    fails(
        "-\n4294967296\n",
        "line 2: `4294967296` is not a parent: give an entry's number, or - for the top",
    );
    fails("0,-\n1\n", "line 2: `1` is not `entry,parent`");
    fails("0,-\n0,-\n", "line 2: entry 0 stands on line 1 already");
    fails(
        "0,-\n2,0\n",
        "entry 1 has no line: 2 entries are given, the highest is 2, and none may be left out",
    );
    fails("0,-\nx,0\n", "line 2: `x` is not an entry's number");
    fails(
        "0,-\n1048576,0\n",
        "line 2: entry 1048576 is too high: entries are numbered from 0, up to 1048575",
    );
    let long: String = (0..1_048_577)
        .map(|i| if i == 0 { "-\n" } else { "0\n" })
        .collect();
    fails(
        &long,
        "the list has 1048577 entries, and at most 1048576 can be prepared",
    );
    let round: String = (0..40)
        .map(|i| format!("{}\n", (i + 1) % 40))
        .chain(["-\n".into()])
        .collect();
    fails(
        &round,
        "entry 0 never reaches the top: 0 → 1 → 2 → 3 → 4 → … 33 more … → 38 → 39 → 0",
    );
}

#[test]
fn bad_calls_and_damaged_tables() {
    let f = Folder::new("calls");
    f.file("list", CHAIN);
    f.ok(&["prepare", "list", "table"], "");
    f.fails(
        &["class", "table", "8", "0"],
        1,
        "8 is not an entry: the table has entries 0 to 7",
    );
    f.fails(
        &["class", "table", "7", "8"],
        1,
        "entry 7 has depth 7, so it has no class at depth 8",
    );
    f.fails(
        &["climb", "table", "7", "8"],
        1,
        "entry 7 has depth 7, so 8 climbs lead past the top",
    );
    f.fails(
        &["branch", "table", "5", "2"],
        1,
        "entry 5 is not above entry 2",
    );
    f.fails(
        &["branch", "table", "5", "5"],
        1,
        "entry 5 is not above itself",
    );
    f.fails(
        &["class", "list", "7", "1"],
        1,
        "list is not a prepared table: make one with `tantsheko prepare`",
    );
    f.fails(
        &["class", "none", "7", "1"],
        1,
        "none cannot be read: there is no such file or folder",
    );
    f.fails(
        &["prepare", "none", "t"],
        1,
        "none cannot be read: there is no such file or folder",
    );
    f.fails(
        &["prepare", "list", "no/t"],
        1,
        "no/t cannot be written: there is no such file or folder",
    );
    f.fails(
        &["class", "table", "7"],
        2,
        "class takes TABLE ENTRY DEPTH; see `tantsheko class --help`",
    );
    f.fails(
        &["class", "table", "-1", "0"],
        2,
        "ENTRY is a whole number from 0 to 4294967295, and not `-1`; see `tantsheko class --help`",
    );
    f.fails(
        &["pricelist", "table"],
        2,
        "pricelist takes one rating level or more; see `tantsheko pricelist --help`",
    );
    f.fails(
        &["clas"],
        2,
        "there is no command `clas`; see `tantsheko --help`",
    );
    f.fails(&[], 2, "a command is missing; see `tantsheko --help`");
    f.fails(
        &["class", "table", "7", "1", "--sells"],
        2,
        "class has no option `--sells`; see `tantsheko class --help`",
    );
    f.fails(
        &["check", "table", "list", "--cells"],
        2,
        "check has no option `--cells`; see `tantsheko check --help`",
    );
    f.file("other", "-\n0\n0\n0\n0\n0\n0\n0\n");
    f.fails(
        &["check", "table", "other"],
        1,
        "table is not the table of other: cell 2 holds 1, and the list gives 7",
    );
}

#[test]
fn every_damaged_byte_is_seen() {
    let f = Folder::new("damage");
    f.file("list", CHAIN);
    f.ok(&["prepare", "list", "table"], "");
    let bytes = fs::read(f.0.join("table")).unwrap();
    for at in (0..bytes.len()).step_by(7).chain([0, 8, 12, 16, 23]) {
        let mut bad = bytes.clone();
        bad[at] ^= 1 << (at % 8);
        fs::write(f.0.join("bad"), &bad).unwrap();
        let (status, out, err) = f.run(&["class", "bad", "7", "1"], "");
        assert_eq!((status, out.as_str()), (1, ""), "byte {at}");
        assert!(
            err.starts_with("tantsheko: bad is ") && err.lines().count() == 1,
            "{err}"
        );
    }
    for length in [0, 10, 24, bytes.len() - 1] {
        fs::write(f.0.join("bad"), &bytes[..length]).unwrap();
        assert_eq!(
            f.run(&["class", "bad", "7", "1"], "").0,
            1,
            "length {length}"
        );
    }
}

/// Ten cells are read in a chain of ten: over a group, and by a jump entry.
#[test]
fn the_longest_lookup() {
    let f = Folder::new("longest");
    f.file("list", "-\n0\n1\n2\n3\n4\n5\n6\n7\n8\n");
    f.ok(&["prepare", "list", "table"], "");
    for (entry, depth, out) in [
        ("9", "0", "0\ncells 0 13 23 85 86 16 114 116 24 64\n"),
        ("9", "2", "2\ncells 0 13 23 85 86\n"),
        ("9", "3", "3\ncells 0 13 23 85 84 37\n"),
        ("2", "0", "0\ncells 0 6 16 114 116 24 64\n"),
    ] {
        assert_eq!(f.ok(&["class", "table", entry, depth, "--cells"], ""), out);
    }
}

/// A table file of version 1, of groups of up to five entries.
#[test]
fn an_older_table_file() {
    let f = Folder::new("older");
    f.file("list", CHAIN);
    f.ok(&["prepare", "list", "table"], "");
    let mut bytes = fs::read(f.0.join("table")).unwrap();
    bytes[8..12].copy_from_slice(&1u32.to_le_bytes());
    fs::write(f.0.join("old"), &bytes).unwrap();
    let why = "old is a table of version 1, and this program reads version 2: prepare it again";
    f.fails(&["class", "old", "7", "1"], 1, why);
    f.fails(&["check", "old", "list"], 1, why);
}

#[test]
fn help_for_each_command() {
    let f = Folder::new("help");
    let all = f.ok(&["--help"], "");
    for command in [
        "prepare",
        "class",
        "climb",
        "above",
        "branch",
        "shared",
        "explain",
        "batch",
        "pricelist",
        "changes",
        "premium",
        "premiums",
        "sheet",
        "quote",
        "quotes",
        "check",
    ] {
        assert!(all.contains(&format!("\n  {command} ")), "{command}");
        let own = f.ok(&[command, "--help"], "");
        assert!(own.starts_with(&format!("tantsheko {command} ")), "{own}");
    }
}
