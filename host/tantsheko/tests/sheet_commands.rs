//! Sheets with bands by the command, as brokers use it: what it prints, and what it says of a sheet that is refused.

mod folder;

use folder::Folder;

const GOOD: &str =
    "2,0,2000000000,500\n1,1000,2000000000,1000\n1,0,999,2000\n0,0,2000000000,4000\n";

/// The top with two entries below it, prepared; each has another, 3 below 1 and 4 below 2.
fn prepared(name: &str) -> Folder {
    let f = Folder::new(name);
    f.file("list", "-\n0\n0\n1\n2\n");
    f.file("good", GOOD);
    f.ok(&["prepare", "list", "table"], "");
    f
}

/// Checks a sheet of a level that is refused: the line on standard output, and the words on standard error.
fn refused(f: &Folder, text: &[u8], level: &str, verdict: &str, words: &str) {
    std::fs::write(f.0.join("sheet"), text).unwrap();
    let (status, out, err) = f.run(&["sheet", "table", "sheet", level], "");
    let expected = (
        1,
        format!("{verdict}\n"),
        format!("tantsheko: sheet: {words}\n"),
    );
    assert_eq!((status, out, err), expected);
    f.fails(
        &["quotes", "table", "sheet", level],
        1,
        &format!("sheet: {words}"),
    );
}

#[test]
fn good_sheets() {
    let f = prepared("good-sheets");
    assert_eq!(f.ok(&["sheet", "table", "good", "1"], ""), "0,4\n");
    f.file("top", "0,0,2000000000,1000000\n");
    assert_eq!(f.ok(&["sheet", "table", "top", "0"], ""), "0,1\n");
    let all: String = (0..5).map(|c| format!("{c},0,2000000000,5\n")).collect();
    f.file("all", &all);
    assert_eq!(f.ok(&["sheet", "table", "all", "9"], ""), "0,5\n");
}

#[test]
fn bad_forms_in_words() {
    let f = prepared("bad-forms");
    let write = "write digits alone, without blanks, signs, points or quotes";
    for (line, words) in [
        ("1,0,5", "`1,0,5` has 3 fields and not 4: write `class,from,to,rate`"),
        ("1,0,5,5,", "`1,0,5,5,` has 5 fields and not 4: write `class,from,to,rate`"),
        ("1;0;5;5", "`1;0;5;5` has 1 field and not 4: write `class,from,to,rate` with commas between them"),
        ("", "`` is empty: leave it out"),
        ("1,0,5,5\r", "`1,0,5,5\\r` ends with a carriage return: save the file with line feeds alone"),
        ("1,0,,5", "`1,0,,5` has nothing for its third field, to: write a whole number"),
        ("1,0,5,00000000005", "`1,0,5,00000000005` has `00000000005` for its fourth field, rate: write at most 10 digits"),
        ("1,-0,5,5", &format!("`1,-0,5,5` has `-0` for its second field, from: {write}")),
        ("\"1\",0,5, 5", &format!("`\"1\",0,5, 5` has `\"1\"` for its first field, class: {write}; it has ` 5` for its fourth field, rate: {write}")),
        ("1,0,5,5\u{1b}", &format!("`1,0,5,5\\u{{1b}}` has `5\\u{{1b}}` for its fourth field, rate: {write}")),
    ] {
        let text = format!("2,0,2000000000,5\n{line}\n");
        refused(&f, text.as_bytes(), "1", "13,2", &format!("line 2: {words}"));
    }
    let first =
        |text: &[u8], words: &str| refused(&f, text, "1", "13,1", &format!("line 1: {words}"));
    first(
        b"\xef\xbb\xbf1,0,5,5\n",
        "`\\u{feff}1,0,5,5` starts with a byte order mark: save the file without one",
    );
    first(
        b"\xff\xfe1\0,\0",
        "`\u{fffd}\u{fffd}1\\u{0},\\u{0}` starts a text in UTF-16: save the file as plain text",
    );
    first(
        b"class,from,to,rate\n",
        "`class,from,to,rate` is a heading, and a sheet has none: leave it out",
    );
    first(
        b"1,0,2000000000,5",
        "`1,0,2000000000,5` is cut short: end it with a line feed",
    );
    first(b"1,0", "`1,0` is cut short: end it with a line feed; it has 2 fields and not 4: write `class,from,to,rate`");
}

/// Checks a line that is bad for its fields, alone in a sheet.
fn bad_line(f: &Folder, line: &str, level: &str, words: &str) {
    let words = format!("line 1: `{line}` {words}");
    refused(f, format!("{line}\n").as_bytes(), level, "13,1", &words);
}

#[test]
fn bad_classes_in_words() {
    let f = prepared("bad-classes");
    let unknown = "names class 900, and the table has entries 0 to 4: name one of depth 1 or less";
    bad_line(&f, "900,0,5,5", "1", unknown);
    for (class, depth, level, upper) in [(3, 2, 1, 1), (2, 1, 0, 0), (4, 2, 0, 0)] {
        let words = format!("names class {class}, which is at depth {depth}, deeper than level {level}: leave it out, as it is rated by class {upper}, or give the level that the sheet is for");
        bad_line(&f, &format!("{class},0,5,5"), &level.to_string(), &words);
    }
}

#[test]
fn bad_bands_in_words() {
    let f = prepared("bad-bands");
    let order = "has from 500 above to 400: write the lower end first";
    let end = "has to 2000000001, which is over 2000000000: end the band at 2000000000";
    let over = "has rate 1000001, which is over 1000000: write a rate per million";
    bad_line(&f, "1,500,400,5", "1", order);
    bad_line(&f, "1,0,2000000001,5", "1", end);
    bad_line(&f, "1,0,5,1000001", "1", over);
    bad_line(&f, "1,500,400,1000001", "1", &format!("{order}; it {over}"));
    let many = "1,0,5,5\n".repeat(5_000);
    let words = "line 4097 is past the 4096th: a sheet has at most 4096 lines, and this one has 5000: join neighbouring bands of one rate, or leave lines out";
    refused(&f, many.as_bytes(), "1", "13,4097", words);
}

#[test]
fn gaps_and_overlaps_in_words() {
    let f = prepared("gaps");
    for (lines, verdict, words) in [
        ("", "14,1,0", "no line holds amount 0 of class 1, which has no lines at all: write `1,0,2000000000,RATE` or lines that hold 0 to 2000000000 between them; each entry of depth 1 or less is a class"),
        ("1,500,2000000000,5\n1,0,400,5\n", "14,1,401", "no line holds amount 401 of class 1: line 3 ends at 400 and line 2 begins at 500: write `1,401,499,RATE` or let line 3 end at 499"),
        ("1,7,2000000000,5\n", "14,1,0", "no line holds amount 0 of class 1: line 2 begins at 7, and no line ends before it: write `1,0,6,RATE` or let line 2 begin at 0"),
        ("1,0,8,5\n", "14,1,9", "no line holds amount 9 of class 1: line 2 ends at 8, and no line begins after it: write `1,9,2000000000,RATE` or let line 2 end at 2000000000"),
        ("1,8,2000000000,5\n1,0,8,5\n", "15,1,8", "amount 8 of class 1 is held by line 2 (8 to 2000000000) and line 3 (0 to 8): let one line alone hold it"),
        ("1,8,9,5\n1,0,8,5\n1,8,8,1\n", "15,1,8", "amount 8 of class 1 is held by line 2 (8 to 9), line 3 (0 to 8) and line 4 (8 to 8): let one line alone hold it"),
        ("1,0,0,5\n1,0,0,5\n1,0,0,5\n1,0,0,5\n1,0,0,5\n1,0,0,5\n", "15,1,0", "amount 0 of class 1 is held by line 2 (0 to 0), line 3 (0 to 0), line 4 (0 to 0), line 5 (0 to 0) and 2 more: let one line alone hold it"),
    ] {
        let text = format!("2,0,2000000000,5\n{lines}0,0,2000000000,5\n");
        refused(&f, text.as_bytes(), "1", verdict, words);
    }
}

/// Sheets for the entries at their level alone, and empty ones: the tree has 5 and 6 below 3 and 4.
#[test]
fn classes_without_lines() {
    let f = prepared("unlisted");
    f.file("list", "-\n0\n0\n1\n2\n3\n4\n");
    f.ok(&["prepare", "list", "table"], "");
    let each = |level: u32| format!("each entry of depth {level} or less is a class");
    for (classes, level, why) in [
        (
            &[][..],
            0,
            "the top alone is a class of level 0".to_string(),
        ),
        (&[1, 2], 1, each(1)),
        (&[1], 1, each(1) + ", and 1 other has no lines: 2"),
        (
            &[3, 4],
            2,
            each(2) + ", and 2 others have no lines: 1 and 2",
        ),
        (
            &[],
            9,
            each(9) + ", and 6 others have no lines: 1, 2, 3, 4 and 2 more",
        ),
    ] {
        let lines = classes.iter().map(|c| format!("{c},0,2000000000,5\n"));
        let text: String = lines.collect();
        let words = format!("no line holds amount 0 of class 0, which has no lines at all: write `0,0,2000000000,RATE` or lines that hold 0 to 2000000000 between them; {why}");
        refused(&f, text.as_bytes(), &level.to_string(), "14,0,0", &words);
    }
}

#[test]
fn more_classes_than_lines() {
    let f = prepared("many-classes");
    f.file("list", &format!("-\n{}", "0\n".repeat(4_096)));
    f.ok(&["prepare", "list", "table"], "");
    let words = "4097 entries are at depth 1 or less, and a sheet has at most 4096 lines: no sheet can cover them, so give a level nearer the top";
    refused(&f, b"0,0,2000000000,5\n", "1", "14,1,0", words);
}

#[test]
fn one_quotation() {
    let f = prepared("quote");
    for (entry, sum, answer) in [
        ("3", "25", "1,5\n"),
        ("3", "-999", "1,-200\n"),
        ("3", "-1000", "1,-100\n"),
        ("4", "2000000000", "2,100000000\n"),
        ("1", "0", "1,0\n"),
        ("0", "25", "0,10\n"),
    ] {
        assert_eq!(
            f.ok(&["quote", "table", "good", "1", entry, sum], ""),
            answer
        );
    }
    let above = f.ok(&["quote", "--cells", "table", "good", "1", "0", "25"], "");
    assert_eq!(above, "0,10\ncells 0 4\n");
    let cells = f.ok(&["quote", "--cells", "table", "good", "1", "3", "25"], "");
    let class = f.ok(&["class", "table", "3", "1", "--cells"], "");
    assert_eq!(cells, class.replacen("1\n", "1,5\n", 1));
}

#[test]
fn refused_quotations_in_words() {
    let f = prepared("refused-quote");
    f.file("bad", "1,0,5\n");
    for (sheet, entry, sum, words) in [
        (
            "bad",
            "5",
            "2000000001",
            "5 is not an entry: the table has entries 0 to 4",
        ),
        (
            "bad",
            "3",
            "2000000001",
            "bad: line 1: `1,0,5` has 3 fields and not 4: write `class,from,to,rate`",
        ),
        (
            "good",
            "3",
            "2000000001",
            "2000000001 is out of range: a sum insured is from -2000000000 to 2000000000",
        ),
    ] {
        f.fails(&["quote", "table", sheet, "1", entry, sum], 1, words);
    }
}

#[test]
fn a_stream_of_quotations() {
    let f = prepared("quotes");
    let sums = "3,25\n3,-999\r\n4,1000\n0,25\n5,25\n3,2000000001\n3,-9223372036854775809\n";
    let rows = "3,25,0,1,5,6\n3,-999,0,1,-200,6\n4,1000,0,2,50,6\n0,25,0,0,10,2\n5,25,7,-,-,1\n3,2000000001,12,-,-,6\n3,-9223372036854775809,12,-,-,6\n";
    assert_eq!(f.ok(&["quotes", "table", "good", "1"], sums), rows);
    assert_eq!(f.ok(&["quotes", "table", "good", "1"], ""), "");
    let (status, out, err) = f.run(&["quotes", "table", "good", "1"], "3,25\n3\n3,25\n");
    let words = "tantsheko: line 2: `3` is not `entry,sum`: give an entry's number and a whole number, as 7,25 or 7,-25\n";
    assert_eq!(
        (status, out.as_str(), err.as_str()),
        (1, "3,25,0,1,5,6\n", words)
    );
    f.file("bad", "1,0,2000000000,5\n0,0,2000000000,5\n");
    let (status, out, err) = f.run(&["quotes", "table", "bad", "1"], "3,25\n");
    let words = "tantsheko: bad: no line holds amount 0 of class 2, which has no lines at all: write `2,0,2000000000,RATE` or lines that hold 0 to 2000000000 between them; each entry of depth 1 or less is a class\n";
    assert_eq!((status, out.as_str(), err.as_str()), (1, "", words));
}

#[test]
fn wrong_calls() {
    let f = prepared("sheet-calls");
    let number = "is a whole number from 0 to 4294967295, and not";
    for (call, words) in [
        (&["sheet", "table", "good"][..], "sheet takes TABLE SHEET LEVEL; see `tantsheko sheet --help`".to_string()),
        (&["sheet", "table", "good", "x"], format!("LEVEL {number} `x`; see `tantsheko sheet --help`")),
        (&["quote", "table", "good", "1", "3"], "quote takes TABLE SHEET LEVEL ENTRY SUM; see `tantsheko quote --help`".to_string()),
        (&["quote", "table", "good", "1", "x", "5"], format!("ENTRY {number} `x`; see `tantsheko quote --help`")),
        (&["quote", "table", "good", "1", "3", "x"], "SUM is a whole number, as 25 or -25, and not `x`; see `tantsheko quote --help`".to_string()),
        (&["quotes", "table", "good"], "quotes takes TABLE SHEET LEVEL, with `entry,sum` lines on standard input; see `tantsheko quotes --help`".to_string()),
        (&["sheet", "table", "good", "1", "--cells"], "sheet has no option `--cells`; see `tantsheko sheet --help`".to_string()),
    ] {
        f.fails(call, 2, &words);
    }
    f.fails(
        &["sheet", "table", "none", "1"],
        1,
        "none cannot be read: there is no such file or folder",
    );
    f.fails(
        &["sheet", "list", "good", "1"],
        1,
        "list is not a prepared table: make one with `tantsheko prepare`",
    );
}
