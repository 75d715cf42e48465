//! Premiums by the command, as its users ask them: what it prints, and what it says of bad input.

mod folder;

use folder::{Folder, CHAIN};

/// The chain of eight, prepared, and rates of which the fourth is over its limit.
fn desk(name: &str) -> Folder {
    let f = Folder::new(name);
    f.file("list", CHAIN);
    f.file("rates", "\u{feff}500000\n1000\r\n0\n1000001\n 1000000 \n");
    f.ok(&["prepare", "list", "table"], "");
    f
}

#[test]
fn one_premium() {
    let f = desk("premium");
    for (entry, level, sum, answer) in [
        ("7", "1", "25", "1,3\n"),
        ("7", "1", "-25", "1,-3\n"),
        ("7", "1", "24", "1,2\n"),
        ("7", "2", "2000000000", "2,0\n"),
        ("7", "4", "-2000000000", "4,-200000000000\n"),
        ("1", "9", "25", "1,3\n"),
    ] {
        let call = ["premium", "table", "rates", entry, level, sum];
        assert_eq!(f.ok(&call, ""), answer);
    }
    let call = ["premium", "table", "rates", "1", "9", "25", "--cells"];
    assert_eq!(f.ok(&call, ""), "1,3\ncells 0 5\n");
    let call = ["premium", "table", "rates", "7", "1", "25", "--cells"];
    assert_eq!(f.ok(&call, ""), "1,3\ncells 0 11 19 69 68 29\n");
}

#[test]
fn refused_premiums_in_words() {
    let f = desk("refused-premium");
    let range = "is out of range: a sum insured is from -2000000000 to 2000000000";
    for (entry, level, sum, text) in [
        ("8", "0", "25", "8 is not an entry: the table has entries 0 to 7"),
        ("7", "8", "25", "class 7 has no rate: rates has 5 lines, and the rate belongs on line 8: add what is missing"),
        ("7", "3", "25", "class 3 has rate 1000001, and a rate is at most 1000000 per million: mend line 4 of rates"),
        ("7", "5", "2000000001", "class 5 has no rate: rates has 5 lines, and the rate belongs on line 6: add what is missing"),
        ("7", "1", "2000000001", &format!("2000000001 {range}")),
        ("7", "1", "-2000000001", &format!("-2000000001 {range}")),
        ("7", "1", "99999999999999999999", &format!("99999999999999999999 {range}")),
    ] {
        f.fails(&["premium", "table", "rates", entry, level, sum], 1, text);
    }
}

#[test]
fn bad_rates_and_sums() {
    let f = Folder::new("rates");
    f.file("list", CHAIN);
    f.ok(&["prepare", "list", "table"], "");
    for bad in ["x", "", "-1", "4294967296", "1.5"] {
        f.file("rates", &format!("1000\n{bad}\n1000\n"));
        let text = format!("rates: line 2: `{bad}` is not a rate: give the rate of entry 1, a whole number from 0 to 1000000 per million");
        f.fails(&["premium", "table", "rates", "7", "0", "25"], 1, &text);
        f.fails(&["premiums", "table", "rates", "0"], 1, &text);
    }
    f.file("rates", "1000\n");
    for bad in ["x", "", "-", "+25", "2.50"] {
        let text = format!(
            "SUM is a whole number, as 25 or -25, and not `{bad}`; see `tantsheko premium --help`"
        );
        f.fails(&["premium", "table", "rates", "7", "0", bad], 2, &text);
    }
    f.fails(
        &["premium", "table", "none", "7", "0", "25"],
        1,
        "none cannot be read: there is no such file or folder",
    );
    f.fails(
        &["premium", "table", "rates", "7", "0"],
        2,
        "premium takes TABLE RATES ENTRY LEVEL SUM; see `tantsheko premium --help`",
    );
    f.fails(
        &["premiums", "table", "rates"],
        2,
        "premiums takes TABLE RATES LEVEL, with `entry,sum` lines on standard input; see `tantsheko premiums --help`",
    );
}

#[test]
fn a_stream_of_premiums() {
    let f = Folder::new("premiums");
    f.file("list", CHAIN);
    f.file("rates", "5\n1000\n");
    f.ok(&["prepare", "list", "table"], "");
    let sums = "7,25\n7,-25\r\n1,-007\n0,25\n8,25\n7,2000000001\n7,-9223372036854775809\n";
    let premiums = "7,25,0,1,3,6\n7,-25,0,1,-3,6\n1,-007,0,1,-1,2\n0,25,0,0,0,2\n8,25,7,-,-,1\n7,2000000001,12,-,-,6\n7,-9223372036854775809,12,-,-,6\n";
    assert_eq!(f.ok(&["premiums", "table", "rates", "1"], sums), premiums);
    assert_eq!(
        f.ok(&["premiums", "table", "rates", "2"], "7,25"),
        "7,25,11,-,-,6\n"
    );
    assert_eq!(f.ok(&["premiums", "table", "rates", "0"], ""), "");
    for bad in [
        "7",
        "7,x",
        "7,",
        ",25",
        "7,25,1",
        "-7,25",
        "4294967296,1",
        "",
    ] {
        let (status, out, err) = f.run(
            &["premiums", "table", "rates", "1"],
            &format!("7,25\n{bad}\n7,25\n"),
        );
        let text = format!("tantsheko: line 2: `{bad}` is not `entry,sum`: give an entry's number and a whole number, as 7,25 or 7,-25\n");
        assert_eq!((status, out.as_str(), err), (1, "7,25,0,1,3,6\n", text));
    }
}
