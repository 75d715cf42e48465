//! Sheets at their limits, and each fault by itself.

mod beside;

use beside::{same, text, Line, MOST, TOP};
use tantsheko::{check_into, Quote, Refusal, Table, SHEET_WORDS};

/// The top with two entries below it, of which each has another: a sheet of level 1 covers 0, 1 and 2.
fn small() -> Table {
    Table::prepare(&[TOP, 0, 0, 1, 2]).unwrap()
}

/// A good sheet of level 1: three lines of 17 bytes.
const GOOD: &[u8] = b"0,0,2000000000,5\n1,0,2000000000,5\n2,0,2000000000,5\n";

/// The verdict on a sheet of level 1 with the top in one band, on the first line.
fn told(lines: &str) -> (u32, u32, u32) {
    let asked = [(3, 25), (3, -2_000_000_001), (0, 25)];
    let text = format!("0,0,2000000000,700\n{lines}");
    same(&small(), text.as_bytes(), 1, &asked)
}

/// The same with class 2 in one band, on the second line.
fn with(lines: &str) -> (u32, u32, u32) {
    told(&format!("2,0,2000000000,500\n{lines}"))
}

#[test]
fn ends_gaps_and_overlaps() {
    // Ends at 0 and at 2,000,000,000; bands of one amount.
    assert_eq!(with("1,0,2000000000,1000000\n"), (0, 3, 0));
    assert_eq!(
        with("1,1,1999999999,0\n1,2000000000,2000000000,1\n1,0,0,2\n"),
        (0, 5, 0)
    );
    assert_eq!(
        with("0000000001,0000000000,2000000000,0000000007\n"),
        (0, 3, 0)
    );
    // One amount missing, one shared, three bands on one amount.
    assert_eq!(with("1,1,2000000000,5\n"), (14, 1, 0));
    assert_eq!(with("1,0,1999999999,5\n"), (14, 1, MOST));
    assert_eq!(with("1,0,9,5\n1,11,2000000000,5\n"), (14, 1, 10));
    assert_eq!(with("1,0,10,5\n1,10,2000000000,5\n"), (15, 1, 10));
    assert_eq!(
        with("1,0,10,5\n1,10,2000000000,5\n1,10,10,5\n"),
        (15, 1, 10)
    );
    assert_eq!(
        with("1,0,2000000000,5\n1,2000000000,2000000000,5\n"),
        (15, 1, MOST)
    );
    assert_eq!(with("1,0,2000000000,5\n1,0,0,5\n"), (15, 1, 0));
}

#[test]
fn the_fault_that_is_named() {
    // The lowest amount and the lowest class, wherever their lines stand.
    assert_eq!(with("1,500,2000000000,5\n1,0,499,5\n1,7,8,5\n"), (15, 1, 7));
    assert_eq!(with("1,20,2000000000,5\n1,0,9,5\n1,30,40,5\n"), (14, 1, 10));
    assert_eq!(told("2,5,7,1\n1,0,2000000000,5\n"), (14, 2, 0));
    assert_eq!(told("2,0,7,1\n2,7,2000000000,1\n1,0,3,5\n"), (14, 1, 4));
    // A class without lines, a sheet without lines, for every level.
    let table = small();
    assert_eq!(with(""), (14, 1, 0));
    assert_eq!(told("1,0,2000000000,5\n"), (14, 2, 0));
    assert_eq!(told(""), (14, 1, 0));
    for level in [0, 1, 2, 3, u32::MAX] {
        assert_eq!(same(&table, b"", level, &[(3, 25)]), (14, 0, 0));
    }
    // A bad line behind a gap and an overlap.
    assert_eq!(told("1,5,9,1\n1,5,9,1\n1,9,8,1\n2,9,8,1\n"), (13, 4, 0));
}

/// A sheet covers each entry of its level's depth or less; only a deeper class has the wrong depth.
#[test]
fn levels_above_and_below() {
    let table = small();
    let asked: Vec<(u32, i64)> = (0..6).map(|v| (v, 10_000)).collect();
    let all: Vec<Line> = (0..5).map(|class| [class, 0, MOST, 100 + class]).collect();
    assert_eq!(same(&table, &text(&all[..1]), 0, &asked), (0, 1, 0));
    assert_eq!(same(&table, &text(&all[..3]), 1, &asked), (0, 3, 0));
    for level in [2, 3, u32::MAX] {
        assert_eq!(same(&table, &text(&all), level, &asked), (0, 5, 0));
    }
    assert_eq!(same(&table, &text(&all), 1, &asked), (13, 4, 0));
    assert_eq!(same(&table, &text(&all), 0, &asked), (13, 2, 0));
    assert_eq!(same(&table, &text(&all[..3]), 2, &asked), (14, 3, 0));
    assert_eq!(same(&table, &text(&all[1..]), 2, &asked), (14, 0, 0));
    let rated = |v: u32, level: u32, lines: usize| {
        let quote = table.price(&text(&all[..lines]), v, level, 10_000);
        quote.result().unwrap()
    };
    assert_eq!([rated(0, 1, 3), rated(1, 1, 3)], [(0, 100), (1, 101)]);
    assert_eq!([rated(3, 1, 3), rated(3, 0, 1)], [(1, 101), (0, 100)]);
    assert_eq!([rated(4, 7, 5), rated(2, 7, 5)], [(4, 104), (2, 102)]);
}

/// Lines of another form, of no class that a sheet of level 1 covers, and of numbers over their limits.
const BAD: [&str; 43] = [
    "",
    "1",
    "1,0",
    "1,0,5",
    "1,0,5,5,",
    "1,0,5,5,5",
    ",0,5,5",
    "1,,5,5",
    "1,0,,5",
    "1,0,5,",
    "1,0,5,5\r",
    "\r",
    " 1,0,5,5",
    "1,0,5,5 ",
    "1, 0,5,5",
    "\"1\",0,5,5",
    "+1,0,5,5",
    "1,-0,5,5",
    "1,0,5,5.0",
    "1;0;5;5",
    "1\t0\t5\t5",
    "00000000001,0,5,5",
    "1,00000000000,5,5",
    "1,0,00000000005,5",
    "1,0,5,00000000005",
    "1,0,5,x",
    "class,from,to,rate",
    "\u{feff}1,0,5,5",
    "1,0,5,5\0",
    "4294967297,0,5,5",
    "1,4294967296,5,5",
    "1,0,4294967301,5",
    "1,0,5,4294967296",
    "9999999999,0,5,5",
    "4,0,5,5",
    "3,0,5,5",
    "5,0,5,5",
    "4294967295,0,5,5",
    "1,6,5,5",
    "1,0,2000000001,5",
    "1,0,5,1000001",
    "1,2000000001,2000000001,5",
    "\u{661},0,5,5",
];

#[test]
fn bad_lines() {
    let table = small();
    for bad in BAD {
        for (before, line) in [
            ("", 1),
            ("2,0,2000000000,5\n", 2),
            ("1,7,9,5\n1,7,9,5\n", 3),
        ] {
            let text = format!("{before}{bad}\n1,6,2000000000,5\n");
            let given = same(
                &table,
                text.as_bytes(),
                1,
                &[(3, 25), (3, i64::MAX), (2, 5), (0, 5), (5, 5)],
            );
            assert_eq!(given, (13, line, 0), "{text:?}");
        }
    }
    for cut in 1..GOOD.len() {
        let given = same(&table, &GOOD[..cut], 1, &[]);
        let expected = match cut {
            17 => (14, 1, 0),
            34 => (14, 2, 0),
            _ => (13, 1 + cut as u32 / 17, 0),
        };
        assert_eq!(given, expected, "{cut} bytes");
    }
    assert_eq!(same(&table, GOOD, 1, &[(4, 2_000_000_000)]), (0, 3, 0));
}

/// Lines of class 1 that hold every amount, behind one each of the top and of class 2.
fn many(count: u32) -> Vec<Line> {
    let end = |i: u32| if i + 3 == count { MOST } else { 10 * i + 9 };
    let own = (0..count - 2).map(|i| [1, 10 * i, end(i), i]);
    own.chain([[2, 0, MOST, 5], [0, 0, MOST, 7]])
        .rev()
        .collect()
}

#[test]
fn as_many_lines_as_there_may_be() {
    let table = small();
    let asked: Vec<(u32, i64)> = (0..300)
        .map(|i| {
            (
                3 + i % 2,
                137 * i64::from(i) * if i % 3 == 0 { -1 } else { 1 },
            )
        })
        .collect();
    let full = text(&many(4_096));
    assert_eq!(same(&table, &full, 1, &asked), (0, 4_096, 0));
    assert_eq!(
        same(&table, &full[..full.len() - 1], 1, &[]),
        (13, 4_096, 0)
    );
    for last in ["1,0,5,5\n", "\n", "x\n", "1,0,5,5", "x", "\r"] {
        let over = [&full, last.as_bytes()].concat();
        assert_eq!(
            same(&table, &over, 1, &[(3, 25)]),
            (13, 4_097, 0),
            "{last:?}"
        );
    }
    assert_eq!(same(&table, &text(&many(4_097)), 1, &[]), (13, 4_097, 0));
    // What is wrong before the 4,097th line comes first.
    let mut early = many(4_097);
    early[4_095][3] = 1_000_001;
    assert_eq!(same(&table, &text(&early), 1, &[]), (13, 4_096, 0));
    let mut short = many(4_096);
    short[2][2] -= 1;
    assert_eq!(same(&table, &text(&short), 1, &[]), (14, 1, MOST));
}

#[test]
fn a_refusal_leaves_the_words() {
    let table = small();
    let mut words = Box::new([0u64; SHEET_WORDS]);
    for (i, w) in words.iter_mut().enumerate() {
        *w = !0 - i as u64;
    }
    let before = words.clone();
    let broken = Table::from_words(table.words()[..3].to_vec());
    let over = text(&many(4_097));
    for (of, text, number) in [
        (&broken, &b""[..], 9),
        (&table, &over, 13),
        (&table, &GOOD[..GOOD.len() - 1], 13),
        (&table, &GOOD[..34], 14),
        (&table, &[GOOD, b"2,9,9,9\n"].concat(), 15),
    ] {
        let refusal = check_into(of, text, 1, &mut words).unwrap_err();
        assert_eq!(refusal.number(), number);
        assert!(words == before, "{refusal}");
    }
    assert_eq!(check_into(&table, GOOD, 1, &mut words), Ok(3));
    assert!(words != before);
}

/// The order of a premium's refusals: the lookup's, the sheet's, the sum's.
#[test]
fn refusals_in_order() {
    let table = small();
    let bad = b"1,0,5\n";
    let number = |quote: Quote| quote.answer().number();
    let over = i64::from(MOST) + 1;
    let broken = Table::from_words(table.words()[..10].to_vec());
    assert_eq!(number(broken.price(bad, 9, 1, over)), 9);
    assert_eq!(number(table.price(bad, 9, 1, over)), 7);
    assert_eq!(number(table.price(bad, 0, 1, over)), 13);
    assert_eq!(number(table.price(bad, 3, 1, over)), 13);
    assert_eq!(number(table.price(b"", 3, 1, over)), 14);
    assert_eq!(number(table.price(&[GOOD, GOOD].concat(), 3, 1, over)), 15);
    assert_eq!(number(table.price(GOOD, 3, 1, over)), 12);
    assert_eq!(table.price(GOOD, 3, 1, -1_000).result(), Ok((1, -1)));
    assert_eq!(table.price(GOOD, 0, 1, 1_000).result(), Ok((0, 1)));
    let gap = Refusal::Gap {
        class: 0,
        amount: 0,
    };
    assert_eq!(table.price(b"", 3, 1, 5).result(), Err(gap));
}
