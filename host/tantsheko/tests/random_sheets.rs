//! Sheets of every fault, from fixed seeds, on trees and on damaged tables.

mod beside;

use beside::{depths, same, same_quote, text, Line, MOST, TOP};
use reference::trees::{below, make as tree, next};
use tantsheko::{Refusal, Sheet, Table};

/// Lines that hold every amount of each class of a level, the entries of its depth or less, once, in any order.
fn good_lines(seed: &mut u64, depths: &[u32], d: u32, most: usize) -> Vec<Line> {
    let mut lines = Vec::new();
    for class in (0..depths.len()).filter(|&c| depths[c] <= d) {
        let mut ends = vec![MOST];
        for _ in 0..below(seed, most) {
            ends.push(match below(seed, 4) {
                0 => below(seed, 5),
                1 => MOST - 1 - below(seed, 5),
                _ => below(seed, MOST as usize),
            });
        }
        ends.sort();
        ends.dedup();
        let mut from = 0;
        for to in ends {
            lines.push([class as u32, from, to, below(seed, 1_000_001)]);
            from = to + 1;
        }
    }
    for i in (1..lines.len()).rev() {
        lines.swap(i, below(seed, i + 1) as usize);
    }
    lines
}

/// Changes a sheet's lines so that it may be refused.
fn spoil_lines(seed: &mut u64, lines: &mut Vec<Line>, n: usize) {
    let at = below(seed, lines.len()) as usize;
    let line = &mut lines[at];
    match below(seed, 12) {
        0 => {
            lines.remove(at);
        }
        1 => line[1] = line[1].wrapping_sub(1),
        2 => line[1] += 1,
        3 => line[2] = line[2].wrapping_sub(1),
        4 => line[2] += 1,
        5 => line[0] = below(seed, n + 2),
        6 => line[3] = 1_000_000 + below(seed, 2),
        7 => *line = [line[0], line[2], line[1], line[3]],
        8 => line[2] = u32::MAX,
        9 => lines.push([lines[at][0], below(seed, 50), MOST - below(seed, 50), 7]),
        10 => lines.push(lines[at]),
        _ => {
            let other = lines[below(seed, lines.len()) as usize];
            lines.extend([other, lines[at]]);
        }
    }
}

/// Changes a byte or two of a sheet's text.
fn spoil_text(seed: &mut u64, text: &mut Vec<u8>) {
    let at = below(seed, text.len() + 1) as usize;
    let put: &[u8] = match below(seed, 13) {
        0 => b"\r",
        1 => b"\n",
        2 => b" ",
        3 => b",",
        4 => b"0",
        5 => b"000000000",
        6 => b"\"",
        7 => b"-",
        8 => b"\xef\xbb\xbf",
        9 => b"x",
        10 => b"\0",
        11 => {
            text.truncate(at);
            b""
        }
        _ => {
            text.pop();
            b""
        }
    };
    let at = at.min(text.len());
    text.splice(at..at, put.iter().copied());
}

/// Questions of both signs, with sums in reach of the ends of bands, and past the range.
fn questions(seed: &mut u64, lines: &[Line], n: usize) -> Vec<(u32, i64)> {
    let sum = |seed: &mut u64| match below(seed, 8) {
        0 => i64::from(MOST) + i64::from(below(seed, 2)),
        1 => next(seed) as i64,
        2 => i64::MIN,
        3 => i64::from(below(seed, 4)),
        4 | 5 if !lines.is_empty() => {
            let line = lines[below(seed, lines.len()) as usize];
            i64::from(line[1 + below(seed, 2) as usize]) + i64::from(below(seed, 3)) - 1
        }
        _ => i64::from(below(seed, MOST as usize)),
    };
    let mut asked = Vec::new();
    for _ in 0..12 {
        let s = sum(seed);
        let sign = if below(seed, 2) == 0 { 1 } else { -1 };
        asked.push((below(seed, n + 1), s.wrapping_mul(sign)));
    }
    asked
}

#[test]
fn random_sheets() {
    let mut seed = 21;
    let mut met = [0; 16];
    for k in 0..60_000usize {
        let n = 1 + below(&mut seed, 12) as usize;
        let table = Table::prepare(&tree(k, n, &mut seed, k % 3 > 0)).unwrap();
        let deepest = *depths(&table).iter().max().unwrap() as usize;
        let d = below(&mut seed, deepest + 2);
        let most = if k % 4 == 0 { 12 } else { 3 };
        let mut lines = good_lines(&mut seed, depths(&table), d, most);
        if k % 3 > 0 {
            spoil_lines(&mut seed, &mut lines, n);
        }
        let mut bytes = text(&lines);
        if k % 5 == 0 {
            spoil_text(&mut seed, &mut bytes);
        }
        let asked = questions(&mut seed, &lines, n);
        met[same(&table, &bytes, d, &asked).0 as usize] += 1;
    }
    for number in [0, 13, 14, 15] {
        assert!(met[number] > 3_000, "{number}: {}", met[number]);
    }
}

/// A table's words with up to three of them changed.
fn damaged(seed: &mut u64, table: &Table) -> Vec<u32> {
    let mut words = table.words().to_vec();
    for _ in 0..1 + below(seed, 3) {
        let cell = below(seed, words.len()) as usize;
        words[cell] = match below(seed, 4) {
            0 => TOP,
            1 => words[cell].wrapping_add(1),
            _ => below(seed, table.entries() as usize + 1),
        };
    }
    words
}

#[test]
fn damaged_tables() {
    let mut seed = 22;
    let mut unheld = 0;
    for k in 0..10_000usize {
        let n = 2 + below(&mut seed, 12) as usize;
        let table = Table::prepare(&tree(k, n, &mut seed, true)).unwrap();
        let words = damaged(&mut seed, &table);
        let length = if k % 20 == 0 {
            below(&mut seed, 5) as usize
        } else {
            words.len()
        };
        let bad = Table::from_words(words[..length].to_vec());
        let d = below(&mut seed, 4);
        // A sheet for the depths as they are, which may be accepted and have no band for the class that a lookup finds.
        let seen = words[4..4 + n].to_vec();
        let lines = good_lines(&mut seed, &seen, d, 4);
        let asked = questions(&mut seed, &lines, n);
        same(&bad, &text(&lines), d, &asked);
        // A sheet for the depths as they were, and the same once it was checked for its own table.
        let lines = good_lines(&mut seed, depths(&table), d, 4);
        let asked = questions(&mut seed, &lines, n);
        same(&bad, &text(&lines), d, &asked);
        let sheet = Sheet::check(&table, &text(&lines), d).unwrap();
        let theirs = reference::sheet(table.words(), &text(&lines), d).unwrap();
        for (v, sum) in asked {
            let quote = sheet.quote(&bad, v, sum);
            same_quote(quote, theirs.quote(bad.words(), v, sum));
            unheld += usize::from(matches!(quote.result(), Err(Refusal::Gap { .. })));
        }
    }
    assert!(unheld > 500, "{unheld}");
}
