//! The proved library beside the same work by hand: every word and every answer, on every list that is tried.

mod beside;

use beside::{same_answer as same, same_quote, TOP};
use reference::trees::{below, make as tree, next};
use tantsheko::{prepare_into, Refusal, Sheet, Table};

/// The number and the word of preparing's answer.
fn reply(r: Result<u32, Refusal>) -> (u32, u32) {
    match r {
        Ok(w) => (0, w),
        Err(refusal) => (refusal.number(), refusal.names()),
    }
}

/// Prepares by both on buffers with the same rubbish, and compares all words. Hands back the table if it was accepted.
fn same_table(parents: &[u32], table: usize, space: usize) -> Option<Vec<u32>> {
    let rubbish =
        |n: usize, k: u32| -> Vec<u32> { (0..n as u32).map(|i| 3_000_000_000 + k + i).collect() };
    let (mut ta, mut sa) = (rubbish(table, 1), rubbish(space, 2));
    let (mut tb, mut sb) = (ta.clone(), sa.clone());
    let a = reply(prepare_into(parents, &mut ta, &mut sa));
    let b = reference::prepare(parents, &mut tb, &mut sb);
    assert_eq!(a, b, "answer for {:?}", &parents[..parents.len().min(20)]);
    assert!(ta == tb, "table of {:?}", &parents[..parents.len().min(20)]);
    assert!(sa == sb, "space of {:?}", &parents[..parents.len().min(20)]);
    (a.0 == 0).then_some(ta)
}

fn whole(parents: &[u32]) -> Option<Vec<u32>> {
    let n = parents.len();
    same_table(
        parents,
        reference::table_words(n) + 2,
        reference::space_words(n) + 2,
    )
}

/// All five questions with two arguments.
fn same_answers(table: &Table, a: u32, b: u32) {
    let words = table.words();
    same(table.level(a, b), reference::level(words, a, b));
    same(table.level(a, b), reference::level_by_steps(words, a, b));
    same(table.climb(a, b), reference::climb(words, a, b));
    same(table.rating(a, b), reference::rating(words, a, b));
    same(table.ancestry(a, b), reference::ancestry(words, a, b));
    same(table.branch(a, b), reference::branch(words, a, b));
}

/// The premium question, with a list of rates.
fn same_premium(table: &Table, rates: &[u32], v: u32, d: u32, sum: i64) {
    let theirs = reference::premium(table.words(), rates, v, d, sum);
    same_quote(table.premium(rates, v, d, sum), theirs);
}

/// Rates of n entries: most of them legal, the limits among them, and a list that may end early.
fn some_rates(seed: &mut u64, n: usize) -> Vec<u32> {
    let length = if below(seed, 4) == 0 {
        below(seed, n + 1) as usize
    } else {
        n
    };
    let rate = |seed: &mut u64| match below(seed, 12) {
        0 => 0,
        1 => 1_000_000,
        2 => 1_000_001,
        3 => u32::MAX,
        4 => 1_000 * (1 + below(seed, 9)),
        _ => below(seed, 1_000_001),
    };
    (0..length).map(|_| rate(seed)).collect()
}

/// A sum: small, of any size, at both ends of its range, or past them.
fn some_sum(seed: &mut u64) -> i64 {
    let size = match below(seed, 10) {
        0 => 2_000_000_000,
        1 => 2_000_000_001,
        2 => i64::MAX,
        3 => (next(seed) >> 1) as i64,
        4 | 5 => i64::from(below(seed, 100)),
        _ => i64::from(below(seed, 2_000_000_001)),
    };
    match below(seed, 20) {
        0 => i64::MIN,
        k if k % 2 == 0 => -size,
        _ => size,
    }
}

/// The class by climbing from parent to parent.
fn climbed(parents: &[u32], v: u32, d: u32) -> Result<u32, Refusal> {
    if v as usize >= parents.len() {
        return Err(Refusal::Unknown(v));
    }
    let mut climb = vec![v];
    while parents[*climb.last().unwrap() as usize] != TOP {
        climb.push(parents[*climb.last().unwrap() as usize]);
    }
    climb.reverse();
    climb.get(d as usize).copied().ok_or(Refusal::TooDeep(v))
}

/// Level lookup and rating against the climb; an entry less deep than the rating level is rated as itself.
fn same_climb(table: &Table, parents: &[u32], v: u32, d: u32) {
    let class = climbed(parents, v, d);
    assert_eq!(table.level(v, d).result(), class);
    let rated = match class {
        Err(Refusal::TooDeep(v)) => Ok(v),
        other => other,
    };
    assert_eq!(table.rating(v, d).result(), rated);
}

#[test]
fn every_small_list() {
    let mut seed = 5;
    for n in 1..=6usize {
        // Each word is an entry, the top mark, or stray.
        let choices: Vec<u32> = (0..n as u32).chain([TOP, n as u32]).collect();
        for code in 0..choices.len().pow(n as u32) {
            let mut rest = code;
            let parents: Vec<u32> = (0..n)
                .map(|_| {
                    let p = choices[rest % choices.len()];
                    rest /= choices.len();
                    p
                })
                .collect();
            let Some(words) = whole(&parents) else {
                continue;
            };
            let table = Table::from_words(words);
            let rates = some_rates(&mut seed, n);
            for v in 0..=n as u32 {
                for d in 0..=n as u32 {
                    same_answers(&table, v, d);
                    same_premium(&table, &rates, v, d, some_sum(&mut seed));
                    same_climb(&table, &parents, v, d);
                }
            }
        }
    }
}

#[test]
fn short_buffers() {
    let mut seed = 11;
    for n in [1usize, 5, 6, 7, 30] {
        let parents = tree(2, n, &mut seed, true);
        let (w, s) = (reference::table_words(n), reference::space_words(n));
        for (table, space) in [
            (0, 0),
            (w - 1, s),
            (w, s - 1),
            (w - 1, s - 1),
            (w, s),
            (w + 3, s + 3),
        ] {
            same_table(&parents, table, space);
        }
    }
    same_table(&[], 100, 100);
    let over = vec![TOP; 1_048_577];
    same_table(&over, 10, 10);
}

#[test]
fn random_trees() {
    let mut seed = 1;
    for k in 0..4200usize {
        let n = 1 + below(&mut seed, if k % 10 == 0 { 2000 } else { 200 }) as usize;
        let parents = tree(k, n, &mut seed, k % 3 > 0);
        let table = Table::from_words(whole(&parents).expect("a tree"));
        let rates = some_rates(&mut seed, n);
        for _ in 0..60 {
            let v = below(&mut seed, n);
            let depth = table.words()[4 + v as usize] as usize;
            let d = below(&mut seed, depth + 2);
            same_answers(&table, v, d);
            same_premium(&table, &rates, v, d, some_sum(&mut seed));
            same_climb(&table, &parents, v, d);
            same_answers(&table, v, below(&mut seed, n + 1));
        }
    }
}

#[test]
fn damaged_lists() {
    let mut seed = 2;
    for k in 0..4000usize {
        let n = 2 + below(&mut seed, 60) as usize;
        let mut parents = tree(k, n, &mut seed, true);
        for _ in 0..1 + below(&mut seed, 3) {
            let at = below(&mut seed, n) as usize;
            parents[at] = match below(&mut seed, 5) {
                0 => TOP,
                1 => n as u32 + below(&mut seed, 3),
                2 => TOP - 1,
                3 => at as u32,
                _ => below(&mut seed, n),
            };
        }
        whole(&parents);
    }
}

#[test]
fn damaged_tables() {
    let mut seed = 3;
    for k in 0..300usize {
        let n = 1 + below(&mut seed, 60) as usize;
        let parents = tree(k, n, &mut seed, true);
        let words = whole(&parents).expect("a tree");
        let rates = some_rates(&mut seed, n);
        for _ in 0..60 {
            let mut bad = words.clone();
            for _ in 0..1 + below(&mut seed, 2) {
                let cell = below(&mut seed, bad.len()) as usize;
                bad[cell] = match below(&mut seed, 8) {
                    0 => 0,
                    1 => bad[cell].wrapping_add(1),
                    2 => bad[cell].wrapping_sub(1),
                    3 => TOP,
                    4 => 1 << 31,
                    5 => n as u32,
                    6 => bad[below(&mut seed, bad.len()) as usize],
                    _ => next(&mut seed) as u32,
                };
            }
            let table = Table::from_words(bad);
            for _ in 0..40 {
                let (a, b) = (below(&mut seed, n + 1), below(&mut seed, n + 1));
                same_answers(&table, a, b);
                same_answers(&table, a, u32::MAX);
                same_premium(&table, &rates, a, b, some_sum(&mut seed));
            }
        }
        for length in [0, 1, 3, 4, words.len() - 3] {
            let short = Table::from_words(words[..length].to_vec());
            same_answers(&short, 0, 0);
            same_premium(&short, &rates, 0, 0, 25);
        }
    }
}

/// Cell 0 as an older table has it, the number of entries alone: every question finds the table broken, whatever else it holds.
#[test]
fn older_tables() {
    let mut seed = 6;
    for k in 0..70usize {
        let n = 1 + below(&mut seed, 60) as usize;
        let mut words = whole(&tree(k, n, &mut seed, true)).expect("a tree");
        let prepared = Table::from_words(words.clone());
        let top = prepared.level(0, 0).result().expect("the top");
        let text = format!("{top},0,2000000000,5\n").into_bytes();
        let sheet = Sheet::check(&prepared, &text, 0).expect("a sheet");
        words[0] = n as u32;
        let table = Table::from_words(words);
        assert_eq!(table.entries(), 0);
        for v in 0..=n as u32 {
            for question in [
                Table::level,
                Table::climb,
                Table::rating,
                Table::ancestry,
                Table::branch,
            ] {
                let answer = question(&table, v, 0);
                assert_eq!(
                    (answer.result(), answer.cells()),
                    (Err(Refusal::Broken), &[0][..])
                );
            }
            for question in [Table::nearest_common_ancestor, Table::distance] {
                let answer = question(&table, v, 0);
                assert_eq!(
                    (answer.result(), answer.cells()),
                    (Err(Refusal::Broken), &[][..])
                );
            }
            same_answers(&table, v, 0);
            assert_eq!(
                table.premium(&[0; 60], v, 0, 25).result(),
                Err(Refusal::Broken)
            );
            assert_eq!(table.sheet_lines(b"", 0), Err(Refusal::Broken));
            for quote in [table.price(&text, v, 0, 25), sheet.quote(&table, v, 25)] {
                assert_eq!(
                    (quote.result(), quote.answer().cells()),
                    (Err(Refusal::Broken), &[0][..])
                );
            }
        }
    }
}

#[test]
fn the_largest_trees() {
    let mut seed = 4;
    let n = 1 << 20;
    for kind in 0..7 {
        let parents = tree(kind, n, &mut seed, kind % 2 == 0);
        let table = Table::from_words(whole(&parents).expect("a tree"));
        for _ in 0..20_000 {
            let v = below(&mut seed, n);
            let depth = table.words()[4 + v as usize] as usize;
            same_answers(&table, v, below(&mut seed, depth + 2));
            same_answers(&table, v, below(&mut seed, n));
        }
    }
}

/// The premium to the nearest cent, worked out with 128 bits and a half that goes away from zero.
#[test]
fn halves_of_a_cent() {
    let table = Table::prepare(&[TOP]).unwrap();
    let nearest = |sum: i64, rate: u32| {
        let parts = i128::from(sum) * i128::from(rate);
        let size = (2 * parts.abs() + 10_000) / 20_000;
        (parts.signum() * size) as i64
    };
    for rate in [
        0, 1, 3, 7, 125, 999, 1_000, 4_999, 5_000, 5_001, 10_000, 333_333, 999_999, 1_000_000,
    ] {
        for size in (0..20_001).chain(1_999_990_000..=2_000_000_000) {
            for sum in [size, -size] {
                let quote = table.premium(&[rate], 0, 0, sum);
                assert_eq!(quote.result(), Ok((0, nearest(sum, rate))), "{sum} {rate}");
            }
        }
    }
    assert_eq!(table.premium(&[1_000], 0, 0, 25).result(), Ok((0, 3)));
    assert_eq!(table.premium(&[1_000], 0, 0, -25).result(), Ok((0, -3)));
}
