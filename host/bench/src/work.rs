//! What is timed: each piece of work by turns in one run, and its median.

use crate::sheets;
use reference::trees;
use std::hint::black_box;
use std::time::Instant;
use tantsheko::{prepare_into, Table};

/// The questions, as the page names them.
pub const QUESTIONS: [&str; 7] = [
    "level",
    "climb",
    "rating",
    "ancestry",
    "branch",
    "premium",
    "quotation",
];

/// The medians of a tree, in nanoseconds: preparing by entry, a question by question; the check of a sheet in microseconds.
pub struct Row {
    pub n: usize,
    pub kind: &'static str,
    /// Proved, by hand.
    pub prepare: [f64; 2],
    /// Proved, by hand.
    pub check: [f64; 2],
    /// Proved, by hand, of each question.
    pub questions: [[f64; 2]; QUESTIONS.len()],
    /// The level lookup by hand, written once more.
    pub again: f64,
    /// The level lookup by a plain climb, and by binary lifting; neither lists cells.
    pub climb: f64,
    pub lifting: f64,
}

pub fn median(mut times: Vec<f64>) -> f64 {
    times.sort_by(f64::total_cmp);
    times[times.len() / 2]
}

/// Nanoseconds of a piece of work, by so many units of it.
pub fn clock<T>(units: usize, work: impl FnOnce() -> T) -> f64 {
    let start = Instant::now();
    black_box(work());
    start.elapsed().as_nanos() as f64 / units as f64
}

fn prepare_times(parents: &[u32]) -> ([f64; 2], Vec<u32>) {
    let n = parents.len();
    let (w, s) = (reference::table_words(n), reference::space_words(n));
    let (mut ta, mut tb, mut space) = (vec![0; w], vec![0; w], vec![0; s]);
    let (mut a, mut b) = (Vec::new(), Vec::new());
    for _ in 0..(4_000_000 / n).clamp(9, 41) {
        a.push(clock(n, || prepare_into(parents, &mut ta, &mut space)));
        b.push(clock(n, || {
            reference::prepare(parents, &mut tb, &mut space)
        }));
    }
    assert!(ta == tb, "the two tables are the same");
    ([median(a), median(b)], ta)
}

/// All ways of the level lookup over the same arguments: proved, by hand, and by hand once more.
fn level_times(table: &Table, asked: &[(u32, u32)]) -> [f64; 3] {
    let words = table.words();
    let [mut a, mut b, mut c] = [const { Vec::new() }; 3];
    for _ in 0..11 {
        let own = |&(v, d): &(u32, u32)| seen(&table.level(v, d));
        a.push(clock(asked.len(), || {
            asked.iter().fold(0, |x, q| x ^ own(q))
        }));
        let hand = |&(v, d): &(u32, u32)| seen_by_hand(&reference::level(words, v, d));
        b.push(clock(asked.len(), || {
            asked.iter().fold(0, |x, q| x ^ hand(q))
        }));
        let again = |&(v, d): &(u32, u32)| seen_by_hand(&reference::level_by_steps(words, v, d));
        c.push(clock(asked.len(), || {
            asked.iter().fold(0, |x, q| x ^ again(q))
        }));
    }
    [median(a), median(b), median(c)]
}

/// Both ways of a piece of work over the same arguments.
pub fn times<A: Copy>(asked: &[A], ours: impl Fn(A) -> u32, theirs: impl Fn(A) -> u32) -> [f64; 2] {
    let (mut a, mut b) = (Vec::new(), Vec::new());
    for _ in 0..11 {
        a.push(clock(asked.len(), || {
            asked.iter().fold(0, |x, &q| x ^ ours(q))
        }));
        b.push(clock(asked.len(), || {
            asked.iter().fold(0, |x, &q| x ^ theirs(q))
        }));
    }
    [median(a), median(b)]
}

/// What is looked at of an answer, alike of both: its number and two places of its cells, one early and one late.
pub fn seen(r: &tantsheko::Answer) -> u32 {
    r.number() ^ r.places()[1] ^ r.places()[9]
}

pub fn seen_by_hand(r: &reference::Answer) -> u32 {
    r.number ^ r.cells[1] ^ r.cells[9]
}

/// Both ways of a question over the same arguments.
fn question_times(
    asked: &[(u32, u32)],
    ours: impl Fn(u32, u32) -> tantsheko::Answer,
    theirs: impl Fn(u32, u32) -> reference::Answer,
) -> [f64; 2] {
    times(
        asked,
        |(u, v)| seen(&ours(u, v)),
        |(u, v)| seen_by_hand(&theirs(u, v)),
    )
}

/// Both ways of the premium, at rating levels: a rate for each entry, and a sum of any size for each question.
fn premium_times(
    table: &Table,
    asked: &[(u32, u32)],
    below: &mut impl FnMut(usize) -> u32,
) -> [f64; 2] {
    let words = table.words();
    let rates: Vec<u32> = (0..table.entries()).map(|_| below(1_000_001)).collect();
    let sums: Vec<(u32, u32, i64)> = asked
        .iter()
        .map(|&(v, d)| (v, d, i64::from(below(4_000_000_001)) - 2_000_000_000))
        .collect();
    times(
        &sums,
        |(v, d, sum)| {
            let r = table.premium(&rates, v, d, sum);
            seen(r.answer()) ^ r.cents() as u32
        },
        |(v, d, sum)| {
            let r = reference::premium(words, &rates, v, d, sum);
            seen_by_hand(&r.answer) ^ r.cents as u32
        },
    )
}

/// The ancestors 1, 2, 4, .. above each entry.
fn lift(parents: &[u32], levels: usize) -> Vec<Vec<u32>> {
    let top = |v: usize| {
        if parents[v] == u32::MAX {
            v as u32
        } else {
            parents[v]
        }
    };
    let mut table = vec![(0..parents.len()).map(top).collect::<Vec<u32>>()];
    for k in 1..levels {
        let below = &table[k - 1];
        let above = below.iter().map(|&v| below[v as usize]).collect();
        table.push(above);
    }
    table
}

fn other_times(parents: &[u32], depth: &[u32], asked: &[(u32, u32)]) -> (f64, f64) {
    let most = depth.iter().max().copied().unwrap_or(0);
    let lifts = lift(parents, 32 - most.leading_zeros() as usize);
    // A plain climb in a deep tree takes long: fewer questions.
    let few = &asked[..asked.len().min(40_000_000 / (most as usize + 1)).max(50)];
    let (mut a, mut b) = (Vec::new(), Vec::new());
    for _ in 0..5 {
        a.push(clock(few.len(), || {
            few.iter().fold(0, |x, &(v, d)| {
                let mut at = v;
                for _ in d..depth[v as usize] {
                    at = parents[at as usize];
                }
                x ^ at
            })
        }));
        b.push(clock(asked.len(), || {
            asked.iter().fold(0, |x, &(v, d)| {
                let (mut at, mut rest) = (v, depth[v as usize] - d);
                while rest > 0 {
                    at = lifts[rest.trailing_zeros() as usize][at as usize];
                    rest &= rest - 1;
                }
                x ^ at
            })
        }));
    }
    (median(a), median(b))
}

/// Arguments of the five questions: an entry with a depth up to its own; with its climbs; with the depth of any entry, as a
/// rating level; and with one of its ancestors, as the upper of two.
struct Asked {
    level: Vec<(u32, u32)>,
    climb: Vec<(u32, u32)>,
    rating: Vec<(u32, u32)>,
    pairs: Vec<(u32, u32)>,
}

impl Asked {
    fn new(table: &Table, depth: &[u32], below: &mut impl FnMut(usize) -> u32) -> Asked {
        let level: Vec<(u32, u32)> = (0..200_000)
            .map(|_| {
                let v = below(depth.len());
                (v, below(depth[v as usize] as usize + 1))
            })
            .collect();
        let climb = level.iter().map(|&(v, d)| (v, depth[v as usize] - d));
        let rating = level
            .iter()
            .map(|&(v, _)| (v, depth[below(depth.len()) as usize]));
        let pairs = level
            .iter()
            .map(|&(v, d)| (table.level(v, d).result().unwrap_or(v), v));
        Asked {
            climb: climb.collect(),
            rating: rating.collect(),
            pairs: pairs.collect(),
            level,
        }
    }

    /// Both ways of the other four questions.
    fn times(&self, table: &Table) -> [[f64; 2]; 4] {
        let words = table.words();
        [
            question_times(
                &self.climb,
                |v, k| table.climb(v, k),
                |v, k| reference::climb(words, v, k),
            ),
            question_times(
                &self.rating,
                |v, d| table.rating(v, d),
                |v, d| reference::rating(words, v, d),
            ),
            question_times(
                &self.pairs,
                |u, v| table.ancestry(u, v),
                |u, v| reference::ancestry(words, u, v),
            ),
            question_times(
                &self.pairs,
                |u, v| table.branch(u, v),
                |u, v| reference::branch(words, u, v),
            ),
        ]
    }
}

/// Times a tree of a kind, with its numbers permuted.
pub fn time(n: usize, kind: usize, name: &'static str) -> Row {
    let parents = trees::make(kind, n, &mut (7 + n as u64), true);
    let (prepare, words) = prepare_times(&parents);
    let table = Table::from_words(words);
    let depth = &table.words()[4..4 + n];
    let mut seed = 99;
    let mut below = |k: usize| trees::below(&mut seed, k);
    let asked = Asked::new(&table, depth, &mut below);
    let [own, hand, again] = level_times(&table, &asked.level);
    let level = [own, hand];
    let [climb, rating, ancestry, branch] = asked.times(&table);
    let premium = premium_times(&table, &asked.rating, &mut below);
    let sheet = sheets::Work::new(&table, depth, &mut below);
    let quotation = sheet.quote_times(depth, &mut below);
    let (plain, lifting) = other_times(&parents, depth, &asked.level);
    Row {
        n,
        kind: name,
        prepare,
        check: sheet.check_times(),
        questions: [level, climb, rating, ancestry, branch, premium, quotation],
        again,
        climb: plain,
        lifting,
    }
}
