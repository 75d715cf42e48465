//! Questions about two entries: the proved search beside the same search by hand, and a plain climb from both.

use crate::work::{clock, median, times};
use reference::trees;
use tantsheko::Table;

/// How many pairs are asked.
const PAIRS: usize = 40_000;

/// The kinds of trees, with one more: two chains from the top, whose ends share nothing near.
pub const KINDS: usize = trees::KINDS.len() + 1;

/// The medians of a tree in nanoseconds, for pairs of any entries or of entries near each other.
pub struct Row {
    pub n: usize,
    pub kind: &'static str,
    pub near: bool,
    /// Proved, by hand.
    pub nearest: [f64; 2],
    pub distance: [f64; 2],
    /// By a plain climb from both, with the depths at hand.
    pub climb: f64,
}

fn make(kind: usize, n: usize) -> (&'static str, Vec<u32>) {
    let seed = &mut (7 + n as u64);
    if kind < trees::KINDS.len() {
        return (trees::KINDS[kind], trees::make(kind, n, seed, true));
    }
    ("fork", trees::permute(&trees::fork(1, n), seed))
}

/// Any two entries, or two of which the second follows the first in the preorder by eight places at the most.
fn pairs(table: &Table, near: bool) -> Vec<(u32, u32)> {
    let n = table.entries() as usize;
    let order = &table.words()[4 + 3 * n..4 + 4 * n];
    let mut seed = 99;
    let mut pair = || {
        let i = trees::below(&mut seed, n) as usize;
        let j = match near {
            true => (i + 1 + trees::below(&mut seed, 8) as usize).min(n - 1),
            false => trees::below(&mut seed, n) as usize,
        };
        (order[i], order[j])
    };
    (0..PAIRS).map(|_| pair()).collect()
}

fn climbed(parents: &[u32], depth: &[u32], mut u: u32, mut v: u32) -> u32 {
    let up = |w: u32| parents[w as usize];
    let (du, dv) = (depth[u as usize], depth[v as usize]);
    for _ in dv..du {
        u = up(u);
    }
    for _ in du..dv {
        v = up(v);
    }
    while u != v {
        (u, v) = (up(u), up(v));
    }
    u
}

/// Times a tree of a kind, with its numbers permuted, for both sorts of pairs.
pub fn time(n: usize, kind: usize) -> [Row; 2] {
    let (name, parents) = make(kind, n);
    let table = Table::prepare(&parents).expect("a tree");
    let words = table.words();
    let depth = &words[4..4 + n];
    let most = depth.iter().max().copied().unwrap_or(0) as usize;
    [false, true].map(|near| {
        let asked = pairs(&table, near);
        // A plain climb in a deep tree takes long: fewer questions.
        let few = &asked[..PAIRS.min(10_000_000 / (most + 1)).max(20)];
        let plain = || {
            few.iter()
                .fold(0, |x, &(u, v)| x ^ climbed(&parents, depth, u, v))
        };
        Row {
            n,
            kind: name,
            near,
            nearest: times(
                &asked,
                |(u, v)| table.nearest_common_ancestor(u, v).result().unwrap_or(0),
                |(u, v)| reference::nearest_common_ancestor(words, u, v).word,
            ),
            distance: times(
                &asked,
                |(u, v)| table.distance(u, v).result().unwrap_or(0),
                |(u, v)| reference::distance(words, u, v).word,
            ),
            climb: median((0..3).map(|_| clock(few.len(), plain)).collect()),
        }
    })
}
