//! Trees of the kinds of the trials, from fixed seeds.

use crate::TOP;

/// The kinds, by number.
pub const KINDS: [&str; 7] = [
    "chain",
    "star",
    "random",
    "caterpillar",
    "binary",
    "broom",
    "deep",
];

/// The next number of a fixed sequence (splitmix64).
pub fn next(seed: &mut u64) -> u64 {
    *seed = seed.wrapping_add(0x9E37_79B9_7F4A_7C15);
    let mut z = *seed;
    z = (z ^ (z >> 30)).wrapping_mul(0xBF58_476D_1CE4_E5B9);
    z = (z ^ (z >> 27)).wrapping_mul(0x94D0_49BB_1331_11EB);
    z ^ (z >> 31)
}

/// A number below k.
pub fn below(seed: &mut u64, k: usize) -> u32 {
    (next(seed) % k as u64) as u32
}

/// A list of n parents of a kind. Entry 0 is the top, and a parent comes before its child, unless the numbers are
/// permuted.
pub fn make(kind: usize, n: usize, seed: &mut u64, permuted: bool) -> Vec<u32> {
    let parents: Vec<u32> = (0..n).map(|i| parent(kind, i, n, seed)).collect();
    if !permuted {
        return parents;
    }
    permute(&parents, seed)
}

/// The same tree with its numbers permuted.
pub fn permute(parents: &[u32], seed: &mut u64) -> Vec<u32> {
    let n = parents.len();
    let mut name: Vec<u32> = (0..n as u32).collect();
    for i in (1..n).rev() {
        name.swap(i, below(seed, i + 1) as usize);
    }
    let mut list = vec![0; n];
    for (i, &p) in parents.iter().enumerate() {
        list[name[i] as usize] = if p == TOP { TOP } else { name[p as usize] };
    }
    list
}

/// A chain of so many entries, and below its last two chains that take the others by turns.
pub fn fork(stem: usize, n: usize) -> Vec<u32> {
    let parent = |i: usize| match i {
        0 => TOP,
        i if i < stem => i as u32 - 1,
        i => i.saturating_sub(2).max(stem - 1) as u32,
    };
    (0..n).map(parent).collect()
}

fn parent(kind: usize, i: usize, n: usize, seed: &mut u64) -> u32 {
    if i == 0 {
        return TOP;
    }
    match KINDS[kind % KINDS.len()] {
        "chain" => i as u32 - 1,
        "star" => 0,
        "random" => below(seed, i),
        "caterpillar" => (i - 1 - (i + 1) % 2) as u32,
        "binary" => (i as u32 - 1) / 2,
        "broom" => (i as u32 - 1).min(n as u32 / 2),
        _ => i as u32 - 1 - below(seed, i.min(8)),
    }
}
