//! The nearest common ancestor of two entries, and the climbs between them, by the search that the proved code makes. No
//! cell is noted, and step 1 is taken once.

use crate::questions::{both_known, class, end, Answer, Opened, Refusal, BROKEN};
use crate::shapes::{COUNT, LIMIT, NONE, ROWS};
use crate::MICRO;

/// How far past the tries before it the next one goes, at the most: 1, 5 and 21 climbs, then half way.
fn stride(tries: u32) -> u32 {
    match tries {
        0 => 0,
        1 => 3,
        2 => 15,
        _ => u32::MAX,
    }
}

/// A word that is to be an entry.
#[inline(always)]
fn known(t: Opened, word: u32) -> Result<u32, Refusal> {
    match class(word, t.s) {
        (0, w) => Ok(w),
        refusal => Err(refusal),
    }
}

/// Steps 3 and 4: the ancestor at depth d of v, which is deeper.
#[inline(always)]
fn ancestor_at(t: Opened, v: u32, depth: u32, d: u32) -> Result<u32, Refusal> {
    let n = t.s.n as u32;
    let mut kind = t.word(t.s.kind() as u32 + v);
    if kind >= MICRO {
        let group = (kind - MICRO) / 8;
        if group >= n {
            return Err(BROKEN);
        }
        let first = t.s.groups() as u32 + 3 * group;
        let shape = t.word(first + 1) as usize;
        if shape >= COUNT {
            return Err(BROKEN);
        }
        let row = u64::from_le_bytes(ROWS[shape][(kind % 8) as usize]);
        if row as u8 == NONE {
            return Err(BROKEN);
        }
        let (k, climbs) = ((row >> (8 * LIMIT)) as u32, depth - d);
        if climbs <= k {
            let place = u64::from(t.word(first)) + u64::from((row >> (8 * climbs)) as u8);
            if place >= u64::from(n) {
                return Err(BROKEN);
            }
            return known(t, t.word(t.s.order() as u32 + place as u32));
        }
        let p = known(t, t.word(first + 2))?;
        if climbs == k + 1 {
            return Ok(p);
        }
        kind = t.word(t.s.kind() as u32 + p);
    }
    if kind as usize >= t.s.records() {
        return Err(BROKEN);
    }
    let record = t.s.jumps() as u32 + 21 * kind;
    let deep = known(t, t.word(record))?;
    if deep <= d {
        return Err(BROKEN);
    }
    let gap = deep - d;
    let e = gap.ilog2();
    let w = known(t, t.word(record + 1 + e))?;
    let place = t.word(t.s.ladpos() as u32 + w);
    let missing = gap - (1 << e);
    if place < missing || place - missing >= 2 * n {
        return Err(BROKEN);
    }
    known(t, t.word(t.s.ladders() as u32 + (place - missing)))
}

/// The first entry of a's climb that is at or above b, where a has that depth, and the climbs to it.
#[inline(always)]
fn first_above(t: Opened, a: u32, b: u32, depth: u32) -> Result<(u32, u32), Refusal> {
    let (pre, size) = (t.s.pre() as u32, t.s.size() as u32);
    let place = t.word(pre + b);
    let above = |w: u32| {
        let start = t.word(pre + w);
        start <= place && place - start < t.word(size + w)
    };
    if above(a) {
        return Ok((a, 0));
    }
    // The top is on both climbs.
    let mut found = known(t, t.word(t.s.order() as u32))?;
    if depth == 0 {
        return Err(BROKEN);
    }
    let (mut low, mut high) = (1, depth);
    let mut tries = 0;
    while low < high {
        let k = low + stride(tries).min((high - low) / 2);
        tries += 1;
        let w = ancestor_at(t, a, depth, depth - k)?;
        if above(w) {
            high = k;
            found = w;
        } else {
            low = k + 1;
        }
    }
    Ok((found, high))
}

/// What two entries share, and the climbs to it from both.
#[inline(always)]
fn shared(table: &[u32], u: u32, v: u32) -> Result<(u32, u32), Refusal> {
    let t = Opened::new(table).ok_or(BROKEN)?;
    both_known(t.s, u, v)?;
    let depth = t.s.depth() as u32;
    let du = known(t, t.word(depth + u))?;
    let dv = known(t, t.word(depth + v))?;
    let (w, climbs) = if du <= dv {
        first_above(t, u, v, du)?
    } else {
        first_above(t, v, u, dv)?
    };
    Ok((w, 2 * climbs + du.abs_diff(dv)))
}

/// An answer without cells.
fn told(result: Result<u32, Refusal>) -> Answer {
    end(result.map_or_else(|refusal| refusal, |word| (0, word)), &[])
}

/// The deepest entry at or above both.
#[inline(never)]
pub fn nearest_common_ancestor(table: &[u32], u: u32, v: u32) -> Answer {
    told(shared(table, u, v).map(|r| r.0))
}

/// The climbs between two entries through it.
#[inline(never)]
pub fn distance(table: &[u32], u: u32, v: u32) -> Answer {
    told(shared(table, u, v).map(|r| r.1))
}
