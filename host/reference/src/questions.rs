//! The five questions on a table of any contents. Each end of a lookup has its own list of cells, so that nothing is held on to
//! up to an end that all have in common.

use crate::shapes::{COUNT, LIMIT, NONE, ROWS};
use crate::{Sections, HEADER, MICRO, MOST};

/// An answer: its number and result word, the cells read and their count.
#[derive(Clone, Copy, Debug, PartialEq, Eq)]
#[repr(C)]
pub struct Answer {
    pub number: u32,
    pub word: u32,
    pub cells: [u32; 15],
    pub count: u32,
}

/// A refusal: its number and what it names.
pub(crate) type Refusal = (u32, u32);

pub(crate) const BROKEN: Refusal = (9, 0);

/// An answer with these cells.
#[inline(always)]
pub(crate) fn end((number, word): (u32, u32), list: &[u32]) -> Answer {
    let mut cells = [0; 15];
    cells[..list.len()].copy_from_slice(list);
    Answer {
        number,
        word,
        cells,
        count: list.len() as u32,
    }
}

/// 9, with these cells.
#[cold]
fn broken(list: &[u32]) -> Answer {
    end(BROKEN, list)
}

/// A word that is to be an entry, as a result.
#[inline(always)]
pub(crate) fn class(w: u32, s: Sections) -> (u32, u32) {
    if (w as usize) < s.n {
        (0, w)
    } else {
        BROKEN
    }
}

/// Step 1: a table that is not broken, and its sections. Every cell of a section is then a cell of the table.
#[derive(Clone, Copy)]
pub(crate) struct Opened<'a> {
    table: &'a [u32],
    pub(crate) s: Sections,
}

impl<'a> Opened<'a> {
    #[inline(always)]
    pub(crate) fn new(table: &'a [u32]) -> Option<Opened<'a>> {
        if table.len() < 4 {
            return None;
        }
        let n = table[0].wrapping_sub(HEADER) as usize;
        let s = Sections { n };
        if n == 0 || n > MOST || table.len() < s.words() {
            return None;
        }
        Some(Opened { table, s })
    }

    /// The word of a cell of a section.
    #[inline(always)]
    pub(crate) fn word(self, cell: u32) -> u32 {
        debug_assert!((cell as usize) < self.s.words());
        // SAFETY: the cell is one of a section, and the table has W words or more.
        unsafe { *self.table.get_unchecked(cell as usize) }
    }

    /// A jump entry's first cell, and its depth, where there is such a record.
    #[inline(always)]
    fn record(self, kind: u32) -> Option<(u32, u32)> {
        if kind as usize >= self.s.records() {
            return None;
        }
        let cell = self.s.jumps() as u32 + 21 * kind;
        Some((cell, self.word(cell)))
    }
}

/// What a table that step 1 calls broken gives: cell 0 is read if there are four words.
fn unopened(table: &[u32]) -> Answer {
    end(BROKEN, if table.len() < 4 { &[] } else { &[0] })
}

/// Steps 1 to 4: the ancestor of v at the depth that is wanted of an entry of v's depth, or 8 where there is none.
#[inline(always)]
pub(crate) fn look(table: &[u32], v: u32, wanted: impl FnOnce(u32) -> Option<u32>) -> Answer {
    let Some(t) = Opened::new(table) else {
        return unopened(table);
    };
    let n = t.s.n as u32;
    if v >= n {
        return end((7, v), &[0]);
    }
    let c1 = t.s.depth() as u32 + v;
    let depth = t.word(c1);
    if depth >= n {
        return broken(&[0, c1]);
    }
    let Some(d) = wanted(depth) else {
        return end((8, v), &[0, c1]);
    };
    if d == depth {
        return end((0, v), &[0, c1]);
    }
    let c2 = t.s.kind() as u32 + v;
    let kind = t.word(c2);
    if kind < MICRO {
        return jump(t, d, kind, [0, c1, c2]);
    }
    let group = (kind - MICRO) / 8;
    if group >= n {
        return broken(&[0, c1, c2]);
    }
    let first = t.s.groups() as u32 + 3 * group;
    let c3 = first + 1;
    let shape = t.word(c3) as usize;
    if shape >= COUNT {
        return broken(&[0, c1, c2, c3]);
    }
    let row = u64::from_le_bytes(ROWS[shape][(kind % 8) as usize]);
    if row as u8 == NONE {
        return broken(&[0, c1, c2, c3]);
    }
    let k = (row >> (8 * LIMIT)) as u32;
    let climbs = depth - d;
    if climbs <= k {
        let place = u64::from(t.word(first)) + u64::from((row >> (8 * climbs)) as u8);
        if place >= u64::from(n) {
            return broken(&[0, c1, c2, c3, first]);
        }
        let c5 = t.s.order() as u32 + place as u32;
        return end(class(t.word(c5), t.s), &[0, c1, c2, c3, first, c5]);
    }
    let c4 = first + 2;
    let p = t.word(c4);
    if p >= n {
        return broken(&[0, c1, c2, c3, c4]);
    }
    if climbs == k + 1 {
        return end((0, p), &[0, c1, c2, c3, c4]);
    }
    let c5 = t.s.kind() as u32 + p;
    jump(t, d, t.word(c5), [0, c1, c2, c3, c4, c5])
}

/// Step 4, behind these cells.
#[inline(always)]
fn jump<const K: usize>(t: Opened, d: u32, kind: u32, before: [u32; K]) -> Answer {
    let n = t.s.n as u32;
    let mut list = [0; 10];
    list[..K].copy_from_slice(&before);
    let Some((cell, deep)) = t.record(kind) else {
        return broken(&list[..K]);
    };
    list[K] = cell;
    if deep >= n || deep <= d {
        return broken(&list[..K + 1]);
    }
    let gap = deep - d;
    let e = gap.ilog2();
    list[K + 1] = cell + 1 + e;
    let w = t.word(cell + 1 + e);
    if w >= n {
        return broken(&list[..K + 2]);
    }
    list[K + 2] = t.s.ladpos() as u32 + w;
    let place = t.word(list[K + 2]);
    let missing = gap - (1 << e);
    if place < missing || place - missing >= 2 * n {
        return broken(&list[..K + 3]);
    }
    list[K + 3] = t.s.ladders() as u32 + (place - missing);
    end(class(t.word(list[K + 3]), t.s), &list[..K + 4])
}

/// The level lookup's depth: d, of an entry that is at least as deep.
fn at_depth(d: u32) -> impl FnOnce(u32) -> Option<u32> {
    move |depth| (d <= depth).then_some(d)
}

/// The class of v at depth d.
#[inline(never)]
pub fn level(table: &[u32], v: u32, d: u32) -> Answer {
    look(table, v, at_depth(d))
}

/// The entry k above v.
#[inline(never)]
pub fn climb(table: &[u32], v: u32, k: u32) -> Answer {
    look(table, v, |depth| depth.checked_sub(k))
}

/// The class of v at rating level d, or v where it is less deep.
#[inline(always)]
pub(crate) fn rated(table: &[u32], v: u32, d: u32) -> Answer {
    look(table, v, |depth| Some(d.min(depth)))
}

/// The class of v at rating level d, or v where it is less deep.
#[inline(never)]
pub fn rating(table: &[u32], v: u32, d: u32) -> Answer {
    rated(table, v, d)
}

/// 7 with the first of two that is no entry.
pub(crate) fn both_known(s: Sections, u: u32, v: u32) -> Result<(), Refusal> {
    match [u, v].into_iter().find(|&entry| entry as usize >= s.n) {
        Some(entry) => Err((7, entry)),
        None => Ok(()),
    }
}

/// The cells by which u is at or above v, and whether it is; or an answer.
#[inline(always)]
fn relate<'a>(table: &'a [u32], u: u32, v: u32) -> Result<(Opened<'a>, [u32; 4], bool), Answer> {
    let t = Opened::new(table).ok_or_else(|| unopened(table))?;
    both_known(t.s, u, v).map_err(|refusal| end(refusal, &[0]))?;
    let (pre, size) = (t.s.pre() as u32, t.s.size() as u32);
    let cells = [0, pre + u, size + u, pre + v];
    let [start, size, place] = [cells[1], cells[2], cells[3]].map(|c| u64::from(t.word(c)));
    Ok((t, cells, start <= place && place < start + size))
}

/// Whether u is at or above v: 1 or 0.
#[inline(never)]
pub fn ancestry(table: &[u32], u: u32, v: u32) -> Answer {
    match relate(table, u, v) {
        Ok((_, cells, above)) => end((0, above as u32), &cells),
        Err(answer) => answer,
    }
}

/// The child of u on the way to v.
#[inline(never)]
pub fn branch(table: &[u32], u: u32, v: u32) -> Answer {
    let (t, [a, b, c, d], above) = match relate(table, u, v) {
        Ok(related) => related,
        Err(answer) => return answer,
    };
    if !above || u == v {
        return end((10, u), &[a, b, c, d]);
    }
    let cell = t.s.depth() as u32 + u;
    let depth = t.word(cell);
    if depth as usize >= t.s.n {
        return end(BROKEN, &[a, b, c, d, cell]);
    }
    let mut answer = look(table, v, at_depth(depth + 1));
    if answer.number == 8 {
        (answer.number, answer.word) = BROKEN;
    }
    answer.cells.copy_within(..10, 5);
    answer.cells[..5].copy_from_slice(&[a, b, c, d, cell]);
    answer.count += 5;
    answer
}
