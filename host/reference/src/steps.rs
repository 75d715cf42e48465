//! The level lookup once more, written apart from `questions`: a function for each step, with the list of cells by value, one
//! longer each time. The benchmark times both, so that neither is slow by the way it is written.

use crate::questions::Answer;
use crate::shapes::{COUNT, LIMIT, NONE, ROWS};
use crate::{HEADER, MICRO, MOST};

/// A table of n entries and the depth asked.
#[derive(Clone, Copy)]
struct Asked<'a> {
    table: &'a [u32],
    n: u32,
    d: u32,
}

impl Asked<'_> {
    #[inline(always)]
    fn at(self, cell: u32) -> u32 {
        debug_assert!((cell as usize) < self.table.len());
        // SAFETY: step 1 saw that the table has room for all sections, and each cell is one of a section.
        unsafe { *self.table.get_unchecked(cell as usize) }
    }
}

#[inline(always)]
fn push<const K: usize, const L: usize>(list: [u32; K], cell: u32) -> [u32; L] {
    let mut longer = [cell; L];
    longer[..K].copy_from_slice(&list);
    longer
}

#[inline(always)]
fn say<const K: usize>(number: u32, word: u32, list: [u32; K]) -> Answer {
    let mut answer = Answer {
        number,
        word,
        cells: [0; 15],
        count: K as u32,
    };
    answer.cells[..K].copy_from_slice(&list);
    answer
}

/// 9: the table is broken.
#[cold]
fn broken<const K: usize>(list: [u32; K]) -> Answer {
    say(9, 0, list)
}

/// The class of v at depth d.
#[inline(never)]
pub fn level(table: &[u32], v: u32, d: u32) -> Answer {
    if table.len() < 4 {
        return broken([]);
    }
    let n = table[0].wrapping_sub(HEADER);
    if n == 0 || n as usize > MOST || table.len() < 4 + (11 * n + 21 * (n / 8)) as usize {
        return broken([0]);
    }
    if v >= n {
        return say(7, v, [0]);
    }
    let asked = Asked { table, n, d };
    let list = [0, 4 + v];
    let depth = asked.at(4 + v);
    if depth >= n {
        broken(list)
    } else if depth < d {
        say(8, v, list)
    } else if depth == d {
        say(0, v, list)
    } else {
        by_kind(asked, depth - d, push(list, 4 + n + v))
    }
}

#[inline(always)]
fn by_kind(a: Asked, climbs: u32, list: [u32; 3]) -> Answer {
    let kind = a.at(list[2]);
    if kind < MICRO {
        return by_record::<3, 4, 5, 6, 7>(a, kind, list);
    }
    let group = (kind % MICRO) / 8;
    if group >= a.n {
        return broken(list);
    }
    let first = 4 + 8 * a.n + 3 * group;
    by_shape(a, climbs, first, (kind % 8) as usize, push(list, first + 1))
}

#[inline(always)]
fn by_shape(a: Asked, climbs: u32, first: u32, local: usize, list: [u32; 4]) -> Answer {
    let shape = a.at(list[3]) as usize;
    if shape >= COUNT {
        return broken(list);
    }
    let row = u64::from_le_bytes(ROWS[shape][local]);
    if row as u8 == NONE {
        return broken(list);
    }
    let k = (row >> (8 * LIMIT)) as u32;
    if climbs > k {
        return over_group(a, climbs == k + 1, push(list, first + 2));
    }
    let list: [u32; 5] = push(list, first);
    let position = a.at(first);
    let place = position.wrapping_add((row >> (8 * climbs)) as u32 & 255);
    if position >= a.n || place >= a.n {
        return broken(list);
    }
    by_class(a, push::<5, 6>(list, 4 + 3 * a.n + place))
}

#[inline(always)]
fn over_group(a: Asked, here: bool, list: [u32; 5]) -> Answer {
    let p = a.at(list[4]);
    if p >= a.n {
        return broken(list);
    }
    if here {
        return say(0, p, list);
    }
    let list: [u32; 6] = push(list, 4 + a.n + p);
    by_record::<6, 7, 8, 9, 10>(a, a.at(list[5]), list)
}

/// Step 4 behind K cells; L to O are how many it lists on its way.
#[inline(always)]
fn by_record<const K: usize, const L: usize, const M: usize, const N: usize, const O: usize>(
    a: Asked,
    kind: u32,
    list: [u32; K],
) -> Answer {
    if kind >= a.n / 8 {
        return broken(list);
    }
    let record = 4 + 11 * a.n + 21 * kind;
    let list: [u32; L] = push(list, record);
    let deep = a.at(record);
    if deep >= a.n || deep <= a.d {
        return broken(list);
    }
    let e = (deep - a.d).ilog2();
    let list: [u32; M] = push(list, record + 1 + e);
    let w = a.at(record + 1 + e);
    if w >= a.n {
        return broken(list);
    }
    let list: [u32; N] = push(list, 4 + 2 * a.n + w);
    let (index, missing) = (a.at(4 + 2 * a.n + w), deep - a.d - (1 << e));
    if index < missing || index - missing >= 2 * a.n {
        return broken(list);
    }
    by_class(a, push::<N, O>(list, 4 + 6 * a.n + (index - missing)))
}

/// The last word read is the answer.
#[inline(always)]
fn by_class<const K: usize>(a: Asked, list: [u32; K]) -> Answer {
    let class = a.at(list[K - 1]);
    if class < a.n {
        say(0, class, list)
    } else {
        broken(list)
    }
}
