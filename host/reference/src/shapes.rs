//! The shapes of groups of up to seven entries: their order, and local climbs.

/// The most entries of a group.
pub const LIMIT: usize = 7;

/// The shapes of up to so many entries.
pub const COUNT: usize = 197;

/// "None" in a row of local climbs.
pub const NONE: u8 = 255;

/// Where the climbs from a local number lead, 0 to 6 of them; and in the last place its depth in the group.
pub type Row = [u8; LIMIT + 1];

/// The rows of all shapes by number, eight to a shape: one for each local number, and the last for none.
pub static ROWS: [[Row; LIMIT + 1]; COUNT] = rows();

/// The shapes' numbers by the walk round a group, as a string with a leading 1, 0 for down and 1 for up.
static NUMBERS: [u8; 1 << (2 * LIMIT - 1)] = numbers();

/// The depth of each entry in preorder, and how many there are.
#[derive(Clone, Copy)]
struct Shape {
    depth: [u8; LIMIT],
    entries: usize,
}

/// By number of entries, then by the string of the walk with down before up: of two shapes the one that is deeper where
/// they first differ comes first.
const fn shapes() -> [Shape; COUNT] {
    let mut all = [Shape {
        depth: [0; LIMIT],
        entries: 1,
    }; COUNT];
    let mut count = 0;
    let mut entries = 1;
    while entries <= LIMIT {
        // The first is the chain.
        let mut depth = [0u8; LIMIT];
        let mut i = 1;
        while i < entries {
            depth[i] = i as u8;
            i += 1;
        }
        loop {
            all[count] = Shape { depth, entries };
            count += 1;
            // The next: the last entry that can be less deep becomes so, and those behind it go down from there.
            let mut last = entries - 1;
            while last > 0 && depth[last] == 1 {
                last -= 1;
            }
            if last == 0 {
                break;
            }
            depth[last] -= 1;
            let mut i = last + 1;
            while i < entries {
                depth[i] = depth[i - 1] + 1;
                i += 1;
            }
        }
        entries += 1;
    }
    all
}

/// The row of a local number: a climb leads to the nearest entry before that is less deep.
const fn row(shape: Shape, local: usize) -> Row {
    let mut row = [NONE; LIMIT + 1];
    if local >= shape.entries {
        return row;
    }
    let deep = shape.depth[local] as usize;
    let mut at = local;
    row[0] = local as u8;
    row[LIMIT] = deep as u8;
    let mut k = 1;
    while k <= deep {
        let mut over = at;
        while shape.depth[over] >= shape.depth[at] {
            over -= 1;
        }
        at = over;
        row[k] = at as u8;
        k += 1;
    }
    row
}

const fn rows() -> [[Row; LIMIT + 1]; COUNT] {
    let all = shapes();
    let mut rows = [[[NONE; LIMIT + 1]; LIMIT + 1]; COUNT];
    let mut k = 0;
    while k < COUNT {
        let mut local = 0;
        while local <= LIMIT {
            rows[k][local] = row(all[k], local);
            local += 1;
        }
        k += 1;
    }
    rows
}

const fn numbers() -> [u8; 1 << (2 * LIMIT - 1)] {
    let all = shapes();
    let mut table = [0; 1 << (2 * LIMIT - 1)];
    let mut k = 0;
    while k < COUNT {
        let mut walk = 1;
        let mut i = 1;
        while i < all[k].entries {
            let ups = all[k].depth[i - 1] + 1 - all[k].depth[i];
            walk = then_down(walk, ups as u32);
            i += 1;
        }
        table[then_ups(walk, all[k].depth[all[k].entries - 1] as u32)] = k as u8;
        k += 1;
    }
    table
}

/// A walk with so many ups behind it.
const fn then_ups(walk: usize, ups: u32) -> usize {
    ((walk + 1) << ups) - 1
}

/// And then a down.
const fn then_down(walk: usize, ups: u32) -> usize {
    then_ups(walk, ups) << 1
}

/// The number of the shape with these depths.
pub fn number(depths: &[u32]) -> u32 {
    let mut walk = 1;
    for pair in depths.windows(2) {
        walk = then_down(walk, pair[0] + 1 - pair[1]);
    }
    let walk = then_ups(walk, depths[depths.len() - 1] - depths[0]);
    NUMBERS[walk] as u32
}

#[cfg(test)]
mod tests {
    use super::*;

    #[test]
    fn the_papers_shapes() {
        for (depths, shape) in [
            (&[4][..], 0),
            (&[0, 1, 1], 3),
            (&[0, 1, 2, 3, 4], 9),
            (&[2, 3, 3, 3, 3], 22),
            (&[0, 1, 2, 3, 4, 5, 6], 65),
            (&[0, 1, 1, 1, 1, 1, 1], 196),
        ] {
            assert_eq!(number(depths), shape);
            let rows = ROWS[shape as usize];
            for (local, row) in rows.iter().enumerate() {
                assert_eq!(row[0] != NONE, local < depths.len());
            }
        }
        assert_eq!(ROWS[65][6], [6, 5, 4, 3, 2, 1, 0, 6]);
        assert_eq!(ROWS[3][2], [2, 0, NONE, NONE, NONE, NONE, NONE, 1]);
    }
}
