//! Preparing.

use crate::shapes::{number, LIMIT};
use crate::{Sections, HEADER, MICRO, MOST, TOP};

/// W, the words of a table for n entries.
pub fn table_words(n: usize) -> usize {
    Sections { n }.words()
}

/// The words of the working space for n entries.
pub fn space_words(n: usize) -> usize {
    6 * n
}

/// Prepares the table of a parent list: 0 and W, or the number of a refusal and what it names.
#[inline(never)]
pub fn prepare(parents: &[u32], table: &mut [u32], space: &mut [u32]) -> (u32, u32) {
    let n = parents.len();
    if n == 0 || n > MOST {
        return (1, 0);
    }
    let w = table_words(n);
    if table.len() < w {
        return (2, 0);
    }
    if space.len() < space_words(n) {
        return (3, 0);
    }
    let space = &mut space[..6 * n];
    let reply = match top_of(parents) {
        Err(refusal) => refusal,
        Ok(top) => match walk(parents, top, space) {
            Err(refusal) => refusal,
            Ok(()) => {
                fill(parents, &mut table[..w], space);
                (0, w as u32)
            }
        },
    };
    space.fill(0);
    reply
}

/// The one top, or refusal 4 or 5.
fn top_of(parents: &[u32]) -> Result<u32, (u32, u32)> {
    let n = parents.len() as u32;
    if let Some(v) = parents.iter().position(|&p| p != TOP && p >= n) {
        return Err((4, v as u32));
    }
    let mut tops = (0..n).filter(|&v| parents[v as usize] == TOP);
    match (tops.next(), tops.next()) {
        (Some(top), None) => Ok(top),
        (Some(_), Some(second)) => Err((5, second)),
        (None, _) => Err((5, n)),
    }
}

/// Preorder and depth by position into the first two parts of the space, or refusal 6.
fn walk(parents: &[u32], top: u32, space: &mut [u32]) -> Result<(), (u32, u32)> {
    let n = parents.len();
    let (order, rest) = space.split_at_mut(n);
    let (depths, rest) = rest.split_at_mut(n);
    let (first, rest) = rest.split_at_mut(n);
    let (next, rest) = rest.split_at_mut(n);
    let (stack, seen) = rest.split_at_mut(n);
    let seen = &mut seen[..n];
    first.fill(TOP);
    for v in (0..n).rev() {
        let p = parents[v];
        if p != TOP {
            next[v] = first[p as usize];
            first[p as usize] = v as u32;
        }
    }
    next[top as usize] = TOP;
    seen.fill(0);
    let mut count = 0;
    let mut held = 0;
    let mut at = top;
    let mut depth = 0u32;
    loop {
        order[count] = at;
        depths[count] = depth;
        seen[at as usize] = 1;
        count += 1;
        let down = first[at as usize];
        if down != TOP {
            stack[held] = next[at as usize];
            held += 1;
            depth += 1;
            at = down;
            continue;
        }
        let mut over = next[at as usize];
        while over == TOP && held > 0 {
            held -= 1;
            depth -= 1;
            over = stack[held];
        }
        if over == TOP {
            break;
        }
        at = over;
    }
    if count < n {
        let lost = seen.iter().position(|&s| s == 0).unwrap();
        return Err((6, lost as u32));
    }
    Ok(())
}

/// All sections, from the preorder and the depths by position.
fn fill(parents: &[u32], table: &mut [u32], space: &mut [u32]) {
    let n = parents.len();
    let s = Sections { n };
    let (order, rest) = space.split_at_mut(n);
    let (depth, rest) = rest.split_at_mut(n);
    let (above, rest) = rest.split_at_mut(n);
    let (size, rest) = rest.split_at_mut(n);
    let (height, long) = rest.split_at_mut(n);
    let (head, body) = table.split_at_mut(4);
    let (depths, rest) = body.split_at_mut(n);
    let (kinds, rest) = rest.split_at_mut(n);
    let (ladpos, rest) = rest.split_at_mut(n);
    let (orders, rest) = rest.split_at_mut(n);
    let (pres, rest) = rest.split_at_mut(n);
    let (sizes, rest) = rest.split_at_mut(n);
    let (ladders, rest) = rest.split_at_mut(2 * n);
    let (groups, jumps) = rest.split_at_mut(3 * n);
    above_by_position(depth, above, size);
    measure(above, size, height, long);
    orders.copy_from_slice(order);
    for (i, &v) in order.iter().enumerate() {
        pres[v as usize] = i as u32;
    }
    scatter(order, depth, depths);
    scatter(order, size, sizes);
    let (group_count, jump_count) = lay_groups(order, depth, above, size, kinds, groups);
    let places = size;
    let paths = lay_ladders(order, depth, above, height, long, places, ladders);
    scatter(order, places, ladpos);
    lay_jumps(
        order, kinds, depths, ladpos, ladders, long, jump_count, jumps,
    );
    debug_assert_eq!(4 + n * 11 + jumps.len(), s.words());
    head.copy_from_slice(&[HEADER + n as u32, jump_count, group_count, paths]);
}

/// A word for each position into the cell of the entry there.
fn scatter(order: &[u32], words: &[u32], cells: &mut [u32]) {
    for (&v, &w) in order.iter().zip(words) {
        cells[v as usize] = w;
    }
}

/// The position above each: the last one that is one less deep. `path` has the last of each depth on the way.
fn above_by_position(depth: &[u32], above: &mut [u32], path: &mut [u32]) {
    above[0] = TOP;
    path[0] = 0;
    for i in 1..depth.len() {
        let d = depth[i] as usize;
        above[i] = path[d - 1];
        path[d] = i as u32;
    }
}

/// Size, height and the child of greatest height, the first of them on a tie, by position.
fn measure(above: &[u32], size: &mut [u32], height: &mut [u32], long: &mut [u32]) {
    let n = above.len();
    size.fill(1);
    height.fill(1);
    long.fill(TOP);
    for i in (1..n).rev() {
        let p = above[i] as usize;
        size[p] += size[i];
        let (rise, high, old) = (height[i] + 1, height[p], long[p]);
        let tall = high <= rise;
        height[p] = if tall { rise } else { high };
        long[p] = if tall { i as u32 } else { old };
    }
}

/// Ladders in preorder of their paths' tops, and each position's place. The ancestors of a path's top stand in the ladder of
/// the entry above it. Answers the number of paths.
fn lay_ladders(
    order: &[u32],
    depth: &[u32],
    above: &[u32],
    height: &[u32],
    long: &[u32],
    places: &mut [u32],
    ladders: &mut [u32],
) -> u32 {
    let mut paths = 0;
    let mut end = 0usize;
    for i in 0..order.len() {
        let p = above[i] as usize;
        if i > 0 && long[p] == i as u32 {
            let place = places[p] + 1;
            places[i] = place;
            ladders[place as usize] = order[i];
            continue;
        }
        paths += 1;
        let over = height[i].min(depth[i]) as usize;
        if over > 0 {
            let from = places[p] as usize + 1 - over;
            for k in 0..over {
                ladders[end + k] = ladders[from + k];
            }
        }
        places[i] = (end + over) as u32;
        ladders[end + over] = order[i];
        end += over + height[i] as usize;
    }
    ladders[end..].fill(0);
    paths
}

/// KIND, and GROUPS. Answers the numbers of groups and of jump entries.
fn lay_groups(
    order: &[u32],
    depth: &[u32],
    above: &[u32],
    size: &[u32],
    kinds: &mut [u32],
    groups: &mut [u32],
) -> (u32, u32) {
    let mut count = 0u32;
    let mut jumps = 0u32;
    // The last entry of size 8 or more so far: a jump entry if the next one lies past its family.
    let mut last = 0;
    let mut i = 0;
    while i < order.len() {
        if size[i] as usize > LIMIT {
            jumps += (last + size[last] as usize <= i) as u32;
            kinds[order[i] as usize] = jumps;
            last = i;
            i += 1;
            continue;
        }
        let end = i + size[i] as usize;
        let at = 3 * count as usize;
        groups[at] = i as u32;
        groups[at + 1] = number(&depth[i..end]);
        groups[at + 2] = match above[i] {
            TOP => TOP,
            p => order[p as usize],
        };
        for (local, &v) in order[i..end].iter().enumerate() {
            kinds[v as usize] = MICRO + 8 * count + local as u32;
        }
        count += 1;
        i = end;
    }
    groups[3 * count as usize..].fill(0);
    (count, jumps + (size[0] as usize > LIMIT) as u32)
}

/// JUMPS: of the entries that lead to one jump entry that entry stands last.
#[allow(clippy::too_many_arguments)]
fn lay_jumps(
    order: &[u32],
    kinds: &[u32],
    depths: &[u32],
    ladpos: &[u32],
    ladders: &[u32],
    nodes: &mut [u32],
    count: u32,
    jumps: &mut [u32],
) {
    for &v in order {
        let kind = kinds[v as usize];
        if kind < MICRO {
            nodes[kind as usize] = v;
        }
    }
    let (records, rest) = jumps.split_at_mut(21 * count as usize);
    for (record, &v) in records.chunks_exact_mut(21).zip(nodes.iter()) {
        lay_record(v, depths[v as usize], ladpos, ladders, record);
    }
    rest.fill(0);
}

/// A jump entry's depth, and its ancestors 1, 2, 4, .. above, each by a ladder from the one before.
fn lay_record(v: u32, depth: u32, ladpos: &[u32], ladders: &[u32], record: &mut [u32]) {
    record.fill(0);
    record[0] = depth;
    let mut w = v;
    let mut step = 1;
    for e in 0..20 {
        if 1 << e > depth {
            break;
        }
        w = ladders[(ladpos[w as usize] - step) as usize];
        record[1 + e] = w;
        step = 1 << e;
    }
}
