//! The shapes of groups by number: by number of entries, then by the walk round the group, down before up.

/// The most entries of a group, and how many shapes groups have.
pub(crate) const GROUP_LIMIT: u32 = 7;
pub(crate) const SHAPES: u32 = 197;

/// The depths of a shape's entries in preorder, by local number; none past the last shape.
pub(crate) fn depths(shape: u32) -> Option<Vec<u32>> {
    let mut shapes = vec![vec![0]];
    let mut number = shape as usize;
    for _ in 0..GROUP_LIMIT {
        if number < shapes.len() {
            return Some(shapes.swap_remove(number));
        }
        number -= shapes.len();
        shapes = shapes.iter().flat_map(|s| one_entry_more(s)).collect();
    }
    None
}

/// The shapes with one entry more behind the last, by their order: down before up is the deeper entry first.
fn one_entry_more(shape: &[u32]) -> impl Iterator<Item = Vec<u32>> + '_ {
    let deepest = shape[shape.len() - 1] + 1;
    (1..=deepest).rev().map(|depth| {
        let mut longer = shape.to_vec();
        longer.push(depth);
        longer
    })
}

/// The local number so many climbs above another: in preorder the last one up to it of that depth. None where the climbs lead
/// out of the group.
pub(crate) fn reached(depths: &[u32], local: usize, climbs: u32) -> Option<usize> {
    let depth = depths[local].checked_sub(climbs)?;
    depths[..=local].iter().rposition(|&d| d == depth)
}

#[cfg(test)]
mod tests {
    use super::*;

    #[test]
    fn the_papers_shapes() {
        for (shape, wanted) in [
            (0, &[0][..]),
            (3, &[0, 1, 1]),
            (9, &[0, 1, 2, 3, 4]),
            (22, &[0, 1, 1, 1, 1]),
            (65, &[0, 1, 2, 3, 4, 5, 6]),
            (SHAPES - 1, &[0, 1, 1, 1, 1, 1, 1]),
        ] {
            assert_eq!(depths(shape).as_deref(), Some(wanted));
        }
        assert_eq!(depths(SHAPES), None);
        assert_eq!(depths(u32::MAX), None);
    }
}
