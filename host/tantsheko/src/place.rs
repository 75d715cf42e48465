//! What a cell of a prepared table is, by its number and the table's number of entries alone.

use crate::shape::GROUP_LIMIT;
use std::fmt;

/// The cells of a jump entry in JUMPS: its depth, and an ancestor for each of 20 exponents.
const RECORD_CELLS: u64 = 21;

/// A cell by its section, and whose it is there.
#[derive(Clone, Copy, Debug, PartialEq, Eq)]
pub enum Place {
    /// Cell 0.
    Entries,
    /// Cell 1.
    JumpEntries,
    /// Cell 2.
    Groups,
    /// Cell 3.
    LongPaths,
    /// DEPTH of an entry.
    Depth(u32),
    /// KIND of an entry.
    Kind(u32),
    /// LADPOS of an entry.
    Ladpos(u32),
    /// ORDER at a preorder position.
    Order(u32),
    /// PRE of an entry.
    Pre(u32),
    /// SIZE of an entry.
    Size(u32),
    /// LADDERS at an index from the section's start.
    Ladders(u32),
    /// In GROUPS, the position of a group's root.
    Position(u32),
    /// In GROUPS, the shape of a group.
    Shape(u32),
    /// In GROUPS, the parent of a group's root.
    Parent(u32),
    /// In JUMPS, the depth of a jump entry.
    JumpDepth(u32),
    /// In JUMPS, the ancestor 2^exponent above a jump entry.
    Ancestor { jump: u32, exponent: u32 },
}

/// The sections with a cell for each entry or position, in the table's order.
const BY_ENTRY: [fn(u32) -> Place; 6] = [
    Place::Depth,
    Place::Kind,
    Place::Ladpos,
    Place::Order,
    Place::Pre,
    Place::Size,
];

/// How many jump entries JUMPS has room for.
pub(crate) fn jump_room(n: u32) -> u32 {
    n / (GROUP_LIMIT + 1)
}

impl Place {
    /// The place of a cell in a table of n entries; none past the table's end.
    pub fn of(n: u32, cell: u32) -> Option<Place> {
        let header = [
            Place::Entries,
            Place::JumpEntries,
            Place::Groups,
            Place::LongPaths,
        ];
        if let Some(&place) = header.get(cell as usize) {
            return Some(place);
        }
        let entries = u64::from(n);
        let mut at = u64::from(cell) - header.len() as u64;
        for place in BY_ENTRY {
            if at < entries {
                return Some(place(at as u32));
            }
            at -= entries;
        }
        if at < 2 * entries {
            return Some(Place::Ladders(at as u32));
        }
        at -= 2 * entries;
        if at < 3 * entries {
            return Some(Place::in_groups(at));
        }
        at -= 3 * entries;
        let room = RECORD_CELLS * u64::from(jump_room(n));
        (at < room).then(|| Place::in_jumps(at))
    }

    fn in_groups(at: u64) -> Place {
        let group = (at / 3) as u32;
        match at % 3 {
            0 => Place::Position(group),
            1 => Place::Shape(group),
            _ => Place::Parent(group),
        }
    }

    fn in_jumps(at: u64) -> Place {
        let jump = (at / RECORD_CELLS) as u32;
        match (at % RECORD_CELLS) as u32 {
            0 => Place::JumpDepth(jump),
            behind => Place::Ancestor {
                jump,
                exponent: behind - 1,
            },
        }
    }
}

impl fmt::Display for Place {
    fn fmt(&self, f: &mut fmt::Formatter<'_>) -> fmt::Result {
        match *self {
            Place::Entries => write!(f, "number of entries"),
            Place::JumpEntries => write!(f, "number of jump entries"),
            Place::Groups => write!(f, "number of groups"),
            Place::LongPaths => write!(f, "number of long paths"),
            Place::Depth(v) => write!(f, "DEPTH of entry {v}"),
            Place::Kind(v) => write!(f, "KIND of entry {v}"),
            Place::Ladpos(v) => write!(f, "LADPOS of entry {v}"),
            Place::Order(i) => write!(f, "ORDER at {i}"),
            Place::Pre(v) => write!(f, "PRE of entry {v}"),
            Place::Size(v) => write!(f, "SIZE of entry {v}"),
            Place::Ladders(i) => write!(f, "LADDERS at {i}"),
            Place::Position(g) => write!(f, "position of group {g}"),
            Place::Shape(g) => write!(f, "shape of group {g}"),
            Place::Parent(g) => write!(f, "parent of group {g}"),
            Place::JumpDepth(j) => write!(f, "depth of jump entry {j}"),
            Place::Ancestor { jump, exponent } => {
                write!(f, "ancestor 2^{exponent} above jump entry {jump}")
            }
        }
    }
}
