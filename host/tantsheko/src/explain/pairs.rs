//! The questions of two entries: whether one is at or above the other, and the child on the way.

use super::{End, Step, Trace};
use crate::place::Place;
use crate::refusal::Refusal;

impl Trace<'_> {
    /// Whether u is at or above v: 1 or 0.
    pub(super) fn above(&mut self, u: u32, v: u32) -> Step<u32> {
        let among = self.among(u, v)?;
        self.say(if among {
            format!("among them, so entry {u} is at or above entry {v}")
        } else {
            format!("not among them, so entry {u} is not at or above entry {v}")
        });
        Ok(among.into())
    }

    /// The child of u on the way to v.
    pub(super) fn branch(&mut self, u: u32, v: u32) -> Step<u32> {
        let among = self.among(u, v)?;
        if u == v {
            let why = format!("entry {u} is not above itself");
            return self.refuse(Refusal::NotAbove(u), why);
        }
        if !among {
            let why = format!("not among them, so entry {u} is not above entry {v}");
            return self.refuse(Refusal::NotAbove(u), why);
        }
        self.say(format!(
            "among them, so entry {u} is above entry {v}: go on"
        ));
        let d = self.read_depth(Place::Depth(u))? + 1;
        self.say(format!(
            "so the child is the class of entry {v} at depth {d}, which is looked up from cell 0 on"
        ));
        match self.class(v, d) {
            Err(End::Refused(Refusal::TooDeep(_))) => {
                self.broken(format!("less deep than {d}, though below entry {u}"))
            }
            other => other,
        }
    }

    /// Whether v's position is among those of u and all below it. What follows from the last word is the caller's to say.
    fn among(&mut self, u: u32, v: u32) -> Step<bool> {
        self.opened(&[u, v])?;
        let first = self.read(Place::Pre(u))?;
        self.say(format!(
            "entry {u} and all below it start at position {first}"
        ));
        let size = self.read(Place::Size(u))?;
        let end = u64::from(first) + u64::from(size);
        self.say(match size {
            0 => "so they have no position".to_string(),
            _ => format!("so they have positions {first} to {}", end - 1),
        });
        let position = self.read(Place::Pre(v))?;
        Ok(first <= position && u64::from(position) < end)
    }
}
