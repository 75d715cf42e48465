//! Steps 1 and 2: the depth of the entry, against what is asked of it.

use super::{climbs, Step, Trace};
use crate::place::Place;
use crate::refusal::Refusal;

impl Trace<'_> {
    /// The class of v at depth d.
    pub(super) fn class(&mut self, v: u32, d: u32) -> Step<u32> {
        let depth = self.depth_of(v)?;
        if depth < d {
            let follows = format!("less deep than {d}, so it has no class there");
            return self.refuse(Refusal::TooDeep(v), follows);
        }
        self.at_or_below(v, depth, d)
    }

    /// The entry k climbs above v.
    pub(super) fn climb(&mut self, v: u32, k: u32) -> Step<u32> {
        let depth = self.depth_of(v)?;
        if depth < k {
            let follows = format!("less than {k}, so climbing {k} up leads past the top");
            return self.refuse(Refusal::TooDeep(v), follows);
        }
        if k == 0 {
            self.say(format!("0 climbs are asked, so entry {v} is the answer"));
            return Ok(v);
        }
        let d = depth - k;
        let up = climbs(k);
        self.say(format!("{up} up is depth {depth} - {k} = {d}, so go on"));
        self.ancestor(v, depth, d)
    }

    /// The class of v at rating level d, or v itself where it is less deep.
    pub(super) fn rating(&mut self, v: u32, d: u32) -> Step<u32> {
        let depth = self.depth_of(v)?;
        if depth < d {
            self.say(format!(
                "less deep than {d}, so its own class: entry {v} is the answer"
            ));
            return Ok(v);
        }
        self.at_or_below(v, depth, d)
    }

    /// Step 1, and DEPTH of v.
    fn depth_of(&mut self, v: u32) -> Step<u32> {
        self.opened(&[v])?;
        self.read_depth(Place::Depth(v))
    }

    /// The class at depth d of an entry that is not less deep.
    fn at_or_below(&mut self, v: u32, depth: u32, d: u32) -> Step<u32> {
        if depth == d {
            self.say(format!("the depth asked, so entry {v} is the answer"));
            return Ok(v);
        }
        let up = climbs(depth - d);
        self.say(format!("deeper than {d}, so go on, {up} up"));
        self.ancestor(v, depth, d)
    }
}
