//! Steps 3 and 4: the ancestor at depth d of an entry that is deeper.

use super::{climbs, Step, Trace};
use crate::place::{jump_room, Place};
use crate::shape::{self, SHAPES};

/// KIND of a micro entry is this, 8 times its group, and its local number.
const MICRO_MARK: u32 = 2_147_483_648;
const LOCAL_SPAN: u32 = 8;

impl Trace<'_> {
    /// Step 3: KIND of v, whose depth is over d.
    pub(super) fn ancestor(&mut self, v: u32, depth: u32, d: u32) -> Step<u32> {
        let kind = self.read(Place::Kind(v))?;
        if kind < MICRO_MARK {
            return self.by_jump(kind, d);
        }
        let group = (kind - MICRO_MARK) / LOCAL_SPAN;
        let local = (kind - MICRO_MARK) % LOCAL_SPAN;
        let micro = format!("{MICRO_MARK} + {LOCAL_SPAN} × {group} + {local}, so micro");
        if group >= self.n {
            return self.broken(format!("{micro}: group {group} is past the end of GROUPS"));
        }
        self.say(format!("{micro}: group {group}, local number {local}"));
        self.by_shape(group, local as usize, depth, d)
    }

    /// Step 3: the shape, and whether the climbs from a local number, whose entry is at `depth`, stay in the group.
    fn by_shape(&mut self, group: u32, local: usize, depth: u32, d: u32) -> Step<u32> {
        let number = self.read(Place::Shape(group))?;
        let Some(depths) = shape::depths(number) else {
            return self.broken(format!("not a shape, 0 to {}", SHAPES - 1));
        };
        let listed: Vec<String> = depths.iter().map(u32::to_string).collect();
        let shape = format!("a group of depths {} below its root", listed.join(" "));
        let Some(&k) = depths.get(local) else {
            return self.broken(format!("{shape}, without local number {local}"));
        };
        let own = format!("{shape}: local number {local} is at {k}");
        let up = climbs(depth - d);
        match shape::reached(&depths, local, depth - d) {
            Some(reached) => {
                self.say(format!("{own}, and {up} up is local number {reached}"));
                self.within(group, reached as u32)
            }
            None => {
                self.say(format!("{own}, and {up} up is out of the group"));
                self.over(group, depth, k, d)
            }
        }
    }

    /// Step 3: the group's position, and ORDER at the local number reached.
    fn within(&mut self, group: u32, reached: u32) -> Step<u32> {
        let position = self.read(Place::Position(group))?;
        let place = u64::from(position) + u64::from(reached);
        if place >= u64::from(self.n) {
            return self.broken(format!("{position} + {reached} is past the end of ORDER"));
        }
        self.say(format!("so read ORDER at {position} + {reached}"));
        self.read_answer(Place::Order(place as u32))
    }

    /// Step 3: the parent of the group in which an entry of a depth is k deep.
    fn over(&mut self, group: u32, depth: u32, k: u32, d: u32) -> Step<u32> {
        let word = self.read(Place::Parent(group))?;
        let parent = self.entry(word)?;
        let above = depth - k - 1;
        let known = format!("at depth {depth} - {k} - 1 = {above}");
        if above == d {
            self.say(format!("{known}, so entry {parent} is the answer"));
            return Ok(parent);
        }
        let up = climbs(above - d);
        self.say(format!(
            "{known}, deeper than {d}, so go on from entry {parent}, {up} up"
        ));
        let kind = self.read(Place::Kind(parent))?;
        if kind >= MICRO_MARK {
            return self.broken("micro, and a group's parent is not".to_string());
        }
        self.by_jump(kind, d)
    }

    /// Step 4: the jump entry that KIND names, and the jump from it.
    fn by_jump(&mut self, jump: u32, d: u32) -> Step<u32> {
        if jump >= jump_room(self.n) {
            return self.broken(format!(
                "not micro: jump entry {jump} is past the end of JUMPS"
            ));
        }
        self.say(format!(
            "not micro, so go on from its jump entry, number {jump}"
        ));
        let depth = self.read_depth(Place::JumpDepth(jump))?;
        if depth <= d {
            return self.broken(format!("not deeper than {d}"));
        }
        let up = depth - d;
        let exponent = up.ilog2();
        self.say(format!(
            "from there {depth} - {d} = {} up, and 2^{exponent} is the largest power of two not above {up}",
            climbs(up)
        ));
        let word = self.read(Place::Ancestor { jump, exponent })?;
        let ancestor = self.entry(word)?;
        let missing = up - (1 << exponent);
        self.say(format!(
            "so go on from entry {ancestor}, {up} - 2^{exponent} = {} still missing",
            climbs(missing)
        ));
        self.by_ladder(ancestor, missing)
    }

    /// Step 4: the ladder of an entry, at its index less the climbs still missing.
    fn by_ladder(&mut self, entry: u32, missing: u32) -> Step<u32> {
        let index = self.read(Place::Ladpos(entry))?;
        if index < missing {
            return self.broken(format!("{index} - {missing} is below 0"));
        }
        let at = index - missing;
        let called = format!("LADDERS at {index} less {missing}");
        if u64::from(at) >= 2 * u64::from(self.n) {
            return self.broken(format!("{index} - {missing} is past the end of LADDERS"));
        }
        self.say(format!("so read {called}"));
        let answer = self.read_answer(Place::Ladders(at));
        self.call(called);
        answer
    }
}
