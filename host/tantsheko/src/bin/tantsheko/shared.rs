//! What two entries share.

use crate::one::refused;
use crate::{number, open, say, Done, Stop};
use tantsheko::{Question, Refusal, Table};

/// The class that two entries share, and the climbs between them through it.
fn class_and_climbs(table: &Table, u: u32, v: u32) -> Result<(u32, u32), Refusal> {
    let class = table.nearest_common_ancestor(u, v).result()?;
    Ok((class, table.distance(u, v).result()?))
}

pub fn shared(args: &[String]) -> Done {
    let [path, first, second] = args else {
        return Err(Stop::Usage("shared takes TABLE ENTRY ENTRY".to_string()));
    };
    let (u, v) = (number(first, "ENTRY")?, number(second, "ENTRY")?);
    let table = open(path)?;
    match class_and_climbs(&table, u, v) {
        Ok((class, climbs)) => say(&format!("{class},{climbs}\n")),
        Err(refusal) => Err(Stop::Fault(refused(
            &table,
            Question::Shared,
            u,
            v,
            refusal,
        ))),
    }
}
