//! Sheets with bands: a sheet is read once, sorted, and swept beside the entries that it is to cover; a quotation finds
//! its band by binary search.

use crate::premium::{at_rate, priced, size, Quote, MOST_RATE, MOST_SUM};
use crate::questions::{Opened, Refusal, BROKEN};

/// The most lines of a sheet.
const MOST_LINES: usize = 4_096;

/// Why a sheet, or a premium by it, is refused: the number, what it names, and the amount of 14 and 15, 0 else.
#[derive(Clone, Copy, Debug, PartialEq, Eq)]
pub struct Fault {
    pub number: u32,
    pub word: u32,
    pub amount: u32,
}

impl From<Refusal> for Fault {
    fn from((number, word): Refusal) -> Fault {
        Fault {
            number,
            word,
            amount: 0,
        }
    }
}

fn gap(class: u32, amount: u32) -> Fault {
    Fault {
        number: 14,
        word: class,
        amount,
    }
}

fn overlap(class: u32, amount: u32) -> Fault {
    Fault {
        number: 15,
        word: class,
        amount,
    }
}

/// A line of a sheet.
#[derive(Clone, Copy)]
struct Band {
    class: u32,
    from: u32,
    to: u32,
    rate: u32,
}

/// Bands and amounts in order: by class, then by amount.
fn key(class: u32, amount: u32) -> u64 {
    u64::from(class) << 32 | u64::from(amount)
}

/// A number at the start of a text that ends in the stated byte, and what follows it.
fn number(text: &[u8], end: u8) -> Option<(u32, &[u8])> {
    let mut value = 0u64;
    for (i, &b) in text.iter().enumerate().take(11) {
        match b {
            b'0'..=b'9' if i < 10 => value = 10 * value + u64::from(b - b'0'),
            _ if b == end && i > 0 => return Some((value.try_into().ok()?, &text[i + 1..])),
            _ => return None,
        }
    }
    None
}

/// The first line of a text, and the lines after it.
fn band(text: &[u8]) -> Option<(Band, &[u8])> {
    let (class, rest) = number(text, b',')?;
    let (from, rest) = number(rest, b',')?;
    let (to, rest) = number(rest, b',')?;
    let (rate, rest) = number(rest, b'\n')?;
    let band = Band {
        class,
        from,
        to,
        rate,
    };
    Some((band, rest))
}

/// The bands of a text, or 13.
fn read(text: &[u8], depths: &[u32], d: u32) -> Result<Vec<Band>, Fault> {
    let legal = |b: &Band| {
        depths
            .get(b.class as usize)
            .is_some_and(|&depth| depth <= d)
            && b.from <= b.to
            && b.to <= MOST_SUM
            && b.rate <= MOST_RATE
    };
    let mut bands = Vec::with_capacity(MOST_LINES);
    let mut rest = text;
    while !rest.is_empty() {
        match band(rest) {
            Some((b, after)) if bands.len() < MOST_LINES && legal(&b) => {
                bands.push(b);
                rest = after;
            }
            _ => return Err((13, bands.len() as u32 + 1).into()),
        }
    }
    Ok(bands)
}

/// That the bands of a class, in order, hold each amount once.
fn whole(class: u32, bands: &[Band]) -> Result<(), Fault> {
    let mut next = 0;
    for b in bands {
        if b.from < next {
            return Err(overlap(class, b.from));
        }
        if b.from > next {
            return Err(gap(class, next));
        }
        next = b.to + 1;
    }
    if next <= MOST_SUM {
        return Err(gap(class, next));
    }
    Ok(())
}

/// The same of every entry of depth d or less; the bands are all of such classes.
fn sweep(bands: &[Band], depths: &[u32], d: u32) -> Result<(), Fault> {
    let mut rest = bands;
    for (class, _) in (0..).zip(depths).filter(|(_, &depth)| depth <= d) {
        let own = rest.iter().take_while(|b| b.class == class).count();
        let (of_class, after) = rest.split_at(own);
        whole(class, of_class)?;
        rest = after;
    }
    Ok(())
}

/// An accepted sheet.
pub struct Sheet {
    level: u32,
    /// Class and lower end of each band, in order.
    keys: Vec<u64>,
    /// Its upper end and its rate.
    ends: Vec<(u32, u32)>,
}

/// Checks a sheet of rating level d.
#[inline(never)]
pub fn sheet(table: &[u32], text: &[u8], d: u32) -> Result<Sheet, Fault> {
    let sections = Opened::new(table).ok_or(BROKEN)?.s;
    let depths = &table[sections.depth()..][..sections.n];
    let mut bands = read(text, depths, d)?;
    bands.sort_unstable_by_key(|b| key(b.class, b.from));
    sweep(&bands, depths, d)?;
    Ok(Sheet {
        level: d,
        keys: bands.iter().map(|b| key(b.class, b.from)).collect(),
        ends: bands.iter().map(|b| (b.to, b.rate)).collect(),
    })
}

impl Sheet {
    /// How many lines it has.
    pub fn lines(&self) -> u32 {
        self.keys.len() as u32
    }

    /// The rate of the band of a class that holds an amount.
    fn rate(&self, class: u32, amount: u32) -> Option<u32> {
        let wanted = key(class, amount);
        let after = self.keys.partition_point(|&k| k <= wanted);
        let at = after.checked_sub(1)?;
        let (to, rate) = self.ends[at];
        (self.keys[at] >> 32 == wanted >> 32 && amount <= to).then_some(rate)
    }

    fn cents(&self, class: u32, sum: i64) -> Result<i64, Fault> {
        let size = size(sum)?;
        let rate = self.rate(class, size).ok_or(gap(class, size))?;
        Ok(at_rate(sum, rate))
    }

    /// The premium of a sum for v, at the level that the sheet was checked for.
    #[inline(never)]
    pub fn quote(&self, table: &[u32], v: u32, sum: i64) -> Quote {
        priced(table, v, self.level, |class| self.cents(class, sum))
    }
}

/// The premium of a sum for v at rating level d, by a sheet as text.
#[inline(never)]
pub fn price(table: &[u32], text: &[u8], v: u32, d: u32, sum: i64) -> Quote {
    priced(table, v, d, |class| {
        sheet(table, text, d)?.cents(class, sum)
    })
}
