//! The check of a sheet by counting bands, amount by amount: slow, plain, and apart from the check that is timed.

/// A field as the counter program reads a number.
fn number(field: &str) -> Option<u64> {
    let digits = (1..=10).contains(&field.len()) && field.chars().all(|c| c.is_ascii_digit());
    let value = field.parse().ok()?;
    (digits && value <= 4_294_967_295).then_some(value)
}

/// Class, from, to and rate of a line, with its line feed.
fn line(bytes: &[u8]) -> Option<[u64; 4]> {
    let text = std::str::from_utf8(bytes).ok()?.strip_suffix('\n')?;
    let numbers: Option<Vec<u64>> = text.split(',').map(number).collect();
    numbers?.try_into().ok()
}

/// Number, word and amount of the check of a sheet of level d, by the depths of all entries. How many bands hold an amount
/// changes only where one begins, or behind its end, so no other amount can be the lowest at fault.
pub fn counted(depths: &[u32], text: &[u8], d: u32) -> (u32, u32, u32) {
    let covered = |class: u64| depths.get(class as usize).is_some_and(|&depth| depth <= d);
    let mut bands = Vec::new();
    for (i, bytes) in text.split_inclusive(|&b| b == b'\n').enumerate() {
        match line(bytes) {
            Some([class, from, to, rate])
                if i < 4_096
                    && covered(class)
                    && from <= to
                    && to <= 2_000_000_000
                    && rate <= 1_000_000 =>
            {
                bands.push((class, from, to));
            }
            _ => return (13, i as u32 + 1, 0),
        }
    }
    for class in (0..depths.len() as u64).filter(|&c| covered(c)) {
        let own = bands.iter().filter(|b| b.0 == class);
        let mut amounts: Vec<u64> = own.clone().flat_map(|b| [b.1, b.2 + 1]).collect();
        amounts.push(0);
        amounts.retain(|&a| a <= 2_000_000_000);
        amounts.sort();
        for a in amounts {
            match own.clone().filter(|b| b.1 <= a && a <= b.2).count() {
                0 => return (14, class as u32, a as u32),
                1 => {}
                _ => return (15, class as u32, a as u32),
            }
        }
    }
    (0, bands.len() as u32, 0)
}
