//! Lines on standard input, each with an answer on standard output.

use crate::{Done, Stop};
use std::io::{BufRead, BufReader, BufWriter, Write};
use tantsheko::file;

/// Appends a number in decimal.
pub fn put(out: &mut Vec<u8>, x: u64) {
    let mut digits = [0u8; 20];
    let mut at = digits.len();
    let mut rest = x;
    loop {
        at -= 1;
        digits[at] = b'0' + (rest % 10) as u8;
        rest /= 10;
        if rest == 0 {
            break;
        }
    }
    out.extend_from_slice(&digits[at..]);
}

/// A field that is a number of 32 bits.
pub fn number(field: &[u8]) -> Option<u32> {
    if field.is_empty() || field.len() > 10 {
        return None;
    }
    let mut value = 0u64;
    for &b in field {
        if !b.is_ascii_digit() {
            return None;
        }
        value = 10 * value + u64::from(b - b'0');
    }
    u32::try_from(value).ok()
}

/// Puts behind each line what `answer` appends for it. A line for which it has none ends the stream, after the answers
/// before it; `wanted` says what the line is not, and what to write.
pub fn stream(wanted: &str, answer: impl Fn(&[u8], &mut Vec<u8>) -> Option<()>) -> Done {
    let mut input = BufReader::with_capacity(1 << 18, std::io::stdin().lock());
    let mut output = BufWriter::with_capacity(1 << 18, std::io::stdout().lock());
    let mut line = Vec::new();
    let mut text = Vec::new();
    let mut at = 0u64;
    loop {
        line.clear();
        let read = input.read_until(b'\n', &mut line).map_err(|e| {
            Stop::Fault(format!(
                "standard input cannot be read: {}",
                file::reason(&e)
            ))
        })?;
        if read == 0 {
            break;
        }
        at += 1;
        let end = line
            .iter()
            .rposition(|&b| b != b'\n' && b != b'\r')
            .map_or(0, |i| i + 1);
        let question = &line[..end];
        text.clear();
        text.extend_from_slice(question);
        if answer(question, &mut text).is_none() {
            output.flush()?;
            let shown: String = String::from_utf8_lossy(question).chars().take(40).collect();
            return Err(Stop::Fault(format!("line {at}: `{shown}` is not {wanted}")));
        }
        text.push(b'\n');
        output.write_all(&text)?;
    }
    output.flush()?;
    Ok(())
}
