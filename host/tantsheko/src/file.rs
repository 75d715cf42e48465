//! Table files: a header of 24 bytes (magic, version, n, checksum), then the table's words, all little-endian.

use crate::table::{table_words, Table, MOST_ENTRIES};
use std::fs::{self, File};
use std::io::{self, BufWriter, Write};
use std::path::{Path, PathBuf};

const MAGIC: &[u8; 8] = b"TANTSHEK";
/// Version 1 had groups of up to five entries; since version 2 they have up to seven.
const VERSION: u32 = 2;
const HEADER: usize = 24;

/// A sum over the words in which no change of one word can hide: each step is one to one in the sum and in the word.
fn checksum(words: &[u32]) -> u64 {
    words.iter().fold(0xCBF2_9CE4_8422_2325, |sum: u64, &w| {
        (sum ^ u64::from(w))
            .wrapping_mul(0x0000_0100_0000_01B3)
            .rotate_left(23)
    })
}

/// Removes a file when it goes out of scope, unless it was renamed before.
struct Unfinished {
    path: PathBuf,
    done: bool,
}

impl Drop for Unfinished {
    fn drop(&mut self) {
        if !self.done {
            let _ = fs::remove_file(&self.path);
        }
    }
}

/// Writes a table: to a new file beside the named one, which then takes its name, so that no half-written table is
/// ever there. `progress` is told the share that is written, from 0 to 1.
pub fn write(path: &Path, table: &Table, progress: &mut dyn FnMut(f64)) -> io::Result<()> {
    let mut name = path.as_os_str().to_owned();
    name.push(format!(".{}.part", std::process::id()));
    let mut part = Unfinished {
        path: PathBuf::from(name),
        done: false,
    };
    let mut out = BufWriter::with_capacity(1 << 20, File::create(&part.path)?);
    out.write_all(MAGIC)?;
    out.write_all(&VERSION.to_le_bytes())?;
    out.write_all(&table.entries().to_le_bytes())?;
    out.write_all(&checksum(table.words()).to_le_bytes())?;
    let total = table.words().len();
    let mut bytes = Vec::with_capacity(4 << 16);
    for (i, words) in table.words().chunks(1 << 16).enumerate() {
        bytes.clear();
        for w in words {
            bytes.extend_from_slice(&w.to_le_bytes());
        }
        out.write_all(&bytes)?;
        progress(((i << 16) + words.len()) as f64 / total as f64);
    }
    out.flush()?;
    out.get_ref().sync_all()?;
    drop(out);
    fs::rename(&part.path, path)?;
    part.done = true;
    Ok(())
}

/// Reads a table that `write` wrote. What is wrong with the file is said in words.
pub fn read(path: &Path) -> Result<Table, String> {
    let bytes = fs::read(path).map_err(|e| format!("cannot be read: {}", reason(&e)))?;
    if bytes.len() < HEADER || &bytes[..8] != MAGIC {
        return Err("is not a prepared table: make one with `tantsheko prepare`".to_string());
    }
    let word = |at: usize| u32::from_le_bytes(bytes[at..at + 4].try_into().unwrap());
    let version = word(8);
    if version != VERSION {
        return Err(format!(
            "is a table of version {version}, and this program reads version {VERSION}: prepare it again"
        ));
    }
    let n = word(12);
    let length = if n as usize <= MOST_ENTRIES {
        table_words(n)
    } else {
        0
    };
    if (bytes.len() - HEADER) as u64 != 4 * length || n == 0 {
        return Err("is damaged: its length is not that of a table; prepare it again".to_string());
    }
    let words: Vec<u32> = bytes[HEADER..]
        .chunks_exact(4)
        .map(|b| u32::from_le_bytes(b.try_into().unwrap()))
        .collect();
    let sum = u64::from_le_bytes(bytes[16..24].try_into().unwrap());
    let table = Table::from_words(words);
    if sum != checksum(table.words()) || table.entries() != n {
        return Err("is damaged: its checksum is wrong; prepare it again".to_string());
    }
    Ok(table)
}

/// Why the system refused, without its number.
pub fn reason(e: &io::Error) -> String {
    match e.kind() {
        io::ErrorKind::NotFound => "there is no such file or folder".to_string(),
        io::ErrorKind::PermissionDenied => "permission denied".to_string(),
        io::ErrorKind::InvalidData => "it is not text in UTF-8".to_string(),
        _ => {
            let text = e.to_string();
            text.split(" (os error").next().unwrap_or("").to_lowercase()
        }
    }
}
