//! Times the proved code beside the same work by hand, a plain climb and binary lifting, and writes what it measured
//! as a page and a plot.

mod page;
mod pairs;
mod plot;
mod sheets;
mod work;

use reference::trees;
use work::Row;

/// The entries of the trees that are timed.
const SIZES: [usize; 4] = [10_000, 100_000, 600_000, 1_048_576];

fn main() -> std::io::Result<()> {
    let args: Vec<String> = std::env::args().skip(1).collect();
    let quick = args.iter().any(|a| a == "--quick");
    let folder = args.iter().find(|a| !a.starts_with("--"));
    let sizes: &[usize] = if quick { &SIZES[..2] } else { &SIZES };
    let mut rows: Vec<Row> = Vec::new();
    for &n in sizes {
        for (kind, name) in trees::KINDS.iter().enumerate() {
            let row = work::time(n, kind, name);
            println!("{}", page::line(&row));
            rows.push(row);
        }
    }
    let mut pairs: Vec<pairs::Row> = Vec::new();
    for &n in sizes {
        for kind in 0..pairs::KINDS {
            for row in pairs::time(n, kind) {
                println!("{}", page::pair_line(&row));
                pairs.push(row);
            }
        }
    }
    println!("{} {}", page::summary(&rows), page::pair_summary(&pairs));
    if let Some(folder) = folder {
        let folder = std::path::Path::new(folder);
        std::fs::write(folder.join("benchmark.svg"), plot::plot(&rows))?;
        std::fs::write(folder.join("BENCHMARK.md"), page::page(&rows, &pairs))?;
    }
    Ok(())
}
