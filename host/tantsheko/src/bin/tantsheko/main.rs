//! The command: prepares tables from lists, and answers questions from them.

mod batch;
mod changes;
mod explain;
mod help;
mod one;
mod premiums;
mod prepare;
mod prices;
mod quotes;
mod shared;
mod sheets;
mod stream;

use std::io::Write;
use std::path::Path;
use std::process::ExitCode;
use tantsheko::{file, Question, Table};

/// Why a command stops: what it says on standard error, and its status.
pub enum Stop {
    /// The call itself is wrong: status 2.
    Usage(String),
    /// What the call names is wrong, or the answer is a refusal: status 1.
    Fault(String),
    /// Whoever read the output has left.
    Closed,
}

impl From<std::io::Error> for Stop {
    fn from(e: std::io::Error) -> Stop {
        match e.kind() {
            std::io::ErrorKind::BrokenPipe => Stop::Closed,
            _ => Stop::Fault(format!(
                "the output cannot be written: {}",
                file::reason(&e)
            )),
        }
    }
}

pub type Done = Result<(), Stop>;

/// Writes a text to standard output.
pub fn say(text: &str) -> Done {
    std::io::stdout().write_all(text.as_bytes())?;
    Ok(())
}

/// Writes a line to standard error. Where nobody takes it, the work goes on.
pub fn note(text: &str) {
    let _ = writeln!(std::io::stderr(), "{text}");
}

/// A table from its file.
pub fn open(path: &str) -> Result<Table, Stop> {
    file::read(Path::new(path)).map_err(|e| Stop::Fault(format!("{path} {e}")))
}

/// Why there is nothing from a file.
fn unread(path: &str, e: std::io::Error) -> Stop {
    Stop::Fault(format!("{path} cannot be read: {}", file::reason(&e)))
}

/// The bytes of a file.
pub fn bytes_of(path: &str) -> Result<Vec<u8>, Stop> {
    std::fs::read(path).map_err(|e| unread(path, e))
}

/// A text from its file, without the mark that some editors put first.
pub fn text_of(path: &str) -> Result<String, Stop> {
    let text = std::fs::read_to_string(path).map_err(|e| unread(path, e))?;
    match text.strip_prefix('\u{feff}') {
        Some(rest) => Ok(rest.to_string()),
        None => Ok(text),
    }
}

/// A number of 32 bits.
pub fn number(word: &str, what: &str) -> Result<u32, Stop> {
    let digits = !word.is_empty() && word.bytes().all(|b| b.is_ascii_digit());
    match word.parse() {
        Ok(x) if digits => Ok(x),
        _ => Err(Stop::Usage(format!(
            "{what} is a whole number from 0 to 4294967295, and not `{word}`"
        ))),
    }
}

fn run(args: &[String]) -> Done {
    let Some(command) = args.first() else {
        return Err(Stop::Usage("a command is missing".to_string()));
    };
    let rest = &args[1..];
    if command == "help" || command == "--help" || command == "-h" {
        return say(&help::of(rest.first().map_or("", String::as_str)));
    }
    let unknown = || Stop::Usage(format!("there is no command `{command}`"));
    let mut commands = help::COMMANDS.iter();
    let known = commands.find(|c| c.0 == command).ok_or_else(unknown)?;
    if rest.iter().any(|a| a == "--help" || a == "-h") {
        return say(&help::of(command));
    }
    let takes = |option: &str| option == "--cells" && known.1.contains(option);
    if let Some(other) = rest.iter().find(|a| a.starts_with("--") && !takes(a)) {
        return Err(Stop::Usage(format!("{command} has no option `{other}`")));
    }
    match command.as_str() {
        "prepare" => prepare::prepare(rest),
        "check" => prepare::check(rest),
        "batch" => batch::batch(rest),
        "explain" => explain::explain(rest),
        "shared" => shared::shared(rest),
        "changes" => changes::changes(rest),
        "pricelist" => prices::pricelist(rest),
        "premium" => premiums::premium(rest),
        "premiums" => premiums::premiums(rest),
        "sheet" => sheets::sheet(rest),
        "quote" => sheets::quote(rest),
        "quotes" => sheets::quotes(rest),
        name => one::one(Question::named(name.as_bytes()).ok_or_else(unknown)?, rest),
    }
}

fn main() -> ExitCode {
    let args: Vec<String> = std::env::args().skip(1).collect();
    let done = run(&args).and_then(|()| std::io::stdout().flush().map_err(Stop::from));
    match done {
        Ok(()) => ExitCode::SUCCESS,
        Err(Stop::Closed) => ExitCode::from(1),
        Err(Stop::Fault(text)) => {
            note(&format!("tantsheko: {text}"));
            ExitCode::from(1)
        }
        Err(Stop::Usage(text)) => {
            let about = match args.first() {
                Some(c) if help::COMMANDS.iter().any(|k| k.0 == c) => format!("{c} --help"),
                _ => "--help".to_string(),
            };
            note(&format!("tantsheko: {text}; see `tantsheko {about}`"));
            ExitCode::from(2)
        }
    }
}
