//! The command line.

use std::ffi::{OsStr, OsString};
use std::path::PathBuf;
use std::thread;

use crate::finding::PIPED;
use crate::help;
use crate::look::{Task, Which};
use crate::report::Format;
use crate::words;

pub enum Command {
    Help(&'static str),
    Version,
    /// One number, or all of them.
    Explain(Option<u8>),
    Run(Options),
}

/// Which findings are shown.
#[derive(Clone, Copy, PartialEq, Eq, Debug)]
pub enum Shown {
    All,
    /// What was filed, and what is wrong.
    Changes,
    Wrong,
}

pub struct Options {
    pub paths: Vec<PathBuf>,
    pub task: Task,
    pub threads: usize,
    pub format: Format,
    pub shown: Shown,
    pub is_quiet: bool,
    pub fails_on_cannot: bool,
}

impl Options {
    /// Whether the one job is on standard input.
    pub fn is_piped(&self) -> bool {
        self.paths.iter().any(|path| path.as_os_str() == PIPED)
    }
}

/// Reads the words behind the program's name. `Err` says what is wrong with them.
pub fn command(words: impl IntoIterator<Item = OsString>) -> Result<Command, String> {
    let mut words = words.into_iter();
    let Some(name) = words.next() else { return Err("which command? `floors --help` lists them".into()) };
    match name.to_str() {
        Some(name @ "status") => run(name, words, Shown::All, Which::None),
        Some(name @ "plan") => run(name, words, Shown::Changes, Which::Missing),
        Some(name @ "check") => run(name, words, Shown::Wrong, Which::None),
        Some("explain") => explain(words),
        Some("help" | "-h" | "--help") => help_for(words),
        Some("--version") if words.next().is_none() => Ok(Command::Version),
        Some("--version") => Err("--version stands alone".into()),
        _ => Err(format!("there is no command {name:?}; `floors --help` lists them")),
    }
}

/// Help for all commands, or for the one that is named.
fn help_for(words: impl Iterator<Item = OsString>) -> Result<Command, String> {
    match words.collect::<Vec<_>>().as_slice() {
        [] => Ok(Command::Help(help::ALL)),
        [name] => match name.to_str().and_then(help::of) {
            Some(text) => Ok(Command::Help(text)),
            None => Err(format!("there is no command {name:?}; `floors --help` lists them")),
        },
        _ => Err("help is for one command".into()),
    }
}

fn explain(words: impl Iterator<Item = OsString>) -> Result<Command, String> {
    let words: Vec<OsString> = words.collect();
    if words.iter().any(is_help) {
        return help_for([OsString::from("explain")].into_iter());
    }
    let number = match words.as_slice() {
        [] => return Ok(Command::Explain(None)),
        [number] => number.to_str().and_then(|number| number.parse().ok()),
        _ => return Err("`floors explain` takes one number".into()),
    };
    match number.filter(|&number| words::of(number).is_some()) {
        Some(number) => Ok(Command::Explain(Some(number))),
        None => {
            Err(format!("{:?} is no number of the library's; those are 0 to {}", words[0], words::NUMBERS.len() - 1))
        }
    }
}

fn run(name: &str, mut words: impl Iterator<Item = OsString>, shown: Shown, which: Which) -> Result<Command, String> {
    let mut options = Options {
        paths: Vec::new(),
        task: Task { which, is_dry: false },
        threads: thread::available_parallelism().map_or(1, usize::from),
        format: Format::Tty,
        shown,
        is_quiet: false,
        fails_on_cannot: false,
    };
    while let Some(word) = words.next() {
        if is_help(&word) {
            return help_for([OsString::from(name)].into_iter());
        } else if word == "--" {
            options.paths.extend(words.by_ref().map(PathBuf::from));
        } else if word == PIPED || !word.as_encoded_bytes().starts_with(b"-") {
            options.paths.push(PathBuf::from(word));
        } else {
            let fault = |what| format!("{what}; `floors {name} --help` lists what there is");
            option(&word, &mut words, &mut options).map_err(fault)?;
        }
    }
    if options.is_piped() && options.paths.len() > 1 {
        return Err("- stands alone: one job on standard input".into());
    }
    if options.paths.is_empty() {
        options.paths.push(PathBuf::from("."));
    }
    Ok(Command::Run(options))
}

fn is_help(word: &OsString) -> bool {
    word == "-h" || word == "--help"
}

fn option(word: &OsStr, words: &mut impl Iterator<Item = OsString>, options: &mut Options) -> Result<(), String> {
    let unknown = || format!("there is no option {word:?}");
    let (name, joined) = parts(word.to_str().ok_or_else(unknown)?);
    let mut value = || {
        let value = joined.map(OsString::from).or_else(|| words.next());
        value.and_then(|value| value.into_string().ok()).ok_or_else(|| format!("{name} takes a value"))
    };
    match name {
        "-j" | "--jobs" => options.threads = threads(&value()?)?,
        "--format" => options.format = format(&value()?)?,
        "--fail-on" => options.fails_on_cannot = fails_on(&value()?)?,
        _ if joined.is_some() => return Err(unknown()),
        "-q" | "--quiet" => options.is_quiet = true,
        "--again" if is_plan(options) => options.task.which = options.task.which.max(Which::Wrong),
        "--force" if is_plan(options) => options.task.which = Which::All,
        "--dry-run" if is_plan(options) => options.task.is_dry = true,
        _ => return Err(unknown()),
    }
    Ok(())
}

/// An option's name and the value that is joined to it, as in `--jobs=4` and `-j4`.
fn parts(word: &str) -> (&str, Option<&str>) {
    match word.split_once('=') {
        Some((name, value)) if name.starts_with("--") => (name, Some(value)),
        _ => match word.strip_prefix("-j") {
            Some(value) if !value.is_empty() => ("-j", Some(value)),
            _ => (word, None),
        },
    }
}

fn is_plan(options: &Options) -> bool {
    options.task.which != Which::None
}

fn threads(value: &str) -> Result<usize, String> {
    let number = value.parse().ok().filter(|number| (1..=1024).contains(number));
    number.ok_or_else(|| format!("{value:?} is no number of threads from 1 to 1024"))
}

fn format(value: &str) -> Result<Format, String> {
    match value {
        "tty" => Ok(Format::Tty),
        "tsv" => Ok(Format::Tsv),
        "json" => Ok(Format::Json),
        _ => Err(format!("there is no format {value:?}, but tty, tsv and json")),
    }
}

fn fails_on(value: &str) -> Result<bool, String> {
    match value {
        "cannot" => Ok(true),
        _ => Err(format!("--fail-on takes cannot, not {value:?}")),
    }
}
