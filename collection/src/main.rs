//! The program `floors`; the crate's library says what it does.

use std::env;
use std::io::{self, Write};
use std::process::ExitCode;

use collection::console::complain;
use collection::options::{command, Command};
use collection::run::{run, TROUBLES};
use collection::words::NUMBERS;

const VERSION: &str = concat!("floors ", env!("CARGO_PKG_VERSION_MAJOR"), ".", env!("CARGO_PKG_VERSION_MINOR"), "\n");

fn main() -> ExitCode {
    let status = match command(env::args_os().skip(1)) {
        Ok(Command::Help(text)) => print(text),
        Ok(Command::Version) => print(VERSION),
        Ok(Command::Explain(number)) => {
            let asked = NUMBERS.iter().filter(|words| number.is_none_or(|number| words.number == number));
            print(&asked.map(ToString::to_string).collect::<String>())
        }
        Ok(Command::Run(options)) => run(&options),
        Err(what) => {
            complain(format_args!("floors: {what}"));
            TROUBLES
        }
    };
    ExitCode::from(status)
}

fn print(text: &str) -> u8 {
    let mut out = io::stdout();
    match out.write_all(text.as_bytes()).and_then(|()| out.flush()) {
        Ok(()) => 0,
        Err(_) => TROUBLES,
    }
}
