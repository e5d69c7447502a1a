//! The command `tusuchiy`: reads feeds, lends memory to the proved check, prints what it answers, writes indexes.
#![deny(unsafe_code)]
#![cfg_attr(not(test), no_main)]

mod arguments;
mod carets;
mod columns;
mod encoding;
mod facts;
mod feed;
mod fields;
mod folder;
mod hidden;
mod indexes;
mod json;
mod manual;
mod many;
mod memory;
mod names;
mod paging;
mod progress;
mod refusals;
mod refused;
mod report;
mod safe;
mod source;
mod style;
mod system;
mod text;
mod value;
mod whole;
mod zip;

use arguments::{Command, Form};
use many::Patient;
use std::io::{self, Write};
use std::thread;
use tusuchiy::explain;

/// The exit status of a refusal, and that where the command could not do what it was asked for.
const REFUSED: u8 = 2;
const COULD_NOT_RUN: u8 = 3;

/// The command, in a thread with a stack of its own size; its exit status.
fn start() -> u8 {
    // What stands on standard error is for the user: in one line, where the fault is.
    std::panic::set_hook(Box::new(|fault| {
        let place = fault.location().map_or(String::new(), |place| format!(" at {place}"));
        complain(&format!("this should not have happened{place}"));
    }));
    match thread::Builder::new().stack_size(system::STACK).spawn(obey) {
        Ok(thread) => thread.join().unwrap_or(COULD_NOT_RUN),
        Err(error) => complain(&format!("can't run: {error}")),
    }
}

/// Does what the words of the command line say, and gives the exit status.
fn obey() -> u8 {
    let words: Vec<_> = std::env::args_os().skip(1).collect();
    let asked = arguments::parse(&words).map_err(|message| format!("{message} (see tusuchiy --help)"));
    asked.and_then(run).unwrap_or_else(|message| complain(&message))
}

/// Says why the command couldn't run, in one line or in a line for each file, and gives its status.
fn complain(message: &str) -> u8 {
    let lines: String = message.lines().map(|line| format!("tusuchiy: {line}\n")).collect();
    let _hidden = progress::hidden();
    // Nothing can be done where standard error is gone too.
    let _ = Patient(io::stderr()).write_all(lines.as_bytes());
    COULD_NOT_RUN
}

/// Does what the command line asks for, and gives the exit status.
fn run(command: Command) -> Result<u8, String> {
    let quiet = match &command {
        Command::Check(check) => check.form == Form::Quiet,
        Command::Index(asked) => asked.form == Form::Quiet,
        Command::Report(_) => false,
        // What is printed at once has no progress.
        _ => true,
    };
    let _watch = progress::watch(quiet);
    let page = match command {
        Command::Check(check) => return Ok(many::run(&check)),
        Command::Index(asked) => return Ok(indexes::run(&asked)),
        Command::Report(asked) => return many::guarded(|| report::run(&asked)),
        Command::Help => manual::help(),
        Command::Version => format!("tusuchiy {}\n", env!("CARGO_PKG_VERSION")),
        Command::Explain(number) => format!("{}\n", explain::page(number).ok_or_else(|| explain::no_such(number))?),
        Command::Generate(kind) => {
            let pages = [manual::man, manual::complete_bash, manual::complete_fish, manual::complete_zsh];
            pages[kind]()
        }
    };
    many::write(|out| out.write_all(page.as_bytes())).map(|()| 0)
}
