//! Comparisons by several processes, one for each processor, each of which does a part and never has a second thread: an emulator of x86-64 on
//! Arm (qemu-user) that knows of no second thread leaves out the barriers for x86's order of memory, and is three times as fast.
//! For test targets without Rust's harness, whose `main` this is.

use crate::agree::Comparison;
use std::env;
use std::panic::catch_unwind;
use std::process::{Child, Command, ExitCode, Stdio};
use std::thread::available_parallelism;

/// The name of a comparison, and how it is made.
pub type Test = (&'static str, fn() -> Comparison<'static>);

/// The word before a process's number, the number of processes and the names of its tests.
const PART: &str = "--part";

/// The stack of a process in KiB, whatever the caller's: three times what the archive asks for, and more.
const STACK: usize = 16 << 10;

/// The most processes: each holds all cases.
const MOST: usize = 8;

/// On Arm the processes are x86-64 programs, as this one is, and run under the same runner.
const RUNNER: &str = "CARGO_TARGET_X86_64_UNKNOWN_LINUX_GNU_RUNNER";

/// Does the tests that the words on the command line ask for; a process that was started for a part does that.
pub fn main(tests: &[Test]) -> ExitCode {
    assert!(!tests.is_empty(), "nothing to compare");
    let words: Vec<String> = env::args().skip(1).collect();
    let done = match &words[..] {
        [part, first, of, names @ ..] if part == PART => {
            let number = |word: &String| word.parse().expect("a number of processes");
            do_part(&chosen(tests, |name| names.iter().any(|known| known == name)), number(first), number(of))
        }
        _ => asked_for(tests, &words).and_then(|tests| do_all(&tests)),
    };
    match done {
        Ok(()) => ExitCode::SUCCESS,
        Err(failures) => {
            eprintln!("{failures}");
            ExitCode::FAILURE
        }
    }
}

/// The tests whose names are wanted.
fn chosen(tests: &[Test], wanted: impl Fn(&str) -> bool) -> Vec<Test> {
    tests.iter().filter(|(name, _)| wanted(name)).copied().collect()
}

/// One part of each test; on standard output the name of each that didn't fail, how many cases it went through and how many there are.
fn do_part(tests: &[Test], first: usize, of: usize) -> Result<(), String> {
    let mut failed = Vec::new();
    for (place, (name, comparison)) in tests.iter().enumerate() {
        let done = catch_unwind(|| {
            let comparison = comparison();
            // From another process on for each test: tests of one case are shared too.
            (comparison.part((first + place) % of, of), comparison.count())
        });
        match done {
            Ok((cases, count)) => println!("{name} {cases} {count}"),
            // Why has been said already.
            Err(_) => failed.push(*name),
        }
    }
    if failed.is_empty() {
        return Ok(());
    }
    Err(format!("failed in process {first} of {of}: {}", failed.join(", ")))
}

/// The tests whose names have one of these words in them, all if there is none; options of Rust's harness are none of this one's.
fn asked_for(tests: &[Test], words: &[String]) -> Result<Vec<Test>, String> {
    // What there is to say is said anyway.
    let words: Vec<&String> = words.iter().filter(|word| !matches!(&word[..], "--nocapture" | "--quiet")).collect();
    match words.iter().find(|word| word.starts_with('-')) {
        Some(option) => Err(format!("{option}: here are no options, only words that are in the names of tests")),
        None => Ok(chosen(tests, |name| words.is_empty() || words.iter().any(|word| name.contains(&word[..])))),
    }
}

/// Starts the processes and hears them all: none may fail or die, and together they must have gone through every case.
fn do_all(tests: &[Test]) -> Result<(), String> {
    let processes = available_parallelism().map_or(1, usize::from).min(MOST);
    println!("running {} tests in {processes} processes", tests.len());
    let names: Vec<&str> = tests.iter().map(|(name, _)| *name).collect();
    let started: Vec<Child> = (0..processes).map(|first| start(first, processes, &names)).collect();
    let (mut told, mut failures) = (String::new(), Vec::new());
    for (first, process) in started.into_iter().enumerate() {
        let ended = process.wait_with_output().expect("a process that ends");
        told.push_str(&String::from_utf8_lossy(&ended.stdout));
        if !ended.status.success() {
            failures.push(format!("process {first} of {processes}: {}", ended.status));
        }
    }
    for name in names {
        match cases_of(name, &told) {
            Some(cases) => println!("test {name} ... ok, {cases} cases"),
            None => failures.push(format!("test {name}: not every case was compared, or there was none")),
        }
    }
    if failures.is_empty() {
        return Ok(());
    }
    Err(failures.join("\n"))
}

/// A process for one part.
fn start(first: usize, of: usize, names: &[&str]) -> Child {
    let runner = if cfg!(target_arch = "x86_64") { env::var(RUNNER).unwrap_or_default() } else { String::new() };
    let mut command = Command::new("bash");
    command.args(["-c", &format!("ulimit -S -s {STACK} && exec \"$@\""), "bash"]);
    command.args(runner.split_ascii_whitespace()).arg(env::current_exe().expect("the path of this program"));
    command.args([PART, &first.to_string(), &of.to_string()]).args(names);
    command.stdin(Stdio::null()).stdout(Stdio::piped()).spawn().expect("bash")
}

/// How many cases all processes went through, if there are any and none was left out.
fn cases_of(name: &str, told: &str) -> Option<usize> {
    let (mut cases, mut counts) = (0, Vec::new());
    for line in told.lines() {
        let words: Vec<&str> = line.split(' ').collect();
        if let [of, done, count] = words[..] {
            if of == name {
                cases += done.parse::<usize>().ok()?;
                counts.push(count.parse::<usize>().ok()?);
            }
        }
    }
    (cases > 0 && counts.iter().all(|&count| count == cases)).then_some(cases)
}
