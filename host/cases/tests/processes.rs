//! Comparisons by several processes: what fails, dies or compares nothing fails the whole, in words that name it.

use cases::agree::Comparison;
use cases::processes::{self, Test};
use std::env;
use std::process::{self, Command, ExitCode, Output};

/// Says which tests a process has; where it isn't there this is the test of all of them.
const SCENE: &str = "TUSUCHIY_SCENE";

const GOOD: Test = ("good", || Comparison::new(41, |_| ()));

fn dies(number: usize) {
    if number == 7 {
        process::abort();
    }
}

/// Without a failure, but before it is done.
fn leaves(number: usize) {
    if number == 7 {
        process::exit(0);
    }
}

/// The tests of a scene, besides a good one.
const SCENES: [(&str, Test); 5] = [
    ("passes", ("once", || Comparison::once(|| ()))),
    ("fails", ("bad", || Comparison::new(9, |number| assert_ne!(number, 7, "case {number}")))),
    ("dies", ("dead", || Comparison::new(9, dies))),
    ("leaves", ("gone", || Comparison::new(9, leaves))),
    ("compares nothing", ("none", || Comparison::new(0, |_| ()))),
];

/// This program again, with the tests of a scene.
fn run(scene: &str, words: &[&str]) -> (bool, String) {
    let program = env::current_exe().expect("the path of this program");
    let Output { status, stdout, stderr } =
        Command::new(program).env(SCENE, scene).args(words).output().expect("this program runs");
    (status.success(), [stdout, stderr].map(|told| String::from_utf8(told).expect("UTF-8")).concat())
}

/// Fails unless a scene ends well, or not, and all this is said.
fn ends(scene: &str, words: &[&str], well: bool, wanted: &[&str]) {
    let (got, told) = run(scene, words);
    assert_eq!(got, well, "{scene}: {told}");
    wanted.iter().for_each(|wanted| assert!(told.contains(wanted), "{scene}: no {wanted:?} in\n{told}"));
}

fn main() -> ExitCode {
    if let Ok(scene) = env::var(SCENE) {
        let (_, other) = SCENES.iter().find(|(name, _)| *name == scene).expect("a scene");
        return processes::main(&[*other, GOOD]);
    }
    let good = "test good ... ok, 41 cases";
    ends("passes", &[], true, &[good, "test once ... ok, 1 cases"]);
    ends("fails", &[], false, &[good, "case 7", "test bad: not every case was compared"]);
    ends("dies", &[], false, &["test dead: not every case was compared", "signal"]);
    ends("leaves", &[], false, &["test gone: not every case was compared"]);
    ends("compares nothing", &[], false, &[good, "test none: not every case was compared, or there was none"]);
    // Words choose tests; options are refused.
    ends("fails", &["goo"], true, &["running 1 tests", good]);
    ends("fails", &["nowhere", "--nocapture"], true, &["running 0 tests"]);
    ends("passes", &["--skip", "good"], false, &["--skip: here are no options"]);
    println!("processes: every scene ended as it should");
    ExitCode::SUCCESS
}
