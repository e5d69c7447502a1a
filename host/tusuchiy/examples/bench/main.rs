//! A benchmark, not a test: the proved check beside a check by hash maps, on the same feeds, in one run; then the index beside a sort, and the count of line
//! ends beside the standard library's.
//! Run it with: cargo run --release --example bench -- [--only FEED] [--lines N] [--profile boards], where FEED may be index or line-ends too
#![deny(unsafe_code)]

mod clock;
mod index;
mod line_ends;
mod measure;
mod report;
mod table;

use cases::large::families::{Family, FAMILIES};
use cases::limits::MOST_LINES;
use measure::{fastest, parts, Checker};
use model::Answer;
use report::{Parts, Row};
use tusuchiy::Profile;

/// A size is skipped where a check would take longer than so many seconds, if its time grew with the square.
const PATIENCE: f64 = 60.0;

const USAGE: &str = "usage: bench [--only FEED] [--lines N] [--profile plain|boards]";

struct Options {
    only: Option<String>,
    lines: usize,
    profile: Profile,
}

fn options() -> Option<Options> {
    let mut options = Options { only: None, lines: MOST_LINES, profile: Profile::Plain };
    let mut words = std::env::args().skip(1);
    while let Some(word) = words.next() {
        match word.as_str() {
            "--only" => options.only = Some(words.next()?),
            "--lines" => options.lines = words.next()?.parse().ok().filter(|&lines| lines >= 1024)?,
            "--profile" => {
                let name = words.next()?;
                options.profile = Profile::ALL.into_iter().find(|profile| profile.name() == name)?;
            }
            _ => return None,
        }
    }
    Some(options)
}

fn main() {
    let Some(options) = options() else { stop(USAGE) };
    let chosen = |family: &&Family| options.only.as_ref().map_or(true, |name| name == family.name);
    let families: Vec<&'static Family> = FAMILIES.iter().filter(chosen).collect();
    let [index, line_ends] =
        [index::NAME, line_ends::NAME].map(|own| options.only.as_ref().map_or(true, |name| name == own));
    if families.is_empty() && !index && !line_ends {
        let names = FAMILIES.each_ref().map(|family| family.name).join(", ");
        stop(&format!("the feeds are: {names}, {}, {}", index::NAME, line_ends::NAME));
    }
    if !families.is_empty() {
        feeds(&families, options.lines, options.profile);
    }
    if index {
        index::measure(options.lines);
    }
    if line_ends {
        line_ends::measure();
    }
}

/// The sizes of a feed: a sixteenth of the lines, a fourth, and all of them.
pub fn steps(most: usize) -> [usize; 3] {
    [most / 16, most / 4, most]
}

/// Measures the check on these feeds, by the rules that are asked for.
fn feeds(families: &[&'static Family], lines: usize, profile: Profile) {
    report::introduce(families, profile);
    // An emulator is slower once a program has had a second thread, as the check makes: so for both from the start.
    let _ = std::thread::spawn(|| ()).join();
    let rows: Vec<Row> = families.iter().flat_map(|family| sizes(family, lines, profile)).collect();
    let parts: Vec<Parts> = families.iter().map(|family| parts_of(family, &rows)).collect();
    report::parts(&parts);
    report::summary(&rows);
}

fn stop(words: &str) -> ! {
    eprintln!("{words}");
    std::process::exit(2);
}

/// Measures a feed at each of its sizes.
fn sizes(family: &'static Family, most: usize, profile: Profile) -> Vec<Row> {
    let mut rows: Vec<Row> = Vec::new();
    for lines in steps(most) {
        let before = rows.last().map(|row| row.check);
        let row = size(family, lines, profile, before);
        report::row(&row);
        rows.push(row);
    }
    rows
}

/// One size: `before` is the check's time for a fourth of the lines, none within if that was skipped.
fn size(family: &'static Family, lines: usize, profile: Profile, before: Option<Option<f64>>) -> Row {
    let files = (family.feed)(lines);
    let (quick, outcome) = fastest(Checker::Quick, &files, profile);
    if let Answer::Refused { number, .. } = outcome.answer {
        stop(&format!("{} of {lines} lines is refused by rule {number}, and a refusal is no measure", family.name));
    }
    let patient = before.map_or(true, |before| before.is_some_and(|before| before * 16.0 <= PATIENCE));
    let check = patient.then(|| {
        let (time, proved) = fastest(Checker::Proved, &files, profile);
        assert!(proved == outcome, "{}: the two checks differ", family.name);
        time
    });
    let growth = check.zip(before.flatten()).map(|(check, before)| check / before);
    let bytes = files.iter().map(Vec::len).sum();
    Row { family, lines, bytes, check, quick, growth }
}

/// The parts of both checks at the largest size of a feed that wasn't skipped.
fn parts_of(family: &'static Family, rows: &[Row]) -> Parts {
    let measured = |row: &&Row| row.family.name == family.name && row.check.is_some();
    let row = rows.iter().rfind(measured).expect("the smallest size is never skipped");
    let files = (family.feed)(row.lines);
    let proved = parts(Checker::Proved, &files, row.check.unwrap_or_default());
    Parts { family, lines: row.lines, proved, quick: parts(Checker::Quick, &files, row.quick) }
}
