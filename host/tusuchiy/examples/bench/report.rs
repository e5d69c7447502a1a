//! What the benchmark prints: what it measures, two tables, and how the figures stand to the aims.

use crate::measure::{ROOM, RUNS, SPENT};
use crate::table::Table;
use cases::large::families::{Family, Kind};
use tusuchiy::Profile;

/// The aims: growth for four times the lines, ratio on plain feeds, ratio on any.
const GROWTH: f64 = 5.0;
const PLAIN_RATIO: f64 = 8.0;
const RATIO: f64 = 20.0;

const TIMES: Table =
    Table(&[("feed", 12), ("lines", 7), ("bytes", 9), ("check", 10), ("quick", 10), ("ratio", 7), ("growth", 6)]);

const PARTS: Table = Table(&[
    ("feed", 12),
    ("lines", 7),
    ("check: rules 1-4", 10),
    ("reading", 10),
    ("the rest", 10),
    ("quick: rules 1-4", 10),
    ("reading", 10),
    ("the rest", 10),
]);

/// A feed at one size.
pub struct Row {
    pub family: &'static Family,
    pub lines: usize,
    pub bytes: usize,
    /// None where the size was skipped.
    pub check: Option<f64>,
    pub quick: f64,
    /// The check's time by that for a fourth of the lines.
    pub growth: Option<f64>,
}

impl Row {
    fn ratio(&self) -> Option<f64> {
        self.check.map(|check| check / self.quick)
    }

    /// What of it misses an aim, in words.
    fn missed(&self) -> Vec<&'static str> {
        let ratio_aim = if self.family.kind == Kind::Plain { PLAIN_RATIO } else { RATIO };
        let over = |figure: Option<f64>, aim: f64| figure.is_some_and(|figure| figure > aim);
        let mut missed = vec![];
        missed.extend(over(self.growth, GROWTH).then_some("growth"));
        missed.extend(over(self.ratio(), ratio_aim).then_some("ratio"));
        missed.extend(self.check.is_none().then_some("skipped"));
        missed
    }
}

/// Seconds spent before lines are read, reading them, and after.
pub struct Parts {
    pub family: &'static Family,
    pub lines: usize,
    pub proved: [f64; 3],
    pub quick: [f64; 3],
}

pub fn introduce(families: &[&Family], profile: Profile) {
    for family in families {
        let plain = if family.kind == Kind::Plain { " (a plain feed)" } else { "" };
        println!("{:>12}: {}{plain}", family.name, family.about);
    }
    println!("Every feed counts, those whose trips stand nowhere too. Aims: growth at most {GROWTH:.0} for four times");
    println!("the lines; ratio at most {PLAIN_RATIO:.0} on plain feeds, at most {RATIO:.0} on any.");
    println!("Profile: {profile}. Processor: {}.", processor());
    println!("Processor time of one call: the fastest of {RUNS}, or of as many as {SPENT} s allow.");
    println!("The lent list has room for {ROOM} findings. Growth: the check's time by that in the row above.\n");
    TIMES.head();
}

/// The processor as the system names it. An emulator hides it or names itself, and its times are no x86-64 times.
pub fn processor() -> String {
    let system = std::fs::read_to_string("/proc/cpuinfo").unwrap_or_default();
    let name = system.lines().find_map(|line| line.strip_prefix("model name")?.split_once(": "));
    let emulated = "none of x86-64, so an emulator: neither times nor ratios are those of x86-64";
    name.map_or(emulated, |name| name.1).to_string()
}

pub fn row(row: &Row) {
    let shown = |figure: Option<f64>| figure.map_or("-".to_string(), |figure| format!("{figure:.1}"));
    let check = row.check.map_or("skipped".to_string(), seconds);
    let sizes = [row.family.name.to_string(), row.lines.to_string(), row.bytes.to_string()];
    let figures = [check, seconds(row.quick), shown(row.ratio()), shown(row.growth)];
    TIMES.row(sizes.into_iter().chain(figures));
}

pub fn seconds(seconds: f64) -> String {
    match seconds {
        1.0.. => format!("{seconds:.2} s"),
        0.0001.. => format!("{:.2} ms", seconds * 1e3),
        _ => format!("{:.2} µs", seconds * 1e6),
    }
}

pub fn parts(all: &[Parts]) {
    println!();
    PARTS.head();
    for parts in all {
        let sizes = [parts.family.name.to_string(), parts.lines.to_string()];
        PARTS.row(sizes.into_iter().chain(parts.proved.map(seconds)).chain(parts.quick.map(seconds)));
    }
    println!("\nRules 1-4: the feed without its last LF, refused before any line is read. Reading: the feed with a");
    println!("letter in its last value, refused once all is read, less that. The rest (ids, references, tables,");
    println!("findings): the whole call, less both.\n");
}

/// The worst figures and the feeds that miss an aim: every feed counts.
pub fn summary(rows: &[Row]) {
    let all: Vec<&Row> = rows.iter().collect();
    let plain: Vec<&Row> = rows.iter().filter(|row| row.family.kind == Kind::Plain).collect();
    worst("growth over all feeds", &all, |row| row.growth, GROWTH);
    worst("ratio over all feeds", &all, Row::ratio, RATIO);
    worst("ratio over plain feeds", &plain, Row::ratio, PLAIN_RATIO);
    misses(&all);
}

/// Prints the greatest figure of a kind, and whose it is.
fn worst(what: &str, rows: &[&Row], figure: fn(&Row) -> Option<f64>, aim: f64) {
    let figures = rows.iter().filter_map(|row| figure(row).map(|figure| (figure, row)));
    if let Some((figure, row)) = figures.max_by(|one, other| one.0.total_cmp(&other.0)) {
        println!("Worst {what}: {figure:.1} ({}, {} lines; aim: {aim:.0} at most)", row.family.name, row.lines);
    }
}

/// Prints the feeds that miss an aim, and which.
fn misses(rows: &[&Row]) {
    let mut feeds: Vec<(&str, Vec<&str>)> = Vec::new();
    for row in rows {
        match feeds.last_mut() {
            Some((name, missed)) if *name == row.family.name => missed.extend(row.missed()),
            _ => feeds.push((row.family.name, row.missed())),
        }
    }
    feeds.retain(|(_, missed)| !missed.is_empty());
    let words = |(name, missed): &(&str, Vec<&str>)| format!("{name} ({})", distinct(missed).join(", "));
    match &feeds[..] {
        [] => println!("Aims missed: none."),
        _ => println!("Aims missed: {}.", feeds.iter().map(words).collect::<Vec<_>>().join("; ")),
    }
}

/// The words in order, each once.
fn distinct<'w>(words: &[&'w str]) -> Vec<&'w str> {
    let first = |&place: &usize| !words[..place].contains(&words[place]);
    (0..words.len()).filter(first).map(|place| words[place]).collect()
}
