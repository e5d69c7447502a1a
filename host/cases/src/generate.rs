//! Makes a whole case from a seed: six files, lent tables, a list, a starting place, and whether the profile for boards is asked for.

use crate::damage::{break_bytes, break_values, cut_services, mutate, truncate};
use crate::faults::break_one;
use crate::feeds::{clean, Feed};
use crate::limits::{MOST_BYTES, MOST_LINES};
use crate::random::Random;
use crate::render::{arrange, write};
use crate::Case;
use model::columns::{COLUMNS, WIDTHS};
use model::fields::line_ends;
use model::{Files, Profile, Tables, FILES};

/// What a seed's case is about.
#[derive(Clone, Copy, Debug, PartialEq, Eq)]
pub enum Kind {
    /// Readable and without a finding, unless the profile for boards is asked for.
    Clean,
    /// Readable, usually with findings.
    Faulty,
    /// Usually refused by this rule.
    Refused(usize),
    /// A few bytes changed.
    Mutated,
    /// Cut short.
    Truncated,
}

/// The kind of a seed's case: all kinds take turns.
pub fn kind(seed: u64) -> Kind {
    match seed % 16 {
        0 | 1 => Kind::Clean,
        2..=7 => Kind::Faulty,
        8..=11 => Kind::Refused(refusal(seed / 16 * 4 + seed % 16 - 8)),
        12..=14 => Kind::Mutated,
        _ => Kind::Truncated,
    }
}

/// The rules that turns break: 14 can be broken in many ways, 8 and 11 to 13 in many columns.
const TURNS: [usize; 18] = [3, 4, 5, 6, 7, 8, 9, 10, 11, 12, 13, 14, 8, 11, 12, 13, 14, 14];

/// The rule that a turn breaks; rules 1 and 2 take much memory and come seldom, rule 1 most so.
fn refusal(turn: u64) -> usize {
    match turn % 240 {
        17 if turn % 720 == 17 => 1,
        34 | 134 => 2,
        other => TURNS[other as usize % TURNS.len()],
    }
}

/// The case of a seed.
pub fn case(seed: u64) -> Case {
    let mut random = Random::new(seed);
    let kind = kind(seed);
    let mut feed = clean(&mut random);
    let faults = match kind {
        Kind::Clean => 0,
        Kind::Faulty => random.between(1, 8),
        _ => random.below(3),
    };
    for _ in 0..faults {
        break_one(&mut feed, &mut random);
    }
    let files = files(&feed, kind, &mut random);
    let mut tables = lend(&files, &mut random);
    // Rule 3 goes by LF bytes and speaks before rule 4, so a short table also stands beside a file without its end.
    let short = match kind {
        Kind::Refused(3) => true,
        Kind::Refused(4) | Kind::Truncated => random.once_in(3),
        _ => false,
    };
    if short {
        tables[random.below(FILES)].pop();
    }
    let list = list(&mut random);
    let start = start(&mut random);
    // Drawn last, so that it doesn't move what was drawn before.
    let profile = if random.once_in(2) { Profile::Boards } else { Profile::Plain };
    Case { name: format!("seed {seed}, {kind:?}"), files, tables, list, start, profile }
}

/// The bytes of the feed, with what its kind asks for done to one file.
fn files(feed: &Feed, kind: Kind, random: &mut Random) -> Files {
    // What may be empty on a line of stops hangs on its type.
    let of_stops = kind == Kind::Refused(12) && random.once_in(2);
    let target = if of_stops { 0 } else { random.below(FILES) };
    let mut files = Files::default();
    for file in 0..FILES {
        let mut grid = arrange(&feed[file], COLUMNS[file], kind != Kind::Clean, random);
        if let (Kind::Refused(rule @ (8 | 9 | 11 | 12 | 13)), true) = (kind, file == target) {
            break_values(&mut grid, COLUMNS[file], rule, random);
        }
        files[file] = write(&grid, random);
    }
    match kind {
        Kind::Refused(4) if random.once_in(2) => cut_services(&mut files, random),
        Kind::Refused(rule @ (1 | 2 | 4 | 5 | 6 | 7 | 10 | 14)) => break_bytes(&mut files[target], rule, random),
        Kind::Mutated => mutate(&mut files[target], random),
        Kind::Truncated if random.once_in(3) => cut_services(&mut files, random),
        Kind::Truncated => truncate(&mut files[target], random),
        _ => {}
    }
    // A second file that can't be read: the first one speaks.
    if matches!(kind, Kind::Refused(5..)) && random.once_in(3) {
        let rule = *random.pick(&[5, 6, 7, 10, 14]);
        break_bytes(&mut files[random.below(FILES)], rule, random);
    }
    files
}

/// Tables that are long enough, mostly exactly so, with anything in them.
fn lend(files: &Files, random: &mut Random) -> Tables {
    let mut tables = Tables::default();
    let short = random.once_in(30);
    for file in 0..FILES {
        let lines = line_ends(&files[file]);
        // Rules 1 and 2 speak before rule 3, so a file that breaks one of them needs no table.
        let too_large = files[file].len() > MOST_BYTES || lines > MOST_LINES;
        let exact = if too_large { 0 } else { WIDTHS[file] * lines };
        let length = match random.below(8) {
            0 if short => random.below(exact + 1),
            1 => exact + random.below(WIDTHS[file] * 2),
            2 => exact + 1,
            _ => exact,
        };
        tables[file] = contents(length, random);
    }
    tables
}

/// Numbers as they may stand in lent memory.
fn contents(length: usize, random: &mut Random) -> Vec<i32> {
    match random.below(3) {
        0 => vec![random.any_i32(); length],
        1 => (0..length as i32).collect(),
        _ => (0..length).map(|_| random.any_i32()).collect(),
    }
}

/// A list without room, with room for a few findings, or for many.
fn list(random: &mut Random) -> Vec<i32> {
    let length = match random.below(4) {
        0 => random.below(5),
        1 => random.below(30),
        2 => 300,
        _ => random.between(900, 1000),
    };
    contents(length, random)
}

/// The rules that findings break.
const RULES: [i32; 15] = [20, 21, 22, 23, 24, 25, 26, 27, 28, 29, 30, 31, 60, 61, 62];

/// The list's beginning, a place near its findings, or any three numbers.
fn start(random: &mut Random) -> [i32; 3] {
    let near = |random: &mut Random, end: usize| random.below(end) as i32 - 1;
    match random.below(6) {
        0..=2 => [0, 0, 0],
        3 => [random.between(1, FILES) as i32, random.between(2, 9) as i32, *random.pick(&RULES)],
        4 => [near(random, 8), near(random, 40), *random.pick(&[i32::MIN, -1, 0, 99, i32::MAX])],
        _ => [*random.pick(&[i32::MIN, -1, 0, 3, 5, 6, i32::MAX]), random.any_i32(), random.any_i32()],
    }
}
