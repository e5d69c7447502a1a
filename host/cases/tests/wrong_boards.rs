//! Likely wrong readings of E13: edge cases and generated feeds each tell every one of them from the right one, vectors all but one. That any
//! number but 0 asks for the profile is no reading of these: here it is a word.

use cases::readings::Missed;
use cases::{boards, by_model, generate, vectors, Case, Outcome};
use model::page::hand_out;
use model::reading::{read, Feed};
use model::records::fill;
use model::rules::{findings, Finding};
use model::trips::{by_trip, first_call, last_call, Call};
use model::{Answer, Profile, Tables};

/// How many seeds are looked at: as many as the archive is compared with the model on.
const SEEDS: u64 = 8000;

/// A line of stop_times: its times, -1 where empty, its choices, and what else a reading may go by.
struct Line {
    call: Call,
    pickup: i32,
    drop_off: i32,
    timepoint: i32,
    /// Is it the line of its trip with the smallest sequence, or with the largest?
    ends: bool,
    /// Is it its trip's first line in the file?
    opens: bool,
    /// Do the trip and the stop stand in their files?
    trip_stands: bool,
    stop_stands: bool,
    /// The rules that it breaks without the profile.
    broken: Vec<i32>,
}

impl Line {
    fn lacks_arrival(&self) -> bool {
        self.call.arrival == -1
    }

    fn lacks_departure(&self) -> bool {
        self.call.departure == -1
    }

    fn choices(&self) -> [i32; 2] {
        [self.pickup, self.drop_off]
    }

    /// On how many of its two times is this true?
    fn times(&self, is: fn(i32) -> bool) -> usize {
        [self.call.arrival, self.call.departure].into_iter().filter(|&time| is(time)).count()
    }
}

/// How the profile is read.
#[derive(Clone, Copy)]
struct Reading {
    /// How many findings of rules 60, 61 and 62 a line has.
    untimed: fn(&Line) -> usize,
    arranged: fn(&Line) -> usize,
    late: fn(&Line) -> usize,
    /// Is a line looked at?
    looked_at: fn(&Line) -> bool,
    /// Is the profile in force where this is asked for?
    in_force: fn(Profile) -> bool,
    /// Is a finding that there is without the profile still one beside these of the profile's?
    stays: fn(&Finding, &[Finding]) -> bool,
    /// What the list is ordered by.
    order: fn(&Finding) -> [i32; 4],
    /// Where the list starts if this place is asked for.
    start: fn([i32; 3]) -> [i32; 3],
    /// The total, from the findings without the profile, the profile's that are listed, and all that would be.
    total: fn(usize, usize, usize) -> usize,
    /// The number that the profile refuses a line with, 0 if it doesn't.
    refused: fn(&Line) -> usize,
    /// Are tables filled if so many of the profile's findings are listed?
    filled: fn(usize) -> bool,
    /// The time that is stored if the profile is in force.
    stored: fn(i32) -> i32,
}

const RIGHT: Reading = Reading {
    untimed: |line| (!line.call.timed()).into(),
    arranged: |line| line.choices().iter().any(|&choice| choice == 2 || choice == 3).into(),
    late: |line| (line.times(is_late) > 0).into(),
    looked_at: |_| true,
    in_force: |profile| profile == Profile::Boards,
    stays: |_, _| true,
    order: |&[file, line, rule]| [file, line, rule, 0],
    start: |start| start,
    total: |plain, listed, _| plain + listed,
    refused: |_| 0,
    filled: |_| true,
    stored: |time| time,
};

fn is_late(time: i32) -> bool {
    time >= 172_800
}

const fn sixty(untimed: fn(&Line) -> usize) -> Reading {
    Reading { untimed, ..RIGHT }
}

const fn sixty_one(arranged: fn(&Line) -> usize) -> Reading {
    Reading { arranged, ..RIGHT }
}

const fn sixty_two(late: fn(&Line) -> usize) -> Reading {
    Reading { late, ..RIGHT }
}

const fn looking(looked_at: fn(&Line) -> bool) -> Reading {
    Reading { looked_at, ..RIGHT }
}

const fn ordered(order: fn(&Finding) -> [i32; 4]) -> Reading {
    Reading { order, ..RIGHT }
}

const fn counting(total: fn(usize, usize, usize) -> usize) -> Reading {
    Reading { total, ..RIGHT }
}

/// Readings of rule 60.
const UNTIMED: [(&str, Reading); 11] = [
    ("60 only where both are missing", sixty(|line| (line.lacks_arrival() && line.lacks_departure()).into())),
    ("60 only where one is missing", sixty(|line| (line.lacks_arrival() != line.lacks_departure()).into())),
    ("60 only where the arrival is missing", sixty(|line| line.lacks_arrival().into())),
    ("60 only where the departure is missing", sixty(|line| line.lacks_departure().into())),
    ("60 for each missing time", sixty(|line| line.times(|time| time == -1))),
    ("60 where times fall too", sixty(|line| (!line.call.timed() || line.broken.contains(&27)).into())),
    ("60 at midnight too", sixty(|line| (line.times(|time| time < 1) > 0).into())),
    ("60 only at exact lines", sixty(|line| (!line.call.timed() && line.timepoint == 1).into())),
    ("60 not at inexact lines", sixty(|line| (!line.call.timed() && line.timepoint != 0).into())),
    ("60 at the ends of trips alone", sixty(|line| (!line.call.timed() && line.ends).into())),
    ("60 not beside 26", sixty(|line| (!line.call.timed() && !line.broken.contains(&26)).into())),
];

/// Readings of rule 61.
const ARRANGED: [(&str, Reading); 10] = [
    ("61 at 3 alone", sixty_one(|line| line.choices().contains(&3).into())),
    ("61 at 2 alone", sixty_one(|line| line.choices().contains(&2).into())),
    ("61 at 1 too", sixty_one(|line| line.choices().iter().any(|&choice| choice > 0).into())),
    ("61 at 1 alone", sixty_one(|line| line.choices().contains(&1).into())),
    ("61 by pickup alone", sixty_one(|line| (line.pickup > 1).into())),
    ("61 by drop-off alone", sixty_one(|line| (line.drop_off > 1).into())),
    ("61 only where both are", sixty_one(|line| (line.pickup > 1 && line.drop_off > 1).into())),
    ("61 only where just one is", sixty_one(|line| ((line.pickup > 1) != (line.drop_off > 1)).into())),
    ("61 for each of two", sixty_one(|line| line.choices().into_iter().filter(|&choice| choice > 1).count())),
    ("61 only at timed lines", sixty_one(|line| if line.call.timed() { (RIGHT.arranged)(line) } else { 0 })),
];

/// Readings of rule 62.
const LATE: [(&str, Reading); 11] = [
    ("62 strictly above", sixty_two(|line| (line.times(|time| time > 172_800) > 0).into())),
    ("62 a second early", sixty_two(|line| (line.times(|time| time >= 172_799) > 0).into())),
    ("62 from 24:00:00 on", sixty_two(|line| (line.times(|time| time >= 86_400) > 0).into())),
    ("62 from 49:00:00 on", sixty_two(|line| (line.times(|time| time >= 176_400) > 0).into())),
    ("62 from 72:00:00 on", sixty_two(|line| (line.times(|time| time >= 259_200) > 0).into())),
    ("62 by arrival alone", sixty_two(|line| is_late(line.call.arrival).into())),
    ("62 by departure alone", sixty_two(|line| is_late(line.call.departure).into())),
    ("62 only where both are", sixty_two(|line| (line.times(is_late) == 2).into())),
    ("62 only where just one is", sixty_two(|line| (line.times(is_late) == 1).into())),
    ("62 for each of two", sixty_two(|line| line.times(is_late))),
    ("62 only at timed lines", sixty_two(|line| if line.call.timed() { (RIGHT.late)(line) } else { 0 })),
];

/// Readings of the lines that are looked at, and of the list's order and start.
const LISTED: [(&str, Reading); 11] = [
    ("first lines of trips alone", looking(|line| line.opens)),
    ("ends of trips alone", looking(|line| line.ends)),
    ("not the ends of trips", looking(|line| !line.ends)),
    ("lines of known trips alone", looking(|line| line.trip_stands)),
    ("lines at known stops alone", looking(|line| line.stop_stands)),
    ("lines without another finding alone", looking(|line| line.broken.is_empty())),
    ("first on a line", ordered(|&[file, line, rule]| [file, line, i32::from(rule < 60), rule])),
    ("last in their file", ordered(|&[file, line, rule]| [file, i32::from(rule >= 60), line, rule])),
    ("last in the list", ordered(|&[file, line, rule]| [i32::from(rule >= 60), file, line, rule])),
    (
        "62 before 61 before 60",
        ordered(|&[file, line, rule]| [file, line, if rule < 60 { rule } else { 122 - rule }, 0]),
    ),
    ("a start above 31 ends its line", Reading { start: without_the_line, ..RIGHT }),
];

/// A line that starts behind the plain rules has none left.
fn without_the_line([file, line, rule]: [i32; 3]) -> [i32; 3] {
    [file, line, if rule > 31 { i32::MAX } else { rule }]
}

fn beside_60([file, line, _]: &Finding, listed: &[Finding]) -> bool {
    listed.contains(&[*file, *line, 60])
}

/// Readings of the answer, of when the profile is in force, and of what it changes beside the list.
const ANSWERED: [(&str, Reading); 12] = [
    ("60 in place of 26", Reading { stays: |found, listed| found[2] != 26 || !beside_60(found, listed), ..RIGHT }),
    ("60 in place of 31", Reading { stays: |found, listed| found[2] != 31 || listed.is_empty(), ..RIGHT }),
    ("always in force", Reading { in_force: |_| true, ..RIGHT }),
    ("never in force", Reading { in_force: |_| false, ..RIGHT }),
    ("in force unless asked for", Reading { in_force: |profile| profile == Profile::Plain, ..RIGHT }),
    ("counted in the plain total", counting(|plain, _, all| plain + all)),
    ("left out of the total", counting(|plain, _, _| plain)),
    ("accepted all the same", counting(|plain, listed, _| if plain == 0 { 0 } else { plain + listed })),
    ("12 at a missing time", Reading { refused: |line| if line.call.timed() { 0 } else { 12 }, ..RIGHT }),
    ("13 at a late time", Reading { refused: |line| if line.times(is_late) > 0 { 13 } else { 0 }, ..RIGHT }),
    ("tables as lent", Reading { filled: |more| more == 0, ..RIGHT }),
    ("late times stored as none", Reading { stored: |time| if is_late(time) { -1 } else { time }, ..RIGHT }),
];

/// A case that is read: the lines of stop_times, the findings without the profile, the tables as filled.
struct Read {
    lines: Vec<Line>,
    plain: Vec<Finding>,
    tables: Tables,
}

impl Read {
    fn new(case: &Case, feed: &Feed) -> Self {
        let plain = findings(feed, Profile::Plain);
        let mut tables = case.tables.clone();
        fill(feed, &mut tables);
        Read { lines: lines(feed, &plain), plain, tables }
    }
}

/// The lines of stop_times.
fn lines(feed: &Feed, plain: &[Finding]) -> Vec<Line> {
    let mut lines = Vec::new();
    for (trip, calls) in by_trip(feed) {
        let ends = [first_call(&calls), last_call(&calls)].map(|end| end.expect("a line").place);
        for call in &calls {
            let row = feed[4].record(call.place + 1);
            let [pickup, drop_off, timepoint] =
                ["pickup_type", "drop_off_type", "timepoint"].map(|name| row.number(name));
            let on_it = |found: &&Finding| found[..2] == [5, call.place as i32 + 2];
            lines.push(Line {
                call: *call,
                pickup,
                drop_off,
                timepoint,
                ends: ends.contains(&call.place),
                opens: call.place == calls[0].place,
                trip_stands: feed[3].rows().any(|own| own.value("trip_id") == trip),
                stop_stands: feed[0].rows().any(|own| own.value("stop_id") == row.value("stop_id")),
                broken: plain.iter().filter(on_it).map(|found| found[2]).collect(),
            });
        }
    }
    lines.sort_by_key(|line| line.call.place);
    lines
}

/// The profile's findings by a reading.
fn found(reading: &Reading, lines: &[Line]) -> Vec<Finding> {
    let mut found = Vec::new();
    for line in lines.iter().filter(|line| (reading.looked_at)(line)) {
        let counts = [(reading.untimed)(line), (reading.arranged)(line), (reading.late)(line)];
        for (count, rule) in counts.into_iter().zip(60..) {
            found.extend(vec![[5, line.call.place as i32 + 2, rule]; count]);
        }
    }
    found
}

/// What a reading makes of a case that is read.
fn by(reading: &Reading, case: &Case, read: &Read) -> Outcome {
    let in_force = (reading.in_force)(case.profile);
    let mut outcome = Outcome { answer: Answer::Accepted, tables: case.tables.clone(), list: case.list.clone() };
    let refused = read.lines.iter().find(|line| in_force && (reading.refused)(line) > 0);
    if let Some(line) = refused {
        let (number, line) = ((reading.refused)(line), line.call.place + 2);
        return Outcome { answer: Answer::Refused { number, file: 5, line, column: 0 }, ..outcome };
    }
    let more = found(reading, &read.lines);
    let listed = if in_force { &more[..] } else { &[] };
    let mut list = read.plain.clone();
    list.retain(|found| (reading.stays)(found, listed));
    let plain = list.len();
    list.extend(listed);
    list.sort_by_key(reading.order);
    let written = hand_out(&list, &mut outcome.list, (reading.start)(case.start));
    if (reading.filled)(listed.len()) {
        outcome.tables.clone_from(&read.tables);
        let records = outcome.tables[4].chunks_exact_mut(8).skip(1).take(if in_force { read.lines.len() } else { 0 });
        records.for_each(|record| record[3..5].iter_mut().for_each(|time| *time = (reading.stored)(*time)));
    }
    match (reading.total)(plain, listed.len(), more.len()) {
        0 => outcome,
        total => Outcome { answer: Answer::Findings { written, total }, ..outcome },
    }
}

/// Fails unless the right reading gives the model's outcome on every case, and each wrong one but these another on some.
fn told_apart(cases: impl Iterator<Item = Case>, but: &[&str]) {
    let mut missed = Missed::new(RIGHT, &[&UNTIMED[..], &ARRANGED, &LATE, &LISTED, &ANSWERED].concat());
    for case in cases {
        let Ok(feed) = read(&case.files, case.tables.each_ref().map(Vec::len)) else { continue };
        let read = Read::new(&case, &feed);
        missed.try_case(&case.name, &by_model(&case), |reading| by(reading, &case, &read));
    }
    missed.are(but);
}

/// What the customer's feeds lack: a late time beside a missing one.
#[test]
fn by_the_vectors() {
    told_apart(vectors::customers().into_iter().map(|(case, _)| case), &["62 only at timed lines"]);
}

#[test]
fn by_the_edge_cases() {
    told_apart(boards::cases().into_iter(), &[]);
}

#[test]
fn by_generated_feeds() {
    told_apart((0..SEEDS).map(generate::case), &[]);
}
