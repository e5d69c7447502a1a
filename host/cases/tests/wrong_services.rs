//! Likely wrong readings of E1: edge cases and generated feeds each tell every one of them from the right one, vectors all but two.

use cases::edges::BASE;
use cases::readings::Missed;
use cases::{by_model, edges, generate, vectors, Case, Outcome};
use model::page::hand_out;
use model::reading::{read, Feed, Row};
use model::records::fill;
use model::rules::findings;
use model::{Answer, Files, Profile, FILES};

/// How many seeds are looked at.
const SEEDS: u64 = 2000;

/// How a file not supplied and file 6 are read.
#[derive(Clone, Copy)]
struct Reading {
    /// The refusal, if there is one.
    refusal: fn(&Files, [usize; FILES]) -> Option<Answer>,
    /// Do two lines of file 6 have the same service and date?
    same: fn(&Row, &Row) -> bool,
    /// Does a line of file 6 break rule 21?
    stray: fn(&Feed, &Row) -> bool,
    /// Does a trip's service stand in neither file?
    neither: fn(&Feed, &[u8]) -> bool,
    /// Numbers 4 and 8 of a trip of this service.
    records: fn(&Feed, &[u8]) -> [usize; 2],
    /// Is record 0 of a file not supplied written?
    zeros: bool,
}

const RIGHT: Reading = Reading {
    refusal: |files, room| read(files, room).err(),
    same: |line, other| same_service(line, other) && same_date(line, other),
    stray: |_, _| false,
    neither: |feed, service| lines(feed, 3, service).is_empty() && lines(feed, 6, service).is_empty(),
    records: |feed, service| [first(feed, 3, service), first(feed, 6, service)],
    zeros: false,
};

/// The wrong readings, by name.
const WRONG: [(&str, Reading); 22] = [
    ("4 refuses every empty file 6", Reading { refusal: needs_6, ..RIGHT }),
    ("4 refuses every empty file 3", Reading { refusal: needs_3, ..RIGHT }),
    ("4 refuses an empty file 3 beside a header", Reading { refusal: needs_lines_of_6, ..RIGHT }),
    ("4 takes an unended file 6 for none", Reading { refusal: unended_6_is_none, ..RIGHT }),
    ("4 blames file 6 if both are empty", Reading { refusal: blames_6, ..RIGHT }),
    ("4 takes both empty", Reading { refusal: takes_both_empty, ..RIGHT }),
    ("file 6 read before file 5", Reading { refusal: |files, room| sooner(files, room, &[5]), ..RIGHT }),
    ("file 6 read behind file 3", Reading { refusal: |files, room| sooner(files, room, &[4, 5]), ..RIGHT }),
    ("20 by service alone", Reading { same: same_service, ..RIGHT }),
    ("20 by date alone", Reading { same: same_date, ..RIGHT }),
    ("20 by type too", Reading { same: |line, other| (RIGHT.same)(line, other) && same_type(line, other), ..RIGHT }),
    ("20 by raw bytes", Reading { same: |line, other| (RIGHT.same)(line, other) && same_raw(line, other), ..RIGHT }),
    ("20 nowhere in file 6", Reading { same: |_, _| false, ..RIGHT }),
    ("21 on file 6", Reading { stray: |feed, line| lines(feed, 3, line.value("service_id")).is_empty(), ..RIGHT }),
    ("21 by calendar alone", Reading { neither: |feed, service| lines(feed, 3, service).is_empty(), ..RIGHT }),
    ("21 by file 6 alone", Reading { neither: |feed, service| lines(feed, 6, service).is_empty(), ..RIGHT }),
    ("21 unless a line adds a date", Reading { neither: never_added, ..RIGHT }),
    ("8 is the last record", Reading { records: |feed, id| [first(feed, 3, id), last(feed, 6, id)], ..RIGHT }),
    ("8 only where calendar has none", Reading { records: either, ..RIGHT }),
    ("8 is the first that adds", Reading { records: first_added, ..RIGHT }),
    ("4 goes to file 6 too", Reading { records: fourth_of_6, ..RIGHT }),
    ("record 0 of a file not supplied", Reading { zeros: true, ..RIGHT }),
];

fn same_service(line: &Row, other: &Row) -> bool {
    line.value("service_id") == other.value("service_id")
}

fn same_date(line: &Row, other: &Row) -> bool {
    line.number("date") == other.number("date")
}

fn same_type(line: &Row, other: &Row) -> bool {
    line.number("exception_type") == other.number("exception_type")
}

/// As many raw bytes: of equal values, those with quotes have more.
fn same_raw(line: &Row, other: &Row) -> bool {
    let raw = |line: &Row| line.field("service_id").end - line.field("service_id").start;
    raw(line) == raw(other)
}

/// The records of a file with this service.
fn lines(feed: &Feed, file: usize, service: &[u8]) -> Vec<usize> {
    let has = |(_, line): &(usize, Row)| line.value("service_id") == service;
    feed[file - 1].rows().enumerate().filter(has).map(|(place, _)| place + 1).collect()
}

fn first(feed: &Feed, file: usize, service: &[u8]) -> usize {
    lines(feed, file, service).first().copied().unwrap_or(0)
}

fn last(feed: &Feed, file: usize, service: &[u8]) -> usize {
    lines(feed, file, service).last().copied().unwrap_or(0)
}

fn added(feed: &Feed, service: &[u8]) -> Vec<usize> {
    let adds = |record: &usize| feed[5].record(*record).number("exception_type") == 1;
    lines(feed, 6, service).into_iter().filter(adds).collect()
}

fn never_added(feed: &Feed, service: &[u8]) -> bool {
    lines(feed, 3, service).is_empty() && added(feed, service).is_empty()
}

fn either(feed: &Feed, service: &[u8]) -> [usize; 2] {
    let [calendar, date] = (RIGHT.records)(feed, service);
    [calendar, if calendar == 0 { date } else { 0 }]
}

fn first_added(feed: &Feed, service: &[u8]) -> [usize; 2] {
    [first(feed, 3, service), added(feed, service).first().copied().unwrap_or(0)]
}

fn fourth_of_6(feed: &Feed, service: &[u8]) -> [usize; 2] {
    let [calendar, date] = (RIGHT.records)(feed, service);
    [if calendar == 0 { date } else { calendar }, date]
}

/// The refusal of a feed with other files in some places.
fn refusal_with(files: &Files, room: [usize; FILES], changes: &[(usize, &[u8])]) -> Option<Answer> {
    let mut files = files.clone();
    changes.iter().for_each(|&(file, bytes)| files[file - 1] = bytes.to_vec());
    read(&files, room).err()
}

/// A file that isn't empty and breaks rule 4, no other.
const UNENDED: &[u8] = b"x";

fn is_empty(files: &Files, file: usize) -> bool {
    files[file - 1].is_empty()
}

fn needs_6(files: &Files, room: [usize; FILES]) -> Option<Answer> {
    let changes: &[(usize, &[u8])] = if is_empty(files, 6) && !is_empty(files, 3) { &[(6, UNENDED)] } else { &[] };
    refusal_with(files, room, changes)
}

fn needs_3(files: &Files, room: [usize; FILES]) -> Option<Answer> {
    let changes: &[(usize, &[u8])] = if is_empty(files, 3) { &[(3, UNENDED)] } else { &[] };
    refusal_with(files, room, changes)
}

fn needs_lines_of_6(files: &Files, room: [usize; FILES]) -> Option<Answer> {
    let header_only = files[5].split_inclusive(|&byte| byte == b'\n').count() == 1;
    let changes: &[(usize, &[u8])] = if is_empty(files, 3) && header_only { &[(3, UNENDED)] } else { &[] };
    refusal_with(files, room, changes)
}

fn unended_6_is_none(files: &Files, room: [usize; FILES]) -> Option<Answer> {
    let changes: &[(usize, &[u8])] = if files[5].ends_with(b"\n") { &[] } else { &[(6, b"")] };
    refusal_with(files, room, changes)
}

fn blames_6(files: &Files, room: [usize; FILES]) -> Option<Answer> {
    let changes: &[(usize, &[u8])] = if is_empty(files, 3) && is_empty(files, 6) { &[(6, UNENDED)] } else { &[] };
    refusal_with(files, room, changes)
}

fn takes_both_empty(files: &Files, mut room: [usize; FILES]) -> Option<Answer> {
    if !is_empty(files, 3) || !is_empty(files, 6) {
        return read(files, room).err();
    }
    let header = BASE[5].split_inclusive('\n').next().unwrap_or_default();
    room[5] = room[5].max(4);
    refusal_with(files, room, &[(6, header.as_bytes())])
}

/// File 6 is read before these files: without their lines it is file 6 that is refused, if it is.
fn sooner(files: &Files, room: [usize; FILES], behind: &[usize]) -> Option<Answer> {
    let right = read(files, room).err();
    match right {
        Some(Answer::Refused { file, line: 1.., .. }) if behind.contains(&file) => {
            let good: Vec<(usize, &[u8])> = behind.iter().map(|&file| (file, BASE[file - 1].as_bytes())).collect();
            let room = room.map(|length| length.max(100));
            refusal_with(files, room, &good).or(right)
        }
        _ => right,
    }
}

/// The findings of rule 20 and 21 that a reading changes, beside those of the model that it doesn't.
fn found_by(reading: &Reading, feed: &Feed, profile: Profile) -> Vec<[i32; 3]> {
    let mut found: Vec<[i32; 3]> = findings(feed, profile).into_iter().filter(|finding| finding[0] != 6).collect();
    found.retain(|finding| (finding[0], finding[2]) != (4, 21));
    for (place, trip) in feed[3].rows().enumerate() {
        let no_route = !feed[1].rows().any(|route| route.value("route_id") == trip.value("route_id"));
        let stray = no_route || (reading.neither)(feed, trip.value("service_id"));
        found.extend(stray.then_some([4, place as i32 + 2, 21]));
    }
    for (place, line) in feed[5].rows().enumerate() {
        let repeated = feed[5].rows().take(place).any(|other| (reading.same)(&line, &other));
        found.extend(repeated.then_some([6, place as i32 + 2, 20]));
        found.extend((reading.stray)(feed, &line).then_some([6, place as i32 + 2, 21]));
    }
    found.sort();
    found
}

/// What a reading makes of a case.
fn by(reading: &Reading, case: &Case) -> Outcome {
    let mut outcome = Outcome { answer: Answer::Accepted, tables: case.tables.clone(), list: case.list.clone() };
    let room = case.tables.each_ref().map(Vec::len);
    let feed = match ((reading.refusal)(&case.files, room), read(&case.files, room)) {
        (None, Ok(feed)) => feed,
        (refusal, _) => return Outcome { answer: refusal.unwrap_or(Answer::Accepted), ..outcome },
    };
    fill(&feed, &mut outcome.tables);
    for (place, trip) in feed[3].rows().enumerate() {
        let [calendar, date] = (reading.records)(&feed, trip.value("service_id"));
        outcome.tables[3][place * 8 + 11] = calendar as i32;
        outcome.tables[3][place * 8 + 15] = date as i32;
    }
    for file in (0..FILES).filter(|&file| reading.zeros && !feed[file].supplied) {
        outcome.tables[file].iter_mut().take(model::columns::WIDTHS[file]).for_each(|number| *number = 0);
    }
    let found = found_by(reading, &feed, case.profile);
    let written = hand_out(&found, &mut outcome.list, case.start);
    if !found.is_empty() {
        outcome.answer = Answer::Findings { written, total: found.len() };
    }
    outcome
}

/// Fails unless the right reading gives the model's outcome on every case, and each wrong one but these another on some.
fn told_apart(cases: impl Iterator<Item = Case>, but: &[&str]) {
    let mut missed = Missed::new(RIGHT, &WRONG);
    for case in cases.filter(|case| case.files.iter().all(|file| file.len() < 100_000)) {
        missed.try_case(&case.name, &by_model(&case), |reading| by(reading, &case));
    }
    missed.are(but);
}

/// What the customer's feeds lack: file 6 beside file 4 or 5, neither of which can be read.
#[test]
fn by_the_vectors() {
    let but = ["file 6 read before file 5", "file 6 read behind file 3"];
    told_apart(vectors::customers().into_iter().map(|(case, _)| case), &but);
}

#[test]
fn by_the_edge_cases() {
    told_apart(edges::of_services().into_iter(), &[]);
}

#[test]
fn by_generated_feeds() {
    told_apart((0..SEEDS).map(generate::case), &[]);
}
