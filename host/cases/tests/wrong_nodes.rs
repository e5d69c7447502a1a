//! Likely wrong readings of E10: edge cases and generated feeds each tell every one of them from the right one, vectors most.

use cases::large::tables;
use cases::readings::Missed;
use cases::{generate, nodes, vectors, Case};
use model::columns::COLUMNS;
use model::fields::{fields, lines, Field};
use model::reading::{read, read_alone, value_breaks, Feed};
use model::records::fill;
use model::rules::findings;
use model::Answer;

/// How many seeds are looked at: as many as the archive is compared with the model on.
const SEEDS: u64 = 8000;

/// The columns of stops.txt by their places in document 01's table.
const ID: usize = 0;
const NAME: usize = 1;
const LATITUDE: usize = 2;
const LONGITUDE: usize = 3;
const TYPE: usize = 4;
const PARENT: usize = 5;

/// A line of stops.txt: the values under its known columns, and where these stand, counted from 1; an absent one is empty and stands at 0.
struct Stop {
    values: [Vec<u8>; 6],
    places: [usize; 6],
}

impl Stop {
    fn lacks(&self, column: usize) -> bool {
        self.values[column].is_empty()
    }

    /// Both coordinates are empty.
    fn is_nowhere(&self) -> bool {
        self.lacks(LATITUDE) && self.lacks(LONGITUDE)
    }

    /// Its type, and what another spelling counts as.
    fn kind_or(&self, other: i32) -> i32 {
        match self.values[TYPE][..] {
            [] => 0,
            [digit @ b'0'..=b'4'] => i32::from(digit - b'0'),
            _ => other,
        }
    }

    fn kind(&self) -> i32 {
        self.kind_or(0)
    }
}

/// How nodes and boarding areas are read.
#[derive(Clone, Copy)]
struct Reading {
    /// The types that there are, each a digit.
    types: &'static [u8],
    /// The type that rule 12 goes by.
    judged: fn(&Stop) -> i32,
    /// May a line that counts as of this type leave this column empty, of those that are needed?
    may_lack: fn(i32, usize, &Stop) -> bool,
    /// The column that rule 12 names, from all that it could.
    named: fn(&[usize], &Stop) -> usize,
    /// The turns of rules 11 to 13.
    order: [usize; 3],
    /// Does a stop of this type break rule 22: has it a parent, and of which type, if that resolves?
    unfit: fn(i32, bool, Option<i32>) -> bool,
    /// May a trip call at a stop of this type?
    called: fn(i32) -> bool,
    /// The seventh number.
    mark: fn(&Stop) -> bool,
}

const RIGHT: Reading = Reading {
    types: b"01234",
    judged: Stop::kind,
    may_lack,
    named: |empty, _| empty[0],
    order: [11, 12, 13],
    unfit,
    called: |kind| kind == 0,
    mark: |stop| !stop.is_nowhere(),
};

fn may_lack(kind: i32, column: usize, stop: &Stop) -> bool {
    kind > 2 && (column == NAME || column != ID && stop.is_nowhere())
}

fn unfit(kind: i32, has: bool, parent: Option<i32>) -> bool {
    match kind {
        0 => parent.is_some_and(|parent| parent != 1),
        1 => has,
        4 => !has || parent.is_some_and(|parent| parent != 0),
        _ => !has || parent.is_some_and(|parent| parent != 1),
    }
}

const fn lacking(may_lack: fn(i32, usize, &Stop) -> bool) -> Reading {
    Reading { may_lack, ..RIGHT }
}

const fn judging(judged: fn(&Stop) -> i32) -> Reading {
    Reading { judged, ..RIGHT }
}

const fn naming(named: fn(&[usize], &Stop) -> usize) -> Reading {
    Reading { named, ..RIGHT }
}

const fn fitting(unfit: fn(i32, bool, Option<i32>) -> bool) -> Reading {
    Reading { unfit, ..RIGHT }
}

const fn calling(called: fn(i32) -> bool) -> Reading {
    Reading { called, ..RIGHT }
}

const fn marking(mark: fn(&Stop) -> bool) -> Reading {
    Reading { mark, ..RIGHT }
}

/// Readings of what may be empty.
const EMPTY: [(&str, Reading); 15] = [
    ("types 0 to 2 alone", Reading { types: b"012", ..RIGHT }),
    ("no type 4", Reading { types: b"0123", ..RIGHT }),
    ("a type 5", Reading { types: b"012345", ..RIGHT }),
    ("all is needed", lacking(|_, _, _| false)),
    ("all is needed under 3", lacking(|kind, column, stop| kind != 3 && may_lack(kind, column, stop))),
    ("all is needed under 4", lacking(|kind, column, stop| kind != 4 && may_lack(kind, column, stop))),
    ("entrances may lack it too", lacking(|kind, column, stop| may_lack(kind + 1, column, stop))),
    ("all may lack it", lacking(|_, column, stop| may_lack(3, column, stop))),
    ("the name is needed", lacking(|kind, column, stop| column != NAME && may_lack(kind, column, stop))),
    ("the place is needed", lacking(|kind, column, _| kind > 2 && column == NAME)),
    ("one coordinate is enough", lacking(|kind, column, _| kind > 2 && column != ID)),
    ("the id isn't needed", lacking(|kind, column, stop| kind > 2 && column == ID || may_lack(kind, column, stop))),
    ("a malformed type counts as 3", judging(|stop| stop.kind_or(3))),
    ("an empty type counts as 3", judging(|stop| if stop.lacks(TYPE) { 3 } else { stop.kind() })),
    ("a type by its last digit", judging(|stop| stop.values[TYPE].last().map_or(0, |last| i32::from(*last) - 48))),
];

/// Readings of the column that rule 12 names, and of its turn.
const NAMED: [(&str, Reading); 6] = [
    ("the rightmost empty one", naming(|empty, _| *empty.last().expect("an empty one"))),
    ("the coordinate that is given", naming(the_given_one)),
    ("the type's column", naming(|empty, stop| if stop.kind() > 2 { stop.places[TYPE] } else { empty[0] })),
    ("the first by the table", naming(|empty, stop| *stop.places.iter().find(|at| empty.contains(at)).expect("one"))),
    ("13 before 12", Reading { order: [11, 13, 12], ..RIGHT }),
    ("12 before 11", Reading { order: [12, 11, 13], ..RIGHT }),
];

fn the_given_one(empty: &[usize], stop: &Stop) -> usize {
    match (stop.kind() > 2, stop.lacks(LATITUDE)) {
        (true, true) => stop.places[LONGITUDE],
        (true, false) => stop.places[LATITUDE],
        _ => empty[0],
    }
}

/// Readings of parents, of calls and of the seventh number.
const PARENTS: [(&str, Reading); 18] = [
    ("3 needs no parent", fitting(|kind, has, parent| (kind != 3 || has) && unfit(kind, has, parent))),
    ("4 needs no parent", fitting(|kind, has, parent| (kind != 4 || has) && unfit(kind, has, parent))),
    ("3 has any parent", fitting(|kind, has, parent| unfit(kind, has, parent.filter(|_| kind != 3)))),
    ("4 has any parent", fitting(|kind, has, parent| unfit(kind, has, parent.filter(|_| kind != 4)))),
    ("3 at a platform", fitting(|kind, has, parent| unfit(if kind == 3 { 4 } else { kind }, has, parent))),
    ("4 at a station", fitting(|kind, has, parent| unfit(if kind == 4 { 3 } else { kind }, has, parent))),
    ("4 at a station too", fitting(|kind, has, parent| (kind, parent) != (4, Some(1)) && unfit(kind, has, parent))),
    ("3 at a node too", fitting(|kind, has, parent| (kind, parent) != (3, Some(3)) && unfit(kind, has, parent))),
    ("4 at an area too", fitting(|kind, has, parent| (kind, parent) != (4, Some(4)) && unfit(kind, has, parent))),
    ("0 at an area or a node", fitting(|kind, has, parent| (kind > 0 || parent < Some(3)) && unfit(kind, has, parent))),
    ("0 at a platform", fitting(|kind, has, parent| (kind, parent) != (0, Some(0)) && unfit(kind, has, parent))),
    ("3 and 4 have no parent", fitting(|kind, has, parent| if kind > 2 { has } else { unfit(kind, has, parent) })),
    ("unresolved is 22 too", fitting(|kind, has, parent| kind > 2 && parent.is_none() || unfit(kind, has, parent))),
    ("a call at 3", calling(|kind| kind == 0 || kind == 3)),
    ("a call at 4", calling(|kind| kind == 0 || kind == 4)),
    ("the mark by the type", marking(|stop| stop.kind() < 3)),
    ("the mark of all", marking(|_| true)),
    ("no mark at 0, 0", marking(|stop| !stop.is_nowhere() && stop.values[LATITUDE..TYPE] != [b"0", b"0"])),
];

/// The rule that a line breaks and its column, by a reading.
fn broken(reading: &Reading, stop: &Stop) -> Option<[usize; 2]> {
    let breaks = |rule: usize, column: usize| {
        let value = &stop.values[column];
        match (rule, column) {
            (12, ID..=LONGITUDE) => value.is_empty() && !(reading.may_lack)((reading.judged)(stop), column, stop),
            (13, TYPE) => !value.is_empty() && !(value.len() == 1 && reading.types.contains(&value[0])),
            _ => value_breaks(rule, &COLUMNS[0][column], value),
        }
    };
    reading.order.into_iter().find_map(|rule| {
        let known = (0..6).filter(|&column| stop.places[column] > 0 && breaks(rule, column));
        let mut places: Vec<usize> = known.map(|column| stop.places[column]).collect();
        places.sort_unstable();
        let named = if rule == 12 { reading.named } else { RIGHT.named };
        (!places.is_empty()).then(|| [rule, named(&places, stop)])
    })
}

/// The findings of rule 22 on stops and 23 on calls, by a reading.
fn found(reading: &Reading, stops: &[Stop], feed: &Feed) -> Vec<[i32; 3]> {
    let first = |id: &[u8]| stops.iter().find(|stop| stop.values[ID] == id).map(Stop::kind);
    let mut found = Vec::new();
    for (stop, line) in stops.iter().zip(2..) {
        let has = !stop.lacks(PARENT);
        let parent = if has { first(&stop.values[PARENT]) } else { None };
        found.extend((reading.unfit)(stop.kind(), has, parent).then_some([1, line, 22]));
    }
    for (call, line) in feed[4].rows().zip(2..) {
        let bad = first(call.value("stop_id")).is_some_and(|kind| !(reading.called)(kind));
        found.extend(bad.then_some([5, line, 23]));
    }
    found
}

/// The first refusal of stops.txt by a value, as rule, line and column; the findings; the seventh numbers.
type Outcome = (Option<[usize; 3]>, Vec<[i32; 3]>, Vec<i32>);

/// What a reading makes of stops.txt, and of the feed if it is read.
fn by(reading: &Reading, stops: &[Stop], feed: Option<&Feed>) -> Outcome {
    let refused = stops.iter().zip(2..).find_map(|(stop, line)| {
        let [rule, column] = broken(reading, stop)?;
        Some([rule, line, column])
    });
    let marks = feed.map_or(Vec::new(), |_| stops.iter().map(|stop| (reading.mark)(stop).into()).collect());
    (refused, feed.map_or(Vec::new(), |feed| found(reading, stops, feed)), marks)
}

/// What the model makes of them.
fn by_model(case: &Case, feed: Option<&Feed>) -> Outcome {
    let refused = match read_alone(&case.files[0], 1) {
        Err(Answer::Refused { number, line, column, .. }) => Some([number, line, column]),
        _ => None,
    };
    let Some(feed) = feed else { return (refused, Vec::new(), Vec::new()) };
    let mut found = findings(feed, case.profile);
    found.retain(|found| matches!(found[2], 22 | 23));
    let mut filled = tables(&case.files, 0);
    fill(feed, &mut filled);
    (refused, found, filled[0].chunks(7).skip(1).map(|record| record[6]).collect())
}

/// The lines of stops.txt, none if one of them isn't cut into as many fields as there are names.
fn stops(file: &[u8]) -> Option<Vec<Stop>> {
    let rows: Vec<Vec<Field>> = lines(file).into_iter().map(fields).collect::<Option<_>>()?;
    let place = |name: &str| rows[0].iter().position(|field| field.value == name.as_bytes()).map_or(0, |at| at + 1);
    let places: [usize; 6] = std::array::from_fn(|column| place(COLUMNS[0][column].name));
    let value = |row: &[Field], at: usize| if at > 0 { row[at - 1].value.clone() } else { Vec::new() };
    let stop = |row: &Vec<Field>| Stop { values: places.map(|at| value(row, at)), places };
    rows.iter().all(|row| row.len() == rows[0].len()).then(|| rows[1..].iter().map(stop).collect())
}

/// Fails unless the right reading gives what the model does on every case, and each wrong one but these something else on some.
fn told_apart(cases: impl Iterator<Item = Case>, but: &[&str]) {
    let mut missed = Missed::new(RIGHT, &[&EMPTY[..], &NAMED, &PARENTS].concat());
    for case in cases {
        if matches!(read_alone(&case.files[0], 1), Err(Answer::Refused { number: ..=10 | 14, .. })) {
            continue;
        }
        let Some(stops) = stops(&case.files[0]) else { continue };
        let feed = read(&case.files, [usize::MAX; 6]).ok();
        missed.try_case(&case.name, &by_model(&case, feed.as_ref()), |reading| by(reading, &stops, feed.as_ref()));
    }
    missed.are(but);
}

/// What the customer's feeds lack: a long id beside what is empty; an entrance without its name or place; a node without an id; a place at 0, 0.
#[test]
fn by_the_vectors() {
    let but = ["12 before 11", "entrances may lack it too", "no mark at 0, 0", "the id isn't needed"];
    told_apart(vectors::customers().into_iter().map(|(case, _)| case), &but);
}

#[test]
fn by_the_edge_cases() {
    told_apart(nodes::cases().into_iter(), &[]);
}

#[test]
fn by_generated_feeds() {
    told_apart((0..SEEDS).map(generate::case), &[]);
}
