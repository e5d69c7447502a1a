//! What a finding is about, from the tables that the check filled and from the files.

use crate::columns::IDS;
use crate::feed::{Feed, FILES};
use crate::fields::{field, value};
use crate::memory;
use crate::names::Names;
use crate::paging::Finding;
use crate::safe;
use crate::value::{Members, Value};
use std::borrow::Cow;
use std::cell::OnceCell;
use std::collections::hash_map::RandomState;
use std::hash::{BuildHasher, Hash};
use tusuchiy::{File, WIDTHS};

/// What a finding or a refusal is about: in words, and the same as members.
#[derive(Clone, Debug, Default, PartialEq)]
pub struct About {
    pub words: String,
    pub members: Members,
}

/// A number of a record: its file, and its place in the record as the tables of document 01 have it.
type Cell = (usize, usize);

const LOCATION_TYPE: Cell = (1, 4);
const PARENT: Cell = (1, 5);
const START_DATE: Cell = (3, 3);
const END_DATE: Cell = (3, 4);
const ROUTE: Cell = (4, 2);
const SERVICE: Cell = (4, 3);
const SERVICE_DATE: Cell = (4, 7);
const TRIP: Cell = (5, 0);
const STOP: Cell = (5, 1);
const SEQUENCE: Cell = (5, 2);
const ARRIVAL: Cell = (5, 3);
const DEPARTURE: Cell = (5, 4);
const PICKUP: Cell = (5, 5);
const DROP_OFF: Cell = (5, 6);
const TIMEPOINT: Cell = (5, 7);
const DATE: Cell = (6, 2);

/// The lines of stop_times.txt that a trip has: how many, the first and the last by stop_sequence.
#[derive(Clone, Copy, Default)]
struct Calls {
    count: u32,
    first: u32,
    last: u32,
}

/// For a line of stop_times.txt the first line of its trip with the same stop_sequence, and of the timed lines with a
/// smaller one the line that departs latest, of several the first by stop_sequence and line; 0 is none.
type Beside = [u32; 2];

/// What rule 20 compares: the id, and in calendar_dates.txt the date.
type Key<'a> = (Cow<'a, [u8]>, Option<i32>);

/// A feed that was read, with what was looked up in it.
pub struct Facts<'a> {
    feed: &'a Feed,
    tables: &'a [Vec<i32>; FILES],
    names: Names<'a>,
    firsts: [OnceCell<Vec<u32>>; FILES],
    calls: OnceCell<Vec<Calls>>,
    beside: OnceCell<Vec<Beside>>,
}

impl<'a> Facts<'a> {
    /// Nothing is looked up before it is asked for.
    pub fn new(feed: &'a Feed, tables: &'a [Vec<i32>; FILES]) -> Self {
        let (names, firsts) = (Names::new(feed), Default::default());
        Facts { feed, tables, names, firsts, calls: OnceCell::new(), beside: OnceCell::new() }
    }

    /// What a finding is about.
    pub fn about(&self, finding: &Finding) -> About {
        let Finding { file, line, rule } = *finding;
        match rule {
            20 => self.repeated_id(file, line),
            21 => self.references(file, line),
            22 => self.parent(line),
            23 => self.no_platform(line),
            24 => self.dates(line),
            25 => no_name(),
            26 => self.times_given(line),
            27 => self.departure_first(line),
            28 => self.repeated_sequence(line),
            29 => self.arrival_too_early(line),
            30 => self.few_calls(line),
            31 => self.untimed_ends(line),
            60 => self.not_timed(line),
            61 => self.arranged(line),
            62 => self.past_two_days(line),
            _ => About::default(),
        }
    }

    /// A number of the record of a line.
    fn number(&self, (file, place): Cell, line: usize) -> i32 {
        self.tables[file - 1][(line - 1) * WIDTHS[file - 1] + place]
    }

    /// The record number that stands in a record, as the line that it names; none for 0.
    fn named(&self, cell: Cell, line: usize) -> Option<usize> {
        let record = usize::try_from(self.number(cell, line)).ok().filter(|&record| record > 0);
        record.map(|record| record + 1)
    }

    /// The value under a known column; empty where the column is absent.
    fn value(&self, file: usize, line: usize, column: &str) -> Cow<'a, [u8]> {
        self.names.place(file, column).map_or(Cow::Borrowed(&[]), |place| value_at(self.feed, file, line, place))
    }

    /// The columns of a finding's line that carets stand under, counted from 1: those that break a rule of a profile.
    pub fn marked(&self, finding: &Finding, about: &About) -> Vec<usize> {
        let columns = breaking(finding.rule, about).into_iter();
        columns.filter_map(|column| Some(self.names.place(finding.file, column)? + 1)).collect()
    }

    /// The key of a line of files 1 to 4 or 6: where its id stands is in numbers 0 and 1 of its record.
    fn key(&self, file: usize, line: usize) -> Key<'a> {
        let [start, end] = [0, 1].map(|place| self.number((file, place), line) as usize);
        let id = value(&self.feed.slices()[file - 1][start..end]);
        (id, (file == DATE.0).then(|| self.number(DATE, line)))
    }

    /// For each line of a file the first line with its key.
    fn firsts(&self, file: usize) -> &[u32] {
        let key = |line| self.key(file, line);
        self.firsts[file - 1].get_or_init(|| first_lines(self.feed.line_count(file), key))
    }

    fn repeated_id(&self, file: usize, line: usize) -> About {
        let column = IDS[file - 1];
        let key = self.key(file, line);
        let earlier = self.firsts(file)[line] as usize;
        repeated_id(column, &key.0, key.1.map(written_date), earlier)
    }

    /// Every reference of the line that leads nowhere.
    fn references(&self, file: usize, line: usize) -> About {
        let (mut words, mut list) = (Vec::new(), Vec::new());
        for (column, searched) in referring(file) {
            if searched.iter().any(|(_, cell)| self.number(*cell, line) != 0) {
                continue;
            }
            let id = self.value(file, line, column);
            let names: Vec<&str> = searched.iter().map(|(searched, _)| searched.name()).collect();
            words.push(format!("{column} {} {}", shown(&id), stands_nowhere(&names)));
            let searched = ("searched", Value::texts(names));
            list.push(Value::Members(vec![("column", Value::text(column)), shown_value(&id), searched]));
        }
        About { words: words.join("; "), members: vec![("references", Value::List(list))] }
    }

    fn parent(&self, line: usize) -> About {
        let kind = self.number(LOCATION_TYPE, line);
        let id = self.value(1, line, "parent_station");
        let parent = self.named(PARENT, line);
        let parent_kind = parent.map(|parent| self.number(LOCATION_TYPE, parent));
        let mut clauses: Vec<(&str, String)> = own_clause(kind, &id).into_iter().collect();
        if let (Some(parent), Some(other)) = (parent, parent_kind) {
            let words = format!("its parent_station {} on line {parent} has location_type {other}", shown(&id));
            clauses.extend(parent_clause(kind, other).map(|(clause, wanted)| (clause, words + wanted)));
        }
        let members = vec![
            ("clauses", Value::texts(clauses.iter().map(|(clause, _)| clause))),
            ("location_type", Value::Number(kind.into())),
            ("parent_station", Value::text(&id)),
            ("parent_line", Value::maybe(parent)),
            ("parent_location_type", parent_kind.map_or(Value::Null, |kind| Value::Number(kind.into()))),
        ];
        let words: Vec<String> = clauses.into_iter().map(|(_, words)| words).collect();
        About { words: words.join("; "), members }
    }

    fn no_platform(&self, line: usize) -> About {
        let id = self.value(5, line, "stop_id");
        let stop = self.named(STOP, line).unwrap_or(1);
        let kind = self.number(LOCATION_TYPE, stop);
        About {
            words: format!("stop_id {} on line {stop} of stops.txt has location_type {kind}", shown(&id)),
            members: vec![
                ("stop_id", Value::text(&id)),
                ("stop_line", Value::size(stop)),
                ("location_type", Value::Number(kind.into())),
            ],
        }
    }

    fn dates(&self, line: usize) -> About {
        let [start, end] = [START_DATE, END_DATE].map(|cell| written_date(self.number(cell, line)));
        About {
            words: format!("end_date {end} is before start_date {start}"),
            members: vec![("start_date", Value::text(start)), ("end_date", Value::text(end))],
        }
    }

    /// The two times of a line; none where one is empty.
    fn times(&self, line: usize) -> [Option<String>; 2] {
        [ARRIVAL, DEPARTURE].map(|cell| {
            let seconds = self.number(cell, line);
            let [hours, minutes] = [seconds / 3600, seconds / 60 % 60];
            (seconds >= 0).then(|| format!("{hours:02}:{minutes:02}:{:02}", seconds % 60))
        })
    }

    fn times_given(&self, line: usize) -> About {
        let times = self.times(line);
        let exact = self.number(TIMEPOINT, line) == 1;
        let mut clauses: Vec<(&str, String)> = one_only(&times).into_iter().collect();
        if exact && times.iter().any(Option::is_none) {
            clauses.push(("timepoint_without_times", format!("timepoint is 1 and {} empty", lacking(&times))));
        }
        let mut members = vec![("clauses", Value::texts(clauses.iter().map(|(clause, _)| clause)))];
        members.extend(time_members(&times));
        members.push(("timepoint", Value::Number(self.number(TIMEPOINT, line).into())));
        let words: Vec<String> = clauses.into_iter().map(|(_, words)| words).collect();
        About { words: words.join("; "), members }
    }

    fn departure_first(&self, line: usize) -> About {
        let times = self.times(line);
        let [arrival, departure] = times.each_ref().map(|time| time.as_deref().unwrap_or_default());
        About {
            words: format!("departure_time {departure} is before arrival_time {arrival}"),
            members: time_members(&times),
        }
    }

    fn not_timed(&self, line: usize) -> About {
        let times = self.times(line);
        let words = one_only(&times).map_or_else(|| format!("{} empty", lacking(&times)), |(_, words)| words);
        About { words, members: time_members(&times) }
    }

    fn arranged(&self, line: usize) -> About {
        let how = |number: i32| match number {
            2 => Some("must phone the agency"),
            3 => Some("must arrange with the driver"),
            _ => None,
        };
        let types = [("pickup_type", PICKUP), ("drop_off_type", DROP_OFF)];
        let types = types.map(|(column, cell)| (column, self.number(cell, line)));
        let words =
            types.iter().filter_map(|(column, number)| Some(format!("{column} is {number} ({})", how(*number)?)));
        About {
            words: words.collect::<Vec<_>>().join("; "),
            members: types.map(|(column, number)| (column, Value::Number(number.into()))).to_vec(),
        }
    }

    fn past_two_days(&self, line: usize) -> About {
        let times = self.times(line);
        let late = |(column, time): (&str, &Option<String>)| {
            let time = time.as_deref().filter(|time| *time >= TWO_DAYS)?;
            Some(format!("{column} is {time}"))
        };
        let late: Vec<String> = TIMES.into_iter().zip(&times).filter_map(late).collect();
        About { words: format!("{}, wanted: before {TWO_DAYS}", late.join(" and ")), members: time_members(&times) }
    }

    /// The lines of stop_times.txt by trip, stop_sequence and line, each after the first line of its trip.
    fn in_trip_order(&self) -> Vec<(u32, u32)> {
        let lines = self.feed.line_count(5);
        // Where an id stands is looked up once, and not for each comparison: a line may be long.
        let places = memory::list((0..=lines).map(|line| self.unknown_trip(line)), lines + 1);
        let firsts = first_lines(lines, |line| {
            let [start, end] = places[line].map(|place| place as usize);
            (self.number(TRIP, line), value(&self.feed.slices()[4][start..end]))
        });
        drop(places);
        let mut order = memory::list((2..=lines).map(|line| (firsts[line], line as u32)), lines);
        order.sort_unstable_by_key(|&(trip, line)| (trip, self.number(SEQUENCE, line as usize), line));
        order
    }

    /// Where the trip_id of a line of stop_times.txt stands in the file, if no line of trips.txt has it; else nowhere.
    fn unknown_trip(&self, line: usize) -> [u32; 2] {
        let id = || {
            let (place, text) = (self.names.place(5, "trip_id")?, self.feed.line(5, line)?);
            let (field, start) = (field(text, place + 1)?, self.feed.start(5, line)?);
            Some([start + field.start, start + field.end].map(|place| place as u32))
        };
        Some(line).filter(|line| *line > 1 && self.number(TRIP, *line) == 0).and_then(|_| id()).unwrap_or_default()
    }

    /// The line of the same trip that has this line's stop_sequence already, and the one that departs too late.
    fn beside(&self, line: usize) -> [usize; 2] {
        let beside = self.beside.get_or_init(|| {
            let lines = self.feed.line_count(5);
            let mut beside = memory::list((0..=lines).map(|_| Beside::default()), lines + 1);
            let order = self.in_trip_order();
            for trip in order.chunk_by(|one, other| one.0 == other.0) {
                self.look_along(trip, &mut beside);
            }
            beside
        });
        beside[line].map(|line| line as usize)
    }

    /// Notes beside each line of a trip, in the trip's order, what it is to be compared with.
    fn look_along(&self, trip: &[(u32, u32)], beside: &mut [Beside]) {
        let departure = |line: u32| if line == 0 { -1 } else { self.number(DEPARTURE, line as usize) };
        let mut latest = 0;
        let sequence = |line: u32| self.number(SEQUENCE, line as usize);
        for equal in trip.chunk_by(|one, other| sequence(one.1) == sequence(other.1)) {
            equal.iter().for_each(|&(_, line)| beside[line as usize] = [equal[0].1, latest]);
            for &(_, line) in equal.iter().filter(|(_, line)| self.timed(*line as usize)) {
                latest = if departure(line) > departure(latest) { line } else { latest };
            }
        }
    }

    /// Both times of the line are given.
    fn timed(&self, line: usize) -> bool {
        self.times(line).iter().all(Option::is_some)
    }

    fn repeated_sequence(&self, line: usize) -> About {
        let [earlier, _] = self.beside(line);
        let sequence = self.number(SEQUENCE, line);
        About {
            words: format!("the trip has stop_sequence {sequence} on line {earlier} already"),
            members: vec![("stop_sequence", Value::Number(sequence.into())), ("earlier_line", Value::size(earlier))],
        }
    }

    fn arrival_too_early(&self, line: usize) -> About {
        let [_, other] = self.beside(line);
        let [[arrival, _], [_, departure]] = [line, other].map(|line| self.times(line).map(Option::unwrap_or_default));
        let [own, smaller] = [line, other].map(|line| self.number(SEQUENCE, line));
        let that = format!("departure_time {departure} on line {other}, whose stop_sequence {smaller} is below {own}");
        About {
            words: format!("arrival_time {arrival} is before {that}"),
            members: vec![
                ("stop_sequence", Value::Number(own.into())),
                ("arrival_time", Value::text(arrival)),
                ("other_line", Value::size(other)),
                ("other_stop_sequence", Value::Number(smaller.into())),
                ("other_departure_time", Value::text(departure)),
            ],
        }
    }

    /// The lines of stop_times.txt that belong to the trip on a line of trips.txt.
    fn calls(&self, line: usize) -> Calls {
        let calls = self.calls.get_or_init(|| {
            let trips = self.feed.line_count(4);
            let mut calls = memory::list((0..trips).map(|_| Calls::default()), trips);
            for line in 2..=self.feed.line_count(5) {
                let trip = self.named(TRIP, line).map_or(0, |trip| trip - 1);
                calls[trip] = self.with_line(calls[trip], line as u32);
            }
            calls
        });
        calls[line - 1]
    }

    /// A trip with one more line, further down than the others: of equal sequences the earlier line stays.
    fn with_line(&self, calls: Calls, line: u32) -> Calls {
        let Calls { count, first, last } = calls;
        let sequence = |line: u32| self.number(SEQUENCE, line as usize);
        Calls {
            count: count + 1,
            first: if count == 0 || sequence(line) < sequence(first) { line } else { first },
            last: if count == 0 || sequence(line) > sequence(last) { line } else { last },
        }
    }

    fn few_calls(&self, line: usize) -> About {
        let id = self.value(4, line, "trip_id");
        let calls = self.calls(line);
        let (words, lines) = match calls.count {
            0 => ("has no line in stop_times.txt".to_string(), Vec::new()),
            _ => {
                let line = calls.first as usize;
                (format!("has one line in stop_times.txt, line {line}"), vec![Value::size(line)])
            }
        };
        About {
            words: format!("trip_id {} {words}", shown(&id)),
            members: vec![("trip_id", Value::text(&id)), ("lines", Value::List(lines))],
        }
    }

    fn untimed_ends(&self, line: usize) -> About {
        let Calls { first, last, .. } = self.calls(line);
        let [first, last] = [first, last].map(|line| line as usize);
        let words = |end: &str, line: usize| {
            let lacks = wanting(&self.times(line));
            format!("its {end} line by stop_sequence, line {line} of stop_times.txt, lacks {lacks}")
        };
        let mut ends = vec![("first", first), ("last", last)];
        ends.dedup_by_key(|(_, line)| *line);
        ends.retain(|(_, line)| !self.timed(*line));
        About {
            words: ends.iter().map(|(end, line)| words(end, *line)).collect::<Vec<_>>().join("; "),
            members: vec![
                ("first_line", Value::size(first)),
                ("last_line", Value::size(last)),
                ("untimed", Value::List(ends.into_iter().map(|(_, line)| Value::size(line)).collect())),
            ],
        }
    }
}

/// For each line below a header the first line with its key. Lines are found by their keys' hashes in a table of line numbers: a map of a
/// million keys would take more than their file.
fn first_lines<Key: Hash + Eq>(lines: usize, key: impl Fn(usize) -> Key) -> Vec<u32> {
    let (slots, hashes) = ((2 * lines).next_power_of_two(), RandomState::new());
    let mut table = memory::list((0..slots).map(|_| 0), slots);
    let mut first = |line: usize| {
        let own = key(line);
        let hash = hashes.hash_one(&own) as usize;
        let mut places = (0..slots).map(|more| hash.wrapping_add(more) % slots);
        // Half of the slots stay empty.
        let slot = places.find(|slot| table[*slot] == 0 || key(table[*slot] as usize) == own).unwrap_or(0);
        if table[slot] == 0 {
            table[slot] = line as u32;
        }
        table[slot]
    };
    memory::list((0..=lines).map(|line| if line < 2 { 0 } else { first(line) }), lines + 1)
}

/// An id, perhaps with a date, that stands on an earlier line.
pub fn repeated_id(column: &'static str, id: &[u8], date: Option<String>, earlier: usize) -> About {
    let with_date = date.as_ref().map_or(String::new(), |date| format!(" with date {date}"));
    let mut members = vec![("column", Value::text(column)), shown_value(id)];
    members.extend(date.map(|date| ("date", Value::text(date))));
    members.push(("earlier_line", Value::size(earlier)));
    About { words: format!("{column} {}{with_date} stands on line {earlier} already", shown(id)), members }
}

/// Each reference that a line of a file has: its column, and the files that it is sought in, with the cell for what was found.
fn referring(file: usize) -> &'static [(&'static str, &'static [(File, Cell)])] {
    match file {
        1 => &[("parent_station", &[(File::Stops, PARENT)])],
        4 => &[
            ("route_id", &[(File::Routes, ROUTE)]),
            ("service_id", &[(File::Calendar, SERVICE), (File::CalendarDates, SERVICE_DATE)]),
        ],
        _ => &[("trip_id", &[(File::Trips, TRIP)]), ("stop_id", &[(File::Stops, STOP)])],
    }
}

/// What a parent has to be, of a boarding area and of any other stop.
const WANTED_PLATFORM: &str = ", wanted: a stop or platform (location_type 0)";
const WANTED_STATION: &str = ", wanted: a station (location_type 1)";

/// The clause of rule 22 that a stop of this type breaks by having a parent_station, or by having none.
fn own_clause(kind: i32, parent: &[u8]) -> Option<(&'static str, String)> {
    let (clause, who, wanted) = match (kind, parent) {
        (1, [_, ..]) => {
            return Some((
                "station_with_parent",
                format!("a station has the parent_station {}, wanted: none", shown(parent)),
            ))
        }
        (2, []) => ("entrance_without_parent", "an entrance", WANTED_STATION),
        (3, []) => ("node_without_parent", "a generic node", WANTED_STATION),
        (4, []) => ("boarding_area_without_parent", "a boarding area", WANTED_PLATFORM),
        _ => return None,
    };
    Some((clause, format!("{who} has no parent_station{wanted}")))
}

/// The clause that it breaks by its parent's type, and what that should be; a station should have none, which is said already.
fn parent_clause(kind: i32, parent: i32) -> Option<(&'static str, &'static str)> {
    match (kind, parent) {
        (4, 0) | (0..=3, 1) => None,
        (4, _) => Some(("parent_is_no_platform", WANTED_PLATFORM)),
        (1, _) => Some(("parent_is_no_station", "")),
        _ => Some(("parent_is_no_station", WANTED_STATION)),
    }
}

fn stands_nowhere(searched: &[&str]) -> String {
    match searched {
        [one] => format!("stands on no line of {one}"),
        several => format!("stands in neither {}", several.join(" nor ")),
    }
}

/// A date as it stands in a feed.
fn written_date(date: i32) -> String {
    format!("{date:08}")
}

/// Rule 25 says it all; an absent column is empty.
fn no_name() -> About {
    About {
        words: "route_short_name and route_long_name are both empty".to_string(),
        members: vec![("columns", Value::texts(["route_short_name", "route_long_name"]))],
    }
}

/// The two times of a line of stop_times.txt.
const TIMES: [&str; 2] = ["arrival_time", "departure_time"];

/// Rule 62 takes times below this one. All are written alike, so that their order as text is their order in time.
const TWO_DAYS: &str = "48:00:00";

/// The two times as members, null where one is empty.
fn time_members(times: &[Option<String>; 2]) -> Members {
    let told = times.iter().map(|time| time.as_ref().map_or(Value::Null, Value::text));
    TIMES.into_iter().zip(told).collect()
}

/// Where just one time is given: the clause of rule 26, and words.
fn one_only(times: &[Option<String>; 2]) -> Option<(&'static str, String)> {
    match times {
        [Some(time), None] => {
            Some(("arrival_time_only", format!("arrival_time is {time} and departure_time is empty")))
        }
        [None, Some(time)] => {
            Some(("departure_time_only", format!("departure_time is {time} and arrival_time is empty")))
        }
        _ => None,
    }
}

/// The columns of a line that break a rule of the profile for boards: one or both of the two that are its members. None of any other rule.
pub fn breaking(rule: usize, about: &About) -> Vec<&'static str> {
    let breaks = |value: &Value| match (rule, value) {
        (60, value) => *value == Value::Null,
        (61, value) => [2, 3].map(Value::Number).contains(value),
        (62, Value::Text(time)) => &time[..] >= TWO_DAYS.as_bytes(),
        _ => false,
    };
    about.members.iter().filter(|(_, value)| breaks(value)).map(|(name, _)| *name).collect()
}

/// Which times are empty, and the word that goes with them.
fn lacking(times: &[Option<String>; 2]) -> String {
    let word = if times.iter().all(Option::is_none) { "are" } else { "is" };
    format!("{} {word}", wanting(times))
}

/// Which times are empty.
fn wanting(times: &[Option<String>; 2]) -> &'static str {
    match times {
        [None, None] => "arrival_time and departure_time",
        [None, _] => "arrival_time",
        _ => "departure_time",
    }
}

/// The value of a field of a line, places counted from 0; empty where there is no such field.
pub fn value_at(feed: &Feed, file: usize, line: usize, place: usize) -> Cow<'_, [u8]> {
    let text = feed.line(file, line).unwrap_or(&[]);
    field(text, place + 1).map_or(Cow::Borrowed(&[]), |field| value(&text[field]))
}

/// A value of the feed in quotes, safe to print and not too long.
pub fn shown(value: &[u8]) -> String {
    let (beginning, cut) = safe::beginning(value, safe::SHOWN_VALUE);
    format!("\"{}{}\"", safe::text(beginning), if cut { "..." } else { "" })
}

/// The member `value`, which isn't too long either.
pub fn shown_value(value: &[u8]) -> (&'static str, Value) {
    ("value", shown_text(value))
}

/// A value of the feed for a document.
pub fn shown_text(value: &[u8]) -> Value {
    Value::text(safe::beginning(value, safe::SHOWN_LINE).0)
}
