//! The feeds of the benchmark, each within rules 1 and 2: their longest file has just as many lines as asked for. Rule 1 leaves 128 bytes to
//! each of as many lines as rule 2 allows.

use super::dated;
use super::draft::Draft;
use super::plan::{of_three_bytes, prefixed, short, stop_of, with_long_trips, Plan};
use crate::random::Random;
use model::Files;

/// What a feed is to the benchmark's aims.
#[derive(Clone, Copy, Debug, PartialEq, Eq)]
pub enum Kind {
    /// As publishers send them.
    Plain,
    /// As somebody could send them.
    Hard,
}

/// Feeds of one shape and any size.
pub struct Family {
    pub name: &'static str,
    pub about: &'static str,
    pub kind: Kind,
    /// The feed whose longest file has so many lines, its header counted; 64 at least.
    pub feed: fn(usize) -> Files,
}

const fn family(name: &'static str, kind: Kind, feed: fn(usize) -> Files, about: &'static str) -> Family {
    Family { name, about, kind, feed }
}

/// All families, in the benchmark's order.
pub const FAMILIES: [Family; 35] = [
    family("plain", Kind::Plain, plain, "trips one after the other, ten lines a trip"),
    family("long-ids", Kind::Hard, long_ids, "trip ids of 64 bytes, two lines a trip"),
    family("last-parent", Kind::Hard, last_parent, "all stops have the same parent, on the last line of stops"),
    family("nowhere", Kind::Hard, nowhere, "each line of stop_times has its own trip, which stands nowhere"),
    family("all-at-once", Kind::Hard, all_at_once, "the three before in one feed, every stop_times line at the parent"),
    family("few-ids", Kind::Plain, few_ids, "four trips and four stops, so that the walk along the files is all"),
    family("prefix", Kind::Hard, prefix, "as plain, and all ids begin with the same 48 bytes"),
    family("interleaved", Kind::Hard, interleaved, "as plain, but the lines of the trips are taken by turns"),
    family("by-stop", Kind::Plain, by_stop, "as plain, but stop_times is sorted by stop"),
    family("backward", Kind::Hard, backward, "as plain, but the lines of stop_times stand the other way round"),
    family("shuffled", Kind::Hard, shuffled, "as plain, but the lines of stops, trips and stop_times are shuffled"),
    family(
        "unresolved",
        Kind::Hard,
        unresolved,
        "every file that long, and no stop, route or service named stands anywhere",
    ),
    family("equal-ids", Kind::Hard, equal_ids, "every file that long, and all its ids equal"),
    family("two-lines", Kind::Hard, two_lines, "as plain, but two lines a trip"),
    family("own-trip", Kind::Hard, own_trip, "as plain, but each line of stop_times has its own trip"),
    family("one-trip", Kind::Hard, one_trip, "as plain, but one trip has all lines of stop_times"),
    family("one-backward", Kind::Hard, one_backward, "as one-trip, but its lines stand the other way round"),
    family("one-shuffled", Kind::Hard, one_shuffled, "as one-trip, but its lines are shuffled"),
    family("one-nowhere", Kind::Hard, one_nowhere, "as one-backward, but the trip stands nowhere"),
    family("one-sequence", Kind::Hard, one_sequence, "as one-trip, but all its sequences are equal"),
    family("quoted", Kind::Plain, quoted, "as plain, and every field is quoted"),
    family("three-bytes", Kind::Hard, three_bytes, "as plain, and all ids are 17 characters of three bytes"),
    family(
        "mixed-bytes",
        Kind::Hard,
        mixed_bytes,
        "as plain, and each line of stop_times has an unread note, characters of one to four bytes by turns",
    ),
    family(
        "dates-only",
        Kind::Plain,
        dated::dates_only,
        "no calendar.txt; in calendar_dates each service has a year of dates",
    ),
    family("dates-muddle", Kind::Hard, dated::dates_muddle, "as dates-only, but its dates are shuffled"),
    family("dates-rise", Kind::Hard, dated::dates_rise, "one service on every line of calendar_dates, dates rise"),
    family("dates-mixed", Kind::Hard, dated::dates_mixed, "as dates-rise, but shuffled"),
    family("dates-twice", Kind::Hard, dated::dates_twice, "as dates-rise, but half the dates, and these again"),
    family("dates-tangle", Kind::Hard, dated::dates_tangle, "as dates-twice, but shuffled"),
    family(
        "day-rise",
        Kind::Hard,
        dated::day_rise,
        "one date on every line of calendar_dates, each of its own service",
    ),
    family("day-mixed", Kind::Hard, dated::day_mixed, "as day-rise, but shuffled"),
    family("day-twice", Kind::Hard, dated::day_twice, "as day-rise, but half the services, and these again"),
    family("day-tangle", Kind::Hard, dated::day_tangle, "as day-twice, but shuffled"),
    family("day-prefix", Kind::Hard, dated::day_prefix, "as day-mixed, and all services begin with the same 60 bytes"),
    family("day-trips", Kind::Hard, dated::day_trips, "as day-mixed, and each service has a trip"),
];

fn plain(lines: usize) -> Files {
    Plan::new(lines, short).write().0
}

fn long_ids(lines: usize) -> Files {
    Plan::new(lines, with_long_trips).with_trips((lines - 1) / 2).write().0
}

fn few_ids(lines: usize) -> Files {
    Plan { stops: 4, ..Plan::new(lines, short).with_trips(4) }.write().0
}

fn two_lines(lines: usize) -> Files {
    Plan::new(lines, short).with_trips((lines - 1) / 2).write().0
}

fn own_trip(lines: usize) -> Files {
    Plan::new(lines, short).with_trips(lines - 1).write().0
}

fn one_trip(lines: usize) -> Files {
    Plan::new(lines, short).with_trips(1).write().0
}

fn one_backward(lines: usize) -> Files {
    Plan::new(lines, short).with_trips(1).reversed().write().0
}

fn one_shuffled(lines: usize) -> Files {
    let mut draft = Plan::new(lines, short).with_trips(1).write();
    draft.shuffle(5, &mut Random::new(0));
    draft.0
}

fn one_nowhere(lines: usize) -> Files {
    let mut draft = Plan::new(lines, short).write_records();
    (0..lines - 1).rev().for_each(|place| draft.call("X", place, "S1"));
    draft.0
}

fn one_sequence(lines: usize) -> Files {
    let mut draft = Plan::new(lines, short).with_trips(1).write_records();
    (0..lines - 1).for_each(|place| draft.call_with("T0", place, 1, "S1"));
    draft.0
}

fn prefix(lines: usize) -> Files {
    Plan::new(lines, prefixed::<48>).write().0
}

fn interleaved(lines: usize) -> Files {
    let mut plan = Plan::new(lines, short);
    plan.calls.sort_by_key(|&(_, place)| place);
    plan.write().0
}

fn by_stop(lines: usize) -> Files {
    let mut plan = Plan::new(lines, short);
    let stops = plan.stops;
    plan.calls.sort_by_key(|&(trip, place)| stop_of(trip, place, stops));
    plan.write().0
}

fn backward(lines: usize) -> Files {
    Plan::new(lines, short).reversed().write().0
}

fn shuffled(lines: usize) -> Files {
    let mut draft = Plan::new(lines, short).write();
    let mut random = Random::new(0);
    for file in [1, 4, 5] {
        draft.shuffle(file, &mut random);
    }
    draft.0
}

fn quoted(lines: usize) -> Files {
    let mut draft = Plan::new(lines, short).write();
    draft.quote();
    draft.0
}

fn three_bytes(lines: usize) -> Files {
    Plan::new(lines, of_three_bytes).write().0
}

fn mixed_bytes(lines: usize) -> Files {
    let mut draft = Plan::new(lines, short).write();
    draft.note(5, &"aä駅🚏".repeat(9));
    draft.0
}

/// Stops whose parent is the station on the last line, with ids of numbers; the station's id.
fn stops_of_one_station(draft: &mut Draft, lines: usize) -> String {
    let station = short('S', lines - 1);
    for number in 1..lines - 1 {
        draft.stop(&short('S', number), 0, &station);
    }
    draft.stop(&station, 1, "");
    station
}

fn last_parent(lines: usize) -> Files {
    let mut draft = Draft::new();
    stops_of_one_station(&mut draft, lines);
    draft.route("R");
    draft.service("W");
    draft.trip("R", "W", "T");
    draft.call("T", 0, "S1");
    draft.call("T", 1, "S2");
    draft.0
}

fn nowhere(lines: usize) -> Files {
    let plan = Plan::new(lines, short);
    let mut draft = plan.write_records();
    for number in 1..lines {
        draft.call(&short('X', number), 0, "S1");
    }
    draft.0
}

fn all_at_once(lines: usize) -> Files {
    let mut draft = Draft::new();
    let station = stops_of_one_station(&mut draft, lines);
    draft.route("R");
    draft.service("W");
    for number in 1..lines {
        draft.trip("R", "W", &with_long_trips('T', number));
        // Past the number of every trip: of 64 bytes too, and nowhere in trips.txt.
        draft.call(&with_long_trips('T', lines + number), 0, &station);
    }
    draft.0
}

fn unresolved(lines: usize) -> Files {
    let mut draft = Draft::new();
    for number in 1..lines {
        // A name that stands nowhere has its place between two that do, whichever way names are ordered.
        let [stop, route, service] = ['S', 'R', 'W'].map(|letter| short(letter, number));
        draft.stop(&stop, 0, "");
        draft.route(&route);
        draft.service(&service);
        draft.date(&format!("{service}y"), 20240704);
        draft.trip(&format!("{route}x"), &format!("{service}x"), &short('T', number));
        draft.call(&short('T', number), 0, &format!("{stop}x"));
    }
    draft.0
}

fn equal_ids(lines: usize) -> Files {
    let mut draft = Draft::new();
    for place in 0..lines - 1 {
        draft.stop("S", 0, "");
        draft.route("R");
        draft.service("W");
        draft.date("W", 20240704);
        draft.trip("R", "W", "T");
        draft.call("T", place, "S");
    }
    draft.0
}
