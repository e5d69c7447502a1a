//! Likely wrong readings of E2: vectors, edge cases and generated feeds each tell every one of them from the right one.

use cases::readings::Missed;
use cases::{edges, generate, vectors, Case};
use model::reading::{read, Feed};
use model::rules::findings;
use model::trips::{by_trip, first_call, last_call, leaves_after, repeats, Call};
use std::cmp::Reverse;
use std::collections::BTreeSet;

/// How many seeds are looked at.
const SEEDS: u64 = 2000;

/// Rules 28 and 29 of a line among all lines of its trip, and the ends that rule 31 looks at.
#[derive(Clone, Copy)]
struct Reading {
    repeated: fn(&Call, &[Call]) -> bool,
    late: fn(&Call, &[Call]) -> bool,
    ends: fn(&[Call]) -> [Option<&Call>; 2],
    nowhere: bool,
}

const RIGHT: Reading = Reading {
    repeated: |call, trip| trip.iter().any(|other| repeats(call, other)),
    late: |call, trip| trip.iter().any(|other| leaves_after(other, call)),
    ends: |trip| [first_call(trip), last_call(trip)],
    nowhere: true,
};

/// The nearest line above in the file that will do.
fn above<'a>(call: &Call, trip: &'a [Call], good: fn(&Call) -> bool) -> Option<&'a Call> {
    trip.iter().rev().find(|other| other.place < call.place && good(other))
}

/// The timed line of the next smaller sequence, the earliest of several.
fn next_smaller<'a>(call: &Call, trip: &'a [Call]) -> Option<&'a Call> {
    let smaller = trip.iter().filter(|other| other.timed() && other.sequence < call.sequence);
    smaller.max_by_key(|other| (other.sequence, Reverse(other.place)))
}

/// The wrong readings, by name.
const WRONG: [(&str, Reading); 12] = [
    ("28 against the line above", Reading { repeated: same_above, ..RIGHT }),
    ("28 not above the line above", Reading { repeated: not_rising, ..RIGHT }),
    ("28 on the first line too", Reading { repeated: shared, ..RIGHT }),
    ("29 against the nearest sequence", Reading { late: |call, trip| leaves(next_smaller(call, trip), call), ..RIGHT }),
    ("29 in file order", Reading { late: late_above, ..RIGHT }),
    ("29 among earlier lines", Reading { late: late_earlier, ..RIGHT }),
    ("29 for equal sequences", Reading { late: late_or_equal, ..RIGHT }),
    ("29 at the arrival", Reading { late: late_or_then, ..RIGHT }),
    ("31 in file order", Reading { ends: |trip| [trip.first(), trip.last()], ..RIGHT }),
    ("31 with the last tie at the end", Reading { ends: |trip| [first_call(trip), last_tie(trip)], ..RIGHT }),
    ("31 with the last tie at the beginning", Reading { ends: |trip| [first_tie(trip), last_call(trip)], ..RIGHT }),
    ("28 and 29 without trips that stand nowhere", Reading { nowhere: false, ..RIGHT }),
];

fn leaves(other: Option<&Call>, call: &Call) -> bool {
    other.is_some_and(|other| leaves_after(other, call))
}

fn same_above(call: &Call, trip: &[Call]) -> bool {
    above(call, trip, |_| true).is_some_and(|other| other.sequence == call.sequence)
}

fn not_rising(call: &Call, trip: &[Call]) -> bool {
    above(call, trip, |_| true).is_some_and(|other| other.sequence >= call.sequence)
}

fn shared(call: &Call, trip: &[Call]) -> bool {
    trip.iter().any(|other| other.place != call.place && other.sequence == call.sequence)
}

fn late_above(call: &Call, trip: &[Call]) -> bool {
    call.timed() && above(call, trip, Call::timed).is_some_and(|other| other.departure > call.arrival)
}

fn late_earlier(call: &Call, trip: &[Call]) -> bool {
    trip.iter().any(|other| other.place < call.place && leaves_after(other, call))
}

fn late_or_equal(call: &Call, trip: &[Call]) -> bool {
    let after = |other: &Call| other.timed() && other.sequence <= call.sequence && other.departure > call.arrival;
    call.timed() && trip.iter().any(|other| other.place != call.place && after(other))
}

fn late_or_then(call: &Call, trip: &[Call]) -> bool {
    let after = |other: &Call| other.timed() && other.sequence < call.sequence && other.departure >= call.arrival;
    call.timed() && trip.iter().any(after)
}

fn last_tie(trip: &[Call]) -> Option<&Call> {
    trip.iter().max_by_key(|call| (call.sequence, call.place))
}

fn first_tie(trip: &[Call]) -> Option<&Call> {
    trip.iter().min_by_key(|call| (call.sequence, Reverse(call.place)))
}

/// The findings of rules 28, 29 and 31 by a reading.
fn by(reading: &Reading, feed: &Feed) -> BTreeSet<[i32; 3]> {
    let trips = by_trip(feed);
    let mut found = BTreeSet::new();
    let mut first_lines = BTreeSet::new();
    for (place, row) in feed[3].rows().enumerate() {
        let own = trips.get(row.value("trip_id")).map_or(&[][..], |calls| calls);
        let untimed = (reading.ends)(own).into_iter().flatten().any(|end| !end.timed());
        if first_lines.insert(row.value("trip_id")) && untimed {
            found.insert([4, place as i32 + 2, 31]);
        }
    }
    for (_, calls) in trips.iter().filter(|(trip, _)| reading.nowhere || first_lines.contains(*trip)) {
        for call in calls {
            let line = call.place as i32 + 2;
            found.extend((reading.repeated)(call, calls).then_some([5, line, 28]));
            found.extend((reading.late)(call, calls).then_some([5, line, 29]));
        }
    }
    found
}

/// Fails unless the right reading gives the model's findings on every case, and each wrong one differs on some.
fn told_apart(cases: impl Iterator<Item = Case>) {
    let mut missed = Missed::new(RIGHT, &WRONG);
    for case in cases {
        let Ok(feed) = read(&case.files, case.tables.each_ref().map(Vec::len)) else { continue };
        let of_order = |finding: &[i32; 3]| [28, 29, 31].contains(&finding[2]);
        let wanted: BTreeSet<[i32; 3]> = findings(&feed, case.profile).into_iter().filter(of_order).collect();
        missed.try_case(&case.name, &wanted, |reading| by(reading, &feed));
    }
    missed.are(&[]);
}

#[test]
fn by_the_vectors() {
    told_apart(vectors::customers().into_iter().map(|(case, _)| case));
}

#[test]
fn by_the_edge_cases() {
    told_apart(edges::cases().into_iter());
}

#[test]
fn by_generated_feeds() {
    told_apart((0..SEEDS).map(generate::case));
}
