//! The lines of a trip in the order of their sequences, as rules 28, 29 and 31 speak of them.

use crate::reading::{Feed, Row};
use std::cmp::Reverse;
use std::collections::HashMap;

/// A line of stop_times: its place among the record lines, from 0, its sequence, and its times, -1 where empty.
#[derive(Clone, Copy, Debug, PartialEq, Eq)]
pub struct Call {
    pub place: usize,
    pub sequence: i32,
    pub arrival: i32,
    pub departure: i32,
}

impl Call {
    fn new(place: usize, row: Row) -> Self {
        let [sequence, arrival, departure] =
            ["stop_sequence", "arrival_time", "departure_time"].map(|name| row.number(name));
        Call { place, sequence, arrival, departure }
    }

    /// Both times are given.
    pub fn timed(&self) -> bool {
        self.arrival != -1 && self.departure != -1
    }
}

/// The lines of each trip_id value, in file order.
pub type Calls<'a> = HashMap<&'a [u8], Vec<Call>>;

/// The lines of all trips, whether trips.txt has them or not.
pub fn by_trip(feed: &Feed) -> Calls<'_> {
    let mut trips = Calls::new();
    for (place, row) in feed[4].rows().enumerate() {
        trips.entry(row.value("trip_id")).or_default().push(Call::new(place, row));
    }
    trips
}

/// Rule 28: the other line, of the same trip, stands earlier in the file and has the same sequence.
pub fn repeats(call: &Call, other: &Call) -> bool {
    other.place < call.place && other.sequence == call.sequence
}

/// Rule 29: both lines, of the same trip, are timed, and the one with the smaller sequence departs after the other arrives.
pub fn leaves_after(smaller: &Call, call: &Call) -> bool {
    let both_timed = smaller.timed() && call.timed();
    both_timed && smaller.sequence < call.sequence && smaller.departure > call.arrival
}

/// The line of a trip with the smallest sequence, the earliest of several.
pub fn first_call(calls: &[Call]) -> Option<&Call> {
    calls.iter().min_by_key(|call| (call.sequence, call.place))
}

/// The line of a trip with the largest sequence, the earliest of several.
pub fn last_call(calls: &[Call]) -> Option<&Call> {
    calls.iter().max_by_key(|call| (call.sequence, Reverse(call.place)))
}
