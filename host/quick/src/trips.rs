//! The trips while the lines of stop_times go by: what rules 28 to 31 have to know of each.

use crate::ids::Ids;
use crate::records::Call;

/// The lines of one trip so far, taken by sequence, and equal sequences by line.
#[derive(Clone, Copy)]
struct Seen {
    lines: u32,
    /// The sequence of its last line.
    sequence: i32,
    /// The latest departure of its timed lines with a smaller sequence, and of all; -1 before there is one.
    smaller: i32,
    latest: i32,
    first_timed: bool,
    last_timed: bool,
    /// A line had a smaller sequence than the one before: the lines have to be sorted.
    fallen: bool,
}

impl Seen {
    const NONE: Seen =
        Seen { lines: 0, sequence: -1, smaller: -1, latest: -1, first_timed: false, last_timed: false, fallen: false };

    /// Takes the next line of the trip: does it break rule 28, and rule 29?
    fn call(&mut self, call: &Call) -> [bool; 2] {
        let equal = call.sequence == self.sequence;
        self.fallen |= call.sequence < self.sequence;
        if !equal {
            self.sequence = call.sequence;
            self.smaller = self.latest;
            // Of equal sequences the earliest line is the first, and the last.
            self.first_timed |= self.lines == 0 && call.timed();
            self.last_timed = call.timed();
        }
        self.lines += 1;
        let early = call.timed() && call.arrival < self.smaller;
        if call.timed() {
            self.latest = self.latest.max(call.departure);
        }
        [equal, early]
    }
}

/// All trips, by number: the first record of their id, or a number past all records where it stands nowhere.
pub struct Trips {
    records: usize,
    seen: Vec<Seen>,
    /// The trip of each line of stop_times, and whether the line breaks rules 28 and 29.
    calls: Vec<(u32, [bool; 2])>,
}

impl Trips {
    /// Takes all lines of stop_times in file order, then those again whose trips aren't in order.
    pub fn new<'a>(ids: &mut Ids<'a>, calls: &[Call<'a>]) -> Self {
        let records = ids.repeated.len();
        let seen = vec![Seen::NONE; records + 1];
        let mut trips = Trips { records, seen, calls: Vec::with_capacity(calls.len()) };
        for call in calls {
            let next = trips.seen.len();
            let number = *ids.first.entry(call.trip).or_insert(next as u32);
            if number as usize == next {
                trips.seen.push(Seen::NONE);
            }
            let broken = trips.seen[number as usize].call(call);
            trips.calls.push((number, broken));
        }
        trips.sort(calls);
        trips
    }

    /// Judges anew, in the trip's order, the lines of trips that don't stand so.
    fn sort(&mut self, calls: &[Call]) {
        let (mut order, ends) = self.fallen(calls);
        for (seen, end) in self.seen.iter_mut().zip(ends).filter(|(seen, _)| seen.fallen) {
            let lines = &mut order[end - seen.lines as usize..end];
            lines.sort_unstable();
            *seen = Seen::NONE;
            for &mut (_, line) in lines {
                self.calls[line as usize].1 = seen.call(&calls[line as usize]);
            }
        }
    }

    /// Sequence and line of the lines of such trips, trip by trip in file order, and where each trip's lines end.
    fn fallen(&self, calls: &[Call]) -> (Vec<(i32, u32)>, Vec<usize>) {
        let mut total = 0;
        let mut ends = Vec::with_capacity(self.seen.len());
        for seen in &self.seen {
            ends.push(total);
            total += if seen.fallen { seen.lines as usize } else { 0 };
        }
        let mut order = vec![(0, 0); total];
        for (line, (&(number, _), call)) in self.calls.iter().zip(calls).enumerate() {
            if self.seen[number as usize].fallen {
                let end = &mut ends[number as usize];
                order[*end] = (call.sequence, line as u32);
                *end += 1;
            }
        }
        (order, ends)
    }

    /// Of a line of stop_times, counted from 0: the record of its trip, 0 if there is none, and rules 28 and 29.
    pub fn call(&self, line: usize) -> (usize, [bool; 2]) {
        let (number, broken) = self.calls[line];
        let number = number as usize;
        (if number <= self.records { number } else { 0 }, broken)
    }

    /// Rule 30: fewer than two lines of the trip with this record.
    pub fn too_few(&self, record: usize) -> bool {
        self.seen[record].lines < 2
    }

    /// Rule 31: its first or its last line isn't timed.
    pub fn untimed_end(&self, record: usize) -> bool {
        let seen = &self.seen[record];
        seen.lines > 0 && !(seen.first_timed && seen.last_timed)
    }
}
