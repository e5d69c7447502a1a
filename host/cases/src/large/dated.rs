//! The benchmark's feeds whose longest file is calendar_dates.

use super::draft::Draft;
use super::plan::{prefixed, short, Naming};
use crate::random::Random;
use model::Files;

/// A date for each number, rising: 28 days a month from 1900 on.
fn date(number: usize) -> usize {
    (1900 + number / 336) * 10_000 + (number / 28 % 12 + 1) * 100 + number % 28 + 1
}

/// Two stops and a route.
fn beginning() -> Draft {
    let mut draft = Draft::new();
    draft.stop("A", 0, "");
    draft.stop("B", 0, "");
    draft.route("R");
    draft
}

/// A trip of a service, with so many lines of stop_times.
fn trip(draft: &mut Draft, service: &str, id: &str, calls: usize) {
    draft.trip("R", service, id);
    (0..calls).for_each(|place| draft.call(id, place, if place % 2 == 0 { "A" } else { "B" }));
}

/// Each service on the dates of a year, one service after the other, with five trips of ten lines; no calendar.
fn yearly(lines: usize) -> Draft {
    let mut draft = beginning();
    draft.0[2].clear();
    for number in 0..lines - 1 {
        let service = short('W', number / 365);
        draft.date(&service, date(number % 365));
        if number % 365 == 0 {
            (0..5).for_each(|place| trip(&mut draft, &service, &format!("{service}-{place}"), 10));
        }
    }
    draft
}

pub fn dates_only(lines: usize) -> Files {
    yearly(lines).0
}

/// Neither services nor dates stand in order: both orders of the file are made by sorting.
pub fn dates_muddle(lines: usize) -> Files {
    let mut draft = yearly(lines);
    draft.shuffle(6, &mut Random::new(0));
    draft.0
}

/// Lines of one service, or of one date, and how they stand.
struct Lines {
    count: usize,
    /// Each stands twice: once all are there, they come again.
    twice: bool,
    shuffled: bool,
}

impl Lines {
    /// So many lines of calendar_dates, each made from its number, beside a service in calendar that has a trip.
    fn write(&self, line: impl Fn(&mut Draft, usize)) -> Draft {
        let mut draft = beginning();
        draft.service("W");
        trip(&mut draft, "W", "T", 2);
        let different = if self.twice { self.count.div_ceil(2) } else { self.count };
        (0..self.count).for_each(|number| line(&mut draft, number % different));
        if self.shuffled {
            draft.shuffle(6, &mut Random::new(0));
        }
        draft
    }

    /// One service on many dates.
    fn of_one_service(&self) -> Files {
        self.write(|draft, number| draft.date("W", date(number))).0
    }

    /// Many services on one date.
    fn of_one_date(&self, naming: Naming) -> Draft {
        self.write(|draft, number| draft.date(&naming('D', number), date(0)))
    }
}

pub fn dates_rise(lines: usize) -> Files {
    Lines { count: lines - 1, twice: false, shuffled: false }.of_one_service()
}

pub fn dates_mixed(lines: usize) -> Files {
    Lines { count: lines - 1, twice: false, shuffled: true }.of_one_service()
}

pub fn dates_twice(lines: usize) -> Files {
    Lines { count: lines - 1, twice: true, shuffled: false }.of_one_service()
}

pub fn dates_tangle(lines: usize) -> Files {
    Lines { count: lines - 1, twice: true, shuffled: true }.of_one_service()
}

pub fn day_rise(lines: usize) -> Files {
    Lines { count: lines - 1, twice: false, shuffled: false }.of_one_date(short).0
}

pub fn day_mixed(lines: usize) -> Files {
    Lines { count: lines - 1, twice: false, shuffled: true }.of_one_date(short).0
}

pub fn day_twice(lines: usize) -> Files {
    Lines { count: lines - 1, twice: true, shuffled: false }.of_one_date(short).0
}

pub fn day_tangle(lines: usize) -> Files {
    Lines { count: lines - 1, twice: true, shuffled: true }.of_one_date(short).0
}

pub fn day_prefix(lines: usize) -> Files {
    Lines { count: lines - 1, twice: false, shuffled: true }.of_one_date(prefixed::<60>).0
}

/// Each service has a trip without lines in stop_times; the trip of the service in calendar is the first.
pub fn day_trips(lines: usize) -> Files {
    let mut draft = Lines { count: lines - 1, twice: false, shuffled: true }.of_one_date(short);
    (1..lines - 1).for_each(|number| draft.trip("R", &short('D', number), &short('T', number)));
    draft.0
}
