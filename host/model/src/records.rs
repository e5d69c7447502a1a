//! The six tables: the record of each line, and the record that each reference names.

use crate::columns::WIDTHS;
use crate::reading::{Feed, Row, Sheet};
use crate::{Tables, FILES};
use std::collections::HashMap;

/// The columns whose values together may stand on one line of a file only, by rule 20; stop_times has none.
pub const KEYS: [&[&str]; FILES] =
    [&["stop_id"], &["route_id"], &["service_id"], &["trip_id"], &[], &["service_id", "date"]];

/// The seven day columns, Monday first.
const DAYS: [&str; 7] = ["monday", "tuesday", "wednesday", "thursday", "friday", "saturday", "sunday"];

/// The values of a line under some columns.
fn values<'a>(row: Row<'a>, columns: &[&str]) -> Vec<&'a [u8]> {
    columns.iter().map(|column| row.value(column)).collect()
}

/// The columns looked at, and for their values on each line the record of the first line that has the same.
pub struct First<'a> {
    columns: &'static [&'static str],
    records: HashMap<Vec<&'a [u8]>, usize>,
}

impl<'a> First<'a> {
    /// Looks through the lines of a file from its first on.
    pub fn new(sheet: &'a Sheet, columns: &'static [&'static str]) -> Self {
        let mut records = HashMap::new();
        for (place, row) in sheet.rows().enumerate() {
            records.entry(values(row, columns)).or_insert(place + 1);
        }
        First { columns, records }
    }

    /// The first record with this id, 0 if there is none.
    pub fn record(&self, id: &[u8]) -> usize {
        self.records.get(&[id][..]).copied().unwrap_or(0)
    }

    /// The first record with the values that a line of the same file has.
    pub fn of_line(&self, row: Row) -> usize {
        self.records.get(&values(row, self.columns)[..]).copied().unwrap_or(0)
    }
}

/// The first lines that references go to, by id; in calendar_dates by service alone.
pub struct Named<'a> {
    pub stops: First<'a>,
    pub routes: First<'a>,
    pub services: First<'a>,
    pub trips: First<'a>,
    pub dated_services: First<'a>,
}

impl<'a> Named<'a> {
    pub fn new(feed: &'a Feed) -> Self {
        Named {
            stops: First::new(&feed[0], &["stop_id"]),
            routes: First::new(&feed[1], &["route_id"]),
            services: First::new(&feed[2], &["service_id"]),
            trips: First::new(&feed[3], &["trip_id"]),
            dated_services: First::new(&feed[5], &["service_id"]),
        }
    }
}

/// Fills the tables of the files supplied; numbers past the last record stay unchanged.
pub fn fill(feed: &Feed, tables: &mut Tables) {
    let named = Named::new(feed);
    let records: [&dyn Fn(Row) -> Vec<i32>; FILES] = [
        &|row| stop(row, &named),
        &route,
        &service,
        &|row| trip(row, &named),
        &|row| stop_time(row, &named),
        &calendar_date,
    ];
    for file in (0..FILES).filter(|&file| feed[file].supplied) {
        store(&mut tables[file], WIDTHS[file], feed[file].rows().map(records[file]));
    }
}

/// Writes record 0, all zero, and then the records of the lines.
fn store(table: &mut [i32], width: usize, records: impl Iterator<Item = Vec<i32>>) {
    table[..width].fill(0);
    for (place, record) in records.enumerate() {
        let from = (place + 1) * width;
        table[from..from + width].copy_from_slice(&record);
    }
}

/// The start and the end of an id's raw field.
fn bounds(row: Row, id: &str) -> [i32; 2] {
    let field = row.field(id);
    [field.start as i32, field.end as i32]
}

/// The record that a reference names, as it is stored; an empty reference names none.
fn reference(row: Row, name: &str, first: &First) -> i32 {
    match row.value(name) {
        b"" => 0,
        id => first.record(id) as i32,
    }
}

fn stop(row: Row, named: &Named) -> Vec<i32> {
    let [start, end] = bounds(row, "stop_id");
    let place = [row.number("stop_lat"), row.number("stop_lon")];
    let parent = reference(row, "parent_station", &named.stops);
    // Rule 12 lets no line have one coordinate alone.
    let has_place = !row.value("stop_lat").is_empty();
    vec![start, end, place[0], place[1], row.number("location_type"), parent, has_place.into()]
}

fn route(row: Row) -> Vec<i32> {
    let [start, end] = bounds(row, "route_id");
    vec![start, end, row.number("route_type")]
}

fn service(row: Row) -> Vec<i32> {
    let [start, end] = bounds(row, "service_id");
    // Monday is the lowest bit.
    let days = DAYS.iter().enumerate().map(|(bit, day)| row.number(day) << bit).sum();
    vec![start, end, days, row.number("start_date"), row.number("end_date")]
}

fn trip(row: Row, named: &Named) -> Vec<i32> {
    let [start, end] = bounds(row, "trip_id");
    let route = reference(row, "route_id", &named.routes);
    let service = reference(row, "service_id", &named.services);
    let mut record = vec![start, end, route, service];
    record.extend(["direction_id", "wheelchair_accessible", "bikes_allowed"].map(|name| row.number(name)));
    record.push(reference(row, "service_id", &named.dated_services));
    record
}

fn stop_time(row: Row, named: &Named) -> Vec<i32> {
    let mut record = vec![reference(row, "trip_id", &named.trips), reference(row, "stop_id", &named.stops)];
    record.extend(["stop_sequence", "arrival_time", "departure_time"].map(|name| row.number(name)));
    record.extend(["pickup_type", "drop_off_type", "timepoint"].map(|name| row.number(name)));
    record
}

fn calendar_date(row: Row) -> Vec<i32> {
    let [start, end] = bounds(row, "service_id");
    vec![start, end, row.number("date"), row.number("exception_type")]
}
