//! The six tables and the findings, file by file.

use crate::findings::Findings;
use crate::ids::Ids;
use crate::reading::{Feed, WIDTHS};
use crate::records::{Call, Route, Service, ServiceDate, Stop, Trip};
use crate::trips::Trips;
use model::{Profile, FILES};
use std::collections::HashSet;

/// 48:00:00 in seconds.
const TWO_DAYS: i32 = 172_800;

/// Fills the tables of the files supplied and finds what rules 20 to 31 find, and 60 to 62 for boards.
pub fn fill(feed: &Feed, tables: [&mut [i32]; FILES], profile: Profile) -> Findings {
    let [stops_table, routes_table, services_table, trips_table, calls_table, dates_table] = tables;
    let mut found = Findings::default();
    let stop_ids = Ids::new(feed.stops.iter().map(|stop| stop.id.value));
    let route_ids = Ids::new(feed.routes.iter().map(|route| route.id.value));
    let service_ids = Ids::new(feed.services.iter().map(|service| service.id.value));
    let dated_ids = Ids::new(feed.dates.iter().map(|date| date.id.value));
    let mut trip_ids = Ids::new(feed.trips.iter().map(|trip| trip.id.value));
    stops(&feed.stops, &stop_ids, stops_table, &mut found);
    routes(&feed.routes, &route_ids, routes_table, &mut found);
    if feed.supplied[2] {
        services(&feed.services, &service_ids, services_table, &mut found);
    }
    // Rules 30 and 31 stand on lines of trips.txt, and only the lines of stop_times tell them.
    let seen = Trips::new(&mut trip_ids, &feed.calls);
    trips(&feed.trips, [&route_ids, &service_ids, &dated_ids], (&trip_ids, &seen), trips_table, &mut found);
    calls(feed, &seen, &stop_ids, calls_table, profile, &mut found);
    if feed.supplied[5] {
        dates(&feed.dates, &dated_ids, dates_table, &mut found);
    }
    found
}

/// The records of a file from 1 on, each with its room in the table; record 0 is set to zero.
fn records<'t, R>(
    records: &'t [R],
    table: &'t mut [i32],
    file: usize,
) -> impl Iterator<Item = (usize, &'t R, &'t mut [i32])> {
    let width = WIDTHS[file - 1];
    table[..width].fill(0);
    let rooms = table.chunks_exact_mut(width).enumerate().skip(1);
    rooms.zip(records).map(|((record, room), read)| (record, read, room))
}

fn stops(stops: &[Stop], ids: &Ids, table: &mut [i32], found: &mut Findings) {
    for (record, stop, room) in records(stops, table, 1) {
        let has_parent = !stop.parent.is_empty();
        let parent = if has_parent { ids.record(stop.parent) } else { 0 };
        let [latitude, longitude] = stop.place.unwrap_or_default();
        let mark = stop.place.is_some().into();
        room.copy_from_slice(&[stop.id.start, stop.id.end, latitude, longitude, stop.kind, parent as i32, mark]);
        found.add(1, record, 20, ids.repeated[record - 1]);
        found.add(1, record, 21, has_parent && parent == 0);
        // A boarding area's parent is of type 0, all others' of type 1.
        let unfit_parent = parent > 0 && stops[parent - 1].kind != i32::from(stop.kind != 4);
        let unfit = if has_parent { stop.kind == 1 } else { stop.kind >= 2 };
        found.add(1, record, 22, unfit || unfit_parent);
    }
}

fn routes(routes: &[Route], ids: &Ids, table: &mut [i32], found: &mut Findings) {
    for (record, route, room) in records(routes, table, 2) {
        room.copy_from_slice(&[route.id.start, route.id.end, route.kind]);
        found.add(2, record, 20, ids.repeated[record - 1]);
        found.add(2, record, 25, !route.named);
    }
}

fn services(services: &[Service], ids: &Ids, table: &mut [i32], found: &mut Findings) {
    for (record, service, room) in records(services, table, 3) {
        room.copy_from_slice(&[service.id.start, service.id.end, service.days, service.start, service.end]);
        found.add(3, record, 20, ids.repeated[record - 1]);
        found.add(3, record, 24, service.end < service.start);
    }
}

fn trips(
    trips: &[Trip],
    [routes, services, dated]: [&Ids; 3],
    (ids, seen): (&Ids, &Trips),
    table: &mut [i32],
    found: &mut Findings,
) {
    for (record, trip, room) in records(trips, table, 4) {
        let [route, service, date] =
            [routes.record(trip.route), services.record(trip.service), dated.record(trip.service)];
        let [direction, wheelchair, bikes] = trip.choices;
        let (start, end) = (trip.id.start, trip.id.end);
        let numbers = [start, end, route as i32, service as i32, direction, wheelchair, bikes, date as i32];
        room.copy_from_slice(&numbers);
        let repeated = ids.repeated[record - 1];
        found.add(4, record, 20, repeated);
        found.add(4, record, 21, route == 0 || service == 0 && date == 0);
        found.add(4, record, 30, !repeated && seen.too_few(record));
        found.add(4, record, 31, !repeated && seen.untimed_end(record));
    }
}

fn calls(feed: &Feed, trips: &Trips, stops: &Ids, table: &mut [i32], profile: Profile, found: &mut Findings) {
    for (record, call, room) in records(&feed.calls, table, 5) {
        let (trip, [repeated, early]) = trips.call(record - 1);
        let stop = stops.record(call.stop);
        let [pickup, drop_off, timepoint] = call.choices;
        let (sequence, arrival, departure) = (call.sequence, call.arrival, call.departure);
        let numbers = [trip as i32, stop as i32, sequence, arrival, departure, pickup, drop_off, timepoint];
        room.copy_from_slice(&numbers);
        found.add(5, record, 21, trip == 0 || stop == 0);
        found.add(5, record, 23, stop > 0 && feed.stops[stop - 1].kind != 0);
        found.add(5, record, 26, half_timed(call));
        found.add(5, record, 27, call.timed() && departure < arrival);
        found.add(5, record, 28, repeated);
        found.add(5, record, 29, early);
        if profile == Profile::Boards {
            found.add(5, record, 60, !call.timed());
            found.add(5, record, 61, pickup.max(drop_off) > 1);
            found.add(5, record, 62, arrival.max(departure) >= TWO_DAYS);
        }
    }
}

fn dates(dates: &[ServiceDate], ids: &Ids, table: &mut [i32], found: &mut Findings) {
    let mut seen = HashSet::with_capacity(dates.len());
    for (record, date, room) in records(dates, table, 6) {
        room.copy_from_slice(&[date.id.start, date.id.end, date.date, date.kind]);
        // The service is told by its first record.
        found.add(6, record, 20, !seen.insert((ids.record(date.id.value), date.date)));
    }
}

/// Rule 26: just one time is given, or timepoint is 1 without both.
fn half_timed(call: &Call) -> bool {
    let one_time = (call.arrival < 0) != (call.departure < 0);
    one_time || call.choices[2] == 1 && !call.timed()
}
