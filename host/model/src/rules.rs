//! The binding rules 20 to 31, and the profile's 60 to 62, over a feed that was read: all findings, in order.

use crate::reading::{Feed, Row};
use crate::records::{First, Named, KEYS};
use crate::trips::{by_trip, first_call, last_call, leaves_after, repeats, Calls};
use crate::{Profile, FILES};

/// A finding: file, line, rule.
pub type Finding = [i32; 3];

/// All findings of a feed, ordered by file, line and rule.
pub fn findings(feed: &Feed, profile: Profile) -> Vec<Finding> {
    let named = Named::new(feed);
    let calls = by_trip(feed);
    let mut findings = Vec::new();
    repeated_keys(feed, &mut findings);
    stops(feed, &named, &mut findings);
    routes_and_services(feed, &mut findings);
    trips(feed, &named, &calls, &mut findings);
    stop_times(feed, &named, &mut findings);
    trip_order(&calls, &mut findings);
    if profile == Profile::Boards {
        boards(feed, &mut findings);
    }
    findings.sort();
    findings
}

/// Adds the finding where the rule is broken; `place` counts record lines from 0, so line 2 is 0.
fn add(findings: &mut Vec<Finding>, file: i32, place: usize, rule: i32, broken: bool) {
    if broken {
        findings.push([file, place as i32 + 2, rule]);
    }
}

/// Rule 20: the id, in calendar_dates the service with the date, stands on an earlier line of its file.
fn repeated_keys(feed: &Feed, findings: &mut Vec<Finding>) {
    for file in (0..FILES).filter(|&file| !KEYS[file].is_empty()) {
        let first = First::new(&feed[file], KEYS[file]);
        for (place, row) in feed[file].rows().enumerate() {
            add(findings, file as i32 + 1, place, 20, first.of_line(row) < place + 1);
        }
    }
}

/// A non-empty reference that names no line of any of the files it may name.
fn unresolved(row: Row, name: &str, files: &[&First]) -> bool {
    !row.value(name).is_empty() && files.iter().all(|first| first.record(row.value(name)) == 0)
}

/// Rules 21 and 22 on stops.
fn stops(feed: &Feed, named: &Named, findings: &mut Vec<Finding>) {
    for (place, row) in feed[0].rows().enumerate() {
        add(findings, 1, place, 21, unresolved(row, "parent_station", &[&named.stops]));
        let kind = row.number("location_type");
        let has_parent = !row.value("parent_station").is_empty();
        let parent = if has_parent { named.stops.record(row.value("parent_station")) } else { 0 };
        let station_with_parent = kind == 1 && has_parent;
        let parent_lacking = needs_parent(kind) && !has_parent;
        let other_parent = parent > 0 && feed[0].record(parent).number("location_type") != parent_of(kind);
        add(findings, 1, place, 22, station_with_parent || parent_lacking || other_parent);
    }
}

/// Does a stop of this type need a parent: an entrance, a node, a boarding area?
fn needs_parent(kind: i32) -> bool {
    [2, 3, 4].contains(&kind)
}

/// The type that the parent of a stop of this type has to have: a boarding area's is a stop or platform, any other's a station.
fn parent_of(kind: i32) -> i32 {
    if kind == 4 {
        0
    } else {
        1
    }
}

/// Rule 24 on calendar: end before start. Rule 25 on routes: both names empty.
fn routes_and_services(feed: &Feed, findings: &mut Vec<Finding>) {
    for (place, row) in feed[2].rows().enumerate() {
        add(findings, 3, place, 24, row.number("end_date") < row.number("start_date"));
    }
    for (place, row) in feed[1].rows().enumerate() {
        let names = [row.value("route_short_name"), row.value("route_long_name")];
        add(findings, 2, place, 25, names.iter().all(|name| name.is_empty()));
    }
}

/// Both times are given.
fn timed(row: Row) -> bool {
    !row.value("arrival_time").is_empty() && !row.value("departure_time").is_empty()
}

/// Rules 21, 30 and 31 on trips; 30 and 31 concern only the first line of each trip_id.
fn trips(feed: &Feed, named: &Named, calls: &Calls, findings: &mut Vec<Finding>) {
    for (place, row) in feed[3].rows().enumerate() {
        let no_route = unresolved(row, "route_id", &[&named.routes]);
        let no_service = unresolved(row, "service_id", &[&named.services, &named.dated_services]);
        add(findings, 4, place, 21, no_route || no_service);
        if named.trips.record(row.value("trip_id")) != place + 1 {
            continue;
        }
        let own = calls.get(row.value("trip_id")).map_or(&[][..], |calls| calls);
        add(findings, 4, place, 30, own.len() < 2);
        let ends = [first_call(own), last_call(own)];
        add(findings, 4, place, 31, ends.into_iter().flatten().any(|end| !end.timed()));
    }
}

/// Rules 21, 23, 26 and 27 on stop_times: what one line shows.
fn stop_times(feed: &Feed, named: &Named, findings: &mut Vec<Finding>) {
    for (place, row) in feed[4].rows().enumerate() {
        let no_trip = unresolved(row, "trip_id", &[&named.trips]);
        let no_stop = unresolved(row, "stop_id", &[&named.stops]);
        add(findings, 5, place, 21, no_trip || no_stop);
        let stop = named.stops.record(row.value("stop_id"));
        add(findings, 5, place, 23, stop > 0 && feed[0].record(stop).number("location_type") != 0);
        let no_arrival = row.value("arrival_time").is_empty();
        let no_departure = row.value("departure_time").is_empty();
        let exact = row.number("timepoint") == 1;
        add(findings, 5, place, 26, no_arrival != no_departure || exact && !timed(row));
        let falls = row.number("departure_time") < row.number("arrival_time");
        add(findings, 5, place, 27, timed(row) && falls);
    }
}

/// Rules 28 and 29 on stop_times: each line beside all lines of the same trip, wherever they stand.
fn trip_order(calls: &Calls, findings: &mut Vec<Finding>) {
    for calls in calls.values() {
        for call in calls {
            add(findings, 5, call.place, 28, calls.iter().any(|other| repeats(call, other)));
            add(findings, 5, call.place, 29, calls.iter().any(|other| leaves_after(other, call)));
        }
    }
}

/// Two days in seconds: 48:00:00.
const TWO_DAYS: i32 = 172_800;

/// Rules 60 to 62 on stop_times, the profile for boards: each line as it stands, whatever its trip and stop. An empty time is no time.
fn boards(feed: &Feed, findings: &mut Vec<Finding>) {
    for (place, row) in feed[4].rows().enumerate() {
        add(findings, 5, place, 60, !timed(row));
        let arranged = ["pickup_type", "drop_off_type"].map(|name| [2, 3].contains(&row.number(name)));
        add(findings, 5, place, 61, arranged[0] || arranged[1]);
        let late = ["arrival_time", "departure_time"].map(|name| row.number(name) >= TWO_DAYS);
        add(findings, 5, place, 62, late[0] || late[1]);
    }
}
