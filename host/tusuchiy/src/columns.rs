//! The known columns of each file: which must be there, and the form that their values have.

use tusuchiy::FILES;

/// A known column.
pub struct Column {
    pub name: &'static str,
    /// It must be in the header.
    pub must: bool,
    /// The form of its values, in words; empty where any text is good.
    pub form: &'static str,
}

const fn must(name: &'static str, form: &'static str) -> Column {
    Column { name, must: true, form }
}

const fn may(name: &'static str, form: &'static str) -> Column {
    Column { name, must: false, form }
}

const LATITUDE: &str = "degrees from -90 to 90, as -33.8675: up to 3 digits, a point, up to 20 digits";
const LONGITUDE: &str = "degrees from -180 to 180, as 151.2: up to 3 digits, a point, up to 20 digits";
const TIME: &str = "a time as 8:05:00 or 08:05:00, hours 0 to 99, minutes and seconds 00 to 59";
const DATE: &str = "a day that exists, in eight digits as 20240229";
const SEQUENCE: &str = "one to nine digits";
const ROUTE_TYPE: &str = "0 to 7, 11 or 12";
const TO_1: &str = "0 or 1";
const TO_2: &str = "0, 1 or 2";
const TO_3: &str = "0, 1, 2 or 3";
const TO_4: &str = "0, 1, 2, 3 or 4";
const ADDED_OR_REMOVED: &str = "1 (added) or 2 (removed)";

const STOPS: &[Column] = &[
    must("stop_id", ""),
    must("stop_name", ""),
    must("stop_lat", LATITUDE),
    must("stop_lon", LONGITUDE),
    may("location_type", TO_4),
    may("parent_station", ""),
];

const ROUTES: &[Column] =
    &[must("route_id", ""), must("route_type", ROUTE_TYPE), may("route_short_name", ""), may("route_long_name", "")];

const CALENDAR: &[Column] = &[
    must("service_id", ""),
    must("monday", TO_1),
    must("tuesday", TO_1),
    must("wednesday", TO_1),
    must("thursday", TO_1),
    must("friday", TO_1),
    must("saturday", TO_1),
    must("sunday", TO_1),
    must("start_date", DATE),
    must("end_date", DATE),
];

const TRIPS: &[Column] = &[
    must("route_id", ""),
    must("service_id", ""),
    must("trip_id", ""),
    may("direction_id", TO_1),
    may("wheelchair_accessible", TO_2),
    may("bikes_allowed", TO_2),
];

const STOP_TIMES: &[Column] = &[
    must("trip_id", ""),
    must("arrival_time", TIME),
    must("departure_time", TIME),
    must("stop_id", ""),
    must("stop_sequence", SEQUENCE),
    may("pickup_type", TO_3),
    may("drop_off_type", TO_3),
    may("timepoint", TO_1),
];

const CALENDAR_DATES: &[Column] =
    &[must("service_id", ""), must("date", DATE), must("exception_type", ADDED_OR_REMOVED)];

/// The known columns of files 1 to 6.
pub const COLUMNS: [&[Column]; FILES] = [STOPS, ROUTES, CALENDAR, TRIPS, STOP_TIMES, CALENDAR_DATES];

/// The id column of each file by which rule 20 goes; stop_times.txt has none, calendar_dates.txt adds the date to it.
pub const IDS: [&str; FILES] = ["stop_id", "route_id", "service_id", "trip_id", "", "service_id"];
