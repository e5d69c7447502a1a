//! The columns of each file, as data: the table of document 01's section "Columns" and E1's file 6, with each column's form.

use crate::forms::Form;
use crate::FILES;

/// A known column.
#[derive(Clone, Copy, Debug)]
pub struct Column {
    pub name: &'static str,
    /// It must be present in the header.
    pub present: bool,
    pub form: Form,
}

impl Column {
    /// Its values must be non-empty: the must-be-present columns but for the two times. Some lines of stops are excused (`reading::excused`).
    pub fn needed(&self) -> bool {
        self.present && !matches!(self.form, Form::Time)
    }

    /// Rule 11 looks at it: it is named `..._id`, or parent_station.
    pub fn is_id(&self) -> bool {
        self.name.ends_with("_id") || self.name == "parent_station"
    }
}

const fn must(name: &'static str, form: Form) -> Column {
    Column { name, present: true, form }
}

const fn may(name: &'static str, form: Form) -> Column {
    Column { name, present: false, form }
}

const DAY: Form = Form::Choice(&["0", "1"], 0);
const UP_TO_2: Form = Form::Choice(&["0", "1", "2"], 0);
const UP_TO_3: Form = Form::Choice(&["0", "1", "2", "3"], 0);
const UP_TO_4: Form = Form::Choice(&["0", "1", "2", "3", "4"], 0);
const ONE_OR_NONE: Form = Form::Choice(&["0", "1"], -1);
const ONE_OR_TWO: Form = Form::Choice(&["1", "2"], 0);
const ROUTE_TYPE: Form = Form::Choice(&["0", "1", "2", "3", "4", "5", "6", "7", "11", "12"], 0);

const STOPS: &[Column] = &[
    must("stop_id", Form::Text),
    must("stop_name", Form::Text),
    must("stop_lat", Form::Coordinate(90)),
    must("stop_lon", Form::Coordinate(180)),
    may("location_type", UP_TO_4),
    may("parent_station", Form::Text),
];

const ROUTES: &[Column] = &[
    must("route_id", Form::Text),
    must("route_type", ROUTE_TYPE),
    may("route_short_name", Form::Text),
    may("route_long_name", Form::Text),
];

const CALENDAR: &[Column] = &[
    must("service_id", Form::Text),
    must("monday", DAY),
    must("tuesday", DAY),
    must("wednesday", DAY),
    must("thursday", DAY),
    must("friday", DAY),
    must("saturday", DAY),
    must("sunday", DAY),
    must("start_date", Form::Date),
    must("end_date", Form::Date),
];

const TRIPS: &[Column] = &[
    must("route_id", Form::Text),
    must("service_id", Form::Text),
    must("trip_id", Form::Text),
    may("direction_id", ONE_OR_NONE),
    may("wheelchair_accessible", UP_TO_2),
    may("bikes_allowed", UP_TO_2),
];

const STOP_TIMES: &[Column] = &[
    must("trip_id", Form::Text),
    must("arrival_time", Form::Time),
    must("departure_time", Form::Time),
    must("stop_id", Form::Text),
    must("stop_sequence", Form::Sequence),
    may("pickup_type", UP_TO_3),
    may("drop_off_type", UP_TO_3),
    may("timepoint", ONE_OR_NONE),
];

const CALENDAR_DATES: &[Column] =
    &[must("service_id", Form::Text), must("date", Form::Date), must("exception_type", ONE_OR_TWO)];

/// The known columns of files 1 to 6.
pub const COLUMNS: [&[Column]; FILES] = [STOPS, ROUTES, CALENDAR, TRIPS, STOP_TIMES, CALENDAR_DATES];

/// How many numbers a record of each file has.
pub const WIDTHS: [usize; FILES] = [7, 3, 5, 8, 8, 4];
