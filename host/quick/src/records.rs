//! The records of the six files as they are read: numbers as stored, ids and references by value.

use crate::forms::{date, exception, latitude, longitude, route_type, sequence, time, up_to};
use crate::header::Columns;
use crate::row::{Id, Row};

/// What a line of a file holds.
pub trait Record<'a>: Sized {
    const COLUMNS: Columns;

    /// Takes the values from a line; the row notes the rules that they break.
    fn read(row: &mut Row<'_, 'a>) -> Self;
}

pub struct Stop<'a> {
    pub id: Id<'a>,
    /// Latitude and longitude; none on a line without them.
    pub place: Option<[i32; 2]>,
    pub kind: i32,
    pub parent: &'a [u8],
}

impl<'a> Record<'a> for Stop<'a> {
    const COLUMNS: Columns =
        Columns { must: &["stop_id", "stop_name", "stop_lat", "stop_lon"], may: &["location_type", "parent_station"] };

    fn read(row: &mut Row<'_, 'a>) -> Self {
        let id = row.needed_id(0);
        // A type that isn't of its form is read as 0.
        let kind = row.number(4, 0, up_to::<4>);
        let node_or_area = kind > 2;
        if !node_or_area {
            row.needed_text(1);
        }
        let nowhere = node_or_area && row.text(2).is_empty() && row.text(3).is_empty();
        let place = (!nowhere).then(|| [row.needed(2, latitude), row.needed(3, longitude)]);
        Stop { id, place, kind, parent: row.reference(5) }
    }
}

pub struct Route<'a> {
    pub id: Id<'a>,
    pub kind: i32,
    pub named: bool,
}

impl<'a> Record<'a> for Route<'a> {
    const COLUMNS: Columns =
        Columns { must: &["route_id", "route_type"], may: &["route_short_name", "route_long_name"] };

    fn read(row: &mut Row<'_, 'a>) -> Self {
        let named = !row.text(2).is_empty() || !row.text(3).is_empty();
        Route { id: row.needed_id(0), kind: row.needed(1, route_type), named }
    }
}

pub struct Service<'a> {
    pub id: Id<'a>,
    pub days: i32,
    pub start: i32,
    pub end: i32,
}

impl<'a> Record<'a> for Service<'a> {
    const COLUMNS: Columns = Columns {
        must: &[
            "service_id",
            "monday",
            "tuesday",
            "wednesday",
            "thursday",
            "friday",
            "saturday",
            "sunday",
            "start_date",
            "end_date",
        ],
        may: &[],
    };

    fn read(row: &mut Row<'_, 'a>) -> Self {
        let id = row.needed_id(0);
        // Monday, the first of the day columns, is the lowest bit.
        let days = (0..7).map(|day| row.needed(1 + day, up_to::<1>) << day).sum();
        Service { id, days, start: row.needed(8, date), end: row.needed(9, date) }
    }
}

pub struct Trip<'a> {
    pub id: Id<'a>,
    pub route: &'a [u8],
    pub service: &'a [u8],
    /// Direction, wheelchair and bikes.
    pub choices: [i32; 3],
}

impl<'a> Record<'a> for Trip<'a> {
    const COLUMNS: Columns = Columns {
        must: &["route_id", "service_id", "trip_id"],
        may: &["direction_id", "wheelchair_accessible", "bikes_allowed"],
    };

    fn read(row: &mut Row<'_, 'a>) -> Self {
        let (route, service) = (row.needed_reference(0), row.needed_reference(1));
        let id = row.needed_id(2);
        // By its name rule 11 looks at direction_id too.
        row.reference(3);
        let choices = [row.number(3, -1, up_to::<1>), row.number(4, 0, up_to::<2>), row.number(5, 0, up_to::<2>)];
        Trip { id, route, service, choices }
    }
}

/// A line of stop_times.
pub struct Call<'a> {
    pub trip: &'a [u8],
    pub stop: &'a [u8],
    pub sequence: i32,
    pub arrival: i32,
    pub departure: i32,
    /// Pickup, drop-off and timepoint.
    pub choices: [i32; 3],
}

impl<'a> Record<'a> for Call<'a> {
    const COLUMNS: Columns = Columns {
        must: &["trip_id", "arrival_time", "departure_time", "stop_id", "stop_sequence"],
        may: &["pickup_type", "drop_off_type", "timepoint"],
    };

    fn read(row: &mut Row<'_, 'a>) -> Self {
        let (trip, stop) = (row.needed_reference(0), row.needed_reference(3));
        let (arrival, departure) = (row.number(1, -1, time), row.number(2, -1, time));
        let sequence = row.needed(4, sequence);
        let choices = [row.number(5, 0, up_to::<3>), row.number(6, 0, up_to::<3>), row.number(7, -1, up_to::<1>)];
        Call { trip, stop, sequence, arrival, departure, choices }
    }
}

/// A line of calendar_dates.
pub struct ServiceDate<'a> {
    pub id: Id<'a>,
    pub date: i32,
    pub kind: i32,
}

impl<'a> Record<'a> for ServiceDate<'a> {
    const COLUMNS: Columns = Columns { must: &["service_id", "date", "exception_type"], may: &[] };

    fn read(row: &mut Row<'_, 'a>) -> Self {
        ServiceDate { id: row.needed_id(0), date: row.needed(1, date), kind: row.needed(2, exception) }
    }
}

impl Call<'_> {
    /// Both times are given.
    pub fn timed(&self) -> bool {
        self.arrival >= 0 && self.departure >= 0
    }
}
