//! Large feeds: for the limits one without a finding, and for the benchmark many families.

mod dated;
mod draft;
pub mod families;
pub mod limits;
mod plan;

use crate::limits::MOST_LINES;
use model::columns::WIDTHS;
use model::fields::line_ends;
use model::{Files, Tables};
use std::array::from_fn;

/// A readable feed with this many lines of stop_times, twenty to a trip or a few more, and a stop for each trip.
pub fn feed(calls: usize) -> Files {
    let trips = (calls / 20).max(1);
    let mut files: Files = [
        b"stop_id,stop_name,stop_lat,stop_lon\n".to_vec(),
        b"route_id,route_short_name,route_type\nR,7,3\n".to_vec(),
        b"service_id,monday,tuesday,wednesday,thursday,friday,saturday,sunday,start_date,end_date\n\
          W,1,1,1,1,1,0,0,20240101,20241231\n"
            .to_vec(),
        b"route_id,service_id,trip_id\n".to_vec(),
        b"trip_id,arrival_time,departure_time,stop_id,stop_sequence\n".to_vec(),
        b"service_id,date,exception_type\nW,20240704,2\n".to_vec(),
    ];
    for trip in 0..trips {
        files[0].extend(format!("stop-{trip},Stop {trip},{}.5,2\n", trip % 90).bytes());
        files[3].extend(format!("R,W,trip-{trip}\n").bytes());
    }
    for call in 0..calls {
        let trip = (call / 20).min(trips - 1);
        let minutes = (call - trip * 20) * 10;
        let (hour, minute) = (5 + minutes / 60, minutes % 60);
        let time = format!("{hour:02}:{minute:02}:00");
        let stop = (call * 7) % trips;
        files[4].extend(format!("trip-{trip},{time},{time},stop-{stop},{}\n", call + 1).bytes());
    }
    files
}

/// A readable feed without a finding with this many lines of calendar_dates, the header counted.
pub fn dates(lines: usize) -> Files {
    dated::dates_mixed(lines)
}

/// Tables of just the length that rule 3 asks for, all of one number; of more lines than there may be rule 2 speaks first.
pub fn tables(files: &Files, filled: i32) -> Tables {
    from_fn(|file| vec![filled; WIDTHS[file] * line_ends(&files[file]).min(MOST_LINES)])
}
