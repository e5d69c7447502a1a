//! A large feed while it is written, line by line; every line is good, and times never fall along a trip.

use crate::random::Random;
use model::{Files, FILES};

/// The six files so far; calendar_dates is supplied once it has a line.
pub struct Draft(pub Files);

const HEADERS: [&str; FILES] = [
    "stop_id,stop_name,stop_lat,stop_lon,location_type,parent_station\n",
    "route_id,route_short_name,route_type\n",
    "service_id,monday,tuesday,wednesday,thursday,friday,saturday,sunday,start_date,end_date\n",
    "route_id,service_id,trip_id\n",
    "trip_id,arrival_time,departure_time,stop_id,stop_sequence\n",
    "",
];

/// 99:59:59.
const LAST_SECOND: usize = 359_999;

const DATES_HEADER: &[u8] = b"service_id,date,exception_type\n";

impl Draft {
    pub fn new() -> Self {
        Draft(HEADERS.map(|header| header.as_bytes().to_vec()))
    }

    fn line(&mut self, file: usize, line: String) {
        self.0[file - 1].extend(line.into_bytes());
    }

    /// A stop of a type, with a parent or an empty text.
    pub fn stop(&mut self, id: &str, kind: usize, parent: &str) {
        let place = self.0[0].len() % 90;
        self.line(1, format!("{id},Stop {place},{place}.25,-{place}.1234567,{kind},{parent}\n"));
    }

    pub fn route(&mut self, id: &str) {
        self.line(2, format!("{id},7,3\n"));
    }

    pub fn service(&mut self, id: &str) {
        self.line(3, format!("{id},1,1,1,1,1,0,0,20240101,20241231\n"));
    }

    /// A line of calendar_dates that adds a date.
    pub fn date(&mut self, service: &str, date: usize) {
        if self.0[5].is_empty() {
            self.0[5].extend(DATES_HEADER);
        }
        self.line(6, format!("{service},{date:08},1\n"));
    }

    pub fn trip(&mut self, route: &str, service: &str, id: &str) {
        self.line(4, format!("{route},{service},{id}\n"));
    }

    /// The line of a trip with this place along it, from 0 on.
    pub fn call(&mut self, trip: &str, place: usize, stop: &str) {
        self.call_with(trip, place, place + 1, stop);
    }

    /// The same with another sequence. It arrives and departs five seconds after the line before, or at the last second that a time can be.
    pub fn call_with(&mut self, trip: &str, place: usize, sequence: usize, stop: &str) {
        let seconds = (place * 5).min(LAST_SECOND);
        let time = format!("{:02}:{:02}:{:02}", seconds / 3600, seconds / 60 % 60, seconds % 60);
        self.line(5, format!("{trip},{time},{time},{stop},{sequence}\n"));
    }

    /// Puts the record lines of a file in random order.
    pub fn shuffle(&mut self, file: usize, random: &mut Random) {
        let bytes = std::mem::take(&mut self.0[file - 1]);
        let mut lines: Vec<&[u8]> = bytes.split_inclusive(|&byte| byte == b'\n').collect();
        random.shuffle(&mut lines[1..]);
        self.0[file - 1] = lines.concat();
    }

    /// A further column of a file, which is unread, with this text on every line.
    pub fn note(&mut self, file: usize, text: &str) {
        let bytes = std::mem::take(&mut self.0[file - 1]);
        for (place, line) in bytes.split(|&byte| byte == b'\n').filter(|line| !line.is_empty()).enumerate() {
            let text = if place == 0 { "note" } else { text };
            self.0[file - 1].extend([line, b",", text.as_bytes(), b"\n"].concat());
        }
    }

    /// Puts every field of every file in quotes, those of the headers too.
    pub fn quote(&mut self) {
        for file in &mut self.0 {
            let mut quoted = Vec::new();
            for line in file.split(|&byte| byte == b'\n').filter(|line| !line.is_empty()) {
                let fields: Vec<&[u8]> = line.split(|&byte| byte == b',').collect();
                quoted.extend([b"\"", &fields.join(&b"\",\""[..])[..], b"\"\n"].concat());
            }
            *file = quoted;
        }
    }
}
