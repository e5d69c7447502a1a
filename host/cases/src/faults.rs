//! Breaks binding rules in a feed of values; the feed stays readable.

use crate::feeds::{sequence_text, time_text, Feed, Grid};
use crate::random::Random;

/// The files that rule 20 looks at, each with its id.
const IDS: [(usize, &str); 5] = [(0, "stop_id"), (1, "route_id"), (2, "service_id"), (3, "trip_id"), (5, "service_id")];

/// The references of the feed: file and column, and the file and column that it names.
const REFERENCES: [(usize, &str, usize, &str); 6] = [
    (0, "parent_station", 0, "stop_id"),
    (3, "route_id", 1, "route_id"),
    (3, "service_id", 2, "service_id"),
    (3, "service_id", 5, "service_id"),
    (4, "trip_id", 3, "trip_id"),
    (4, "stop_id", 0, "stop_id"),
];

/// Breaks something, usually, at a random place.
pub fn break_one(feed: &mut Feed, random: &mut Random) {
    match random.below(26) {
        0 | 1 => repeat_id(feed, random),
        2 | 3 => lose_reference(feed, random),
        4 => move_reference(feed, random),
        5 | 23 | 24 => change_parent(feed, random),
        6 | 25 => change_type(feed, random),
        7 => clear_names(feed, random),
        8 => turn_dates(feed, random),
        9 => clear_times(feed, random),
        10 => edit(feed, random, 4, "timepoint", |_| "1".to_string()),
        11 => move_time(feed, random),
        12 => move_sequence(feed, random),
        13 | 14 => repeat_sequence(feed, random),
        15 => random.shuffle(&mut feed[4].rows),
        16 => lose_trip(feed, random),
        17 => share_lines(feed, random),
        18 | 19 => repeat_date(feed, random),
        20 | 21 => lose_services(feed, random),
        _ => move_lines(feed, random),
    }
}

/// A random row of a file that has one.
fn row(feed: &Feed, random: &mut Random, file: usize) -> Option<usize> {
    let rows = feed[file].rows.len();
    (rows > 0).then(|| random.below(rows))
}

/// Puts a new value under a column of a random row.
fn edit(feed: &mut Feed, random: &mut Random, file: usize, name: &str, value: fn(&mut Random) -> String) {
    if let Some(row) = row(feed, random, file) {
        let value = value(random);
        feed[file].set(row, name, value);
    }
}

/// A line whose id another line has: a copy of a line, or only of its id.
fn repeat_id(feed: &mut Feed, random: &mut Random) {
    let (file, name) = *random.pick(&IDS);
    let (Some(from), Some(to)) = (row(feed, random, file), row(feed, random, file)) else { return };
    if random.once_in(2) {
        let copy = feed[file].rows[from].clone();
        feed[file].rows.insert(to, copy);
    } else {
        let id = feed[file].get(from, name).to_vec();
        feed[file].set(to, name, id);
    }
}

/// A line of calendar_dates that has another line's date, its service or both; its type may differ.
fn repeat_date(feed: &mut Feed, random: &mut Random) {
    let (Some(from), Some(to)) = (row(feed, random, 5), row(feed, random, 5)) else { return };
    let mut line = feed[5].rows[from].clone();
    if random.once_in(2) {
        line[2] = random.pick(&[b"1", b"2"]).to_vec();
    }
    match random.below(4) {
        0 => line[0].clone_from(&feed[5].rows[to][0]),
        1 => line[1].clone_from(&feed[5].rows[to][1]),
        _ => {}
    }
    feed[5].rows.insert(to, line);
}

/// calendar or calendar_dates loses a service, all of them, or is no longer supplied.
fn lose_services(feed: &mut Feed, random: &mut Random) {
    let file = *random.pick(&[2, 5]);
    match row(feed, random, file) {
        Some(row) if random.once_in(2) => {
            let id = feed[file].get(row, "service_id").to_vec();
            feed[file].rows.retain(|line| line[0] != id);
        }
        _ if random.once_in(2) => feed[file].rows.clear(),
        _ if !feed[7 - file].header.is_empty() => feed[file] = Grid::default(),
        _ => {}
    }
}

/// A reference that names no line, at times one that differs by case or a space only.
fn lose_reference(feed: &mut Feed, random: &mut Random) {
    let (file, name, _, _) = *random.pick(&REFERENCES);
    let Some(row) = row(feed, random, file) else { return };
    let mut id = feed[file].get(row, name).to_ascii_lowercase();
    match random.below(3) {
        0 => id = b"nowhere".to_vec(),
        1 => id.push(b' '),
        _ => {}
    }
    id.truncate(64);
    feed[file].set(row, name, id);
}

/// A reference that names some other line.
fn move_reference(feed: &mut Feed, random: &mut Random) {
    let (file, name, to, id) = *random.pick(&REFERENCES);
    if let (Some(row), Some(target)) = (row(feed, random, file), row(feed, random, to)) {
        let id = feed[to].get(target, id).to_vec();
        feed[file].set(row, name, id);
    }
}

/// A stop that is its own parent, or that has any stop or none as its parent.
fn change_parent(feed: &mut Feed, random: &mut Random) {
    let (Some(child), Some(other)) = (row(feed, random, 0), row(feed, random, 0)) else { return };
    let parent = *random.pick(&[Some(child), Some(other), Some(other), None]);
    let id = parent.map_or(Vec::new(), |parent| feed[0].get(parent, "stop_id").to_vec());
    feed[0].set(child, "parent_station", id);
}

/// A stop of another type; one without a name or a place has to stay a node or a boarding area.
fn change_type(feed: &mut Feed, random: &mut Random) {
    let Some(row) = row(feed, random, 0) else { return };
    let lacks = ["stop_name", "stop_lat"].iter().any(|name| feed[0].get(row, name).is_empty());
    let types: &[&str] = if lacks { &["3", "4"] } else { &["", "0", "1", "2", "3", "4"] };
    feed[0].set(row, "location_type", random.pick(types));
}

fn clear_names(feed: &mut Feed, random: &mut Random) {
    if let Some(row) = row(feed, random, 1) {
        feed[1].set(row, "route_short_name", "");
        feed[1].set(row, "route_long_name", "");
    }
}

/// The two dates of a service change places.
fn turn_dates(feed: &mut Feed, random: &mut Random) {
    if let Some(row) = row(feed, random, 2) {
        let dates = [feed[2].get(row, "start_date").to_vec(), feed[2].get(row, "end_date").to_vec()];
        feed[2].set(row, "start_date", &dates[1]);
        feed[2].set(row, "end_date", &dates[0]);
    }
}

/// One time or both are gone.
fn clear_times(feed: &mut Feed, random: &mut Random) {
    let Some(row) = row(feed, random, 4) else { return };
    let which = random.below(3);
    if which != 1 {
        feed[4].set(row, "arrival_time", "");
    }
    if which != 0 {
        feed[4].set(row, "departure_time", "");
    }
}

/// A time that falls or rises, to midnight at times, to two days or a second before, or to the end of what can be written.
fn move_time(feed: &mut Feed, random: &mut Random) {
    let Some(row) = row(feed, random, 4) else { return };
    let time = match random.below(4) {
        0 => 0,
        1 => 359_999,
        2 => [86_400, 172_799, 172_800][row % 3],
        _ => random.below(360_000),
    };
    let name = *random.pick(&["arrival_time", "departure_time"]);
    let text = time_text(random, time);
    feed[4].set(row, name, text);
}

/// A sequence that is some other line's, or any.
fn move_sequence(feed: &mut Feed, random: &mut Random) {
    let Some(row) = row(feed, random, 4) else { return };
    let most = *random.pick(&[2, 6, 1_000_000_000]);
    let sequence = random.below(most);
    let text = sequence_text(random, sequence);
    feed[4].set(row, "stop_sequence", text);
}

/// A sequence that another line of the trip has, in any spelling, on one line of it or on all.
fn repeat_sequence(feed: &mut Feed, random: &mut Random) {
    let Some(from) = row(feed, random, 4) else { return };
    let sequence = std::str::from_utf8(feed[4].get(from, "stop_sequence")).ok().and_then(|text| text.parse().ok());
    let trip = feed[4].get(from, "trip_id").to_vec();
    let same = |row: &usize| feed[4].get(*row, "trip_id") == trip;
    let mut lines: Vec<usize> = (0..feed[4].rows.len()).filter(same).collect();
    if !random.once_in(4) {
        lines = vec![*random.pick(&lines)];
    }
    for line in lines {
        let text = sequence_text(random, sequence.unwrap_or(0));
        feed[4].set(line, "stop_sequence", text);
    }
}

/// A trip that is gone from trips.txt, so that its lines in stop_times name none.
fn lose_trip(feed: &mut Feed, random: &mut Random) {
    if let Some(row) = row(feed, random, 3) {
        feed[3].rows.remove(row);
    }
}

/// All lines of stop_times are one trip's, or each is a trip's of its own.
fn share_lines(feed: &mut Feed, random: &mut Random) {
    let Some(from) = row(feed, random, 4) else { return };
    let one = feed[4].get(from, "trip_id").to_vec();
    let together = random.once_in(2);
    for line in 0..feed[4].rows.len() {
        let id = if together { one.clone() } else { format!("id-{line}").into_bytes() };
        feed[4].set(line, "trip_id", id);
    }
}

/// Lines of stop_times that change places, or are gone.
fn move_lines(feed: &mut Feed, random: &mut Random) {
    let (Some(one), Some(other)) = (row(feed, random, 4), row(feed, random, 4)) else { return };
    match random.below(3) {
        0 => feed[4].rows.swap(one, other),
        1 => drop(feed[4].rows.remove(one)),
        _ => {
            let trip = feed[4].get(one, "trip_id").to_vec();
            let keep = random.below(2);
            let column = feed[4].column("trip_id");
            let mut seen = 0;
            feed[4].rows.retain(|row| {
                seen += usize::from(row[column] == trip);
                row[column] != trip || seen <= keep
            });
        }
    }
}
