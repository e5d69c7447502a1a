//! Makes well-formed feeds as grids of values: readable, and by construction without a finding.

use crate::random::Random;
use model::FILES;

/// A file as values: the names of its columns, and its record lines. One without columns is not supplied.
#[derive(Clone, Debug, Default)]
pub struct Grid {
    pub header: Vec<Vec<u8>>,
    pub rows: Vec<Vec<Vec<u8>>>,
}

/// The six files as values.
pub type Feed = [Grid; FILES];

impl Grid {
    /// A grid of these columns without rows.
    pub fn new(names: &[&str]) -> Self {
        Grid { header: names.iter().map(|name| name.as_bytes().to_vec()).collect(), rows: Vec::new() }
    }

    /// The place of a column that is there.
    pub fn column(&self, name: &str) -> usize {
        let place = self.header.iter().position(|have| have == name.as_bytes());
        place.expect("a column of the grid")
    }

    /// The value of a row under a column.
    pub fn get(&self, row: usize, name: &str) -> &[u8] {
        &self.rows[row][self.column(name)]
    }

    /// Puts a value into a row under a column.
    pub fn set(&mut self, row: usize, name: &str, value: impl AsRef<[u8]>) {
        let column = self.column(name);
        self.rows[row][column] = value.as_ref().to_vec();
    }

    /// All values under a column.
    pub fn values(&self, name: &str) -> Vec<Vec<u8>> {
        (0..self.rows.len()).map(|row| self.get(row, name).to_vec()).collect()
    }

    fn push<V: AsRef<[u8]>>(&mut self, values: &[V]) {
        self.rows.push(values.iter().map(|value| value.as_ref().to_vec()).collect());
    }
}

/// Ids that only an exact comparison by value tells apart, with characters of one to four bytes.
const IDS: [&str; 16] =
    ["A", "a", "駅", "🚏", "1", "01", "0", " A", "A ", "A,B", "\"A\"", "\"", "AB", "é", "\u{feff}A", "nowhere?"];

/// So many different ids.
fn ids(random: &mut Random, count: usize) -> Vec<Vec<u8>> {
    let mut ids: Vec<Vec<u8>> = IDS.iter().map(|id| id.as_bytes().to_vec()).collect();
    ids.push(vec![b'x'; 64]);
    ids.push("\u{10ffff}\0\"".into());
    random.shuffle(&mut ids);
    let more = (0..count).map(|number| format!("id-{number}").into_bytes());
    ids.extend(more);
    ids.truncate(count);
    ids
}

const NAMES: [&str; 10] = ["Alder", "Birch, north", "say \"hi\"", " ", "0", "ä", "\u{feff}x", "\0", "新宿駅", "𝄞 🚉"];

const PLACES: [&str; 14] = [
    "0",
    "1.5",
    "-0",
    "90",
    "-90.0",
    "90.00000000000000000000",
    "-33.86749999",
    "007.25",
    "-0.00000009",
    "45.12345678",
    "000",
    "89.99999999999999999999",
    "-89.9999999",
    "12.3",
];

const LONGITUDES: [&str; 4] = ["180", "-180.000", "-179.99999999999999999999", "123.456789012345"];

/// How many rows, mostly few.
fn count(random: &mut Random, most: usize) -> usize {
    if random.once_in(12) {
        random.between(0, most * 6)
    } else {
        random.between(1, most)
    }
}

/// A readable feed without a finding.
pub fn clean(random: &mut Random) -> Feed {
    let stops = stops(random);
    let routes = routes(random);
    let [calendar, dates] = services(random);
    let mut trips = trips(random, &routes, [&calendar, &dates]);
    let platforms = platforms(&stops);
    if platforms.is_empty() {
        trips.rows.clear();
    }
    let stop_times = stop_times(random, &trips, &platforms);
    [stops, routes, calendar, trips, stop_times, dates]
}

fn stops(random: &mut Random) -> Grid {
    let names = ["stop_id", "stop_name", "stop_lat", "stop_lon", "location_type", "parent_station"];
    let mut grid = Grid::new(&names);
    let plain = random.once_in(3);
    let kinds = kinds(random, plain);
    let ids = ids(random, kinds.len());
    let of_kind = |kind: usize| (0..kinds.len()).filter(|&stop| kinds[stop] == kind).collect::<Vec<_>>();
    let (platforms, stations) = (of_kind(0), of_kind(1));
    for (id, &kind) in ids.iter().zip(&kinds) {
        let parents = match kind {
            0 if random.once_in(2) => &stations[..],
            2 | 3 => &stations,
            4 => &platforms,
            _ => &[],
        };
        let parent = if parents.is_empty() { Vec::new() } else { ids[*random.pick(parents)].clone() };
        let written = if kind == 0 && (plain || random.once_in(2)) { String::new() } else { kind.to_string() };
        let [name, latitude, longitude] = name_and_place(random, kind).map(str::as_bytes);
        let row: [&[u8]; 6] = [id, name, latitude, longitude, written.as_bytes(), &parent];
        grid.push(&row);
    }
    grid
}

/// The types of stops that all find their parents: without a station none is an entrance or a node, without a platform none a boarding area.
fn kinds(random: &mut Random, plain: bool) -> Vec<usize> {
    let mut kinds: Vec<usize> = (0..count(random, 6)).map(|_| if plain { 0 } else { random.below(5) }).collect();
    for (kind, parent) in [(2, 1), (3, 1), (4, 0)] {
        if !kinds.contains(&parent) {
            kinds.iter_mut().filter(|own| **own == kind).for_each(|own| *own = 0);
        }
    }
    kinds
}

/// The name, latitude and longitude of a stop of a type; a node or a boarding area may lack its name, or its place.
fn name_and_place(random: &mut Random, kind: usize) -> [&'static str; 3] {
    let may_lack = kind > 2;
    let name = if may_lack && random.once_in(2) { "" } else { *random.pick(&NAMES) };
    if may_lack && random.once_in(2) {
        return [name, "", ""];
    }
    let wide = random.once_in(3);
    let longitude = if wide { *random.pick(&LONGITUDES) } else { *random.pick(&PLACES) };
    [name, *random.pick(&PLACES), longitude]
}

fn routes(random: &mut Random) -> Grid {
    let mut grid = Grid::new(&["route_id", "route_type", "route_short_name", "route_long_name"]);
    let named = random.below(3);
    let number = count(random, 3);
    for id in ids(random, number) {
        // Which of the two names stand: one column may stay empty throughout.
        let which = if named == 2 { random.below(3) } else { named };
        let short = if which != 1 { *random.pick(&NAMES) } else { "" };
        let long = if which != 0 { *random.pick(&NAMES) } else { "" };
        let kind = random.pick(&["0", "1", "2", "3", "4", "5", "6", "7", "11", "12"]);
        let row: [&[u8]; 4] = [&id, kind.as_bytes(), short.as_bytes(), long.as_bytes()];
        grid.push(&row);
    }
    grid
}

const DATES: [&str; 8] =
    ["00010101", "15821010", "19000228", "20000229", "20240101", "20240229", "20241231", "99991231"];

/// calendar and calendar_dates: each service stands in one of them or in both, or all stand in the same one.
fn services(random: &mut Random) -> [Grid; 2] {
    let days = ["monday", "tuesday", "wednesday", "thursday", "friday", "saturday", "sunday"];
    let names = [&["service_id"], &days[..], &["start_date", "end_date"]].concat();
    let mut calendar = Grid::new(&names);
    let mut dates = Grid::new(&["service_id", "date", "exception_type"]);
    let (one, number) = (random.below(4), count(random, 3));
    for id in ids(random, number) {
        let which = if one < 2 { one } else { random.below(3) };
        if which != 1 {
            calendar.push(&week(random, &id));
        }
        if which != 0 {
            dates.rows.extend(dates_of(random, &id));
        }
    }
    if random.once_in(2) {
        random.shuffle(&mut dates.rows);
    }
    leave_out(random, [calendar, dates])
}

/// A line of calendar.
fn week(random: &mut Random, id: &[u8]) -> Vec<Vec<u8>> {
    let first = random.below(DATES.len());
    let last = random.between(first, DATES.len() - 1);
    let mut row = vec![id.to_vec()];
    row.extend((0..7).map(|_| random.pick(&[b"0", b"1"]).to_vec()));
    row.extend([first, last].map(|date| DATES[date].as_bytes().to_vec()));
    row
}

/// Lines of calendar_dates for one service, each on a date of its own.
fn dates_of(random: &mut Random, id: &[u8]) -> Vec<Vec<Vec<u8>>> {
    let mut dates = DATES;
    random.shuffle(&mut dates);
    let number = random.between(1, 4);
    let mut line = |date: &str| vec![id.to_vec(), date.into(), random.pick(&[b"1", b"2"]).to_vec()];
    dates[..number].iter().map(|date| line(date)).collect()
}

/// Of the two files one that has no line may be not supplied.
fn leave_out(random: &mut Random, mut files: [Grid; 2]) -> [Grid; 2] {
    let first = random.below(2);
    for file in [first, 1 - first] {
        if files[file].rows.is_empty() && random.once_in(2) {
            files[file] = Grid::default();
            return files;
        }
    }
    files
}

fn trips(random: &mut Random, routes: &Grid, services: [&Grid; 2]) -> Grid {
    let names = ["route_id", "service_id", "trip_id", "direction_id", "wheelchair_accessible", "bikes_allowed"];
    let mut grid = Grid::new(&names);
    let routes = routes.values("route_id");
    let services = services.map(|file| file.values("service_id")).concat();
    if routes.is_empty() || services.is_empty() {
        return grid;
    }
    let bare = random.once_in(4);
    let number = count(random, 4);
    for id in ids(random, number) {
        let choices: [&[&str]; 3] = [&["", "0", "1"], &["", "0", "1", "2"], &["", "0", "1", "2"]];
        let mut row = vec![random.pick(&routes).clone(), random.pick(&services).clone(), id];
        row.extend(choices.map(|from| choice(random, from, bare)));
        grid.push(&row);
    }
    grid
}

/// One of the choices, or the empty value.
fn choice(random: &mut Random, choices: &[&str], empty: bool) -> Vec<u8> {
    if empty {
        Vec::new()
    } else {
        random.pick(choices).as_bytes().to_vec()
    }
}

/// The stops where a trip may call: those of type 0.
fn platforms(stops: &Grid) -> Vec<Vec<u8>> {
    let plain = |row: &usize| matches!(stops.get(*row, "location_type"), b"" | b"0");
    let rows = (0..stops.rows.len()).filter(plain);
    rows.map(|row| stops.get(row, "stop_id").to_vec()).collect()
}

fn stop_times(random: &mut Random, trips: &Grid, platforms: &[Vec<u8>]) -> Grid {
    let names = [
        "trip_id",
        "arrival_time",
        "departure_time",
        "stop_id",
        "stop_sequence",
        "pickup_type",
        "drop_off_type",
        "timepoint",
    ];
    let mut grid = Grid::new(&names);
    let bare = random.once_in(4);
    let mut queues = Vec::new();
    for trip in trips.values("trip_id") {
        let calls = random.between(2, 6);
        queues.push(calls_of(random, &trip, calls, bare));
    }
    // Trip after trip, or by turns.
    let together = random.once_in(2);
    while !queues.is_empty() {
        let queue = if together { 0 } else { random.below(queues.len()) };
        let mut row = queues[queue].remove(0);
        row[3] = random.pick(platforms).clone();
        grid.push(&row);
        queues.retain(|queue| !queue.is_empty());
    }
    reorder(random, &mut grid);
    grid
}

/// Half of the time the lines stand in no trip's order: backward, shuffled, or sorted by stop.
fn reorder(random: &mut Random, stop_times: &mut Grid) {
    match random.below(6) {
        0 => stop_times.rows.reverse(),
        1 => random.shuffle(&mut stop_times.rows),
        2 => stop_times.rows.sort_by(|one, other| one[3].cmp(&other[3])),
        _ => {}
    }
}

/// The lines of one trip by sequence, without their stops: times never fall.
fn calls_of(random: &mut Random, trip: &[u8], calls: usize, bare: bool) -> Vec<Vec<Vec<u8>>> {
    let mut now = random.below(90 * 3600);
    let mut rows = Vec::new();
    for (call, sequence) in sequences(random, calls).into_iter().enumerate() {
        let timed = call == 0 || call == calls - 1 || !random.once_in(3);
        let arrival = now + random.below(3) * random.below(400);
        let departure = arrival + random.below(2) * random.below(400);
        now = if timed { departure } else { now };
        let written = |random: &mut Random, time| if timed { time_text(random, time) } else { Vec::new() };
        let (arrival, departure) = (written(random, arrival), written(random, departure));
        let exact = if timed { &["", "0", "1"][..] } else { &["", "0"] };
        let choices = [&["", "0", "1", "2", "3"][..], &["", "0", "1", "2", "3"], exact];
        let mut row = vec![trip.to_vec(), arrival, departure, Vec::new(), sequence_text(random, sequence)];
        row.extend(choices.map(|from| choice(random, from, bare)));
        rows.push(row);
    }
    rows
}

/// So many sequences that rise, at times up to the largest.
fn sequences(random: &mut Random, count: usize) -> Vec<usize> {
    let mut next = random.below(3);
    let mut sequences = Vec::new();
    for _ in 0..count {
        sequences.push(next);
        next += if random.once_in(20) { 100_000_000 } else { random.between(1, 3) };
    }
    let up = if random.once_in(6) { 999_999_999 - sequences.last().unwrap_or(&0) } else { 0 };
    sequences.into_iter().map(|sequence| sequence + up).collect()
}

/// A time with one or two hour digits.
pub fn time_text(random: &mut Random, time: usize) -> Vec<u8> {
    let (hours, minutes, seconds) = (time / 3600, time / 60 % 60, time % 60);
    let short = random.once_in(2);
    let hours = if short { format!("{hours}") } else { format!("{hours:02}") };
    format!("{hours}:{minutes:02}:{seconds:02}").into_bytes()
}

/// A sequence, with leading zeros at times.
pub fn sequence_text(random: &mut Random, sequence: usize) -> Vec<u8> {
    let width = if random.once_in(4) { random.between(1, 9) } else { 1 };
    format!("{sequence:0width$}").into_bytes()
}
