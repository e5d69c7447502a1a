//! Writes a file of values as bytes, in one of the many ways that mean the same.

use crate::feeds::Grid;
use crate::random::Random;
use model::columns::Column;

/// Names that no file knows, or that only look like a known one.
const UNKNOWN: [&str; 10] =
    ["", " stop_id", "Stop_id", "TRIP_ID", "stop_id ", "\u{feff}", "\"stop_id\"", "shape_id", "zone,fare", "ä駅🚏"];

/// What stands in unread columns: well-formed, as every line has to be.
const JUNK: [&str; 11] =
    ["", "0", "A ", "a, b", "say \"hi\"", "\"", "\0", "ä", "\u{feff}\u{ffff}", "東京, \"駅\"", "🚏\u{10ffff}"];

/// Takes known columns out, puts unknown ones in, and changes their order.
pub fn arrange(grid: &Grid, known: &[Column], faulty: bool, random: &mut Random) -> Grid {
    if grid.header.is_empty() {
        return Grid::default();
    }
    let mut places: Vec<Option<usize>> = (0..grid.header.len()).map(Some).collect();
    places.retain(|place| !may_go(grid, known, place.unwrap_or(0), faulty) || random.once_in(2));
    let more = if random.once_in(2) { 0 } else { random.below(5) };
    let more = if random.once_in(40) { 32 - places.len() } else { more };
    places.extend(vec![None; more]);
    if random.once_in(2) {
        random.shuffle(&mut places);
    }
    let header = places.iter().map(|place| name(grid, known, *place, random)).collect();
    let mut arranged = Grid { header, rows: Vec::new() };
    for row in &grid.rows {
        let value = |place: &Option<usize>| match place {
            Some(place) => row[*place].clone(),
            None => random.pick(&JUNK).as_bytes().to_vec(),
        };
        arranged.rows.push(places.iter().map(value).collect());
    }
    arranged
}

/// May this column be left out? In a feed without faults only if nothing stands in it, and never if a line couldn't be read without it.
fn may_go(grid: &Grid, known: &[Column], place: usize, faulty: bool) -> bool {
    let empty = |place: usize| grid.rows.iter().all(|row| row[place].is_empty());
    let optional = known.iter().any(|column| column.name.as_bytes() == grid.header[place] && !column.present);
    // A line without a name or a place can, by its type.
    let lacking = |column: &Column| grid.rows.iter().any(|row| row[grid.column(column.name)].is_empty());
    let by_type = grid.header[place] == b"location_type" && known.iter().filter(|column| column.needed()).any(lacking);
    optional && (empty(place) || faulty && !by_type)
}

/// The name of a column; an unknown one gets a name that this file doesn't know.
fn name(grid: &Grid, known: &[Column], place: Option<usize>, random: &mut Random) -> Vec<u8> {
    if let Some(place) = place {
        return grid.header[place].clone();
    }
    let others = ["stop_id", "service_id", "timepoint", "route_type", "monday"];
    let name = if random.once_in(3) { random.pick(&others) } else { random.pick(&UNKNOWN) };
    let is_known = known.iter().any(|column| column.name == *name);
    if is_known {
        b"note".to_vec()
    } else {
        name.as_bytes().to_vec()
    }
}

/// The bytes of a file: a leading mark or none, LF or CR LF, quotes where needed and at random. One not supplied has none.
pub fn write(grid: &Grid, random: &mut Random) -> Vec<u8> {
    if grid.header.is_empty() {
        return Vec::new();
    }
    let quotes = *random.pick(&[1, 3, 1000]);
    let endings = random.below(4);
    let mut bytes = if random.once_in(4) { b"\xEF\xBB\xBF".to_vec() } else { Vec::new() };
    for row in std::iter::once(&grid.header).chain(&grid.rows) {
        let fields: Vec<Vec<u8>> = row.iter().map(|value| field(value, quotes, random)).collect();
        bytes.extend(fields.join(&b","[..]));
        let with_cr = endings == 1 || endings == 2 && random.once_in(2);
        bytes.extend(if with_cr { &b"\r\n"[..] } else { b"\n" });
    }
    bytes
}

/// A value as a field: quoted if it has to be, else once in so many times.
fn field(value: &[u8], quotes: usize, random: &mut Random) -> Vec<u8> {
    if !value.contains(&b',') && !value.contains(&b'"') && !random.once_in(quotes) {
        return value.to_vec();
    }
    let mut field = vec![b'"'];
    for &byte in value {
        field.push(byte);
        if byte == b'"' {
            field.push(byte);
        }
    }
    field.push(b'"');
    field
}
