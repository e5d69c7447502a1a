//! Damage: a file that breaks one of the refusal rules on purpose, bytes changed at random, files cut short.

use crate::characters::ILL_FORMED;
use crate::feeds::Grid;
use crate::limits::{MOST_BYTES, MOST_LINES};
use crate::random::Random;
use model::columns::{Column, COLUMNS};
use model::forms::Form;
use model::Files;

/// Breaks rule 8, 9, 11, 12 or 13 in the values of a file, if it has the line for it.
pub fn break_values(grid: &mut Grid, known: &[Column], rule: usize, random: &mut Random) {
    let present: Vec<&Column> =
        known.iter().filter(|column| grid.header.contains(&column.name.as_bytes().to_vec())).collect();
    let wanted = |column: &&&Column| match rule {
        8 => true,
        9 => column.present,
        11 => column.is_id(),
        12 => column.needed(),
        _ => !matches!(column.form, Form::Text),
    };
    let columns: Vec<&Column> = present.iter().filter(wanted).copied().collect();
    let Some(column) = (!columns.is_empty()).then(|| *random.pick(&columns)) else { return };
    match rule {
        8 => repeat_names(grid, &columns, random),
        9 => {
            let place = grid.column(column.name);
            grid.header[place] = random.pick(&[&b"gone"[..], b"", b"STOP_ID"]).to_vec();
        }
        _ if grid.rows.is_empty() => {}
        12 if known.iter().any(|column| column.name == "location_type") && random.once_in(2) => {
            empty_stop(grid, random)
        }
        _ => {
            let row = random.below(grid.rows.len());
            break_more(grid, known, row, rule, random);
            let value = bad_value(rule, column, random);
            grid.set(row, column.name, value);
        }
    }
}

/// A stop of any type, or of one that isn't of its form, without its name, a coordinate or several of them.
fn empty_stop(grid: &mut Grid, random: &mut Random) {
    let row = random.below(grid.rows.len());
    let kind = *random.pick(&["", "0", "1", "2", "3", "4", "5", "03"]);
    let which = random.between(1, 7);
    let empty = ["stop_name", "stop_lat", "stop_lon"].into_iter().enumerate().filter(|(bit, _)| which >> bit & 1 == 1);
    for (name, value) in empty.map(|(_, name)| (name, "")).chain([("location_type", kind)]) {
        if grid.header.iter().any(|have| have == name.as_bytes()) {
            grid.set(row, name, value);
        }
    }
}

/// Known names once more, in place of another column or besides; among them names in capitals, which nobody knows, and one of any file.
fn repeat_names(grid: &mut Grid, columns: &[&Column], random: &mut Random) {
    let elsewhere = random.pick(&COLUMNS.concat()).name;
    for _ in 0..random.between(1, 5) {
        let own = random.pick(columns).name;
        let name = match random.below(4) {
            0 => own.to_ascii_uppercase(),
            1 => elsewhere.to_string(),
            _ => own.to_string(),
        };
        let name = name.into_bytes();
        let place = random.between(0, grid.header.len());
        if place < grid.header.len() && random.once_in(2) {
            grid.header[place] = name;
        } else {
            grid.header.insert(place, name);
            grid.rows.iter_mut().for_each(|row| row.insert(place, b"1".to_vec()));
        }
    }
}

/// A few more fields of a line, or most of them, of any column, with values that break this rule or one of the next under some column.
fn break_more(grid: &mut Grid, known: &[Column], row: usize, rule: usize, random: &mut Random) {
    for _ in 0..random.below(grid.header.len()) {
        let place = random.below(grid.header.len());
        let own = known.iter().find(|column| column.name.as_bytes() == grid.header[place]);
        let column = own.unwrap_or_else(|| random.pick(known));
        let rule = if random.once_in(2) { rule } else { random.between(rule, 13) };
        grid.rows[row][place] = bad_value(rule, column, random);
    }
}

/// A value that breaks rule 11, 12 or 13 under a column.
fn bad_value(rule: usize, column: &Column, random: &mut Random) -> Vec<u8> {
    let from: &[&str] = match (rule, column.form) {
        (11, _) => return long_value(random),
        (12, _) => return Vec::new(),
        (_, Form::Time) => &["10:5:00", "9:60:00", "100:00:00", "8:00", "-1:00:00", "08:00:60", ":00:00", "8 :00:00"],
        (_, Form::Date) => {
            &["20230229", "19000229", "00000101", "20240431", "2024010", "202401011", "20241301", "2024O101"]
        }
        (_, Form::Coordinate(90)) => {
            &["90.00000001", "-90.00000000000000000001", ".5", "5.", "+5", "0007", "1e1", "--1"]
        }
        (_, Form::Coordinate(_)) => &["180.000000001", "181", "-999", "1.000000000000000000000", " 1", "-", "1.-1"],
        (_, Form::Sequence) => &["1000000000", "-1", "1.0", " 1", "0x1", "a"],
        (_, Form::Choice(["0", "1", "2", "3", "4"], _)) => &["5", "03", "33", " 3", "4 ", "34", "-3", "a"],
        (_, Form::Choice(["1", "2"], _)) => &["0", "3", "01", " 2", "2 ", "12", "-1", "a"],
        _ => &["01", " 1", "9", "10", "13", "-1", "1 ", "a", "100"],
    };
    random.pick(from).as_bytes().to_vec()
}

/// A value of 64 to 67 bytes, of characters of any length.
fn long_value(random: &mut Random) -> Vec<u8> {
    let character = *random.pick(&["x", "\"", "ä", "駅", "🚏"]);
    let length = random.between(64, 67);
    let mut value = character.repeat(length / character.len()).into_bytes();
    value.resize(length, b'x');
    value
}

/// Breaks rule 1, 2, 4, 5, 6, 7, 10 or 14 in the bytes of a file.
pub fn break_bytes(file: &mut Vec<u8>, rule: usize, random: &mut Random) {
    match rule {
        1 => file.resize(MOST_BYTES + 1, b'\n'),
        2 => file.extend(vec![b'\n'; MOST_LINES + 1]),
        4 if random.once_in(3) => file.clear(),
        4 if random.once_in(2) => drop(file.pop()),
        4 => file.extend(random.pick(&[&b"x"[..], b"\r", b"\xEF\xBB\xBF"]).iter()),
        _ => break_line(file, rule, random),
    }
}

/// calendar and calendar_dates as they may be sent: each as it is, of no bytes, of its header only, or without its end.
pub fn cut_services(files: &mut Files, random: &mut Random) {
    for file in [2, 5] {
        let end = files[file].iter().position(|&byte| byte == b'\n').map_or(0, |place| place + 1);
        let length = files[file].len();
        files[file].truncate(*random.pick(&[length, length, 0, end, length.saturating_sub(1)]));
    }
}

/// Breaks rule 5, 6, 7, 10 or 14 on a random line.
fn break_line(file: &mut Vec<u8>, rule: usize, random: &mut Random) {
    let ends: Vec<usize> = (0..file.len()).filter(|&place| file[place] == b'\n').collect();
    let Some(line) = (!ends.is_empty()).then(|| random.below(ends.len())) else { return };
    let from = if line == 0 { 0 } else { ends[line - 1] + 1 };
    let end = if file[from..ends[line]].ends_with(b"\r") { ends[line] - 1 } else { ends[line] };
    // A cut character at a line's end, and another rule beside 14, tell more than others.
    let at_end = rule == 14 && random.once_in(3);
    put_in(file, rule, if at_end { end } else { random.between(from, ends[line]) }, random);
    if rule == 14 && random.once_in(3) {
        let other = *random.pick(&[5, 6, 7, 10]);
        put_in(file, other, random.between(from, ends[line]), random);
    }
}

/// Puts bytes that break rule 5, 6, 7, 10 or 14 at a place of a file.
fn put_in(file: &mut Vec<u8>, rule: usize, place: usize, random: &mut Random) {
    let more: &[&[u8]] = match rule {
        5 => &[b"\t", b"\r", b"\r\r"],
        6 => &[b"\"", b"a\"b", b"\"a\"b", b",\""],
        7 => &[&[b','; 32]],
        10 => &[b",", b",,", b",x", b"\n"],
        _ => &ILL_FORMED,
    };
    file.splice(place..place, random.pick(more).iter().copied());
}

/// Bytes that matter to some rule.
const TELLING: &[u8] = b",\"\t\r\n 0123456789-.:aA_\x00\xEF\xBB\xBF\xFF";

/// Changes a few bytes of a file at random.
pub fn mutate(file: &mut Vec<u8>, random: &mut Random) {
    for _ in 0..random.between(1, 3) {
        let place = random.below(file.len() + 1);
        let byte = *random.pick(TELLING);
        match random.below(4) {
            0 => file.insert(place, byte),
            1 if place < file.len() => file[place] = byte,
            2 if place < file.len() => drop(file.remove(place)),
            _ => move_piece(file, place, random),
        }
    }
}

/// Copies a piece of a file to a place of it, or takes it out.
fn move_piece(file: &mut Vec<u8>, place: usize, random: &mut Random) {
    let end = (place + random.below(30)).min(file.len());
    if random.once_in(2) {
        let to = random.below(file.len() + 1);
        let piece = file[place..end].to_vec();
        file.splice(to..to, piece);
    } else {
        drop(file.drain(place..end));
    }
}

/// Cuts a file short, at the end of a line half of the time.
pub fn truncate(file: &mut Vec<u8>, random: &mut Random) {
    let mut end = random.below(file.len() + 1);
    if random.once_in(2) {
        while end > 0 && file[end - 1] != b'\n' {
            end -= 1;
        }
    }
    file.truncate(end);
}
