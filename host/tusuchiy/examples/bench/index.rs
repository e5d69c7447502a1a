//! The index: writer and reader on stops with ids of several kinds, beside a plain sort that tests no rule.

use crate::clock;
use crate::measure::least;
use crate::report::seconds;
use crate::steps;
use crate::table::Table;
use model::fields::value;
use tusuchiy::index::{check, length, write};

/// What `--only` calls it.
pub const NAME: &str = "index";

const TIMES: Table = Table(&[
    ("ids", 12),
    ("lines", 7),
    ("write", 10),
    ("check", 10),
    ("sort", 10),
    ("growth of write", 6),
    ("of check", 6),
    ("of sort", 6),
]);

/// Ids of one kind: a name, and the raw field of each number below 1,048,576.
type Ids = (&'static str, fn(usize) -> String);

const IDS: [Ids; 4] = [
    ("sorted", |number| format!("S{number:07}")),
    ("random", |number| format!("{:x}", mixed(number))),
    ("prefix", |number| format!("{:059}{:05x}", 0, mixed(number))),
    ("quoted", |number| format!("\"\"\"{:05x}\"\"{number}\"\"\"", mixed(number))),
];

/// Another number below 1,048,576, of each its own.
fn mixed(number: usize) -> usize {
    number * 40_503 % 1_048_576
}

/// stops.txt with so many lines.
fn stops(ids: Ids, lines: usize) -> Vec<u8> {
    let lines: String = (1..lines).map(|number| format!("{},Stop,1.25,-2.5\n", (ids.1)(number))).collect();
    format!("stop_id,stop_name,stop_lat,stop_lon\n{lines}").into_bytes()
}

/// The index by a sort of what stands before the fourth comma from the end of each line.
fn sorted(file: &[u8]) -> Vec<u8> {
    let raw = |line: &[u8]| line.rsplitn(4, |&byte| byte == b',').last().map(value).unwrap_or_default();
    // The header, which is no record, the records, and what follows the last LF.
    let ids: Vec<Vec<u8>> = file.split(|&byte| byte == b'\n').map(raw).collect();
    let mut records: Vec<u32> = (1..=(ids.len() - 2) as u32).collect();
    records.sort_by_key(|&record| &ids[record as usize]);
    // In version 2 numbers have four bytes, in version 1 the two low ones of them.
    let (version, width) = if records.len() > 65_535 { (2, 4) } else { (1, 2) };
    let number = |number: u32| number.to_le_bytes().into_iter().take(width);
    let head = [b'T', b'T', b'X', version, 0, 1].into_iter().chain(number(records.len() as u32));
    head.chain(records.into_iter().flat_map(number)).collect()
}

/// The times of writer, reader and sort.
fn times(file: &[u8]) -> [f64; 3] {
    let mut index = vec![0; length(file)];
    let timed = |call: &mut dyn FnMut() -> bool| {
        least(|| {
            let start = clock::seconds();
            assert!(call(), "an index of these stops");
            clock::seconds() - start
        })
    };
    let write = timed(&mut || write(1, file, &mut index).number == 0);
    let check = timed(&mut || check(1, file, &index).number == 0);
    [write, check, timed(&mut || sorted(file) == index)]
}

/// Measures ids of one kind at each size.
fn sizes(ids: Ids, most: usize) {
    let mut before: Option<[f64; 3]> = None;
    for lines in steps(most) {
        let times = times(&stops(ids, lines));
        let growth = |place: usize| before.map_or("-".to_string(), |few| format!("{:.1}", times[place] / few[place]));
        let sizes = [ids.0.to_string(), lines.to_string()];
        TIMES.row(sizes.into_iter().chain(times.map(seconds)).chain([0, 1, 2].map(growth)));
        before = Some(times);
    }
}

/// Measures each kind of ids.
pub fn measure(most: usize) {
    println!("\nThe index of stops.txt; growth: the time by that in the row above, for four times the lines.\n");
    TIMES.head();
    IDS.into_iter().for_each(|ids| sizes(ids, most));
}
