//! Makes a call for the list of faults from a seed: a feed with damage in several files, a list and a starting place.

use super::{Case, NUMBERS};
use crate::damage::{break_bytes, break_values, mutate, truncate};
use crate::feeds::{clean, Grid};
use crate::generate;
use crate::limits::MOST_BYTES;
use crate::random::Random;
use crate::render::{arrange, write};
use model::columns::COLUMNS;
use model::faults::faults;
use model::{Files, FILES};
use std::array::from_fn;

/// The call of a seed; one feed in eight is that of a check.
pub fn case(seed: u64) -> Case {
    let mut random = Random::new(!seed);
    let files = if seed % 8 == 0 { generate::case(seed / 8).files } else { pair(seed)[1].clone() };
    let start = start(&files, &mut random);
    let list = list(&mut random);
    Case { name: format!("seed {seed}"), files, list, start }
}

/// A readable feed, and the same with damage: in one file, in some or in most of them.
pub fn pair(seed: u64) -> [Files; 2] {
    let mut random = Random::new(seed);
    let feed = clean(&mut random);
    let grids: [Grid; FILES] = from_fn(|file| arrange(&feed[file], COLUMNS[file], true, &mut random));
    let good = grids.each_ref().map(|grid| write(grid, &mut random));
    let spared = *random.pick(&[1, 2, 6]);
    let mut bad = good.clone();
    for file in 0..FILES {
        if random.below(7) >= spared {
            bad[file] = damaged(grids[file].clone(), file, &mut random);
        }
    }
    [good, bad]
}

/// The bytes of a file with damage of several kinds.
fn damaged(mut grid: Grid, file: usize, random: &mut Random) -> Vec<u8> {
    if random.once_in(4) {
        let rule = *random.pick(&[8, 9]);
        break_values(&mut grid, COLUMNS[file], rule, random);
    }
    for _ in 0..random.below(4) {
        break_values(&mut grid, COLUMNS[file], random.between(11, 13), random);
    }
    let mut bytes = write(&grid, random);
    for _ in 0..random.below(4) {
        let rule = *random.pick(&[5, 6, 7, 10, 14]);
        break_bytes(&mut bytes, rule, random);
    }
    match random.below(4000) {
        // Files over a limit take much memory.
        0 | 1 => bytes.resize(MOST_BYTES + 1, *random.pick(b"\nx")),
        2..=5 => break_bytes(&mut bytes, 2, random),
        6..=900 => break_bytes(&mut bytes, 4, random),
        901..=1200 => truncate(&mut bytes, random),
        1201..=1500 => mutate(&mut bytes, random),
        _ => {}
    }
    bytes
}

/// A list without room, with room for a few faults, or for many.
fn list(random: &mut Random) -> Vec<i32> {
    let length = match random.below(4) {
        0 => random.below(2 * NUMBERS),
        1 => random.below(8 * NUMBERS),
        _ => random.between(40 * NUMBERS, 50 * NUMBERS),
    };
    (0..length).map(|_| random.any_i32()).collect()
}

/// The list's beginning, a fault, a place beside one, or any three numbers.
fn start(files: &Files, random: &mut Random) -> [i32; 3] {
    if random.once_in(2) {
        let any: [i32; 3] = from_fn(|_| random.any_i32());
        return *random.pick(&[[0; 3], [0; 3], any, [3, any[1], any[2]]]);
    }
    let faults = faults(files);
    let fault = if faults.is_empty() { [0; 4] } else { *random.pick(&faults) };
    let mut start = [fault[0], fault[1], fault[2]];
    if random.once_in(2) {
        start[random.below(3)] += *random.pick(&[-1, 1]);
    }
    start
}
