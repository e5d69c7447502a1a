//! Makes a call about an index from a seed: a file, mostly readable, and a buffer of any length, or an index, mostly with some damage.

use super::edges::OUTSIDE;
use super::{base_line, sorted, Asked, Case};
use crate::damage::{break_bytes, break_values, mutate};
use crate::feeds::Grid;
use crate::random::Random;
use crate::render::{arrange, write};
use model::columns::COLUMNS;
use model::index::{VERSION_1, VERSION_2};
use model::records::KEYS;

/// What ids are made of.
const PIECES: [&str; 17] =
    ["A", "B", "a", "\"", ",", " ", "!", "#", "\0", "1", "\u{7f}", "é", "ê", "駅", "\u{ffff}", "🚏", "AA"];

/// The call of a seed.
pub fn case(seed: u64) -> Case {
    let mut random = Random::new(seed);
    let number = random.between(1, 4);
    let file = file(number, &mut random);
    let asked = if random.once_in(3) { Asked::Write } else { Asked::Check };
    let records = sorted(number, &file);
    let lent = match asked {
        Asked::Write => buffer(VERSION_1.length(records.len()), &mut random),
        Asked::Check => index(number, records, &mut random),
    };
    let number = if random.once_in(16) { *random.pick(&OUTSIDE) } else { number as i32 };
    Case { name: format!("seed {seed}"), asked, number, file, lent }
}

/// A file with ids of all kinds, in any layout; one in six is broken in some way.
fn file(number: usize, random: &mut Random) -> Vec<u8> {
    let [names, good] = base_line(number);
    let mut grid = Grid::new(&names);
    let good: Vec<Vec<u8>> = good.into_iter().map(Into::into).collect();
    for (row, id) in ids(random).into_iter().enumerate() {
        grid.rows.push(good.clone());
        grid.set(row, KEYS[number - 1][0], id);
    }
    let mut grid = arrange(&grid, COLUMNS[number - 1], true, random);
    let rule = if random.once_in(6) { random.between(3, 14) } else { 0 };
    if matches!(rule, 8 | 9 | 11 | 12 | 13) {
        break_values(&mut grid, COLUMNS[number - 1], rule, random);
    }
    let mut file = write(&grid, random);
    match rule {
        4 | 5 | 6 | 7 | 10 | 14 => break_bytes(&mut file, rule, random),
        3 => mutate(&mut file, random),
        _ => {}
    }
    file
}

/// Some ids, seldom many; in one of four files they are long, and in one of five one repeats.
fn ids(random: &mut Random) -> Vec<Vec<u8>> {
    let most = *random.pick(&[3, 6, 6, 12, 40]);
    let long = random.once_in(4);
    let mut ids: Vec<Vec<u8>> = (0..random.between(0, most)).map(|_| id(long, random)).collect();
    if random.once_in(100) {
        ids.extend((0..280).map(|number| format!("{number}").into_bytes()));
    }
    ids.sort();
    ids.dedup();
    if !ids.is_empty() && random.once_in(5) {
        ids.push(random.pick(&ids).clone());
    }
    random.shuffle(&mut ids);
    ids
}

/// One to three pieces; where ids are long, most have one piece behind 60 bytes, or behind as many as make 64.
fn id(long: bool, random: &mut Random) -> Vec<u8> {
    let piece = random.pick(&PIECES).as_bytes();
    match (long, random.below(5)) {
        (true, 1 | 2) => [&[b'x'; 60], piece].concat(),
        (true, 3 | 4) => [&vec![b'x'; 64 - piece.len()], piece].concat(),
        _ => (0..random.between(1, 3)).map(|_| *random.pick(&PIECES)).collect::<String>().into_bytes(),
    }
}

/// A buffer around the need, with anything in it.
fn buffer(need: usize, random: &mut Random) -> Vec<u8> {
    let length = match random.below(6) {
        0 => random.below(need),
        1 => need - 1,
        2 => need + random.below(8),
        _ => need,
    };
    (0..length).map(|_| random.bits() as u8).collect()
}

/// The right index, with some damage most of the time; or bytes at random behind the mark.
fn index(number: usize, mut records: Vec<usize>, random: &mut Random) -> Vec<u8> {
    if random.once_in(3) {
        damage_records(&mut records, random);
    }
    let version = if random.once_in(12) { VERSION_2 } else { VERSION_1 };
    let mut index = version.bytes(number, &records);
    match random.below(16) {
        0..=2 => {
            let place = random.below(index.len());
            index[place] ^= *random.pick(&[1, 2, 3, 0x20, 0x80, 0xFF]);
        }
        3 | 4 => index.truncate(random.below(index.len())),
        5 | 6 => index.extend(vec![0; random.between(1, 4)]),
        7 => index[6..].chunks_exact_mut(2).for_each(<[u8]>::reverse),
        8 => index[3..5].copy_from_slice(&random.pick(&[[0, 0], [2, 0], [3, 0], [0, 1], [1, 1], [2, 1]])[..]),
        9 => index[6] = index[6].wrapping_add(*random.pick(&[1, 255])),
        10 => index = [&index[..random.between(0, 8)], &buffer(8, random)].concat(),
        _ => {}
    }
    index
}

/// A list of records with two of them swapped, one doubled, one lost, or one that isn't there.
fn damage_records(records: &mut Vec<usize>, random: &mut Random) {
    let count = records.len();
    if count == 0 {
        return records.push(random.below(2));
    }
    let (one, other) = (random.below(count), random.below(count));
    match random.below(7) {
        0 => records.swap(one, other),
        1 => records.swap(one.saturating_sub(1), one),
        2 => records[one] = records[other],
        3 => records[one] = records[one.saturating_sub(1)],
        4 => drop(records.remove(one)),
        5 => records.insert(one, records[other]),
        _ => records[one] = *random.pick(&[0, count + 1, count + 2, 65_535]),
    }
}
