//! Both versions of an index: beside few records, and on both sides of as many as version 1 counts.

use super::edges::{check, file, write, PLAIN, THREE};
use super::{by_model, by_model_of, sorted, Case, Outcome};
use crate::limits::{MOST_LINES, MOST_OF_VERSION_1};
use model::index::{bytes, Version, VERSION_1, VERSION_2};

/// The two versions, and such as there are not: some of them a narrower number would take for one that there is.
const VERSIONS: [u16; 10] = [0, 1, 2, 3, 255, 256, 257, 258, 512, 65_535];

/// An index with other bytes from a place on.
fn with(index: &[u8], place: usize, bytes: &[u8]) -> Vec<u8> {
    [&index[..place], bytes, &index[place + bytes.len()..]].concat()
}

/// An index of so many bytes; what isn't there is 0.
fn cut(mut index: Vec<u8>, length: usize) -> Vec<u8> {
    index.resize(length, 0);
    index
}

/// The bytes of version 2 as they would be if only its count had 32 bits, and if only its records had.
fn half_wide(number: usize, records: &[usize]) -> [Vec<u8>; 2] {
    let [narrow, wide] = [VERSION_1, VERSION_2].map(|version| version.bytes(number, records));
    let head = with(&narrow[..VERSION_1.head], 3, &[2]);
    [[&wide[..VERSION_2.head], &narrow[VERSION_1.head..]].concat(), [&head, &wide[VERSION_2.head..]].concat()]
}

/// Beside few records: version 2 at every length, with other counts and files and half as wide; every version over the bytes of either.
pub fn beside_few() -> Vec<Case> {
    let mut cases = Vec::new();
    for (number, ids) in (1..=4).flat_map(|number| [&THREE[..], &THREE[..1], &[]].map(|ids| (number, ids))) {
        let file = file(number, &PLAIN, ids);
        let records = sorted(number, &file);
        let [narrow, wide] = [VERSION_1, VERSION_2].map(|version| version.bytes(number, &records));
        let mut indexes: Vec<Vec<u8>> = (0..wide.len() + 5).map(|length| cut(wide.clone(), length)).collect();
        for version in VERSIONS.map(u16::to_le_bytes) {
            indexes.extend([&narrow, &wide].map(|index| with(index, 3, &version)));
        }
        indexes.extend([1, 128].map(|byte| with(&wide, 8, &[byte])));
        indexes.extend([(0, b't'), (5, 9), (6, 9)].map(|(place, byte)| with(&wide, place, &[byte])));
        indexes.extend(half_wide(number, &records));
        cases.extend(indexes.into_iter().map(|index| check(number as i32, &file, index)));
    }
    cases
}

/// A file of many records, their ids, which stand in no order, and the records in the order of their ids.
struct Many {
    number: usize,
    file: Vec<u8>,
    ids: Vec<Vec<u8>>,
    records: Vec<usize>,
}

/// A number of its own below as many as there may be lines for each record, in no order.
pub(super) fn scattered(record: usize) -> usize {
    record * 40_503 % MOST_LINES
}

impl Many {
    /// With the first record's id for the last one's too, if that is asked for.
    fn new(number: usize, count: usize, repeated: bool) -> Self {
        let mut ids: Vec<Vec<u8>> = (1..=count).map(|record| format!("{:x}", scattered(record)).into_bytes()).collect();
        if repeated {
            ids[count - 1] = ids[0].clone();
        }
        let mut records: Vec<usize> = (1..=count).collect();
        records.sort_by_key(|record| &ids[record - 1]);
        Many { number, file: file(number, &PLAIN, &ids), ids, records }
    }

    fn right(&self) -> Vec<u8> {
        bytes(self.number, &self.records)
    }

    /// The right index with other bytes from a place on.
    fn with(&self, place: usize, bytes: &[u8]) -> Vec<u8> {
        with(&self.right(), place, bytes)
    }

    /// The right index with so many bytes more or less.
    fn longer(&self, by: isize) -> Vec<u8> {
        let right = self.right();
        let length = right.len().saturating_add_signed(by);
        cut(right, length)
    }

    /// The index that lists other records.
    fn listing(&self, change: impl FnOnce(&mut Vec<usize>)) -> Vec<u8> {
        let mut records = self.records.clone();
        change(&mut records);
        bytes(self.number, &records)
    }

    /// The index of the other version.
    fn other(&self) -> Vec<u8> {
        let other = if Version::of(self.records.len()) == VERSION_1 { VERSION_2 } else { VERSION_1 };
        other.bytes(self.number, &self.records)
    }

    /// The place of a record among those listed.
    fn place_of(&self, record: usize) -> usize {
        self.records.iter().position(|&listed| listed == record).expect("a record of the file")
    }
}

/// What is lent beside many records: a buffer of so many bytes more than the need or less, or, where an id repeats, of the need; or an index,
/// or the right one where the last line is broken.
#[derive(Clone, Copy)]
enum Lent {
    Buffer(isize),
    BufferInVain,
    Index(Index),
    IndexInVain,
}

type Index = fn(&Many) -> Vec<u8>;

/// The last two records change places.
fn swap_last(records: &mut [usize]) {
    let last = records.len() - 1;
    records.swap(last - 1, last);
}

/// What every count is tried with: buffers that are short by a byte, long and in vain; the right index, the other version's, one of which half is
/// version 2's, and one in vain.
const AT_EVERY_COUNT: [Lent; 7] = [
    Lent::Buffer(-1),
    Lent::Buffer(3),
    Lent::BufferInVain,
    Lent::Index(Many::right),
    Lent::Index(Many::other),
    Lent::Index(|many| half_wide(many.number, &many.records)[many.records.len() % 2].clone()),
    Lent::IndexInVain,
];

const COUNTS: [usize; 4] = [MOST_OF_VERSION_1 - 1, MOST_OF_VERSION_1, MOST_OF_VERSION_1 + 1, WIDE];

/// As many records as version 1 counts: its index wrong in each way.
const NARROW: [Index; 11] = [
    |many| many.with(2, b"x"),
    |many| many.with(3, &[0]),
    |many| many.with(3, &[2]),
    |many| many.with(4, &[1]),
    |many| many.with(6, &[0xFE]),
    |many| many.with(6, &[0, 0]),
    |many| many.longer(-2),
    |many| many.longer(2),
    |many| many.listing(|records| records[0] = 0),
    |many| many.listing(|records| swap_last(records)),
    |many| many.listing(|records| records[1] = records[0]),
];

/// Of so many records two have the low half of another number: 0 and 1.
const WIDE: usize = MOST_OF_VERSION_1 + 2;

/// So many records: version 2's index wrong in its mark, its version, its file, its count or its length.
const WIDE_HEADS: [Index; 19] = [
    |many| many.with(2, b"x"),
    |many| cut(many.right(), 7),
    |many| many.with(3, &[0]),
    |many| many.with(3, &[1]),
    |many| many.with(3, &[3]),
    |many| many.with(4, &[1]),
    |many| many.with(3, &[1, 1]),
    |many| many.with(5, &[9]),
    |many| cut(many.right(), 8),
    |many| cut(many.right(), 9),
    |many| cut(many.right(), 10),
    // The low half of the count alone, and beside others than its own.
    |many| many.with(8, &[0]),
    |many| many.with(8, &[2]),
    |many| many.with(9, &[0x80]),
    // One record less and more, each with its own length.
    |many| many.listing(|records| records.truncate(WIDE - 1)),
    |many| many.listing(|records| records.push(0)),
    |many| many.longer(-1),
    |many| many.longer(1),
    |many| many.longer(4),
];

/// The same, wrong in the records that it lists.
const WIDE_RECORDS: [Index; 12] = [
    |many| many.listing(|records| records[0] = 0),
    |many| many.listing(|records| records[WIDE - 1] = WIDE + 1),
    // Right in their low halves only: beyond the last by 65,536, by half of what 32 bits hold, or a record that is listed already.
    |many| many.listing(|records| records[many.place_of(2)] += 1 << 16),
    |many| many.listing(|records| records[many.place_of(2)] += 1 << 31),
    |many| many.listing(|records| records.iter_mut().for_each(|record| *record |= 1 << 16)),
    |many| many.listing(|records| records[many.place_of(WIDE)] = 1),
    |many| many.listing(|records| records[many.place_of(WIDE - 1)] = 0),
    // Falling, once at each end and once in the middle; then beside a record that isn't there.
    |many| many.listing(|records| records.swap(0, 1)),
    |many| many.listing(|records| swap_last(records)),
    |many| many.listing(|records| records.swap(WIDE / 2, WIDE / 2 + 1)),
    |many| many.listing(|records| (records[WIDE - 1], records[0]) = (WIDE + 1, records[1])),
    // Rising as far as version 1 counts, and the others behind them.
    |many| many.listing(|records| records.sort_by_key(|&record| record > MOST_OF_VERSION_1)),
];

/// How many calls are about many records.
pub const CALLS: usize = COUNTS.len() * AT_EVERY_COUNT.len() + NARROW.len() + WIDE_HEADS.len() + WIDE_RECORDS.len();

/// A call about many records, each count with a file of its own, and what the model makes of it. It is made when it is asked for: all of them
/// take much memory.
pub fn beside_many(place: usize) -> (Case, Outcome) {
    let everywhere = COUNTS.into_iter().flat_map(|count| AT_EVERY_COUNT.map(|lent| (count, lent)));
    let narrow = NARROW.map(|index| (MOST_OF_VERSION_1, Lent::Index(index)));
    let wide = WIDE_HEADS.iter().chain(&WIDE_RECORDS).map(|&index| (WIDE, Lent::Index(index)));
    let (count, lent) = wide.chain(narrow).chain(everywhere).nth(place).expect("a place below the number of calls");
    let many = Many::new(1 + count % 4, count, matches!(lent, Lent::BufferInVain));
    let need = Version::of(count).length(count);
    let case = match lent {
        Lent::Buffer(more) => write(many.number as i32, &many.file, need.saturating_add_signed(more)),
        Lent::BufferInVain => write(many.number as i32, &many.file, need),
        Lent::Index(index) => check(many.number as i32, &many.file, index(&many)),
        Lent::IndexInVain => {
            check(many.number as i32, &[&many.file[..many.file.len() - 1], b"\t\n"].concat(), many.right())
        }
    };
    let case = Case { name: format!("call {place} about {count} records"), ..case };
    let outcome = match lent {
        Lent::IndexInVain => by_model(&case),
        _ => by_model_of(&case, &many.ids),
    };
    (case, outcome)
}

#[cfg(test)]
mod tests {
    use super::*;
    use model::index::ids;

    /// The model reads the ids that it is told.
    #[test]
    fn the_ids_of_many_records_are_those_of_their_file() {
        for number in 1..=4 {
            let many = Many::new(number, WIDE, false);
            assert!(ids(number as i32, &many.file).as_ref() == Ok(&many.ids), "file {number}");
        }
    }
}
