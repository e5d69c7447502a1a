//! The count of line ends: a call of the check that does nothing else, beside a loop byte by byte and beside what the standard library offers.

use crate::clock;
use crate::report::{processor, seconds};
use crate::table::Table;
use cases::large::families::FAMILIES;
use cases::limits::{MOST_BYTES, MOST_LINES};
use std::hint::black_box;
use tusuchiy::{check_here, Profile, FILES};

/// What `--only` calls it.
pub const NAME: &str = "line-ends";

/// The aim: the check's time by that of the standard library's fastest way.
const RATIO: f64 = 2.0;

/// No count is so much faster than the standard library's: a call would leave it out.
const NOTHING: f64 = 0.1;

/// Lengths in bytes, none a multiple of eight.
const SIZES: [usize; 3] = [(1 << 20) - 3, (16 << 20) - 3, (128 << 20) - 3];

/// A call is short: so many bytes at least are counted, by several calls, before the clock is asked again.
const BATCH: usize = 16 << 20;

/// Each way has its turn until this many seconds are spent, but so many times at most; the fastest counts.
const SPENT: f64 = 4.0;
const TURNS: usize = 100;

const TIMES: Table = Table(&[
    ("bytes", 9),
    ("size", 9),
    ("refused by rule", 4),
    ("check", 10),
    ("byte by byte", 10),
    ("standard library", 10),
    ("by its", 14),
    ("ratio to byte by byte", 6),
    ("to the library", 6),
]);

/// A way to count the line ends of a file, and its name.
type Way = (&'static str, fn(&[u8]) -> usize);

/// The first takes one byte a turn, of which the compiler may know nothing; the others are what the standard library offers. No sum written here
/// can overflow, so none is tested for it, as this program tests all others: that would take time. Chunks of 224 bytes fill wide registers, of
/// 255 some bytes are left over each time.
const WAYS: [Way; 6] = [
    ("byte by byte", |bytes| {
        bytes.iter().fold(0, |sum: usize, &byte| sum.wrapping_add(is_end(black_box(byte)).into()))
    }),
    ("filter", |bytes| bytes.iter().filter(|&&byte| is_end(byte)).count()),
    ("split", |bytes| bytes.split(|&byte| is_end(byte)).count() - 1),
    ("chunks of 255", |bytes| bytes.chunks(255).map(|chunk| usize::from(few(chunk))).sum()),
    ("chunks of 224", |bytes| bytes.chunks(224).map(|chunk| usize::from(few(chunk))).sum()),
    ("fold of u32", |bytes| bytes.iter().fold(0, |sum: u32, &byte| sum.wrapping_add(is_end(byte).into())) as usize),
];

fn is_end(byte: u8) -> bool {
    byte == b'\n'
}

/// The line ends of at most 255 bytes, so that a byte can hold their number.
fn few(chunk: &[u8]) -> u8 {
    chunk.iter().fold(0, |sum, &byte| sum.wrapping_add(is_end(byte).into()))
}

/// Bytes of one kind: a name, and so many of them.
type Bytes = (&'static str, fn(usize) -> Vec<u8>);

const BYTES: [Bytes; 2] = [("feed-like", feed_like), ("all LF", |size| vec![b'\n'; size])];

/// Lines of stop_times.txt as a plain feed has them, the first family, over and over.
fn feed_like(size: usize) -> Vec<u8> {
    let [_, _, _, _, lines, _] = (FAMILIES[0].feed)(65_536);
    let mut bytes = lines.repeat(size / lines.len() + 1);
    bytes.truncate(size);
    bytes
}

/// The rule by which the check refuses a feed with this stops.txt, before it reads a line. No thread is started for the call.
fn refusal(stops: &[u8]) -> usize {
    let mut files: [&[u8]; FILES] = [&[]; FILES];
    files[0] = stops;
    let answer = check_here(files, Default::default(), &mut [], [0, 0, 0], Profile::Plain);
    assert_eq!((answer.verdict, answer.file, answer.line), (2, 1, 0), "stops.txt is refused as a whole");
    answer.number as usize
}

/// The rule that has to speak: no table is lent, so the third does where the others don't.
fn rule(size: usize, ends: usize) -> usize {
    match (size > MOST_BYTES, ends > MOST_LINES) {
        (true, _) => 1,
        (false, true) => 2,
        (false, false) => 3,
    }
}

/// The time of one of so many calls, each of which has to give this number.
fn timed(calls: usize, bytes: &[u8], wanted: usize, call: fn(&[u8]) -> usize) -> f64 {
    let start = clock::seconds();
    for _ in 0..calls {
        assert_eq!(call(black_box(bytes)), wanted);
    }
    (clock::seconds() - start) / calls as f64
}

/// The least times for bytes of one kind and size.
struct Row {
    kind: &'static str,
    size: usize,
    rule: usize,
    check: f64,
    ways: [f64; WAYS.len()],
}

impl Row {
    /// Measures the check and all ways by turns.
    fn new(kind: &Bytes, size: usize) -> Self {
        let bytes = (kind.1)(size);
        let ends = model::fields::line_ends(&bytes);
        let (calls, rule) = (BATCH.div_ceil(size), rule(size, ends));
        let mut row = Row { kind: kind.0, size, rule, check: f64::INFINITY, ways: [f64::INFINITY; WAYS.len()] };
        let start = clock::seconds();
        for _ in 0..TURNS {
            row.check = row.check.min(timed(calls, &bytes, rule, refusal));
            for (least, way) in row.ways.iter_mut().zip(WAYS) {
                *least = least.min(timed(calls, &bytes, ends, way.1));
            }
            if clock::seconds() - start >= SPENT {
                break;
            }
        }
        assert!(row.ratio() > NOTHING, "so fast that nothing was counted");
        row
    }

    /// The standard library's fastest way: its name and time.
    fn library(&self) -> (&'static str, f64) {
        let ways = WAYS.iter().zip(self.ways).skip(1).map(|(way, time)| (way.0, time));
        ways.min_by(|one, other| one.1.total_cmp(&other.1)).expect("there are several")
    }

    fn ratio(&self) -> f64 {
        self.check / self.library().1
    }

    fn print(&self) {
        let (way, library) = self.library();
        let [first, ..] = self.ways;
        let sizes = [self.kind.to_string(), self.size.to_string(), self.rule.to_string()];
        let times = [self.check, first, library].map(seconds);
        let ratios = [self.check / first, self.ratio()].map(|ratio| format!("{ratio:.2}"));
        TIMES.row(sizes.into_iter().chain(times).chain([way.to_string()]).chain(ratios));
    }
}

/// Measures each kind of bytes at each size.
pub fn measure() {
    let empty = (0..TURNS).map(|_| timed(TURNS, &[], 4, refusal)).fold(f64::INFINITY, f64::min);
    println!("\nThe count of line ends in stops.txt, which is all that a call does that is refused by rule 1, 2 or 3.");
    println!("Processor: {}. A call on empty files: {}.", processor(), seconds(empty));
    println!("Processor time of one call: the fastest of {TURNS} turns, or of as many as {SPENT} s allow.\n");
    TIMES.head();
    let mut rows = Vec::new();
    for (kind, size) in BYTES.iter().flat_map(|kind| SIZES.map(|size| (kind, size))) {
        let row = Row::new(kind, size);
        row.print();
        rows.push(row);
    }
    summary(&rows);
}

/// The worst ratio, and whether the aim is met.
fn summary(rows: &[Row]) {
    let worst = rows.iter().max_by(|one, other| one.ratio().total_cmp(&other.ratio())).expect("there are several");
    let (ratio, kind, size) = (worst.ratio(), worst.kind, worst.size);
    println!("\nWorst ratio to the standard library: {ratio:.2} ({kind}, {size} bytes; aim: {RATIO:.0} at most)");
    println!("Aim of the count: {}.", if ratio > RATIO { "missed" } else { "met" });
}
