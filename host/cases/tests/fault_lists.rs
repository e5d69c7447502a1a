//! Issue 19 on edge cases and generated feeds, by the model alone: what the list is to the verdict, and that mending what it names is enough.

use cases::edges::BASE;
use cases::generate;
use cases::large::tables;
use cases::limits::{MOST_BYTES, MOST_LINES};
use cases::listing::edges::{at_the_limits, cases, ended, feed, header, line, several, OF_LINES};
use cases::listing::generate::{case, pair};
use cases::listing::mend::{mend, only_what_was_hidden, rounds};
use cases::listing::{by_model, whole};
use cases::{agree, agree::Comparison, vectors};
use model::columns::COLUMNS;
use model::faults::{faults, Fault};
use model::fields::{fields, lines};
use model::reading::{read, value_breaks};
use model::{Answer, Files, FILES};
use std::collections::{BTreeMap, BTreeSet};
use std::sync::Mutex;

const SEEDS: u64 = 2500;

/// The verdict's refusal where tables are long enough, in a fault's numbers; none of a feed that can be read.
fn refusal(files: &Files) -> Option<Fault> {
    match read(files, tables(files, 0).each_ref().map(Vec::len)) {
        Err(Answer::Refused { number, file, line, column }) => {
            Some([file, line, number, column].map(|number| number as i32))
        }
        _ => None,
    }
}

fn readable(files: &Files) -> bool {
    refusal(files).is_none()
}

/// Fails unless the list is empty just when the feed can be read, else has the verdict's refusal, rises, and names no line twice.
fn beside_the_verdict(name: &str, files: &Files) {
    let list = faults(files);
    match refusal(files) {
        None => assert_eq!(list, [[0; 4]; 0], "{name}"),
        Some(refusal) => assert!(list.contains(&refusal), "{name}: {refusal:?} isn't in {list:?}"),
    }
    assert!(list.windows(2).all(|pair| pair[0][..3] < pair[1][..3]), "{name}: {list:?}");
    let on_lines: Vec<&[i32]> = list.iter().map(|fault| &fault[..2]).filter(|place| place[1] > 0).collect();
    assert!(on_lines.windows(2).all(|pair| pair[0] < pair[1]), "{name}: {list:?}");
    let number = |fault: &Fault| match fault[1] {
        0 => [1, 2, 4].contains(&fault[2]),
        1 => matches!(fault[2], 5..=9 | 14),
        _ => matches!(fault[2], 5..=7 | 10..=14),
    };
    assert!(list.iter().all(number), "{name}: {list:?}");
}

#[test]
fn the_list_beside_the_verdict() {
    vectors::customers().iter().for_each(|(case, _)| beside_the_verdict(&case.name, &case.files));
    cases::edges::cases().iter().step_by(4).for_each(|case| beside_the_verdict(&case.name, &case.files));
    cases().iter().for_each(|case| beside_the_verdict(&case.name, &case.files));
    // Over the limits, and then at that of lines.
    [0, 2, 4, 8].iter().for_each(|&number| beside_the_verdict("at a limit", &at_the_limits(4, number).files));
    (0..SEEDS).map(case).for_each(|case| beside_the_verdict(&case.name, &case.files));
}

/// Feeds with one fault have just the verdict's, if tables are long.
#[test]
fn one_fault_is_the_verdicts() {
    let mut alone = 0;
    for case in (0..SEEDS).map(generate::case) {
        let list = faults(&case.files);
        if list.len() == 1 {
            assert_eq!(refusal(&case.files), Some(list[0]), "{}", case.name);
            alone += 1;
        }
    }
    assert!(alone > 500, "{alone}");
}

/// How many files of a list are named.
fn files_named(list: &[Fault]) -> usize {
    list.iter().map(|fault| fault[0]).collect::<BTreeSet<i32>>().len()
}

/// Generated feeds have every fault in every file, several of them in up to six files, and each way to hide something over each that shows.
#[test]
fn every_fault_is_reached() {
    let mut numbers: BTreeMap<(i32, i32), usize> = BTreeMap::new();
    let mut below: BTreeSet<(i32, i32)> = BTreeSet::new();
    let mut files: BTreeMap<usize, usize> = BTreeMap::new();
    let mut whole: BTreeSet<Vec<i32>> = BTreeSet::new();
    for case in (0..SEEDS).map(case) {
        let list = faults(&case.files);
        *files.entry(files_named(&list)).or_default() += 1;
        for fault in &list {
            *numbers.entry((fault[0], fault[2])).or_default() += 1;
            let header = list.iter().find(|header| header[..2] == [fault[0], 1] && fault[1] > 1);
            below.extend(header.map(|header| (header[2], fault[2])));
        }
        for file in 1..=FILES as i32 {
            let of_file = list.iter().filter(|fault| fault[..2] == [file, 0]).map(|fault| fault[2]);
            whole.insert(of_file.collect());
        }
    }
    println!("{numbers:?}, below headers {below:?}, files {files:?}, whole files {whole:?}");
    let wanted = (1..=FILES as i32).flat_map(|file| (4..=14).map(move |number| (file, number)));
    assert!(wanted.clone().all(|fault| numbers.get(&fault) > Some(&20)), "{numbers:?}");
    let headers = [5, 6, 7, 8, 9, 14];
    assert!(below.iter().copied().eq(headers.into_iter().flat_map(|over| [5, 6, 7, 14].map(|under| (over, under)))));
    assert!((0..=FILES).all(|count| files.get(&count) > Some(&50)), "{files:?}");
    assert!([&[1, 2][..], &[1, 4], &[2], &[4], &[]].iter().all(|own| whole.contains(*own)), "{whole:?}");
}

/// Pages of one and of three faults, each from the last one handed out, join to the whole list.
#[test]
fn pages_join() {
    for files in (0..SEEDS / 10).map(|seed| pair(seed)[1].clone()).chain([several()]) {
        let all = faults(&files);
        assert_eq!(whole(by_model, &files), all);
        for room in [1, 3] {
            let mut joined: Vec<i32> = Vec::new();
            for _ in 0..=all.len() {
                let start = joined.rchunks(4).next().map_or([0, 0, 0], |last| [last[0], last[1], last[2]]);
                let mut list = vec![0; room * 4 + 3];
                let answer = model::faults::hand_out(&files, &mut list, start);
                assert_eq!(answer.total, all.len());
                joined.extend(&list[..answer.written * 4]);
            }
            assert_eq!(joined, all.concat());
        }
    }
}

/// Damaged feeds are readable when what is listed is mended; what a second or third list names was hidden by rules 1 and 2 or by a header.
#[test]
fn what_is_listed_is_mended() {
    let rounds = Mutex::new(vec![0; SEEDS as usize]);
    let mend = |seed: usize| {
        let named = agree::mended(by_model, readable, seed).len();
        rounds.lock().expect("no thread failed")[seed] = named;
    };
    Comparison::new(SEEDS as usize, mend).on_threads();
    let rounds = rounds.lock().expect("no thread failed");
    let reached =
        |seeds: usize| [0, 1, 2, 3].map(|wanted| rounds[..seeds].iter().filter(|&&got| got == wanted).count());
    let [all, few] = [reached(SEEDS as usize), reached(agree::MENDED)];
    println!("feeds by rounds {all:?}, where other lists are held to the model's {few:?}");
    assert!(all[0] > 50 && all[1] > 500 && all[2] > 200 && all[3] > 0, "{all:?}");
    assert!(few[1] > 50 && few[2] > 50, "{few:?}");
}

/// The base feed, and the base feed with one broken line for each rule in every file, below headers that break these rules.
fn broken_everywhere(headers: &[usize]) -> [Files; 2] {
    let bad = std::array::from_fn(|file| {
        let lines = OF_LINES.map(|number| line(file, &[number]));
        ended(&[&[header(file, headers)], &lines[..]].concat(), b"\n")
    });
    let good = std::array::from_fn(|file| ended(&[vec![header(file, &[])], vec![line(file, &[]); 8]].concat(), b"\n"));
    [good, bad]
}

/// How many faults each list of a feed has that is mended until it can be read.
fn lengths(feeds: &[Files; 2]) -> Vec<usize> {
    let (lists, mended) = rounds(feeds, faults);
    only_what_was_hidden(&lists);
    assert!(readable(&mended));
    lists.iter().map(Vec::len).collect()
}

/// Faults of every kind in every file: one round, where no header is refused and no file too large.
#[test]
fn one_round_is_enough_where_nothing_is_hidden() {
    let mut feeds = broken_everywhere(&[]);
    assert_eq!(lengths(&feeds), [48]);
    feeds[1].iter_mut().for_each(|file| file.truncate(file.len() - 1));
    assert_eq!(lengths(&feeds), [54]);
    feeds[1][3].clear();
    assert_eq!(lengths(&feeds), [46]);
    feeds[1] = Files::default();
    assert_eq!(lengths(&feeds), [5]);
    assert_eq!(lengths(&[feed(&[]), feed(&[])]), [0; 0]);
}

/// A refused header hides what looks at columns: its own mending shows that, and a second round is needed just where there is some.
#[test]
fn a_second_round_where_a_header_is_refused() {
    for number in [5, 14, 6, 7, 8, 9] {
        assert_eq!(lengths(&broken_everywhere(&[number])), [6 * 5, 6 * 4]);
    }
    let good = feed(&[]);
    let alone = feed(&[(5, b"service_id\nW,20240704,2\n\t\n"), (0, b"stop_id\n")]);
    assert_eq!(lengths(&[good.clone(), alone]), [3]);
    let hidden = feed(&[(5, b"service_id\nW,20240704,2\nW\n"), (0, b"stop_id\n")]);
    assert_eq!(lengths(&[good, hidden]), [2, 1]);
}

/// A file that is too large hides its lines and its header: up to three rounds.
#[test]
fn a_third_round_where_a_file_is_too_large() {
    let [good, bad] = broken_everywhere(&[9]);
    let sizes: [(u8, usize, &[u8]); 3] = [(b'\n', MOST_LINES, b""), (b'\n', MOST_LINES, b"x"), (b'x', MOST_BYTES, b"")];
    for (byte, most, end) in sizes {
        let file = [&bad[5][..], &vec![byte; most], end].concat();
        let whole = faults(&feed(&[(5, &file)])).len();
        let mut feeds = [good.clone(), feed(&[(5, &file)])];
        assert_eq!(lengths(&feeds), [whole, 5, 4]);
        feeds[1] = bad.clone();
        feeds[1][5] = file;
        assert_eq!(lengths(&feeds), [25 + whole, 20 + 5, 4]);
    }
    // With a good header two rounds do, and with good lines one.
    let [good, bad] = broken_everywhere(&[]);
    let too_many = |file: &[u8]| [file, &[b'\n'; MOST_LINES]].concat();
    assert_eq!(lengths(&[good.clone(), feed(&[(5, &too_many(&bad[5]))])]), [1, 8]);
    assert_eq!(lengths(&[good.clone(), feed(&[(5, &too_many(&good[5]))])]), [1]);
}

/// calendar_dates excuses an empty calendar; whoever takes it away, in place of mending it, is told of calendar then.
#[test]
fn calendar_is_excused_by_calendar_dates() {
    let files = feed(&[(2, b""), (5, b"service_id\n")]);
    assert_eq!(faults(&files), [[6, 1, 9, 0]]);
    assert_eq!(faults(&feed(&[(2, b""), (5, b"")])), [[3, 0, 4, 0]]);
    assert_eq!(lengths(&[feed(&[(2, b"")]), files]), [1]);
    assert_eq!(lengths(&[feed(&[(2, b"")]), feed(&[(2, b""), (5, b"")])]), [1]);
    assert_eq!(lengths(&[feed(&[(5, b"")]), feed(&[(2, b""), (5, b"")])]), [1]);
}

/// The one place where an ending put behind the last line breaks another rule: the file is at its limit, and that line is one too many.
#[test]
fn an_ending_at_the_limit_is_one_too_many() {
    let mut files = feed(&[]);
    files[5] =
        [&b"service_id,date,exception_type\n"[..], &b"W,20240704,2\n".repeat(MOST_LINES - 1), b"W,20240704,2"].concat();
    let mended = mend(&files, &files, &[[6, 0, 4, 0]]);
    assert_eq!([faults(&files), faults(&mended)], [[[6, 0, 4, 0]], [[6, 0, 2, 0]]]);
    files[5] = b"service_id,date,exception_type,note\nW,20240704,2,".to_vec();
    files[5].resize(MOST_BYTES, b'x');
    let mended = mend(&files, &files, &[[6, 0, 4, 0]]);
    assert_eq!([faults(&files), faults(&mended)], [[[6, 0, 4, 0]], [[6, 0, 1, 0]]]);
}

/// A file with the good line of the base feed once for each value that breaks a rule under a column, and there it has that value.
fn broken_values(file: usize) -> (Vec<u8>, Vec<[usize; 2]>) {
    let mut rows = BASE[file].lines().map(|line| line.split(',').map(Into::into).collect::<Vec<Vec<u8>>>());
    let (names, good) = (rows.next().expect("a header"), rows.next().expect("a line"));
    let (mut lines, mut wanted) = (vec![names.join(&b","[..])], Vec::new());
    for (place, column) in COLUMNS[file].iter().enumerate() {
        for value in [&[b'i'; 65][..], b"", b"!"] {
            if let Some(number) = (11..=13).find(|&number| value_breaks(number, column, value)) {
                let mut fields = good.clone();
                fields[place] = value.to_vec();
                lines.push(fields.join(&b","[..]));
                wanted.push([number, place + 1]);
            }
        }
    }
    (ended(&lines, b"\n"), wanted)
}

/// Every value that can be broken is, on a line of its own; only the field under the named column is mended.
#[test]
fn a_named_column_is_what_has_to_be_mended() {
    let broken: [(Vec<u8>, Vec<[usize; 2]>); FILES] = std::array::from_fn(broken_values);
    let files = broken.each_ref().map(|(file, _)| file.clone());
    let named = |file: usize, wanted: &[[usize; 2]]| -> Vec<Fault> {
        let lines = wanted.iter().zip(2..);
        lines.map(|([number, column], line)| [file + 1, line, *number, *column].map(|number| number as i32)).collect()
    };
    let list = faults(&files);
    assert_eq!(list, (0..FILES).flat_map(|file| named(file, &broken[file].1)).collect::<Vec<_>>());
    assert!(list.len() > 60);
    let mut mended = files.clone();
    for [file, line, _, column] in list.iter().rev().map(|fault| fault.map(|number| number as usize)) {
        let good = BASE[file - 1].lines().nth(1).and_then(|line| line.split(',').nth(column - 1)).expect("a field");
        let field = fields(lines(&files[file - 1])[line - 1]).expect("fields").swap_remove(column - 1);
        mended[file - 1].splice(field.start..field.end, good.bytes());
    }
    assert!(readable(&mended));
    assert_eq!(faults(&mended), [[0; 4]; 0]);
}
