//! Issue 19: the model against lists of faults written by hand from the issue, document 01 and what was decided of both.

use cases::edges::BASE;
use cases::limits::{MOST_BYTES, MOST_LINES};
use model::faults::{faults, hand_out, Answer, Fault};
use model::Files;

/// The base feed, with some files in other bytes.
fn feed(changes: &[(usize, &[u8])]) -> Files {
    let mut files = BASE.map(|file| file.as_bytes().to_vec());
    changes.iter().for_each(|(file, bytes)| files[file - 1] = bytes.to_vec());
    files
}

/// Fails unless the base feed with these files has just these faults: file, line, number, column.
#[track_caller]
fn listed(changes: &[(usize, &[u8])], wanted: &[Fault]) {
    assert_eq!(faults(&feed(changes)), wanted);
}

const DATES: &[u8] = b"service_id,date,exception_type";

/// A file of these lines, each with its ending.
fn of_lines(lines: &[&[u8]]) -> Vec<u8> {
    lines.iter().flat_map(|line| [line, &b"\n"[..]].concat()).collect()
}

/// Line 2 is good; lines 3 to 10 break 5, 14, 6, 7, 10, 11, 12 and 13.
fn lines_below(header: &[u8]) -> Vec<u8> {
    let long = [&[b'i'; 65][..], b",20240704,2"].concat();
    let lines: [&[u8]; 9] = [
        b"W,20240704,2",
        b"W,2024\t0704,2",
        b"W,\xFF,2",
        b"W,a\"b,2",
        &[b','; 32],
        b"W",
        &long,
        b",20240704,2",
        b"W,20240230,2",
    ];
    of_lines(&[&[header], &lines[..]].concat())
}

/// What doesn't look at the header, on those lines.
const ALWAYS: [Fault; 4] = [[6, 3, 5, 0], [6, 4, 14, 0], [6, 5, 6, 0], [6, 6, 7, 0]];

/// What is told only below a good header.
const BY_COLUMNS: [Fault; 4] = [[6, 7, 10, 0], [6, 8, 11, 1], [6, 9, 12, 1], [6, 10, 13, 2]];

#[test]
fn a_feed_that_can_be_read_has_none() {
    listed(&[], &[]);
    listed(&[(6, b"")], &[]);
    listed(&[(3, b"")], &[]);
    listed(&[(3, b"service_id,monday,tuesday,wednesday,thursday,friday,saturday,sunday,start_date,end_date\r\n")], &[]);
    // Findings are no faults: no such stop, a repeated id, one time alone.
    listed(&[(1, b"\xEF\xBB\xBFstop_id,stop_name,stop_lat,stop_lon\r\nA,Alder,1.5,2\r\n\"A\",Birch,1.5,2\n")], &[]);
    listed(&[(5, b"trip_id,arrival_time,departure_time,stop_id,stop_sequence\nT,8:00:00,,Z,1\n")], &[]);
}

/// A good header hides nothing.
#[test]
fn below_a_good_header_all_lines_speak() {
    listed(&[(6, &lines_below(DATES))], &[ALWAYS, BY_COLUMNS].concat());
    listed(&[(6, &lines_below(b"\xEF\xBB\xBFservice_id,date,exception_type\r"))], &[ALWAYS, BY_COLUMNS].concat());
    // Unknown names may stand twice; the columns move.
    let header = b"note,exception_type,note,date,service_id";
    let file =
        of_lines(&[header, b",2,,20240704,W", b",2,,2024070,W", b",3,,2024070,W", b",3,,,W", b",2,,20240704,W,"]);
    listed(&[(6, &file)], &[[6, 3, 13, 4], [6, 4, 13, 2], [6, 5, 12, 4], [6, 6, 10, 0]]);
}

/// E10: what nodes and boarding areas may lack is no fault, one coordinate alone is, and a type that isn't of its form counts as 0.
#[test]
fn stops_of_every_type() {
    let lines: [&[u8]; 13] = [
        b"stop_id,location_type,stop_lon,stop_name,stop_lat",
        b"A,3,,,",
        b"A,4,\"\",\"\",\"\"",
        b"A,3,2,,1.5",
        b"A,3,2,,",
        b"A,4,,Area,x",
        b"A,4,x,,1.5",
        b"A,2,,,",
        b"A,,2,,",
        b"A,03,2,Stop,",
        b"A,03,2,Stop,1.5",
        b",3,,,",
        b"A,\"4\",,,",
    ];
    let wanted = [[5, 12, 5], [6, 12, 3], [7, 13, 3], [8, 12, 3], [9, 12, 4], [10, 12, 5], [11, 13, 2], [12, 12, 1]];
    listed(&[(1, &of_lines(&lines))], &wanted.map(|[line, number, column]| [1, line, number, column]));
}

/// A header refused by each of its tests: below it only what doesn't look at the columns.
#[test]
fn below_a_refused_header_columns_are_not_known() {
    let wide = [DATES, &[b','; 30]].concat();
    let headers: [(&[u8], i32, i32); 12] = [
        (b"service_id,date\t,exception_type", 5, 0),
        (b"service_id,\rdate,exception_type", 5, 0),
        (b"service_id,date,exception_type\r\r", 5, 0),
        (b"service_id,date,exception_type,\xC3", 14, 0),
        (b"service_id,da\"te,exception_type", 6, 0),
        (b"service_id,date,exception_type,\"", 6, 0),
        (&wide, 7, 0),
        (b"service_id,date,exception_type,date", 8, 4),
        (b"service_id,service_id,date", 8, 2),
        (b"service_id,date", 9, 0),
        (b"", 9, 0),
        (b"\xEF\xBB\xBF\xEF\xBB\xBFservice_id,date,exception_type", 9, 0),
    ];
    for (header, number, column) in headers {
        listed(&[(6, &lines_below(header))], &[&[[6, 1, number, column]][..], &ALWAYS].concat());
    }
}

/// Only of its own file: other headers are good.
#[test]
fn a_refused_header_hides_nothing_of_other_files() {
    let routes = b"route_id\nR,3\nR\t\n";
    let calls = b"trip_id,arrival_time,departure_time,stop_id,stop_sequence\nT,8:00,8:00:00,A,1\nT\n";
    let wanted = [[2, 1, 9, 0], [2, 3, 5, 0], [5, 2, 13, 2], [5, 3, 10, 0]];
    listed(&[(2, routes), (5, calls)], &wanted);
    listed(&[(2, routes), (5, calls), (6, &lines_below(DATES))], &[&wanted[..], &ALWAYS, &BY_COLUMNS].concat());
}

/// On a line the first test that is broken, in the order 5, 14, 6, 7, 8, 9 on the header and 5, 14, 6, 7, 10, 11, 12, 13 below it.
#[test]
fn a_line_has_one_fault_at_most() {
    let (commas, long) = ([b','; 32], [b'i'; 65]);
    let file = of_lines(&[
        DATES,
        b"\xFF\t\"",
        b"a\"\xFF",
        &[&b"a\""[..], &commas].concat(),
        &[&long[..], &commas].concat(),
        &[&long[..], b",,x,x"].concat(),
        &[&long[..], b",,x"].concat(),
        b"W,x,",
        b"W,x,x",
        b"",
    ]);
    let numbers = [5, 14, 6, 7, 10, 11, 12, 13, 10];
    let columns = [0, 0, 0, 0, 0, 1, 3, 2, 0];
    let wanted: Vec<Fault> = (0..9).map(|line| [6, line as i32 + 2, numbers[line], columns[line]]).collect();
    listed(&[(6, &file)], &wanted);
    let headers: [(&[u8], i32, i32); 6] = [
        (b"\xFF,\t,\"a", 5, 0),
        (b"\xFF,\"a", 14, 0),
        (&[&b"date,date,\""[..], &commas].concat(), 6, 0),
        (&[&b"date,date"[..], &commas].concat(), 7, 0),
        (b"date,date", 8, 2),
        (b"date,note,note", 9, 0),
    ];
    for (header, number, column) in headers {
        listed(&[(6, &of_lines(&[header]))], &[[6, 1, number, column]]);
    }
}

/// A missing last line ending hides nothing: the bytes behind the last LF are a line.
#[test]
fn a_last_line_without_its_ending_is_judged() {
    let with = |last: &[u8]| [&of_lines(&[DATES, b"W,20240704,2"]), last].concat();
    listed(&[(6, &with(b"W,20240705,2"))], &[[6, 0, 4, 0]]);
    listed(&[(6, &with(b"W,20240230,2"))], &[[6, 0, 4, 0], [6, 3, 13, 2]]);
    listed(&[(6, &with(b"W"))], &[[6, 0, 4, 0], [6, 3, 10, 0]]);
    listed(&[(6, &with(b"\""))], &[[6, 0, 4, 0], [6, 3, 6, 0]]);
    listed(&[(6, &with(b"W,2024\xC3"))], &[[6, 0, 4, 0], [6, 3, 14, 0]]);
    listed(&[(6, &with(b",20240705,2"))], &[[6, 0, 4, 0], [6, 3, 12, 1]]);
    // Good lines above and broken ones are as they were.
    listed(&[(6, lines_below(DATES).strip_suffix(b"\n").expect("an ending"))], &{
        let mut wanted = [&[[6, 0, 4, 0]][..], &ALWAYS, &BY_COLUMNS].concat();
        wanted.sort();
        wanted
    });
    // Below a refused header the last line is as any other.
    let wanted = [[6, 0, 4, 0], [6, 1, 9, 0], [6, 3, 5, 0]];
    listed(&[(6, b"service_id\nW,20240230,2\nW,\t")], &wanted);
    listed(&[(6, b"service_id\nW,20240230,2\nW,20240230,2")], &wanted[..2]);
}

/// No LF ends the last bytes, so no CR among them belongs to an ending.
#[test]
fn a_last_cr_without_its_lf_is_outside_an_ending() {
    let with = |last: &[u8]| [&of_lines(&[DATES, b"W,20240704,2\r"]), last].concat();
    listed(&[(6, &with(b"W,20240705,2\r"))], &[[6, 0, 4, 0], [6, 3, 5, 0]]);
    listed(&[(6, &with(b"\r"))], &[[6, 0, 4, 0], [6, 3, 5, 0]]);
    listed(&[(6, &with(b"W,20240230,2\r"))], &[[6, 0, 4, 0], [6, 3, 5, 0]]);
    listed(&[(6, &[DATES, b"\r"].concat())], &[[6, 0, 4, 0], [6, 1, 5, 0]]);
    listed(&[(6, b"\xEF\xBB\xBF\r")], &[[6, 0, 4, 0], [6, 1, 5, 0]]);
}

/// Line 1 is the header also where it is the unended last line.
#[test]
fn a_header_alone_without_its_ending() {
    listed(&[(6, DATES)], &[[6, 0, 4, 0]]);
    listed(&[(6, &[b"\xEF\xBB\xBF", DATES].concat())], &[[6, 0, 4, 0]]);
    listed(&[(6, b"x")], &[[6, 0, 4, 0], [6, 1, 9, 0]]);
    listed(&[(6, b"date,date")], &[[6, 0, 4, 0], [6, 1, 8, 2]]);
    listed(&[(6, b"\t")], &[[6, 0, 4, 0], [6, 1, 5, 0]]);
    listed(&[(6, b"\"")], &[[6, 0, 4, 0], [6, 1, 6, 0]]);
    listed(&[(6, b"\xFF")], &[[6, 0, 4, 0], [6, 1, 14, 0]]);
    listed(&[(6, &[b','; 32])], &[[6, 0, 4, 0], [6, 1, 7, 0]]);
    // Two of the mark's three bytes are no mark, and half a character.
    listed(&[(6, b"\xEF\xBB")], &[[6, 0, 4, 0], [6, 1, 14, 0]]);
    listed(&[(6, b"\xEF\xBB\xBF\xEF\xBB\xBF")], &[[6, 0, 4, 0], [6, 1, 9, 0]]);
}

/// No line: an empty file, and one of the leading mark alone.
#[test]
fn files_without_a_line() {
    for file in [1, 2, 4, 5] {
        listed(&[(file, b"")], &[[file as i32, 0, 4, 0]]);
    }
    for file in 1..=6 {
        listed(&[(file, b"\xEF\xBB\xBF")], &[[file as i32, 0, 4, 0]]);
        listed(&[(file, b"\xEF\xBB\xBF\n")], &[[file as i32, 1, 9, 0]]);
        listed(&[(file, b"\n")], &[[file as i32, 1, 9, 0]]);
    }
    assert_eq!(faults(&Files::default()), [1, 2, 3, 4, 5].map(|file| [file, 0, 4, 0]));
}

/// E1: calendar_dates may be not supplied, and calendar if calendar_dates isn't empty, whatever is in it.
#[test]
fn files_that_are_not_supplied() {
    listed(&[(3, b""), (6, b"")], &[[3, 0, 4, 0]]);
    listed(&[(3, b""), (6, b"x")], &[[6, 0, 4, 0], [6, 1, 9, 0]]);
    listed(&[(3, b""), (6, b"\xEF\xBB\xBF")], &[[6, 0, 4, 0]]);
    listed(&[(3, b""), (6, &lines_below(DATES))], &[ALWAYS, BY_COLUMNS].concat());
    listed(&[(3, b"\xEF\xBB\xBF"), (6, b"")], &[[3, 0, 4, 0]]);
    listed(&[(3, b"\n"), (6, b"")], &[[3, 1, 9, 0]]);
}

/// Rules 1 and 2 hide all lines of their file, and nothing else; a file may have several faults of its own.
#[test]
fn files_that_are_too_large() {
    let lines = lines_below(b"service_id\t");
    let filled = |byte: u8, count: usize, end: &[u8]| [&lines[..], &vec![byte; count], end].concat();
    let behind = |numbers: &[i32]| numbers.iter().map(|&number| [6, 0, number, 0]).collect::<Vec<Fault>>();
    listed(&[(6, &filled(b'x', MOST_BYTES, b"\n"))], &behind(&[1]));
    listed(&[(6, &filled(b'\n', MOST_LINES, b""))], &behind(&[2]));
    listed(&[(6, &filled(b'\n', MOST_LINES, b"\t"))], &behind(&[2, 4]));
    listed(&[(6, &filled(b'\n', MOST_BYTES, b"\t"))], &behind(&[1, 2, 4]));
    // Files before and behind it speak as they would alone.
    let wanted = [[1, 1, 9, 0], [2, 0, 2, 0], [3, 0, 4, 0], [4, 1, 9, 0], [4, 2, 6, 0]];
    listed(&[(1, b"\nx\n"), (2, &filled(b'\n', MOST_LINES, b"")), (3, b"\xEF\xBB\xBF"), (4, b"\n\"\n")], &wanted);
}

/// At the limits nothing is hidden: as many LF bytes as there may be, and a line behind them.
#[test]
fn files_that_are_as_large_as_they_may_be() {
    let good = [DATES, b"\n", &b"W,20240704,2\n".repeat(MOST_LINES - 1)].concat();
    let behind = MOST_LINES as i32 + 1;
    listed(&[(6, &good)], &[]);
    listed(&[(6, &[&good[..], b"W,2024070,2"].concat())], &[[6, 0, 4, 0], [6, behind, 13, 2]]);
    listed(&[(6, &[&good[..], b"\n"].concat())], &[[6, 0, 2, 0]]);
    let mut long = of_lines(&[DATES, b"W", b"W"]);
    long.resize(MOST_BYTES, b'x');
    listed(&[(6, &long)], &[[6, 0, 4, 0], [6, 2, 10, 0], [6, 3, 10, 0], [6, 4, 10, 0]]);
    long.push(b'\n');
    listed(&[(6, &long)], &[[6, 0, 1, 0]]);
}

/// Files in order, lines in order, whole files first; in every file.
#[test]
fn the_order_of_the_list() {
    let changes: [(usize, &[u8]); 6] = [
        (1, b"stop_id,stop_name,stop_lat,stop_lon\nA,Alder,91,181\nA,,1,1\nA,Alder,1,1"),
        (2, b"route_id,route_type,route_id\nR,8\n\"\nR"),
        (3, b"\xEF\xBB\xBF"),
        (4, b"route_id,service_id,trip_id,direction_id\nR,W,T,2\nR,W,T,\xFF\nR,W,T,\nR,W,,2\n"),
        (5, b"trip_id,arrival_time,departure_time,stop_id,stop_sequence\nT,,,,\n\n"),
        (6, b"service_id,date,exception_type\n\t\nW,20240704,\n"),
    ];
    let wanted = [
        [1, 0, 4, 0],
        [1, 2, 13, 3],
        [1, 3, 12, 2],
        [2, 0, 4, 0],
        [2, 1, 8, 3],
        [2, 3, 6, 0],
        [3, 0, 4, 0],
        [4, 2, 13, 4],
        [4, 3, 14, 0],
        [4, 5, 12, 3],
        [5, 2, 12, 4],
        [5, 3, 10, 0],
        [6, 2, 5, 0],
        [6, 3, 12, 3],
    ];
    listed(&changes, &wanted);
}

/// A feed of five faults, two of one whole file: (2, 0, 2), (2, 0, 4), (6, 1, 8), (6, 3, 5) and (6, 4, 6).
fn paged() -> Files {
    let large = [&[b'\n'; MOST_LINES + 1][..], b"x"].concat();
    feed(&[(2, &large), (6, b"date,date\nW\n\t\n\"\n")])
}

const PAGED: [Fault; 5] = [[2, 0, 2, 0], [2, 0, 4, 0], [6, 1, 8, 2], [6, 3, 5, 0], [6, 4, 6, 0]];

/// Fails unless a list of so many numbers gets these of the five faults after a place; the rest of it stays.
#[track_caller]
fn page(length: usize, start: [i32; 3], wanted: std::ops::Range<usize>) {
    let mut list: Vec<i32> = (0..length as i32).map(|number| -number - 1).collect();
    let lent = list.clone();
    let answer = hand_out(&paged(), &mut list, start);
    assert_eq!(answer, Answer { written: wanted.len(), total: 5 }, "{length}, {start:?}");
    let (written, rest) = list.split_at(4 * wanted.len());
    assert_eq!(written, PAGED[wanted.clone()].concat(), "{length}, {start:?}");
    assert_eq!(rest, &lent[4 * wanted.len()..], "{length}, {start:?}");
}

#[test]
fn pages_of_every_length() {
    for length in 0..30 {
        page(length, [0, 0, 0], 0..(length / 4).min(5));
    }
    page(11, [2, 0, 4], 2..4);
    page(3, [2, 0, 4], 2..2);
}

/// The faults strictly behind the place, by file, line and number; the place is any three numbers.
#[test]
fn starting_places() {
    page(30, [2, 0, 1], 0..5);
    page(30, [2, 0, 2], 1..5);
    page(30, [2, 0, 3], 1..5);
    page(30, [2, 0, 4], 2..5);
    page(30, [2, i32::MAX, i32::MAX], 2..5);
    page(30, [6, 1, 7], 2..5);
    page(30, [6, 1, 8], 3..5);
    page(30, [6, 2, 99], 3..5);
    page(30, [6, 3, 4], 3..5);
    page(30, [6, 3, 5], 4..5);
    page(30, [6, 4, 5], 4..5);
    page(30, [6, 4, 6], 5..5);
    page(30, [2, -1, 99], 0..5);
    page(30, [2, 0, i32::MIN], 0..5);
    page(30, [-1, 99, 99], 0..5);
    page(30, [i32::MIN; 3], 0..5);
    page(30, [7, 0, 0], 5..5);
    page(30, [i32::MAX; 3], 5..5);
}

/// A feed that can be read leaves the list as lent.
#[test]
fn nothing_to_hand_out() {
    let mut list = [7; 9];
    assert_eq!(hand_out(&feed(&[]), &mut list, [0, 0, 0]), Answer { written: 0, total: 0 });
    assert_eq!(list, [7; 9]);
}
