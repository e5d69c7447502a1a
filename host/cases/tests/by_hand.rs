//! The model against answers written by hand from documents 01 and 02 and from the readings of their open points.

mod common;

use cases::edges::BASE;
use cases::large::tables;
use common::{check, feed, findings, refusal, refused};
use model::{Answer, Profile};

/// The files of a base feed with lines added or one line put in the place of another.
fn more(file: usize, lines: &str) -> String {
    format!("{}{lines}", BASE[file - 1])
}

fn instead(file: usize, old: &str, new: &str) -> String {
    assert_eq!(BASE[file - 1].matches(old).count(), 1, "{old}");
    BASE[file - 1].replace(old, new)
}

/// Document 01, "One feed in full": by E2 it loses (4,2,31) and keeps the other five.
#[test]
fn the_feed_of_document_01() {
    let files = feed(&[
        (1, "stop_id,stop_name,stop_lat,stop_lon\nA,Alder,1.5,2\nB,Birch,1.6,2\n"),
        (2, "route_id,route_short_name,route_type\nR,7,3\n"),
        (4, "route_id,service_id,trip_id\nR,W,T\nR,X,U\n"),
        (5, "trip_id,arrival_time,departure_time,stop_id,stop_sequence\nT,08:00:00,08:00:00,A,1\nT,07:59:59,08:05:00,B,2\nT,,,C,2\n"),
        (6, ""),
    ]);
    let mut tables = tables(&files, 99);
    let (answer, list) = check(&files, &mut tables);
    assert_eq!(answer, Answer::Findings { written: 5, total: 5 });
    assert_eq!(list, [[4, 3, 21], [4, 3, 30], [5, 3, 29], [5, 4, 21], [5, 4, 28]]);
    assert_eq!(tables[0][..14], [0, 0, 0, 0, 0, 0, 0, 36, 37, 15000000, 20000000, 0, 0, 1]);
    assert_eq!(tables[0][14..], [50, 51, 16000000, 20000000, 0, 0, 1]);
    assert_eq!(tables[1], [0, 0, 0, 37, 38, 3]);
    assert_eq!(tables[2], [0, 0, 0, 0, 0, 88, 89, 31, 20240101, 20241231]);
    assert_eq!(tables[3][..16], [0, 0, 0, 0, 0, 0, 0, 0, 32, 33, 1, 1, -1, 0, 0, 0]);
    assert_eq!(tables[3][16..], [38, 39, 1, 0, -1, 0, 0, 0]);
    assert_eq!(tables[4][8..24], [1, 1, 1, 28800, 28800, 0, 0, -1, 1, 2, 2, 28799, 29100, 0, 0, -1]);
    assert_eq!(tables[4][24..], [1, 0, 2, -1, -1, 0, 0, -1]);
}

#[test]
fn the_base_feed_is_accepted() {
    findings(&[], &[]);
}

/// Readings A6 to A12: the mark, endings, lines of no bytes.
#[test]
fn marks_and_endings() {
    let good = BASE[1];
    findings(&[(2, &format!("\u{feff}{good}"))], &[]);
    refused(&[(2, &format!("\u{feff}\u{feff}{good}"))], [9, 2, 1, 0]);
    refused(&[(2, "\u{feff}")], [4, 2, 0, 0]);
    refused(&[(2, "\u{feff}\n")], [9, 2, 1, 0]);
    refused(&[(2, "\u{feff}\r\n")], [9, 2, 1, 0]);
    findings(&[(2, &good.replace('\n', "\r\n"))], &[]);
    refused(&[(2, &good.replace('\n', "\r\r\n"))], [5, 2, 1, 0]);
    refused(&[(2, &more(2, "\"R2\r\n"))], [6, 2, 3, 0]);
    refused(&[(2, &more(2, "R2,3,\"a\nb\",\n"))], [6, 2, 3, 0]);
    refused(&[(2, &more(2, "\n"))], [10, 2, 3, 0]);
    refused(&[(2, &more(2, "\r\n"))], [10, 2, 3, 0]);
    refused(&[(2, "\n")], [9, 2, 1, 0]);
}

/// Rules 3 and 4, and their order over the files (A23, A24).
#[test]
fn whole_files_go_rule_by_rule() {
    refused(&[(1, "a\tb\n"), (5, "")], [4, 5, 0, 0]);
    let files = feed(&[(3, &BASE[2][..BASE[2].len() - 1]), (1, "x")]);
    let mut tables = tables(&files, 0);
    tables[2].pop();
    let answer = model::check(&files, &mut tables, &mut [], [0, 0, 0], Profile::Plain);
    assert_eq!(answer, refusal([3, 3, 0, 0]));
    tables[2].push(0);
    tables[0].clear();
    let answer = model::check(&files, &mut tables, &mut [], [0, 0, 0], Profile::Plain);
    assert_eq!(answer, refusal([4, 1, 0, 0]));
}

/// On one line the lowest number speaks (A25, A30), and line goes before number.
#[test]
fn the_lowest_number_speaks() {
    refused(&[(2, &more(2, "\t\"x\"y\n"))], [5, 2, 3, 0]);
    refused(&[(2, &more(2, &format!("{}a\"b\n", ",".repeat(40))))], [6, 2, 3, 0]);
    refused(&[(2, &more(2, &format!("{}\n", ",".repeat(32))))], [7, 2, 3, 0]);
    refused(&[(2, &more(2, &format!("{}\n", ",".repeat(31))))], [10, 2, 3, 0]);
    refused(&[(2, "route_id,route_id\n")], [8, 2, 1, 2]);
    refused(&[(2, "route_id,\"route_id\",route_type\n")], [8, 2, 1, 2]);
    refused(&[(2, "route_id,stop_id,stop_id,,\n")], [9, 2, 1, 0]);
    refused(&[(1, &more(1, "D,,x,2,0,\n"))], [12, 1, 5, 2]);
    refused(&[(1, &more(1, &format!("{},,x,2,0,\n", "i".repeat(65))))], [11, 1, 5, 1]);
    refused(&[(1, &more(1, "D,Dogwood,x,2,0,\n\t\n"))], [13, 1, 5, 3]);
}

/// Rule 11: direction_id too (A26), measured by value (A27).
#[test]
fn ids_of_64_bytes() {
    let trip = |id: &str| instead(4, "R,W,T,0", &format!("R,W,T,{id}"));
    refused(&[(4, &trip(&"1".repeat(65)))], [11, 4, 2, 4]);
    refused(&[(4, &trip(&"1".repeat(64)))], [13, 4, 2, 4]);
    let route = |id: &str| more(2, &format!("{id},3,7,\n"));
    findings(&[(2, &route(&"i".repeat(64)))], &[]);
    findings(&[(2, &route(&format!("\"{}\"", "\"\"".repeat(64))))], &[]);
    refused(&[(2, &route(&"ä".repeat(33)))], [11, 2, 3, 1]);
    refused(&[(2, &route(&format!("\"{}\"", "\"\"".repeat(65))))], [11, 2, 3, 1]);
}

/// Rule 20, by value (A32), and references to the first line (A34).
#[test]
fn repeated_ids() {
    findings(&[(2, &more(2, "\"R\",3,7,\nr,3,7,\nR,3,7,\n"))], &[[2, 3, 20], [2, 5, 20]]);
    // A second A of another type changes nothing for the trip that calls there.
    findings(&[(1, &more(1, "A,Alder,1,2,1,\n"))], &[[1, 5, 20]]);
}

/// Rules 21 and 22: parents (A20, A35, A36).
#[test]
fn parents() {
    findings(&[(1, &more(1, "D,Dogwood,1,2,0,D\n"))], &[[1, 5, 22]]);
    findings(&[(1, &more(1, "D,Dogwood,1,2,1,D\n"))], &[[1, 5, 22]]);
    findings(&[(1, &more(1, "D,Dogwood,1,2,2,nowhere\n"))], &[[1, 5, 21]]);
    findings(&[(1, &more(1, "D,Dogwood,1,2,1,nowhere\n"))], &[[1, 5, 21], [1, 5, 22]]);
    findings(&[(1, &more(1, "D,Dogwood,1,2,2,\n"))], &[[1, 5, 22]]);
    findings(&[(1, &more(1, "D,Dogwood,1,2,2,S\n"))], &[]);
    findings(&[(1, &more(1, "D,Dogwood,1,2,0,B\n"))], &[[1, 5, 22]]);
    // A later line of a repeated id that names that id refers to the first line, a station.
    findings(&[(1, &more(1, "S,Station,1,2,0,S\n"))], &[[1, 5, 20]]);
}

/// Rules 23 to 27.
#[test]
fn single_lines() {
    let last = "T,08:05:00,08:06:00,B,2,3,0,";
    let with = |line: &str| instead(5, last, line);
    findings(&[(5, &with("T,08:05:00,08:06:00,S,2,3,0,"))], &[[5, 3, 23]]);
    findings(&[(5, &with("T,08:05:00,08:04:00,B,2,3,0,"))], &[[5, 3, 27]]);
    findings(&[(5, &with("T,08:05:00,,B,2,3,0,1\nT,9:00:00,9:00:00,B,3,,,"))], &[[5, 3, 26]]);
    findings(&[(5, &with("T,,,B,2,3,0,1\nT,9:00:00,9:00:00,B,3,,,"))], &[[5, 3, 26]]);
    findings(&[(5, &with("T,,,B,2,3,0,0\nT,9:00:00,9:00:00,B,3,,,"))], &[]);
    findings(&[(3, &instead(3, "20240101,20241231", "20240102,20240101"))], &[[3, 2, 24]]);
    findings(&[(3, &instead(3, "20240101,20241231", "20240101,20240101"))], &[]);
    findings(&[(2, &instead(2, "R,3,7,Seven", "R,3,,\"\""))], &[[2, 2, 25]]);
    findings(&[(2, "route_id,route_type\nR,3\n")], &[[2, 2, 25]]);
}

/// The base feed with these lines alone in stop_times: trip, arrival, departure and sequence, at stop A.
fn calls(lines: &[[&str; 4]]) -> String {
    let line =
        |[trip, arrival, departure, sequence]: &[&str; 4]| format!("{trip},{arrival},{departure},A,{sequence}\n");
    let lines: String = lines.iter().map(line).collect();
    format!("trip_id,arrival_time,departure_time,stop_id,stop_sequence\n{lines}")
}

/// The findings of the base feed with these lines in stop_times.
#[track_caller]
fn order(lines: &[[&str; 4]], wanted: &[[i32; 3]]) {
    findings(&[(5, &calls(lines))], wanted);
}

const EIGHT: [&str; 2] = ["8:00:00", "8:00:00"];
const NINE: [&str; 2] = ["9:00:00", "9:00:00"];
const NONE: [&str; 2] = ["", ""];

/// A line of the trip that stands in trips.txt.
fn call<'a>([arrival, departure]: [&'a str; 2], sequence: &'a str) -> [&'a str; 4] {
    ["T", arrival, departure, sequence]
}

/// E2: the order of lines in the file tells nothing.
#[test]
fn a_trip_goes_by_sequence() {
    let ten = ["10:00:00", "10:00:00"];
    order(&[call(ten, "3"), call(NINE, "2"), call(EIGHT, "1")], &[]);
    order(&[call(NINE, "2"), call(EIGHT, "1"), call(ten, "3")], &[]);
    // Sequences fall and times rise: the line with the smaller sequence stands further down.
    order(&[call(EIGHT, "2"), call(NINE, "1")], &[[5, 2, 29]]);
    // First and last stand between others, and their neighbours in the file lack times.
    order(&[call(NONE, "2"), call(EIGHT, "1"), call(NINE, "999999999"), call(NONE, "3")], &[]);
    order(&[call(EIGHT, "2"), call(NONE, "1"), call(NINE, "3")], &[[4, 2, 31]]);
    order(&[call(EIGHT, "1"), call(NONE, "9"), call(NINE, "3")], &[[4, 2, 31]]);
}

/// Rule 28: an earlier line of the same trip has the same sequence, next to it or not; values decide (A55).
#[test]
fn equal_sequences() {
    order(&[call(EIGHT, "1"), call(NINE, "2"), call(EIGHT, "1")], &[[5, 4, 28]]);
    order(&[call(EIGHT, "1"), call(EIGHT, "01"), call(EIGHT, "000000001")], &[[5, 3, 28], [5, 4, 28]]);
    order(&[call(EIGHT, "0"), call(EIGHT, "000000000"), call(EIGHT, "999999999")], &[[5, 3, 28]]);
    order(&[call(EIGHT, "999999999"), call(EIGHT, "0"), call(EIGHT, "999999999")], &[[5, 4, 28]]);
    // Another trip's equal sequence is none of its concern.
    order(&[call(EIGHT, "1"), ["X", "", "", "1"], call(NINE, "2")], &[[5, 3, 21]]);
}

/// Rule 29: any timed line with a smaller sequence that departs after, not the nearest one alone (A56).
#[test]
fn every_smaller_sequence_counts() {
    let half_past = ["8:30:00", "8:30:00"];
    // The line before it departs in time, the one before that doesn't.
    order(&[call(NINE, "1"), call(EIGHT, "2"), call(half_past, "3")], &[[5, 3, 29], [5, 4, 29]]);
    order(&[call(half_past, "3"), call(EIGHT, "2"), call(NINE, "1")], &[[5, 2, 29], [5, 3, 29]]);
    // A departure at the arrival is in time, a second later it isn't.
    order(&[call(["8:00:00", "9:00:00"], "1"), call(NINE, "2")], &[]);
    order(&[call(["8:00:00", "9:00:01"], "1"), call(NINE, "2")], &[[5, 3, 29]]);
    // Equal sequences aren't compared, on either side.
    order(&[call(["8:00:00", "9:00:00"], "1"), call(half_past, "1"), call(NINE, "2")], &[[5, 3, 28]]);
    order(&[call(half_past, "1"), call(["8:00:00", "9:00:00"], "01"), call(NINE, "2")], &[[5, 3, 28]]);
    // The later of two lines with one sequence counts for those above.
    order(&[call(EIGHT, "1"), call(NINE, "1"), call(half_past, "2")], &[[5, 3, 28], [5, 4, 29]]);
    // Lines with one time or none neither break it nor count, but for rules 26 and 31.
    order(&[call(EIGHT, "1"), call(["", "9:30:00"], "2"), call(NINE, "3")], &[[5, 3, 26]]);
    order(&[call(EIGHT, "1"), call(["7:00:00", ""], "2"), call(NINE, "3")], &[[5, 3, 26]]);
}

/// Rule 31: ties go to the earliest line at both ends (A57).
#[test]
fn ties_at_the_ends() {
    // Two lines with the smallest sequence: the earlier one is the first.
    order(&[call(EIGHT, "1"), call(NONE, "1"), call(NINE, "2")], &[[5, 3, 28]]);
    order(&[call(NONE, "1"), call(EIGHT, "1"), call(NINE, "2")], &[[4, 2, 31], [5, 3, 28]]);
    // Two lines with the largest: the earlier one is the last, and not the later one.
    order(&[call(EIGHT, "1"), call(NINE, "2"), call(NONE, "02")], &[[5, 4, 28]]);
    order(&[call(EIGHT, "1"), call(NONE, "02"), call(NINE, "2")], &[[4, 2, 31], [5, 4, 28]]);
    order(
        &[call(NINE, "2"), call(NONE, "2"), call(NONE, "1"), call(EIGHT, "1")],
        &[[4, 2, 31], [5, 3, 28], [5, 5, 28]],
    );
    order(&[call(NINE, "2"), call(NONE, "2"), call(EIGHT, "1"), call(NONE, "1")], &[[5, 3, 28], [5, 5, 28]]);
    // With one sequence only, first and last are the same line.
    order(&[call(EIGHT, "7"), call(NONE, "7"), call(NONE, "7")], &[[5, 3, 28], [5, 4, 28]]);
    order(&[call(NONE, "7"), call(EIGHT, "7"), call(NINE, "7")], &[[4, 2, 31], [5, 3, 28], [5, 4, 28]]);
}

/// Rules 28 and 29 hold for trips that stand nowhere too, among the lines of others, told apart by value.
#[test]
fn trips_that_stand_nowhere() {
    let lines = [
        ["X", "9:00:00", "9:00:00", "2"],
        ["T", "8:00:00", "8:00:00", "1"],
        ["x", "7:00:00", "7:00:00", "1"],
        ["X", "9:30:00", "9:30:00", "1"],
        ["T", "9:00:00", "9:00:00", "2"],
        ["\"X\"", "9:30:00", "9:30:00", "02"],
    ];
    order(&lines, &[[5, 2, 21], [5, 2, 29], [5, 4, 21], [5, 5, 21], [5, 7, 21], [5, 7, 28]]);
}

/// Rules 30 and 31: the first line of each trip_id, lines counted by value (A41, A42).
#[test]
fn trips_as_a_whole() {
    findings(&[(4, &more(4, "R,W,T,,,\nR,W,U,,,\nR,W,U,,,\n"))], &[[4, 3, 20], [4, 4, 30], [4, 5, 20]]);
    let one = |line: &str| more(5, line);
    let trip = more(4, "R,W,U,,,\n");
    findings(&[(4, &trip), (5, &one("U,9:00:00,9:00:00,A,1,,,\n"))], &[[4, 3, 30]]);
    findings(&[(4, &trip), (5, &one("U,,,A,1,,,\n"))], &[[4, 3, 30], [4, 3, 31]]);
    findings(&[(4, &trip), (5, &one("\"U\",9:00:00,9:00:00,A,1,,,\nU,,,nowhere,2,,,\n"))], &[[4, 3, 31], [5, 5, 21]]);
}

/// The list: starting places, room, and the verdict by the total (A44 to A46).
#[test]
fn the_list_and_its_start() {
    let files = feed(&[(2, &more(2, "R,3,,\nR,3,,\n"))]);
    let whole = [[2, 3, 20], [2, 3, 25], [2, 4, 20], [2, 4, 25]];
    assert_eq!(check(&files, &mut tables(&files, 0)).1, whole);
    let page = |start, length| {
        let mut list = vec![-1; length];
        let answer = model::check(&files, &mut tables(&files, 0), &mut list, start, Profile::Plain);
        (answer, list)
    };
    let told = |written| Answer::Findings { written, total: 4 };
    assert_eq!(page([2, 3, 25], 8), (told(2), vec![2, 4, 20, 2, 4, 25, -1, -1]));
    assert_eq!(page([2, 3, 24], 4), (told(1), vec![2, 3, 25, -1]));
    assert_eq!(page([-1, 99, 99], 3), (told(1), vec![2, 3, 20]));
    assert_eq!(page([2, 4, 25], 3), (told(0), vec![-1, -1, -1]));
    assert_eq!(page([0, 0, 0], 2), (told(0), vec![-1, -1]));
    assert_eq!(page([i32::MAX, 0, 0], 0), (told(0), vec![]));
}
