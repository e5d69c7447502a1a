//! E1: the model against answers written by hand from documents 01 and 02 and readings A47 to A54.

mod common;

use cases::large::tables;
use common::{check, feed, findings, refusal, refused};
use model::{Answer, Profile};

const CALENDAR: &str = "service_id,monday,tuesday,wednesday,thursday,friday,saturday,sunday,start_date,end_date\n";
const DATES: &str = "service_id,date,exception_type\n";
const TRIPS: &str = "route_id,service_id,trip_id\n";

/// calendar with these services.
fn weeks(services: &[&str]) -> String {
    let line = |service: &&str| format!("{service},1,1,1,1,1,0,0,20240101,20241231\n");
    [CALENDAR.to_string(), services.iter().map(line).collect()].concat()
}

/// calendar_dates with these lines.
fn dates(lines: &[&str]) -> String {
    format!("{DATES}{}\n", lines.join("\n"))
}

/// A47: calendar_dates may be empty, calendar beside it if it isn't, no other file at all.
#[test]
fn an_empty_file_is_not_supplied() {
    findings(&[(6, "")], &[]);
    findings(&[(3, "")], &[]);
    refused(&[(3, ""), (6, "")], [4, 3, 0, 0]);
    for file in [1, 2, 4, 5] {
        refused(&[(file, "")], [4, file, 0, 0]);
        refused(&[(file, ""), (6, "")], [4, file, 0, 0]);
        refused(&[(file, ""), (3, "")], [4, file, 0, 0]);
    }
}

/// The order over the files stays: files 1 and 2 speak before file 3, file 3 before those behind it.
#[test]
fn both_empty_is_file_3_in_its_order() {
    for file in [1, 2] {
        refused(&[(file, "x"), (3, ""), (6, "")], [4, file, 0, 0]);
    }
    for file in [4, 5] {
        refused(&[(file, "x"), (3, ""), (6, "")], [4, 3, 0, 0]);
        refused(&[(file, "x"), (3, ""), (6, "x")], [4, file, 0, 0]);
    }
    // Rule 4 over all files speaks before any line is read.
    refused(&[(1, "a\tb\n"), (6, "x")], [4, 6, 0, 0]);
    refused(&[(1, "a\tb\n"), (3, ""), (6, "")], [4, 3, 0, 0]);
}

/// A48: a file 6 that has bytes is supplied, with lines or without, and must have its ending.
#[test]
fn header_only_is_supplied() {
    findings(&[(6, DATES)], &[]);
    findings(&[(3, ""), (6, DATES)], &[[4, 2, 21]]);
    findings(&[(3, CALENDAR), (6, "")], &[[4, 2, 21]]);
    findings(&[(3, CALENDAR), (6, DATES)], &[[4, 2, 21]]);
    findings(&[(3, CALENDAR)], &[]);
    for unended in ["x", "service_id,date,exception_type", "service_id,date,exception_type\nW,20240704,2", "\u{feff}"] {
        refused(&[(6, unended)], [4, 6, 0, 0]);
        refused(&[(3, ""), (6, unended)], [4, 6, 0, 0]);
    }
    for unended in ["x", &CALENDAR[..CALENDAR.len() - 1], "\u{feff}"] {
        refused(&[(3, unended)], [4, 3, 0, 0]);
        refused(&[(3, unended), (6, "")], [4, 3, 0, 0]);
        refused(&[(3, unended), (6, "x")], [4, 3, 0, 0]);
    }
    refused(&[(3, ""), (6, "\n")], [9, 6, 1, 0]);
    refused(&[(6, "\u{feff}\n")], [9, 6, 1, 0]);
}

/// A49: the table of a file not supplied stays as lent, whatever its length, record 0 too.
#[test]
fn its_table_stays_as_lent() {
    for file in [3, 6] {
        for length in [0, 1, 7, 20] {
            let files = feed(&[(file, "")]);
            let mut tables = tables(&files, 9);
            tables[file - 1] = vec![-5; length];
            assert_eq!(check(&files, &mut tables).0, Answer::Accepted);
            assert_eq!(tables[file - 1], vec![-5; length], "file {file}");
        }
    }
    let files = feed(&[(3, CALENDAR), (6, DATES)]);
    let mut tables = tables(&files, 9);
    tables[2].push(9);
    tables[5].push(9);
    assert_eq!(check(&files, &mut tables).1, [[4, 2, 21]]);
    assert_eq!(tables[2], [0, 0, 0, 0, 0, 9]);
    assert_eq!(tables[5], [0, 0, 0, 0, 9]);
}

/// The record of a line of file 6: the header has 31 bytes, each line 13.
#[test]
fn the_record_of_a_date() {
    let files = feed(&[]);
    let mut tables = tables(&files, 9);
    assert_eq!(check(&files, &mut tables).0, Answer::Accepted);
    assert_eq!(tables[5], [0, 0, 0, 0, 31, 32, 20240704, 2, 44, 45, 20241224, 1]);
}

/// A50: rule 3 goes by 8 numbers a trip and 4 a line of file 6, by E10 by 7 a stop, in the order of the files.
#[test]
fn rule_3_by_the_new_widths() {
    let files = feed(&[]);
    let whole = tables(&files, 0);
    assert_eq!(whole.each_ref().map(Vec::len), [28, 6, 10, 16, 24, 12]);
    for file in [1, 3, 4, 6] {
        let mut short = whole.clone();
        short[file - 1].pop();
        short[5].pop();
        assert_eq!(check(&files, &mut short).0, refusal([3, file, 0, 0]));
    }
    // An unended file 6 is measured by its LF bytes, and rule 3 speaks first.
    let files = feed(&[(3, ""), (6, "service_id,date,exception_type\nW")]);
    let mut short = tables(&files, 0);
    assert_eq!(check(&files, &mut short).0, refusal([4, 6, 0, 0]));
    short[5].pop();
    assert_eq!(check(&files, &mut short).0, refusal([3, 6, 0, 0]));
}

/// Columns and forms of file 6.
#[test]
fn lines_of_file_6() {
    for (line, rule, column) in [
        (",20240704,1", 12, 1),
        ("\"\",20240704,1", 12, 1),
        ("W,,1", 12, 2),
        ("W,20240704,", 12, 3),
        ("W,20240704,0", 13, 3),
        ("W,20240704,3", 13, 3),
        ("W,20240704,01", 13, 3),
        ("W,20240704, 1", 13, 3),
        ("W,20230229,1", 13, 2),
        ("W,2024704,1", 13, 2),
        ("W,,0", 12, 2),
        ("W,20240704", 10, 0),
        ("W,20240704,1,", 10, 0),
        ("W,20240704,\"1", 6, 0),
        ("W,20240704,\t", 5, 0),
    ] {
        refused(&[(6, &dates(&["Y,20240101,2", line]))], [rule, 6, 3, column]);
        refused(&[(3, ""), (6, &dates(&["Y,20240101,2", line]))], [rule, 6, 3, column]);
    }
    let long = |length: usize| dates(&[&format!("{},20240704,1", "i".repeat(length))]);
    findings(&[(6, &long(64))], &[]);
    refused(&[(6, &long(65))], [11, 6, 2, 1]);
    findings(&[(6, "exception_type,\"date\",note,service_id\r\n\"1\",\"20240229\",\"a,b\",\" W\"\r\n")], &[]);
    refused(&[(6, "service_id,date\n")], [9, 6, 1, 0]);
    refused(&[(6, "service_id,date,exception_type,\"date\"\n")], [8, 6, 1, 4]);
}

/// A51: rule 20 goes by service and date, by value; the type doesn't matter, and file 3 tells nothing.
#[test]
fn the_same_service_and_date() {
    findings(&[(6, &dates(&["W,20240704,1", "W,20240705,1", "X,20240704,1", "w,20240704,1"]))], &[]);
    findings(&[(6, &dates(&["W,20240704,1", "X,20240704,1", "\"W\",\"20240704\",2"]))], &[[6, 4, 20]]);
    findings(&[(6, &dates(&["W,20240704,1", "W,20240704,1", "W,20240704,1"]))], &[[6, 3, 20], [6, 4, 20]]);
    findings(
        &[(6, &dates(&["W,20240704,1", "X,20240705,2", "W,20240705,2", "X,20240705,1", "W,20240704,2"]))],
        &[[6, 5, 20], [6, 6, 20]],
    );
    // A service twice in calendar is rule 20 there, whatever file 6 has.
    findings(&[(3, &weeks(&["W", "\"W\""]))], &[[3, 3, 20]]);
    findings(&[(3, &weeks(&["W"])), (6, &dates(&["nowhere,20240704,2"]))], &[]);
}

/// The base feed with trips of these services, T, which has two lines in stop_times, and U, V .., which have none.
fn trips(services: &[&str]) -> String {
    let line = |(service, trip): (&&str, char)| format!("R,{service},{trip}\n");
    [TRIPS.to_string(), services.iter().zip('T'..='Z').map(line).collect()].concat()
}

/// A52: rule 21 for a trip's service wants it in neither file; any line of file 6 will do.
#[test]
fn a_service_in_neither_file() {
    let trips = trips(&["C", "D", "B", "N"]);
    let calendar = weeks(&["C", "B"]);
    let six = dates(&["D,20240704,2", "B,20240704,1"]);
    let no_lines = [[4, 3, 30], [4, 4, 30]];
    findings(&[(3, &calendar), (4, &trips), (6, &six)], &[&no_lines[..], &[[4, 5, 21], [4, 5, 30]]].concat());
    findings(&[(3, ""), (4, &trips), (6, &six)], &[[4, 2, 21], [4, 3, 30], [4, 4, 30], [4, 5, 21], [4, 5, 30]]);
    findings(&[(3, &calendar), (4, &trips), (6, "")], &[[4, 3, 21], [4, 3, 30], [4, 4, 30], [4, 5, 21], [4, 5, 30]]);
    // By value, and one finding if the route stands nowhere too.
    findings(&[(3, ""), (4, "route_id,service_id,trip_id\nR,\"W\",T\n"), (6, &dates(&["W,20240704,2"]))], &[]);
    findings(&[(3, ""), (4, "route_id,service_id,trip_id\nR,W,T\n"), (6, &dates(&["w,20240704,1"]))], &[[4, 2, 21]]);
    findings(&[(3, ""), (4, "route_id,service_id,trip_id\nQ,W,T\n"), (6, &dates(&["w,20240704,1"]))], &[[4, 2, 21]]);
}

/// Numbers 4 and 8 of each trip's record.
fn services_of(changes: &[(usize, &str)]) -> Vec<[i32; 2]> {
    let files = feed(changes);
    let mut tables = tables(&files, 9);
    check(&files, &mut tables);
    tables[3].chunks(8).map(|record| [record[3], record[7]]).collect()
}

/// A53: the first record of file 6 of that service, by service alone, beside that of calendar.
#[test]
fn the_eighth_number() {
    let trips = trips(&["C", "D", "B", "N", "\"B\""]);
    let calendar = weeks(&["C", "B"]);
    let six = dates(&["D,20240704,2", "B,20240706,2", "\"D\",20240705,1", "\"B\",20240704,1", "B,20240706,1"]);
    let wanted = [[0, 0], [1, 0], [0, 1], [2, 2], [0, 0], [2, 2]];
    assert_eq!(services_of(&[(3, &calendar), (4, &trips), (6, &six)]), wanted);
    let wanted = [[0, 0], [0, 0], [0, 1], [0, 2], [0, 0], [0, 2]];
    assert_eq!(services_of(&[(3, ""), (4, &trips), (6, &six)]), wanted);
    let wanted = [[0, 0], [1, 0], [0, 0], [2, 0], [0, 0], [2, 0]];
    assert_eq!(services_of(&[(3, &calendar), (4, &trips), (6, "")]), wanted);
    assert_eq!(services_of(&[(3, &calendar), (4, &trips), (6, DATES)]), wanted);
}

/// The first seven numbers of a trip are those of before.
#[test]
fn the_trip_record_is_longer_by_one() {
    let files = feed(&[]);
    let mut tables = tables(&files, 9);
    tables[3].extend([9; 3]);
    assert_eq!(check(&files, &mut tables).0, Answer::Accepted);
    // The header has 77 bytes, and the trip's id stands behind two letters and two commas.
    assert_eq!(tables[3], [0, 0, 0, 0, 0, 0, 0, 0, 81, 82, 1, 1, 0, 1, 2, 1, 9, 9, 9]);
}

/// A54: file 6 is read last, and its findings come last.
#[test]
fn file_6_comes_last() {
    let bad = dates(&["W,20240704,3"]);
    refused(&[(5, "trip_id\n"), (6, &bad)], [9, 5, 1, 0]);
    refused(&[(4, "trip_id\n"), (6, "date\n")], [9, 4, 1, 0]);
    refused(&[(3, ""), (5, "trip_id\n"), (6, &bad)], [9, 5, 1, 0]);
    let calls =
        "trip_id,arrival_time,departure_time,stop_id,stop_sequence\nT,8:00:00,8:00:00,A,1\nT,9:00:00,9:00:00,B,1\n";
    let six = dates(&["W,20240704,1", "W,20240704,2"]);
    let files = feed(&[(3, &weeks(&["W", "W"])), (5, calls), (6, &six)]);
    let whole = [[3, 3, 20], [5, 3, 28], [6, 3, 20]];
    assert_eq!(check(&files, &mut tables(&files, 0)).1, whole);
    let page = |start| {
        let mut list = vec![-1; 4];
        let answer = model::check(&files, &mut tables(&files, 0), &mut list, start, Profile::Plain);
        (answer, list)
    };
    let told = |written| Answer::Findings { written, total: 3 };
    assert_eq!(page([5, 3, 28]), (told(1), vec![6, 3, 20, -1]));
    assert_eq!(page([6, 3, 19]), (told(1), vec![6, 3, 20, -1]));
    assert_eq!(page([6, 3, 20]), (told(0), vec![-1; 4]));
}
