//! E7: the model against columns written by hand from document 02 and readings A72, A73, A75 and A76.

mod common;

use cases::edges::BASE;
use cases::large::tables;
use cases::limits::{MOST_BYTES, MOST_LINES};
use common::{check, feed, findings, refusal, refused};

/// Fails unless the base feed with this header and line in a file is refused with this rule, on the line and in this column.
#[track_caller]
fn on_line(file: usize, header: &str, line: &str, rule: usize, column: usize) {
    refused(&[(file, &format!("{header}\n{line}\n"))], [rule, file, 2, column]);
}

/// Fails unless the base feed with this header in file 2 is refused with rule 8 in this column.
#[track_caller]
fn twice(header: &str, column: usize) {
    refused(&[(2, &format!("{header}\nR,3\n"))], [8, 2, 1, column]);
}

const DATES: &str = "service_id,date,exception_type";
const DATES_BACKWARD: &str = "exception_type,date,service_id";
const TRIPS: &str = "route_id,service_id,trip_id,direction_id";
const CALLS: &str = "arrival_time,departure_time,trip_id,stop_id,stop_sequence,timepoint";

/// 65 bytes.
fn long() -> String {
    "i".repeat(65)
}

/// What 65 bytes, no byte and an exclamation mark break under a column; 0 is nothing.
type Breaks = [usize; 3];

const ID: Breaks = [11, 12, 0];
const NAME: Breaks = [0, 12, 0];
const NEEDED: Breaks = [13, 12, 13];
const CHOICE: Breaks = [13, 0, 13];

/// The columns of each file in document 01's order. The two times may be empty as choices may, and direction_id is named as ids are.
const COLUMNS: [&[Breaks]; 6] = [
    &[ID, NAME, NEEDED, NEEDED, CHOICE, [11, 0, 0]],
    &[ID, NEEDED, [0, 0, 0], [0, 0, 0]],
    &[ID, NEEDED, NEEDED, NEEDED, NEEDED, NEEDED, NEEDED, NEEDED, NEEDED, NEEDED],
    &[ID, ID, ID, [11, 0, 13], CHOICE, CHOICE],
    &[ID, CHOICE, CHOICE, ID, NEEDED, CHOICE, CHOICE, CHOICE],
    &[ID, NEEDED, NEEDED],
];

/// A file of the base feed with another value in a column of its last line.
fn with_value(file: usize, place: usize, value: &str) -> String {
    let (lines, last) = BASE[file].trim_end().rsplit_once('\n').expect("a header and a line");
    let mut fields: Vec<&str> = last.split(',').collect();
    fields[place] = value;
    format!("{lines}\n{}\n", fields.join(","))
}

/// Each known column of each file, broken alone.
#[test]
fn every_column_of_every_file() {
    for (file, columns) in COLUMNS.iter().enumerate() {
        let line = BASE[file].lines().count();
        for (place, breaks) in columns.iter().enumerate() {
            for (value, rule) in [&long(), "", "!"].into_iter().zip(*breaks).filter(|(_, rule)| *rule > 0) {
                refused(&[(file + 1, &with_value(file, place, value))], [rule, file + 1, line, place + 1]);
            }
        }
    }
}

/// The leftmost column of several, by the header's order and not by that of document 01.
#[test]
fn the_leftmost_column() {
    on_line(6, DATES, "W,x,x", 13, 2);
    on_line(6, DATES_BACKWARD, "x,x,W", 13, 1);
    on_line(6, DATES_BACKWARD, "1,x,W", 13, 2);
    on_line(6, DATES, ",,", 12, 1);
    on_line(6, DATES, "W,,", 12, 2);
    on_line(6, DATES_BACKWARD, ",,", 12, 1);
    on_line(6, DATES_BACKWARD, "1,,", 12, 2);
    on_line(6, DATES_BACKWARD, "1,20240704,", 12, 3);
    let long = long();
    on_line(4, TRIPS, &format!("{long},{long},{long},{long}"), 11, 1);
    on_line(4, TRIPS, &format!("R,{long},T,{long}"), 11, 2);
    on_line(4, "direction_id,trip_id,service_id,route_id", &format!("1,{long},W,{long}"), 11, 2);
}

/// The column is that of the rule that speaks, though others are broken further left.
#[test]
fn the_named_rule() {
    let long = long();
    on_line(6, "date,exception_type,service_id", "x,,W", 12, 2);
    on_line(6, "date,exception_type,service_id", &format!("x,,{long}"), 11, 3);
    on_line(6, "exception_type,service_id,date", &format!("1,{long},"), 11, 2);
    on_line(6, "exception_type,date,service_id", "x,x,", 12, 3);
    // By its name direction_id breaks 11, and the 65 bytes are of no form either.
    on_line(4, TRIPS, &format!(",W,T,{long}"), 11, 4);
    on_line(4, "direction_id,bikes_allowed,route_id,service_id,trip_id", &format!("{},9,R,W,T", &long[1..]), 13, 1);
    // Good lines above change nothing.
    refused(&[(6, &format!("{DATES}\nW,20240704,1\nX,20240704,2\nX,x,\n"))], [12, 6, 4, 3]);
}

/// A72: columns that nobody reads count, and what stands in them breaks nothing.
#[test]
fn unread_columns_count() {
    let long = long();
    on_line(6, "note,service_id,,date,exception_type", ",W,,x,1", 13, 4);
    on_line(6, "note,service_id,,date,exception_type", ",W,,,1", 12, 4);
    on_line(6, "monday,service_id,stop_lat,date,exception_type", "x,W,x,20240704,x", 13, 5);
    on_line(6, "note,note,date,service_id,exception_type", ",,20240704,W,", 12, 5);
    on_line(6, "trip_id,shape_id,service_id,date,exception_type", &format!("{long},{long},{long},x,"), 11, 3);
    on_line(6, "Service_id, service_id,service_id,date,exception_type", &format!("{long},{long},{long},,"), 11, 3);
    let thirty = ",".repeat(30);
    on_line(6, &format!("service_id,date{thirty}exception_type"), &format!("W,20240704{thirty}x"), 13, 32);
    on_line(6, &format!("service_id,date{thirty}exception_type"), &format!("W,20240704{thirty}"), 12, 32);
    on_line(6, &format!("date,exception_type{thirty}service_id"), &format!("x,{thirty}{long}"), 11, 32);
}

/// Columns are fields: no commas in quotes, no marks, no bytes.
#[test]
fn columns_are_fields() {
    on_line(6, "note,service_id,date,exception_type", "\"a,b,c\",W,x,1", 13, 3);
    on_line(6, "\"a,b\",service_id,date,exception_type", "1,W,x,1", 13, 3);
    on_line(6, "note,service_id,date,exception_type", "\"\"\",\"\"\",\"W\",\"20240704\",\"x\"", 13, 4);
    on_line(6, "駅🚏,service_id,date,exception_type", "駅駅駅,ä,x,1", 13, 3);
    on_line(6, &format!("\u{feff}{DATES}"), "W,x,1", 13, 2);
    refused(&[(6, &format!("{DATES}\r\nW,20240704,1\r\nW,20240704,x\r\n"))], [13, 6, 3, 3]);
}

/// A27, A28: what breaks a rule is told by value, in bytes; a name of 65 bytes, empty times and absent columns break none.
#[test]
fn what_breaks_the_rule() {
    let (long, quoted) = (long(), format!("\"{}\"", &long()[1..]));
    on_line(4, TRIPS, &format!("{quoted},{quoted},{long},"), 11, 3);
    on_line(4, TRIPS, &format!("{},W,{long},", "ä".repeat(33)), 11, 1);
    on_line(4, TRIPS, &format!("{},W,{long},", "ä".repeat(32)), 11, 3);
    let names = "route_long_name,route_type,route_id,route_short_name";
    refused(&[(2, &format!("{names}\n{long},3,{long},{long}\n"))], [11, 2, 2, 3]);
    on_line(5, CALLS, ",,T,A,,1", 12, 5);
    on_line(5, CALLS, ",,\"\",\"\",1,1", 12, 3);
    on_line(5, CALLS, ",x,T,A,1,", 13, 2);
    on_line(5, CALLS, ",,T,A,1,x", 13, 6);
    on_line(5, "timepoint,drop_off_type,arrival_time,departure_time,trip_id,stop_id,stop_sequence", ",,,,T,A,x", 13, 7);
    on_line(4, "bikes_allowed,direction_id,route_id,service_id,trip_id", ",,R,W,", 12, 5);
    on_line(4, "bikes_allowed,direction_id,route_id,service_id,trip_id", "\"0\",\"x\",R,W,T", 13, 2);
}

/// A73: of all second standings the leftmost; `a,b,b,a` is 3, and a third standing never counts.
#[test]
fn names_that_stand_twice() {
    twice("route_id,route_type,route_type,route_id", 3);
    twice("route_type,route_id,route_id,route_type", 3);
    twice("route_id,route_type,route_id,route_type", 3);
    twice("route_type,route_id,route_type,route_id", 3);
    twice("route_id,route_id,route_type,route_type", 2);
    twice("route_id,route_id,route_id,route_type", 2);
    twice("route_id,route_type,route_id,route_id,route_type,route_id", 3);
    twice("route_id,route_type,note,route_type,route_id,route_id", 4);
    // A name that may be absent is as known as one that must be present.
    twice("route_long_name,route_id,route_type,route_long_name,route_type", 4);
    twice("route_long_name,route_id,route_type,route_type,route_long_name", 4);
    // One name is missing, but 8 speaks before 9.
    twice("note,route_type,route_type", 3);
    twice("route_id,note,route_id", 3);
}

/// A17, A18: names are told apart by value and by the file's own columns; unknown ones may stand twice.
#[test]
fn names_by_value() {
    twice("route_id,route_type,\"route_id\",route_id", 3);
    twice("\"route_id\",route_type,route_id,\"route_id\"", 3);
    twice("\"route_id\",\"route_id\",route_type", 2);
    twice("x,x,route_id,route_type,route_id", 5);
    twice(",,\"\",route_id,route_type,route_type", 6);
    twice("stop_id,trip_id,stop_id,trip_id,route_id,route_type,route_id", 7);
    twice("Route_id,ROUTE_ID,route_id,route_type, route_id,route_id", 6);
    twice("\"x,y\",\"x,y\",route_id,route_type,route_type", 5);
    let many = ",".repeat(29);
    twice(&format!("route_type,route_id{many},route_id"), 32);
}

/// A76: all others have 0, also on lines whose values break rules, and where a field could be named.
#[test]
fn other_rules_have_none() {
    on_line(6, DATES, ",\t,x", 5, 0);
    on_line(6, DATES, ",\r,x", 5, 0);
    on_line(6, DATES, ",a\"b,x", 6, 0);
    on_line(6, DATES, ",\"x,", 6, 0);
    on_line(6, DATES, &",".repeat(32), 7, 0);
    on_line(6, DATES, ",x", 10, 0);
    on_line(6, DATES, ",x,x,x", 10, 0);
    on_line(6, DATES, "", 10, 0);
    on_line(6, DATES, &format!("{},x", long()), 10, 0);
    for header in ["service_id,date", "exception_type,note,date", "Service_id,date,exception_type", ""] {
        refused(&[(6, &format!("{header}\nx\n"))], [9, 6, 1, 0]);
    }
    refused(&[(6, &format!("{}\n", ",".repeat(32)))], [7, 6, 1, 0]);
    refused(&[(6, "service_id,service_id\t\n")], [5, 6, 1, 0]);
    refused(&[(6, "service_id,\"service_id\n")], [6, 6, 1, 0]);
    let mut files = feed(&[]);
    for line in [&b",\xFF,x\n"[..], b"\xFF,x,\n", b",,\xC3\n"] {
        files[5] = [DATES.as_bytes(), b"\n", line].concat();
        assert_eq!(check(&files, &mut tables(&files, 0)).0, refusal([14, 6, 2, 0]));
    }
    files[5] = b"service_id,service_id,\xFF\n".to_vec();
    assert_eq!(check(&files, &mut tables(&files, 0)).0, refusal([14, 6, 1, 0]));
}

/// Rules 1 to 4, in files whose header and lines break others.
#[test]
fn whole_files_have_none() {
    let text = format!("service_id,service_id,date,exception_type\n,x,x,{}", long());
    refused(&[(6, &text)], [4, 6, 0, 0]);
    let files = feed(&[(6, &format!("{text}\n"))]);
    let mut short = tables(&files, 0);
    assert_eq!(check(&files, &mut short).0, refusal([8, 6, 1, 2]));
    short[5].pop();
    assert_eq!(check(&files, &mut short).0, refusal([3, 6, 0, 0]));
    refused(&[(6, &format!("{text}{}", "\n".repeat(MOST_LINES + 1)))], [2, 6, 0, 0]);
    refused(&[(6, &format!("{text}{}\n", " ".repeat(MOST_BYTES)))], [1, 6, 0, 0]);
}

/// Which rule, file and line speak doesn't change; a feed that is read has no column to tell.
#[test]
fn the_order_of_refusals_stays() {
    refused(&[(6, &format!("{DATES}\nW,20240704,x\nW,,1\n"))], [13, 6, 2, 3]);
    refused(&[(6, &format!("{DATES}\nW,20240704,1\n,,x\n"))], [12, 6, 3, 1]);
    refused(&[(4, "route_id,route_id\n"), (6, &format!("{DATES}\nW,x,1\n"))], [8, 4, 1, 2]);
    refused(&[(4, "route_id,note\n"), (6, &format!("{DATES}\nW,x,1\n"))], [9, 4, 1, 0]);
    refused(&[(2, "route_id,route_type\nR,x\n"), (6, "date,date\n")], [13, 2, 2, 2]);
    findings(&[(6, &format!("note,{DATES},note\n,W,20240704,1,x\n"))], &[]);
}
