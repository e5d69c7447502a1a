//! E13: the model against answers written by hand from document 02 and readings A101 and A102.

mod common;

use cases::boards::HEADER;
use cases::edges::BASE;
use cases::large::tables;
use common::{check, check_with, feed, findings, refusal, refused};
use model::{Answer, Profile};

/// A good first line of the base feed's trip T, and a good last one.
const FIRST: &str = "T,08:00:00,08:00:00,A,1,,,\n";
const LAST: &str = "T,47:00:00,47:00:00,B,9,,,\n";

/// Fails unless a feed has these findings without the profile and those with it, and the same tables with both.
#[track_caller]
fn found(changes: &[(usize, &str)], plain: &[[i32; 3]], boards: &[[i32; 3]]) {
    findings(changes, plain);
    let files = feed(changes);
    let mut filled = [tables(&files, -3), tables(&files, -3)];
    check(&files, &mut filled[0]);
    let (answer, list) = check_with(Profile::Boards, &files, &mut filled[1]);
    assert_eq!(list, boards, "for boards");
    let total = boards.len();
    let wanted = if total == 0 { Answer::Accepted } else { Answer::Findings { written: total, total } };
    assert_eq!(answer, wanted);
    assert_eq!(filled[0], filled[1]);
}

/// The same for a stop_times of these lines.
#[track_caller]
fn lines(lines: &str, plain: &[[i32; 3]], boards: &[[i32; 3]]) {
    found(&[(5, &format!("{HEADER}{lines}"))], plain, boards);
}

/// A line between the first and the last of its trip: line 3.
fn between(line: &str) -> String {
    format!("{FIRST}{line}\n{LAST}")
}

/// Rule 60: one time missing, either one, or both (A101); timed, whatever the times are (A38).
#[test]
fn times_that_are_missing() {
    lines(&between("T,08:01:00,08:02:00,A,2,,,"), &[], &[]);
    for both in [",", "\"\",", ",\"\"", "\"\",\"\""] {
        lines(&between(&format!("T,{both},A,2,,,")), &[], &[[5, 3, 60]]);
        lines(&between(&format!("T,{both},A,2,,,0")), &[], &[[5, 3, 60]]);
        lines(&between(&format!("T,{both},A,2,,,1")), &[[5, 3, 26]], &[[5, 3, 26], [5, 3, 60]]);
    }
    for one in ["08:01:00,", ",08:01:00", "0:00:00,", ",00:00:00", "\"08:01:00\",\"\""] {
        for timepoint in ["", "0", "1"] {
            let line = format!("T,{one},A,2,,,{timepoint}");
            lines(&between(&line), &[[5, 3, 26]], &[[5, 3, 26], [5, 3, 60]]);
        }
    }
    lines(&between("T,08:02:00,08:01:00,A,2,,,"), &[[5, 3, 27]], &[[5, 3, 27]]);
    lines(&between("T,07:00:00,08:01:00,A,2,,,"), &[[5, 3, 29]], &[[5, 3, 29]]);
    // At the trip's ends rule 31 says it too, on the trip's line.
    lines(&format!("T,,,A,1,,,\n{LAST}"), &[[4, 2, 31]], &[[4, 2, 31], [5, 2, 60]]);
    lines(&format!("{FIRST}T,,,B,2,,,\n"), &[[4, 2, 31]], &[[4, 2, 31], [5, 3, 60]]);
}

/// Does a pickup, down, beside a drop-off, across, break rule 61?
const ARRANGED: [[bool; 4]; 4] =
    [[false, false, true, true], [false, false, true, true], [true, true, true, true], [true, true, true, true]];

/// Rule 61: one finding, also where both are 2 or 3 (A101).
#[test]
fn pickups_and_drop_offs() {
    for (pickup, drop_offs) in ARRANGED.iter().enumerate() {
        for (drop_off, broken) in drop_offs.iter().enumerate() {
            let boards = if *broken { &[[5, 3, 61]][..] } else { &[] };
            lines(&between(&format!("T,08:01:00,08:02:00,A,2,{pickup},{drop_off},")), &[], boards);
            lines(&between(&format!("T,08:01:00,08:02:00,A,2,\"{pickup}\",\"{drop_off}\",1")), &[], boards);
        }
    }
}

/// Empty and absent pickups and drop-offs are 0, so that only the other one can break rule 61.
#[test]
fn no_pickup_or_drop_off() {
    for empty in ["", "\"\""] {
        for (other, boards) in [("", &[][..]), ("0", &[]), ("1", &[]), ("2", &[[5, 3, 61]]), ("3", &[[5, 3, 61]])] {
            lines(&between(&format!("T,08:01:00,08:02:00,A,2,{empty},{other},")), &[], boards);
            lines(&between(&format!("T,08:01:00,08:02:00,A,2,{other},{empty},")), &[], boards);
        }
    }
    let columns = "trip_id,arrival_time,departure_time,stop_id,stop_sequence";
    let file = |name: &str, value: &str| {
        format!("{name}{columns}\n{value}T,08:00:00,08:00:00,A,1\n{value}T,08:05:00,08:05:00,B,2\n")
    };
    found(&[(5, &file("", ""))], &[], &[]);
    for name in ["pickup_type,", "drop_off_type,"] {
        found(&[(5, &file(name, "1,"))], &[], &[]);
        found(&[(5, &file(name, ","))], &[], &[]);
        found(&[(5, &file(name, "2,"))], &[], &[[5, 2, 61], [5, 3, 61]]);
        found(&[(5, &file(name, "3,"))], &[], &[[5, 2, 61], [5, 3, 61]]);
    }
    // Only columns of exactly these names count.
    found(&[(5, &file("Pickup_type,", "3,"))], &[], &[]);
    found(&[(5, &file("drop_off_type ,", "3,"))], &[], &[]);
}

/// Rule 62: 48:00:00 is 172,800 seconds, and that is late already; one finding, also where both times are late (A101).
#[test]
fn two_days() {
    for [arrival, departure] in
        [["47:59:59", "47:59:59"], ["24:00:00", "47:59:59"], ["8:00:00", "24:00:00"], ["24:00:00", "\"47:59:59\""]]
    {
        lines(&format!("{FIRST}T,{arrival},{departure},B,2,,,\n"), &[], &[]);
    }
    for [arrival, departure] in [
        ["47:59:59", "48:00:00"],
        ["08:00:00", "48:00:00"],
        ["48:00:00", "48:00:00"],
        ["\"48:00:00\"", "48:00:01"],
        ["48:00:01", "99:59:59"],
        ["99:59:59", "99:59:59"],
    ] {
        lines(&format!("{FIRST}T,{arrival},{departure},B,2,,,\n"), &[], &[[5, 3, 62]]);
    }
    // The arrival alone: then the departure lies before it.
    for departure in ["47:59:59", "08:00:00"] {
        lines(&format!("{FIRST}T,48:00:00,{departure},B,2,,,\n"), &[[5, 3, 27]], &[[5, 3, 27], [5, 3, 62]]);
    }
    lines(&format!("{FIRST}T,47:59:59,24:00:00,B,2,,,\n"), &[[5, 3, 27]], &[[5, 3, 27]]);
}

/// Rule 62 looks at any time that is given, also on a line that isn't timed (A101).
#[test]
fn a_late_time_alone() {
    for late in ["48:00:00,", ",48:00:00", ",48:00:01", "99:59:59,\"\""] {
        lines(&between(&format!("T,{late},A,2,,,")), &[[5, 3, 26]], &[[5, 3, 26], [5, 3, 60], [5, 3, 62]]);
    }
    for early in ["47:59:59,", ",47:59:59"] {
        lines(&between(&format!("T,{early},A,2,,,")), &[[5, 3, 26]], &[[5, 3, 26], [5, 3, 60]]);
    }
}

/// Every line is looked at: in the middle of a trip, of a trip or at a stop that stands nowhere, on lines out of order.
#[test]
fn wherever_the_line_stands() {
    let late = "50:00:00,50:00:00";
    lines(
        &format!("X,,,A,1,,,\n{LAST}T,,,nowhere,5,,,\n{FIRST}X,{late},A,2,3,,\n"),
        &[[5, 2, 21], [5, 4, 21], [5, 6, 21]],
        &[[5, 2, 21], [5, 2, 60], [5, 4, 21], [5, 4, 60], [5, 6, 21], [5, 6, 61], [5, 6, 62]],
    );
    lines(
        &format!("{FIRST}T,,,A,2,2,,\nT,,,A,3,,2,\nT,{late},A,4,,,\nT,{late},A,5,,,\n"),
        &[],
        &[[5, 3, 60], [5, 3, 61], [5, 4, 60], [5, 4, 61], [5, 5, 62], [5, 6, 62]],
    );
    // A trip_id that stands twice in trips.txt.
    found(
        &[(4, &format!("{}R,W,T,,,\n", BASE[3])), (5, &format!("{HEADER}{}", between("T,,,A,2,,,")))],
        &[[4, 3, 20]],
        &[[4, 3, 20], [5, 3, 60]],
    );
}

/// A stop_times whose lines 4 and 5 break as many rules as a line can: X stands nowhere, S is a station.
const MOST: &str =
    "X,90:00:00,90:00:00,A,1,,,\nX,90:00:00,90:00:00,A,9,1,1,\nX,60:00:00,59:00:00,S,9,3,,\nX,,60:00:00,S,9,,2,1\n";

/// What those break without the profile; trip T has no lines.
const MOST_PLAIN: [[i32; 3]; 12] = [
    [4, 2, 30],
    [5, 2, 21],
    [5, 3, 21],
    [5, 4, 21],
    [5, 4, 23],
    [5, 4, 27],
    [5, 4, 28],
    [5, 4, 29],
    [5, 5, 21],
    [5, 5, 23],
    [5, 5, 26],
    [5, 5, 28],
];

/// And with it: on each line behind the others (A102), and before the next line's.
const MOST_FOR_BOARDS: [[i32; 3]; 19] = [
    [4, 2, 30],
    [5, 2, 21],
    [5, 2, 62],
    [5, 3, 21],
    [5, 3, 62],
    [5, 4, 21],
    [5, 4, 23],
    [5, 4, 27],
    [5, 4, 28],
    [5, 4, 29],
    [5, 4, 61],
    [5, 4, 62],
    [5, 5, 21],
    [5, 5, 23],
    [5, 5, 26],
    [5, 5, 28],
    [5, 5, 60],
    [5, 5, 61],
    [5, 5, 62],
];

#[test]
fn the_order_on_a_line() {
    lines(MOST, &MOST_PLAIN, &MOST_FOR_BOARDS);
    // Findings of file 6 stay behind all of file 5.
    let dates = format!("{}W,20240704,1\n", BASE[5]);
    let [plain, boards] = [&MOST_PLAIN[..], &MOST_FOR_BOARDS].map(|list| [list, &[[6, 4, 20]]].concat());
    found(&[(5, &format!("{HEADER}{MOST}")), (6, &dates)], &plain, &boards);
}

/// What is written to a list of so many numbers from a place on, and the answer; the rest stays as lent.
#[track_caller]
fn page(profile: Profile, start: [i32; 3], length: usize, wanted: &[[i32; 3]], total: usize) {
    let files = feed(&[(5, &format!("{HEADER}{MOST}"))]);
    let mut list = vec![-5; length];
    let answer = model::check(&files, &mut tables(&files, 0), &mut list, start, profile);
    assert_eq!(answer, Answer::Findings { written: wanted.len(), total });
    let (written, rest) = list.split_at(wanted.len() * 3);
    assert_eq!(written, wanted.concat());
    assert!(rest.iter().all(|&number| number == -5));
}

/// Starting places are those of before (A102), and the total is the whole list's, whatever is written (A45).
#[test]
fn starting_places_and_room() {
    let boards = |start, length, wanted: &[[i32; 3]]| page(Profile::Boards, start, length, wanted, 19);
    for before in [[5, 4, 29], [5, 4, 31], [5, 4, 32], [5, 4, 59], [5, 4, 60]] {
        boards(before, 3, &[[5, 4, 61]]);
        boards(before, 8, &[[5, 4, 61], [5, 4, 62]]);
        boards(before, 9, &[[5, 4, 61], [5, 4, 62], [5, 5, 21]]);
    }
    boards([5, 4, 61], 6, &[[5, 4, 62], [5, 5, 21]]);
    for behind in [[5, 4, 62], [5, 4, 63], [5, 4, i32::MAX], [5, 5, 20], [5, 5, -1]] {
        boards(behind, 3, &[[5, 5, 21]]);
    }
    boards([5, 5, 28], 10, &[[5, 5, 60], [5, 5, 61], [5, 5, 62]]);
    boards([5, 5, 31], 5, &[[5, 5, 60]]);
    boards([5, 5, 60], 30, &[[5, 5, 61], [5, 5, 62]]);
    boards([5, 5, 61], 30, &[[5, 5, 62]]);
    for nothing in [[5, 5, 62], [5, 6, 0], [6, 0, 0]] {
        boards(nothing, 30, &[]);
    }
    for short in 0..3 {
        boards([0, 0, 0], short, &[]);
    }
    let plain = |start, length, wanted: &[[i32; 3]]| page(Profile::Plain, start, length, wanted, 12);
    for place in [[5, 4, 29], [5, 4, 59], [5, 4, 60], [5, 4, 61], [5, 4, 62]] {
        plain(place, 3, &[[5, 5, 21]]);
    }
    plain([5, 5, 31], 30, &[]);
    plain([5, 5, 60], 30, &[]);
}

/// Calls that all ask for the profile join to its list, those that don't to the plain one.
#[test]
fn pages_join() {
    let files = feed(&[(5, &format!("{HEADER}{MOST}"))]);
    for (profile, wanted) in [(Profile::Plain, &MOST_PLAIN[..]), (Profile::Boards, &MOST_FOR_BOARDS)] {
        for room in 1..=20 {
            let mut joined: Vec<[i32; 3]> = Vec::new();
            loop {
                let mut list = vec![0; room * 3];
                let start = joined.last().copied().unwrap_or([0, 0, 0]);
                let answer = model::check(&files, &mut tables(&files, 0), &mut list, start, profile);
                let Answer::Findings { written, total } = answer else { panic!("{answer:?}") };
                assert_eq!(total, wanted.len());
                if written == 0 {
                    break;
                }
                joined.extend(list.chunks(3).take(written).map(|found| [found[0], found[1], found[2]]));
            }
            assert_eq!(joined, wanted, "pages of {room}, {profile:?}");
        }
    }
}

/// "Accepted" means none of 60 to 62 either: feeds accepted with both, only without the profile, and with neither.
#[test]
fn accepted() {
    lines(&format!("{FIRST}{LAST}"), &[], &[]);
    // The base feed has a pickup of 3 on its last line.
    found(&[], &[], &[[5, 3, 61]]);
    lines(&between("T,,,A,2,,,"), &[], &[[5, 3, 60]]);
    lines(&format!("{FIRST}T,48:00:00,48:00:00,B,2,,,\n"), &[], &[[5, 3, 62]]);
    lines(&format!("{FIRST}T,08:00:00,08:00:00,nowhere,2,,,\n"), &[[5, 3, 21]], &[[5, 3, 21]]);
    // No line of stop_times, no finding of the profile's.
    let trips = "route_id,service_id,trip_id\n";
    found(&[(4, trips), (5, HEADER)], &[], &[]);
}

/// The rules are about file 5: its columns in other files are unread.
#[test]
fn columns_of_stop_times_in_other_files() {
    let good = format!("{HEADER}{FIRST}{LAST}");
    for file in [1, 2, 3, 4, 6] {
        let more = |(place, line)| {
            let fields =
                if place == 0 { "arrival_time,departure_time,pickup_type,drop_off_type" } else { ",48:00:00,2,3" };
            format!("{line},{fields}\n")
        };
        let text: String = BASE[file - 1].lines().enumerate().map(more).collect();
        found(&[(5, &good), (file, &text)], &[], &[]);
    }
}

/// Refusals are those of the plain check (A102), and everything stays as lent.
#[test]
fn refusals() {
    let bad = |line: &str| format!("{HEADER}T,,,A,1,2,2,1\n{line}");
    for (changes, wanted) in [
        ([(5, &bad("T,,,A,1,4,,\n")[..])], [13, 5, 3, 6]),
        ([(5, &bad("T,48:00:0,,A,1,3,,\n"))], [13, 5, 3, 2]),
        ([(5, &bad("T,100:00:00,,A,1,3,,\n"))], [13, 5, 3, 2]),
        ([(5, &bad("T,,,,1,3,,\n"))], [12, 5, 3, 4]),
        ([(5, &bad("T,48:00:00,48:00:00,A,1,3,,\t\n"))], [5, 5, 3, 0]),
        ([(5, &bad("T,48:00:00,48:00:00,A,1,3,,"))], [4, 5, 0, 0]),
        ([(5, "trip_id,arrival_time,stop_id,stop_sequence\n")], [9, 5, 1, 0]),
        ([(6, "service_id,date,exception_type\nW,20240704,3\n")], [13, 6, 2, 3]),
        ([(1, "")], [4, 1, 0, 0]),
    ] {
        refused(&changes, wanted);
        let files = feed(&changes);
        let lent = tables(&files, 8);
        let (mut tables, mut list) = (lent.clone(), vec![7; 30]);
        let answer = model::check(&files, &mut tables, &mut list, [0, 0, 0], Profile::Boards);
        assert_eq!((answer, tables, list), (refusal(wanted), lent, vec![7; 30]));
    }
    // A table that is short by a number.
    let files = feed(&[]);
    let mut tables = tables(&files, 8);
    tables[4].pop();
    assert_eq!(check_with(Profile::Boards, &files, &mut tables).0, refusal([3, 5, 0, 0]));
}

/// The feed of document 01 in full: its last line is the only one that isn't timed, none is late, none has a pickup.
#[test]
fn the_feed_of_document_01() {
    let files: [(usize, &str); 6] = [
        (1, "stop_id,stop_name,stop_lat,stop_lon\nA,Alder,1.5,2\nB,Birch,1.6,2\n"),
        (2, "route_id,route_short_name,route_type\nR,7,3\n"),
        (3, BASE[2]),
        (4, "route_id,service_id,trip_id\nR,W,T\nR,X,U\n"),
        (
            5,
            "trip_id,arrival_time,departure_time,stop_id,stop_sequence\n\
             T,08:00:00,08:00:00,A,1\nT,07:59:59,08:05:00,B,2\nT,,,C,2\n",
        ),
        (6, ""),
    ];
    let plain = [[4, 3, 21], [4, 3, 30], [5, 3, 29], [5, 4, 21], [5, 4, 28]];
    found(&files, &plain, &[&plain[..], &[[5, 4, 60]]].concat());
}
