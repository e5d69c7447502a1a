//! E10: the model against answers written by hand from document 02 and readings A74 and A87 to A91.

mod common;

use cases::edges::BASE;
use cases::large::tables;
use common::{check, feed, findings, refusal, refused};
use model::Answer;

/// The stops of the base feed, a station S and stops A and B on lines 2 to 4, with these lines behind them.
fn stops(lines: &str) -> String {
    format!("{}{lines}", BASE[0])
}

/// A stop of each type, with the parent that it needs, on lines 5 to 9.
const OF_EACH: &str = "P0,Platform,1,2,0,\nP1,Station,1,2,1,\nP2,Way in,1,2,2,P1\nP3,Node,1,2,3,P1\nP4,Area,1,2,4,P0\n";

/// Do a child's type, down, and its parent's, across, break rule 22? Types 0 to 2 keep all of it (A87): a type 1 may have no parent at all.
const BROKEN: [[bool; 5]; 5] = [
    [true, false, true, true, true],
    [true, true, true, true, true],
    [true, false, true, true, true],
    [true, false, true, true, true],
    [false, true, true, true, true],
];

#[test]
fn every_type_with_a_parent_of_every_type() {
    findings(&[(1, &stops(OF_EACH))], &[]);
    for (child, parents) in BROKEN.iter().enumerate() {
        for (parent, broken) in parents.iter().enumerate() {
            let line = format!("C,Child,1,2,{child},P{parent}\n");
            let before = if *broken { &[[1, 5, 22]][..] } else { &[] };
            let behind = if *broken { &[[1, 10, 22]][..] } else { &[] };
            findings(&[(1, &stops(&format!("{line}{OF_EACH}")))], before);
            findings(&[(1, &stops(&format!("{OF_EACH}{line}")))], behind);
        }
    }
}

/// An empty parent is rule 22 for types 2 to 4, an unresolved one rule 21 alone, but for type 1 both (A36); itself is of the wrong type (A20).
#[test]
fn no_parent_an_unresolved_one_and_itself() {
    for child in 0..=4 {
        let with = |parent: &str| stops(&format!("C,Child,1,2,{child},{parent}\n"));
        let needs = [2, 3, 4].contains(&child);
        let empty = if needs { &[[1, 5, 22]][..] } else { &[] };
        findings(&[(1, &with(""))], empty);
        findings(&[(1, &with("\"\""))], empty);
        let nowhere = if child == 1 { &[[1, 5, 21], [1, 5, 22]][..] } else { &[[1, 5, 21]] };
        findings(&[(1, &with("nowhere"))], nowhere);
        findings(&[(1, &with("s"))], nowhere);
        // A type 0 that names itself is no station, and a boarding area that does is no platform.
        findings(&[(1, &with("C"))], &[[1, 5, 22]]);
    }
    // Without the column of parents all are empty.
    let alone = "stop_id,stop_name,stop_lat,stop_lon,location_type\nA,,1,2,3\nB,,1,2,4\n";
    findings(&[(1, alone)], &[[1, 2, 22], [1, 3, 22], [5, 2, 23], [5, 3, 23]]);
}

/// References go to the first line with the id, and only its type counts (A20).
#[test]
fn a_parent_that_stands_twice() {
    let platform_first = "Q,One,1,2,0,\nQ,Two,1,2,1,\n";
    let station_first = "Q,One,1,2,1,\nQ,Two,1,2,0,\n";
    let child = |of: &str, kind: usize| stops(&format!("{of}C,,,,{kind},Q\n"));
    findings(&[(1, &child(platform_first, 4))], &[[1, 6, 20]]);
    findings(&[(1, &child(station_first, 4))], &[[1, 6, 20], [1, 7, 22]]);
    findings(&[(1, &child(platform_first, 3))], &[[1, 6, 20], [1, 7, 22]]);
    findings(&[(1, &child(station_first, 3))], &[[1, 6, 20]]);
    // A later line that names its own id refers to the first.
    findings(&[(1, &stops("A,,,,4,A\n"))], &[[1, 5, 20]]);
    findings(&[(1, &stops("S,,,,4,S\n"))], &[[1, 5, 20], [1, 5, 22]]);
    findings(&[(1, &stops("S,,,,3,S\n"))], &[[1, 5, 20]]);
    findings(&[(1, &stops("A,,,,3,A\n"))], &[[1, 5, 20], [1, 5, 22]]);
}

/// A87: rule 23 is unchanged, so a call at any type but 0 breaks it.
#[test]
fn calls_at_each_type() {
    for kind in 0..=4 {
        let calls = format!("{}T,09:00:00,09:00:00,P{kind},3,,,\n", BASE[4]);
        let wanted = if kind == 0 { &[][..] } else { &[[5, 4, 23]] };
        findings(&[(1, &stops(OF_EACH)), (5, &calls)], wanted);
    }
}

const NAMES: [&str; 4] = ["stop_name", "stop_lat", "stop_lon", "location_type"];

/// A stops file with these four columns in an order, behind stop_id, and a line with these values.
fn line_in_order(order: [usize; 4], values: [&str; 4]) -> String {
    format!("stop_id,{}\nA,{}\n", order.map(|at| NAMES[at]).join(","), order.map(|at| values[at]).join(","))
}

/// Fails unless a line with these values is refused with this rule under this column, wherever the columns stand.
#[track_caller]
fn refused_under(values: [&str; 4], rule: usize, at: usize) {
    for order in [[0, 1, 2, 3], [3, 2, 1, 0], [2, 3, 0, 1], [1, 0, 3, 2]] {
        let column = 2 + order.iter().position(|own| *own == at).expect("one of the four");
        refused(&[(1, &line_in_order(order, values))], [rule, 1, 2, column]);
    }
}

/// Fails unless a line with these values can be read, wherever the columns stand, and has these numbers in its record.
#[track_caller]
fn stored(values: [&str; 4], [latitude, longitude, kind, place]: [i32; 4]) {
    for order in [[0, 1, 2, 3], [3, 2, 1, 0], [2, 3, 0, 1], [1, 0, 3, 2]] {
        let files = feed(&[(1, &line_in_order(order, values))]);
        let mut tables = tables(&files, 9);
        let answer = check(&files, &mut tables).0;
        assert!(matches!(answer, Answer::Findings { .. }), "{answer:?}");
        assert_eq!(tables[0][..7], [0; 7]);
        assert_eq!(tables[0][9..], [latitude, longitude, kind, 0, place]);
    }
}

/// Types 3 and 4: the name may be empty, and the coordinates together; one alone is 12 at the empty one (A74), also beside a malformed one (A89).
#[test]
fn what_nodes_and_boarding_areas_may_lack() {
    for (kind, number) in [("3", 3), ("\"3\"", 3), ("4", 4), ("\"4\"", 4)] {
        for name in ["", "\"\"", "Node"] {
            stored([name, "", "", kind], [0, 0, number, 0]);
            stored([name, "\"\"", "", kind], [0, 0, number, 0]);
            stored([name, "1.5", "-2", kind], [15_000_000, -20_000_000, number, 1]);
            stored([name, "0", "-0.0", kind], [0, 0, number, 1]);
            refused_under([name, "", "2", kind], 12, 1);
            refused_under([name, "1.5", "", kind], 12, 2);
            refused_under([name, "\"\"", "x", kind], 12, 1);
            refused_under([name, "x", "\"\"", kind], 12, 2);
            refused_under([name, "91", "2", kind], 13, 1);
            refused_under([name, "1.5", "181", kind], 13, 2);
            // A space isn't empty.
            refused_under([name, " ", "2", kind], 13, 1);
        }
    }
}

/// Types 0 to 2, and no type, need all three (A90), and so does a type that isn't of its form (A88).
#[test]
fn what_all_others_need() {
    for kind in ["", "\"\"", "0", "1", "2", "5", "33", "03", " 3", "-3", "3.0", "x"] {
        refused_under(["", "1.5", "2", kind], 12, 0);
        refused_under(["Stop", "", "2", kind], 12, 1);
        refused_under(["Stop", "1.5", "", kind], 12, 2);
        refused_under(["\"\"", "x", "x", kind], 12, 0);
        refused_under(["Stop", "", "x", kind], 12, 1);
    }
    for (kind, number) in [("", 0), ("\"\"", 0), ("0", 0), ("1", 1), ("\"2\"", 2)] {
        stored(["Stop", "1.5", "2", kind], [15_000_000, 20_000_000, number, 1]);
        stored(["Stop", "0", "0", kind], [0, 0, number, 1]);
    }
    for kind in ["5", "33", "03", " 3", "3 ", "-3", "3.0", "x"] {
        refused_under(["Stop", "1.5", "2", kind], 13, 3);
    }
}

/// Two that are empty, and all three: the leftmost in the header's order (A74).
#[test]
fn the_leftmost_of_several() {
    for kind in ["", "0", "2", "x"] {
        for (order, [both, latitude_and_name, all]) in [
            ([0, 1, 2, 3], [3, 2, 2]),
            ([2, 1, 0, 3], [2, 3, 2]),
            ([3, 0, 2, 1], [4, 3, 3]),
            ([3, 2, 0, 1], [3, 4, 3]),
            ([1, 3, 2, 0], [2, 2, 2]),
        ] {
            refused(&[(1, &line_in_order(order, ["Stop", "", "", kind]))], [12, 1, 2, both]);
            refused(&[(1, &line_in_order(order, ["", "", "2", kind]))], [12, 1, 2, latitude_and_name]);
            refused(&[(1, &line_in_order(order, ["", "", "", kind]))], [12, 1, 2, all]);
        }
    }
    // A malformed type left of what is empty: 12 speaks before 13, at the empty one.
    refused(&[(1, &line_in_order([3, 1, 2, 0], ["Stop", "1", "", "x"]))], [12, 1, 2, 4]);
    refused(&[(1, &line_in_order([3, 1, 2, 0], ["Stop", "1", "x", "x"]))], [13, 1, 2, 2]);
}

/// What no type excuses: the id, absent columns, and whatever comes before 12.
#[test]
fn what_stays() {
    let long = "i".repeat(65);
    for kind in ["3", "4", "x"] {
        refused(&[(1, &stops(&format!(",Node,1,2,{kind},S\n")))], [12, 1, 5, 1]);
        refused(&[(1, &stops(&format!("N,,1,,{kind},{long}\n")))], [11, 1, 5, 6]);
        refused(&[(1, &stops(&format!("N,,,{kind},S\n")))], [10, 1, 5, 0]);
        refused(&[(1, &format!("stop_id,stop_name,stop_lon,location_type\nN,,,{kind}\n"))], [9, 1, 1, 0]);
        refused(&[(1, &format!("stop_id,stop_name,stop_lat,location_type\nN,,,{kind}\n"))], [9, 1, 1, 0]);
        refused(&[(1, &format!("stop_id,stop_lat,stop_lon,location_type\nN,,,{kind}\n"))], [9, 1, 1, 0]);
        // Only a column of exactly this name is the type.
        refused(&[(1, &format!("stop_id,stop_name,stop_lat,stop_lon,Location_type\nN,,,,{kind}\n"))], [12, 1, 2, 2]);
    }
    // Another file doesn't know the column: there it excuses nothing.
    refused(&[(2, "route_id,route_type,location_type\nR,,3\n")], [12, 2, 2, 2]);
}

/// The seventh number (A91): record 0 has 0, types 0 to 2 have 1, a node without a place 0; the parent is the sixth as before.
#[test]
fn the_seventh_number() {
    let files = feed(&[(1, &stops("N,,,,3,S\nM,,0,0,3,S\nG,,,,4,A\nH,Gate,-1.5,2,4,A\nE,,,,4,nowhere\n"))]);
    let mut tables = tables(&files, 9);
    tables[0].extend([9; 6]);
    assert_eq!(check(&files, &mut tables).1, [[1, 9, 21]]);
    // The header has 65 bytes; a line's id begins where the line before has ended.
    let wanted: [[i32; 7]; 10] = [
        [0, 0, 0, 0, 0, 0, 0],
        [65, 66, 15_000_000, 20_000_000, 1, 0, 1],
        [84, 85, 15_000_000, 20_000_000, 0, 1, 1],
        [102, 103, 16_000_000, 20_000_000, 0, 0, 1],
        [118, 119, 0, 0, 3, 1, 0],
        [127, 128, 0, 0, 3, 1, 1],
        [138, 139, 0, 0, 4, 2, 0],
        [147, 148, -15_000_000, 20_000_000, 4, 2, 1],
        [165, 166, 0, 0, 4, 0, 0],
        [9, 9, 9, 9, 9, 9, 9],
    ];
    assert_eq!(tables[0], wanted.concat()[..9 * 7 + 6]);
}

/// Rule 3 follows the new width.
#[test]
fn rule_3_by_the_new_width() {
    let files = feed(&[]);
    for (room, wanted) in [(28, Answer::Accepted), (27, refusal([3, 1, 0, 0])), (24, refusal([3, 1, 0, 0]))] {
        let mut tables = tables(&files, 0);
        tables[0] = vec![0; room];
        assert_eq!(check(&files, &mut tables).0, wanted, "{room} numbers");
    }
}
