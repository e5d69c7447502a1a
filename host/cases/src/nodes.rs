//! Nodes and boarding areas, each small way tried: every type beside every parent, and under every type every value that may be empty or
//! malformed, in every order of the columns.

use crate::edges::{base, exact, with_file, BASE};
use crate::Case;

/// The types of stops.
const TYPES: [&str; 5] = ["0", "1", "2", "3", "4"];

/// Types as they may be written: nine good ways, then some that aren't of their form and count as 0.
const SPELLINGS: [&str; 16] =
    ["0", "1", "2", "3", "4", "", "\"\"", "\"3\"", "\"4\"", "5", "03", "33", "34", " 3", "-3", "x"];

/// A stop of each type that others may name, each with the parent that it needs.
const PARENTS: &str = "P0,Platform,1,2,0,\nP1,Station,1,2,1,\nP2,Way in,1,2,2,P1\nP3,,,,3,P1\nP4,,,,4,P0\n";

/// The base feed with these lines behind its stops, and with a call at C, which should be among them.
fn with_stops(lines: &str) -> Case {
    let mut files = base();
    files[0].extend(lines.bytes());
    files[4].extend(b"T,09:00:00,09:00:00,C,3,,,\n");
    exact(format!("more stops: {}", lines.escape_debug()), files)
}

/// A stop of every type with every parent, before that parent and behind it: none, one that stands nowhere, one of each type, itself.
fn with_parents() -> Vec<Case> {
    let mut cases = Vec::new();
    for child in &SPELLINGS[..9] {
        for parent in ["", "\"\"", "nowhere", "c", "\"P0\"", "P0", "P1", "P2", "P3", "P4", "C"] {
            let line = format!("C,Child,1,2,{child},{parent}\n");
            cases.extend([format!("{line}{PARENTS}"), format!("{PARENTS}{line}")].map(|lines| with_stops(&lines)));
        }
    }
    cases
}

/// Ids that stand twice: the type of the first line with a parent's id counts, also for a later line that names its own id.
fn with_repeated_parents() -> Vec<Case> {
    let mut cases = Vec::new();
    for [first, second] in TYPES.iter().flat_map(|first| TYPES.map(|second| [*first, second])) {
        let twice = format!("Q,First,1,2,{first},\nQ,Second,1,2,{second},P1\n");
        cases.extend(TYPES.map(|child| with_stops(&format!("{PARENTS}{twice}C,Child,1,2,{child},Q\n"))));
        cases.push(with_stops(&format!("{PARENTS}C,First,1,2,{first},P1\nC,Second,1,2,{second},C\n")));
    }
    cases
}

/// Orders of name, latitude, longitude and type, which are 0 to 3: the first three in every order, and the type right or left of them.
fn orders() -> Vec<[usize; 4]> {
    let three = [[0, 1, 2], [0, 2, 1], [1, 0, 2], [1, 2, 0], [2, 0, 1], [2, 1, 0]];
    three.iter().flat_map(|[a, b, c]| [[*a, *b, *c, 3], [3, *a, *b, *c]]).collect()
}

/// Name, latitude, longitude and type, each of these empty, good or, where it has a form, malformed.
fn values(types: &[&'static str]) -> Vec<[&'static str; 4]> {
    let mut all = Vec::new();
    for kind in types {
        for name in ["", "N"] {
            for latitude in ["", "1.5", "x"] {
                all.extend(["", "2", "x"].map(|longitude| [name, latitude, longitude, *kind]));
            }
        }
    }
    all
}

/// A stops file with these four columns in an order, behind an unread one and the id and before the parent, and such lines.
fn file(order: [usize; 4], lines: &[[&str; 4]]) -> String {
    let line =
        |ends: [&str; 2], four: &[&str; 4]| format!("{},{},{}\n", ends[0], order.map(|at| four[at]).join(","), ends[1]);
    let header = line(["note,stop_id", "parent_station"], &["stop_name", "stop_lat", "stop_lon", "location_type"]);
    let good = line([",P0", ""], &["Platform", "1", "2", "0"]) + &line([",P1", ""], &["Station", "1", "2", "1"]);
    let parent = |four: &[&str; 4]| if four[3].trim_matches('"') == "4" { "P0" } else { "P1" };
    let lines: String = lines.iter().map(|four| line([",C", parent(four)], four)).collect();
    header + &good + &lines
}

/// The same with every field quoted, those that were quoted once only.
fn quoted(file: &str) -> String {
    let field = |field: &str| format!("\"{}\"", field.trim_matches('"'));
    let line = |line: &str| line.split(',').map(field).collect::<Vec<_>>().join(",") + "\n";
    file.lines().map(line).collect()
}

/// Stops files with all such lines, for those who look at every line of a file.
pub fn files() -> Vec<String> {
    let mut files: Vec<String> = orders().into_iter().map(|order| file(order, &values(&SPELLINGS))).collect();
    files.push(quoted(&files[0]));
    files
}

/// Such lines alone: every type in two orders of columns and in quotes, some types in every order.
fn alone() -> Vec<Case> {
    let mut files = Vec::new();
    for (place, order) in orders().into_iter().enumerate() {
        let types = if place < 2 { &SPELLINGS[..] } else { &["", "3", "4", "x"] };
        files.extend(values(types).into_iter().map(|four| file(order, &[four])));
    }
    files.extend(values(&SPELLINGS).into_iter().map(|four| quoted(&file([2, 1, 0, 3], &[four]))));
    files.into_iter().map(|file| with_file(0, file.into_bytes()).swap_remove(0)).collect()
}

/// Places at 0, 0 and at its edges, columns that are absent, long ids beside what is empty; each with a short table too.
fn others() -> Vec<Case> {
    let mut files = Vec::new();
    for kind in SPELLINGS {
        for [latitude, longitude] in [["0", "0"], ["-0", "0.00000001"], ["90", "-180"], ["91", "0"], ["0", "\"181\""]] {
            files.push(file([0, 1, 2, 3], &[["", latitude, longitude, kind]]));
        }
        let long = "i".repeat(65);
        files.push(format!("{}{long},,,,{kind},\n", BASE[0]));
        files.push(format!("{}N,,,,{kind},{long}\n", BASE[0]));
        files.push(format!("{}N,,,,{kind},\n,,,,{kind},\n", BASE[0]));
        files.push(format!("stop_id,stop_name,stop_lon,location_type\nN,,,{kind}\n"));
        files.push(format!("stop_id,stop_lat,stop_lon,location_type\nN,,,{kind}\n"));
        files.push(format!("stop_id,stop_name,stop_lat,stop_lon,location_type\nN,,,,{kind}\n"));
        files.push(format!("stop_id,stop_name,stop_lat,stop_lon,Location_type\nN,,,,{kind}\n"));
    }
    files.into_iter().flat_map(|file| with_file(0, file.into_bytes())).collect()
}

/// Every case about nodes and boarding areas.
pub fn cases() -> Vec<Case> {
    [with_parents(), with_repeated_parents(), alone(), others()].concat()
}
