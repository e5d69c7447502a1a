//! The profile for boards, each small way tried with it and without: every two times, every pickup beside every drop-off, lines that break
//! other rules too, every starting place around them, and files that can't be read.

use crate::edges::{base, exact, odd_files, with_file, BASE};
use crate::Case;
use model::{Profile, FILES};

/// The header of stop_times with every column.
pub const HEADER: &str =
    "trip_id,arrival_time,departure_time,stop_id,stop_sequence,pickup_type,drop_off_type,timepoint\n";

/// Times as they may be written: none, early ones, and those around 48:00:00.
const TIMES: [&str; 10] =
    ["", "\"\"", "0:00:00", "08:00:00", "24:00:00", "47:59:59", "48:00:00", "\"48:00:00\"", "48:00:01", "99:59:59"];

/// Pickups and drop-offs as they may be written.
const CHOICES: [&str; 7] = ["", "\"\"", "0", "1", "2", "3", "\"3\""];

/// A case that asks for the profile too.
pub fn asking(case: &Case) -> Case {
    Case { name: format!("{}, for boards", case.name), profile: Profile::Boards, ..case.clone() }
}

/// Cases as they are, and asking for the profile.
fn both(cases: Vec<Case>) -> Vec<Case> {
    let asking: Vec<Case> = cases.iter().map(asking).collect();
    [cases, asking].concat()
}

/// The base feed with another stop_times.
fn with_calls(file: &str) -> Case {
    with_file(4, file.as_bytes().to_vec()).swap_remove(0)
}

/// Every arrival beside every departure: on the last line of a trip, between two that are timed, and on a line whose trip stands nowhere. All
/// timepoints.
fn times() -> Vec<Case> {
    let mut files = Vec::new();
    let good = format!("{HEADER}T,0:00:00,00:00:00,A,1,,,\n");
    for [arrival, departure] in TIMES.iter().flat_map(|arrival| TIMES.map(|departure| [*arrival, departure])) {
        for timepoint in ["", "0", "1"] {
            files.push(format!("{good}T,{arrival},{departure},B,2,,,{timepoint}\n"));
        }
        files.push(format!("{good}T,{arrival},{departure},B,2,1,,\nT,47:59:59,47:59:59,A,3,,1,\n"));
        files.push(format!("{good}T,8:00:00,8:00:00,B,2,,,\nX,{arrival},{departure},nowhere,2,,,\n"));
    }
    files.iter().map(|file| with_calls(file)).collect()
}

/// Every pickup beside every drop-off, on lines that are timed and on one that isn't; and with one of the columns, or both, absent.
fn choices() -> Vec<Case> {
    let mut files = Vec::new();
    for [pickup, drop_off] in CHOICES.iter().flat_map(|pickup| CHOICES.map(|drop_off| [*pickup, drop_off])) {
        let first = format!("{HEADER}T,8:00:00,8:00:00,A,1,{pickup},{drop_off},\n");
        files.push(format!("{first}T,9:00:00,9:00:00,B,2,,,\n"));
        files.push(format!("{first}T,,,B,2,{drop_off},{pickup},\nT,9:00:00,9:00:00,B,3,,,\n"));
    }
    let columns = "trip_id,arrival_time,departure_time,stop_id,stop_sequence";
    let lines = |choice: &str| format!("T,8:00:00,8:00:00,A,1{choice}\nT,9:00:00,48:00:00,B,2{choice}\n");
    for choice in CHOICES {
        for name in ["pickup_type", "drop_off_type", "Pickup_type", "pickup_type "] {
            files.push(format!("{columns},{name}\n{}", lines(&format!(",{choice}"))));
        }
        // Left of the times, and the drop-off first.
        files.push(format!(
            "drop_off_type,pickup_type,{columns}\n{choice},,T,8:00:00,8:00:00,A,1\n{choice},1,T,,,B,2\n"
        ));
    }
    files.push(format!("{columns}\n{}", lines("")));
    files.iter().map(|file| with_calls(file)).collect()
}

/// Lines that break nothing, one of rules 60 to 62, several, and others beside them.
const LINES: [&str; 8] = [
    "T,08:00:00,08:00:00,A,1,,1,1\n",
    "T,,,A,2,0,,0\n",
    "T,08:00:00,,B,3,1,1,\n",
    "T,09:00:00,09:00:00,B,4,3,0,\n",
    "T,48:00:00,48:00:00,A,5,,,\n",
    "X,47:59:59,48:00:00,nowhere,1,2,,1\n",
    "T,50:00:00,49:00:00,S,1,3,2,1\n",
    "T,,72:00:00,S,1,2,3,1\n",
];

/// Every stop_times of up to three of these lines.
fn small_files() -> Vec<Case> {
    let (mut files, mut longest) = (Vec::new(), vec![HEADER.to_string()]);
    for _ in 0..3 {
        longest = longest.iter().flat_map(|file| LINES.map(|line| format!("{file}{line}"))).collect();
        files.extend(longest.clone());
    }
    files.iter().map(|file| with_calls(file)).collect()
}

/// Findings on either side of stop_times', and on its five lines every rule that it has: seven on the third, seven on the fourth.
fn broken() -> Case {
    let mut files = base();
    files[3].extend(b"R,nowhere,T,,,\n");
    let late = "X,90:00:00,90:00:00,A,1,,,\nX,90:00:00,90:00:00,A,9,1,1,\n";
    let most = "X,60:00:00,59:00:00,S,9,3,,\nX,,60:00:00,S,9,,2,1\n";
    files[4] = format!("{HEADER}{late}{most}X,,,A,10,2,2,\n").into_bytes();
    files[5].extend(b"W,20240704,1\n");
    exact("every rule of stop_times".to_string(), files)
}

/// Starting places on the lines of stop_times before, among and behind the rules, and around its lines; lists with little room.
fn pages() -> Vec<Case> {
    let rules = [i32::MIN, 0, 20, 21, 28, 29, 31, 32, 59, 60, 61, 62, 63, i32::MAX];
    let mut starts: Vec<[i32; 3]> = (2..=6).flat_map(|line| rules.map(|rule| [5, line, rule])).collect();
    starts.extend([4, 5, 6].into_iter().flat_map(|file| [-1, 0, 1, 3, 7, i32::MAX].map(|line| [file, line, 61])));
    starts.extend([[0, 0, 0], [0, 5, 62], [7, 0, 0], [i32::MAX; 3], [i32::MIN; 3]]);
    let mut cases = Vec::new();
    for start in starts {
        for room in [0, 2, 3, 5, 6, 10, 100] {
            let name = format!("from {start:?}, a list of {room} numbers");
            cases.push(Case { name, list: vec![-9; room], start, ..broken() });
        }
    }
    cases
}

/// Columns that only stop_times knows, in other files: unread, whatever stands there.
fn in_other_files() -> Vec<Case> {
    let with = |file: usize| {
        let mut files = base();
        let mut lines = BASE[file].lines();
        let header = format!("{},arrival_time,departure_time,pickup_type\n", lines.next().unwrap_or_default());
        files[file] = (header + &lines.map(|line| format!("{line},,48:00:00,2\n")).collect::<String>()).into_bytes();
        exact(format!("columns of stop_times in file {}", file + 1), files)
    };
    (0..FILES).filter(|&file| file != 4).map(with).collect()
}

/// Odd files in every place: refused as without the profile, and tables filled as without it.
fn odd() -> Vec<Case> {
    let odd = |file: usize| odd_files(BASE[file].as_bytes()).into_iter().flat_map(move |odd| with_file(file, odd));
    (0..FILES).flat_map(odd).map(|case| asking(&case)).collect()
}

/// Every case about the profile.
pub fn cases() -> Vec<Case> {
    let tried = [times(), choices(), small_files(), pages(), in_other_files()].concat();
    [both(tried), odd()].concat()
}
