//! Edge cases, each tried everywhere: every raw field under every known column, every odd file in every place, every small order of lines,
//! every state of calendar and calendar_dates, every two files that can't be read; and all that is about characters, columns, nodes and boards.

use crate::{boards, characters, columns, large, nodes, orders, services, Case};
use model::columns::COLUMNS;
use model::{Files, FILES};

/// A feed without findings that has every known column, in document 01's order; nothing in it is quoted.
pub const BASE: [&str; FILES] = [
    "stop_id,stop_name,stop_lat,stop_lon,location_type,parent_station\n\
     S,Station,1.5,2,1,\nA,Alder,1.5,2,0,S\nB,Birch,1.6,2,,\n",
    "route_id,route_type,route_short_name,route_long_name\nR,3,7,Seven\n",
    "service_id,monday,tuesday,wednesday,thursday,friday,saturday,sunday,start_date,end_date\n\
     W,1,1,1,1,1,0,0,20240101,20241231\n",
    "route_id,service_id,trip_id,direction_id,wheelchair_accessible,bikes_allowed\nR,W,T,0,1,2\n",
    "trip_id,arrival_time,departure_time,stop_id,stop_sequence,pickup_type,drop_off_type,timepoint\n\
     T,08:00:00,08:00:00,A,1,0,0,1\nT,08:05:00,08:06:00,B,2,3,0,\n",
    "service_id,date,exception_type\nW,20240704,2\nX,20241224,1\n",
];

/// Raw fields at the edge of some form or of the quoting rule; good ones and bad ones.
const RAW: &[&str] = &[
    // Times.
    "8:10:00",
    "08:10:00",
    "25:55:00",
    "24:00:00",
    "99:59:59",
    "0:00:00",
    "00:00:00",
    "10:5:00",
    "9:60:00",
    "9:00:60",
    "100:00:00",
    "8:00",
    "8:00:00:",
    "-1:00:00",
    ":00:00",
    "8 :00:00",
    "08:00:0",
    "08:00:000",
    "080000",
    "08.00.00",
    // Dates.
    "20240229",
    "20230229",
    "19000229",
    "20000229",
    "21000229",
    "00010101",
    "00000101",
    "00000229",
    "99991231",
    "20240431",
    "20240430",
    "20241301",
    "20240001",
    "20240100",
    "20240132",
    "2024010",
    "202401011",
    "2024O101",
    // Coordinates.
    "90",
    "-90",
    "90.0",
    "90.00000001",
    "-90.00000001",
    "90.00000000000000000000",
    "90.00000000000000000001",
    "89.99999999999999999999",
    "90.000000000000000000000",
    "-33.86749999",
    "180",
    "-180",
    "180.00000000000000000001",
    "181",
    "-999",
    "999",
    "1000",
    "-0",
    "-0.00000009",
    "0.0000001",
    "007",
    "0007",
    ".5",
    "5.",
    "+5",
    "-",
    "--1",
    "-.5",
    "1e1",
    "1.5.",
    "1,5",
    "-179.99999999999999999999",
    "1.23456789",
    // Sequences and choices.
    "0",
    "1",
    "2",
    "3",
    "4",
    "5",
    "6",
    "7",
    "8",
    "9",
    "10",
    "11",
    "12",
    "13",
    "01",
    "001",
    " 1",
    "1 ",
    "-1",
    "000000000",
    "999999999",
    "1000000000",
    "0000000001",
    "1.0",
    "0x1",
    "111",
    // Quoting.
    "\"\"",
    "\"",
    "\"\"\"",
    "\"\"\"\"",
    "\"a\"\"b\"",
    "a\"b",
    "\"a\"b",
    "\"a\" ",
    " \"a\"",
    "\"A\"",
    "\"1\"",
    "\"0\"\"\"",
    "\"8:10:00\"",
    "\"20240229\"",
    "\"a,b\"",
    "\"a\tb\"",
    "\"a\rb\"",
    "\"a\r",
    "\r\"",
    "\"a\nb\"",
    // Texts.
    "",
    " ",
    "A",
    "a",
    "A ",
    "S",
    "B",
    "R",
    "W",
    "T",
    "nowhere",
    "\t",
    "\r",
    "\0",
    "\u{b}",
    "ä",
    "\u{feff}",
    ",",
];

/// Longer raw fields: around 64 bytes of value, bare, quoted, with doubled marks, and of letters of two bytes.
fn long_raw() -> Vec<Vec<u8>> {
    let mut raw = Vec::new();
    for length in [63, 64, 65] {
        raw.push(vec![b'x'; length]);
        raw.push([&b"\""[..], &vec![b'x'; length], b"\""].concat());
        raw.push([&b"\""[..], &vec![b'"'; length * 2], b"\""].concat());
        raw.push("ä".repeat(length).into_bytes());
    }
    raw.push(vec![b','; 30]);
    raw.push(vec![b','; 31]);
    raw.push(vec![b'1'; 70]);
    raw
}

/// The three bytes that may stand at the start of a file.
pub const MARK: &[u8] = b"\xEF\xBB\xBF";

/// Files that are odd as a whole.
const ODD: [&[u8]; 13] = [
    b"",
    b"\n",
    b"\r\n",
    b"\r",
    b"x",
    MARK,
    b"\xEF\xBB\xBF\n",
    b"\xEF\xBB\xBF\r\n",
    b"\n\n",
    b"\"\n",
    b"\"\r\n",
    b"\t\n",
    b",\n",
];

/// Odd files, and files made odd from a good one.
pub fn odd_files(good: &[u8]) -> Vec<Vec<u8>> {
    let body = &good[..good.len() - 1];
    let header = good.iter().position(|&byte| byte == b'\n').map_or(0, |place| place + 1);
    let mut files: Vec<Vec<u8>> = ODD.map(<[u8]>::to_vec).to_vec();
    let endings: [&[u8]; 5] = [b"\r\n", b"\r\r\n", b" \n", b"\"\r\n", b"\n\n"];
    files.extend(endings.map(|ending| with_endings(good, ending)));
    let before: [&[u8]; 3] = [MARK, b"\xEF\xBB\xBF\xEF\xBB\xBF", b"\xEF\xBB"];
    files.extend(before.map(|before| [before, good].concat()));
    let after: [&[u8]; 5] = [MARK, b"\n", b"\r\n", good, &good[header..]];
    files.extend(after.map(|after| [good, after].concat()));
    let ends: [&[u8]; 4] = [b"", b"\r", b",\n", b"\t\n"];
    files.extend(ends.map(|end| [body, end].concat()));
    files.push(good[..header].to_vec());
    files
}

/// A file with another ending on every line.
fn with_endings(good: &[u8], ending: &[u8]) -> Vec<u8> {
    let lines = good.split_inclusive(|&byte| byte == b'\n');
    lines.flat_map(|line| [&line[..line.len() - 1], ending].concat()).collect()
}

/// Every edge case.
pub fn cases() -> Vec<Case> {
    let mut cases = Vec::new();
    let mut raw: Vec<Vec<u8>> = RAW.iter().map(|raw| raw.as_bytes().to_vec()).collect();
    raw.extend(long_raw());
    raw.extend(characters::ILL_FORMED.map(<[u8]>::to_vec));
    for file in 0..FILES {
        for odd in odd_files(BASE[file].as_bytes()) {
            cases.extend(with_file(file, odd));
        }
        for column in 0..COLUMNS[file].len() {
            for raw in &raw {
                cases.push(with_field(file, 1, column, raw));
                cases.push(with_field(file, usize::MAX, column, raw));
            }
            cases.extend(header_cases(file, column));
        }
    }
    // Boards look at stop_times.
    let of_stop_times = |case: &&Case| case.files[4] != BASE[4].as_bytes();
    let asking: Vec<Case> = cases.iter().filter(of_stop_times).map(boards::asking).collect();
    cases.extend(asking);
    cases.extend(orders::stop_times().into_iter().map(|file| with_file(4, file.into_bytes()).swap_remove(0)));
    cases.extend(of_services());
    cases.extend(characters::cases());
    cases.extend(columns::cases());
    cases.extend(nodes::cases());
    cases.extend(boards::cases());
    cases
}

/// Files 3 and 6 in every way, and which of two files that can't be read speaks.
pub fn of_services() -> Vec<Case> {
    let pairs = [services::pairs_of_states(), services::small_files()].concat();
    let mut cases: Vec<Case> = pairs.into_iter().map(with_services).collect();
    for first in 0..FILES {
        for second in (0..FILES).filter(|&second| second != first) {
            cases.push(with_two_refused(first, second));
        }
    }
    cases
}

/// The base feed with a tab in one file and no name in another.
fn with_two_refused(tab: usize, nameless: usize) -> Case {
    let mut files = base();
    files[tab] = b"\t\n".to_vec();
    files[nameless] = b"\n".to_vec();
    exact(format!("file {} has a tab, file {} no name", tab + 1, nameless + 1), files)
}

/// The base feed.
pub fn base() -> Files {
    BASE.map(|file| file.as_bytes().to_vec())
}

/// A feed with tables of the exact length; where none is asked for, one that must stay as lent.
pub fn exact(name: String, files: Files) -> Case {
    let mut tables = large::tables(&files, -7);
    tables.iter_mut().filter(|table| table.is_empty()).for_each(|table| table.extend([-7; 5]));
    Case { name, files, tables, list: vec![-9; 100], ..Case::default() }
}

/// The base feed with other files 3 and 6, and trips of services that stand in one of them, in both or in none.
fn with_services([calendar, dates]: [String; 2]) -> Case {
    let name = format!("files 3 and 6: {}, {}", calendar.escape_debug(), dates.escape_debug());
    let mut files = base();
    files[2] = calendar.into_bytes();
    files[3] = services::TRIPS.into();
    files[5] = dates.into_bytes();
    exact(name, files)
}

/// The base feed with another file, with tables of the exact length and with one that is short by a number.
pub fn with_file(file: usize, bytes: Vec<u8>) -> Vec<Case> {
    let mut files = base();
    files[file] = bytes;
    let exact = exact(format!("file {}: {}", file + 1, files[file].escape_ascii()), files);
    let mut short = exact.clone();
    short.name.push_str(", and a short table");
    short.tables[file].pop();
    vec![exact, short]
}

/// The base feed with another raw field on a line (0 is the header; past the end means the last line).
fn with_field(file: usize, line: usize, column: usize, raw: &[u8]) -> Case {
    let mut lines: Vec<Vec<Vec<u8>>> =
        BASE[file].lines().map(|line| line.split(',').map(|field| field.as_bytes().to_vec()).collect()).collect();
    let line = line.min(lines.len() - 1);
    lines[line][column] = raw.to_vec();
    let bytes = lines.iter().flat_map(|fields| [fields.join(&b","[..]), b"\n".to_vec()].concat()).collect();
    with_file(file, bytes).swap_remove(0)
}

/// A column's name written otherwise, gone, or in another column's place too.
fn header_cases(file: usize, column: usize) -> Vec<Case> {
    let name = COLUMNS[file][column].name;
    let other = (column + 1) % COLUMNS[file].len();
    let ways =
        [format!("\"{name}\""), format!("{name} "), name.to_ascii_uppercase(), String::new(), format!("\"{name}")];
    let mut cases: Vec<Case> = ways.iter().map(|way| with_field(file, 0, column, way.as_bytes())).collect();
    cases.push(with_field(file, 0, other, name.as_bytes()));
    cases.push(with_field(file, 0, other, format!("\"{name}\"").as_bytes()));
    cases.push(with_field(file, 0, column, format!("{name},{name}").as_bytes()));
    cases
}
