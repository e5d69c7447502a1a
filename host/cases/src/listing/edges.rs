//! Feeds whose files and headers hide something of their lines, or nothing; every rule and every two of them on a line; pages of every length.

use super::{Case, NUMBERS};
use crate::edges::{base, odd_files, BASE, MARK};
use crate::limits::{MOST_BYTES, MOST_LINES};
use crate::nodes;
use model::faults::{faults, Fault};
use model::fields::line_ends;
use model::{Files, FILES};

/// What a line below the header can break alone, and what a header can.
pub const OF_LINES: [usize; 8] = [5, 14, 6, 7, 10, 11, 12, 13];
pub const OF_HEADERS: [usize; 6] = [5, 14, 6, 7, 8, 9];

/// The places of three fields on a line of each file: an id, one that is needed, and one that has a form.
pub const PLACES: [[usize; 3]; FILES] = [[0, 1, 2], [0, 1, 1], [0, 1, 2], [0, 1, 3], [0, 3, 1], [0, 1, 2]];

/// The fields of a line of a file of the base feed; 0 is the header.
fn fields(file: usize, line: usize) -> Vec<Vec<u8>> {
    let line = BASE[file].lines().nth(line).expect("a line of the base feed");
    line.split(',').map(|field| field.as_bytes().to_vec()).collect()
}

/// Fields as a line that breaks these of rules 5, 14, 6, 7 and 10 by what is put behind them.
fn with_ends(fields: &[Vec<u8>], numbers: &[usize]) -> Vec<u8> {
    let ends: [(usize, &[u8]); 5] = [(10, b",x"), (7, &[b','; 32]), (6, b"a\""), (14, b"\xFF"), (5, b"\t")];
    let broken = ends.iter().filter(|(number, _)| numbers.contains(number));
    broken.fold(fields.join(&b","[..]), |line, (_, end)| [&line, *end].concat())
}

/// A line of a file that breaks these rules and no others; it has no ending.
pub fn line(file: usize, numbers: &[usize]) -> Vec<u8> {
    let mut fields = fields(file, 1);
    let values: [Vec<u8>; 3] = [vec![b'i'; 65], Vec::new(), b"!".to_vec()];
    for ((number, value), place) in (11..).zip(values).zip(PLACES[file]) {
        if numbers.contains(&number) {
            fields[place] = value;
        }
    }
    with_ends(&fields, numbers)
}

/// A header of a file that breaks these rules and no others; it has no ending.
pub fn header(file: usize, numbers: &[usize]) -> Vec<u8> {
    let mut names = fields(file, 0);
    if numbers.contains(&8) {
        names.push(names[1].clone());
    }
    if numbers.contains(&9) {
        names[0] = b"gone".to_vec();
    }
    with_ends(&names, numbers)
}

/// Lines as a file, each with this ending.
pub fn ended(lines: &[Vec<u8>], ending: &[u8]) -> Vec<u8> {
    lines.iter().flat_map(|line| [line, ending].concat()).collect()
}

/// A header, a good line, a line for each rule that a line can break, and a good line.
fn all_lines(file: usize, header: Vec<u8>) -> Vec<Vec<u8>> {
    let broken = OF_LINES.map(|number| line(file, &[number]));
    [&[header, line(file, &[])][..], &broken, &[line(file, &[])]].concat()
}

/// The base feed with some files in other words.
pub fn feed(changes: &[(usize, &[u8])]) -> Files {
    let mut files = base();
    changes.iter().for_each(|(file, bytes)| files[*file] = bytes.to_vec());
    files
}

/// The whole list of a feed, which has room for fifty faults.
fn whole(name: String, files: Files) -> Case {
    Case { name, files, list: vec![-9; 50 * NUMBERS + 3], start: [0, 0, 0] }
}

/// The whole list of the base feed with another file.
fn with_file(file: usize, bytes: Vec<u8>) -> Case {
    let shown = bytes[..bytes.len().min(300)].escape_ascii();
    whole(format!("file {}: {shown}", file + 1), feed(&[(file, &bytes)]))
}

/// Every two of some rules, each of them alone, none and all.
fn sets(numbers: &[usize]) -> Vec<Vec<usize>> {
    let pairs =
        numbers.iter().flat_map(|one| numbers.iter().filter(move |other| one < other).map(|other| vec![*one, *other]));
    let alone = numbers.iter().map(|one| vec![*one]);
    pairs.chain(alone).chain([Vec::new(), numbers.to_vec()]).collect()
}

/// Headers of every kind over lines of every kind, with either ending, and the last one unended.
fn under_headers(file: usize) -> Vec<Case> {
    let mut cases = Vec::new();
    for numbers in sets(&OF_HEADERS) {
        let lines = all_lines(file, header(file, &numbers));
        let whole = ended(&lines, b"\n");
        cases.push(with_file(file, whole[..whole.len() - 1].to_vec()));
        cases.push(with_file(file, [MARK, &whole].concat()));
        cases.push(with_file(file, ended(&lines, b"\r\n")));
    }
    cases
}

/// Every two rules on one line, below a good header and below a refused one.
fn on_one_line(file: usize) -> Vec<Case> {
    let lines: Vec<Vec<u8>> = sets(&OF_LINES).iter().map(|numbers| line(file, numbers)).collect();
    let below = |numbers: &[usize]| with_file(file, ended(&[&[header(file, numbers)], &lines[..]].concat(), b"\n"));
    let headers: [&[usize]; 7] = [&[], &[5], &[14], &[6], &[7], &[8], &[9]];
    headers.map(below).to_vec()
}

/// The last line without its ending: good, with a fault, with a CR, of no field; the header as the last line; nothing but a mark.
fn at_the_end(file: usize) -> Vec<Case> {
    let good = [header(file, &[]), line(file, &[])];
    let mut last: Vec<Vec<u8>> = sets(&OF_LINES).iter().map(|numbers| line(file, numbers)).collect();
    last.extend([&b"\r"[..], b"x", MARK, b"\t", b"\xC3", b"\""].map(<[u8]>::to_vec));
    last.extend([&b"\r"[..], b"\r\r", b",\r"].map(|end| [&good[1], end].concat()));
    let mut files: Vec<Vec<u8>> = Vec::new();
    for numbers in [&[][..], &[9], &[6]] {
        let above = ended(&[header(file, numbers), good[1].clone()], b"\n");
        files.extend(last.iter().map(|last| [&above[..], last].concat()));
    }
    for numbers in sets(&OF_HEADERS) {
        let alone = header(file, &numbers);
        files.extend([&b""[..], b"\r", b"\n", b"\r\n", b"\n\n", b"\n\r"].map(|end| [&alone, end].concat()));
        files.push([MARK, &alone].concat());
    }
    files.extend(odd_files(BASE[file].as_bytes()));
    files.into_iter().map(|bytes| with_file(file, bytes)).collect()
}

/// calendar and calendar_dates in every state beside each other.
fn of_services() -> Vec<Case> {
    let states = |file: usize| {
        let [head, good, bad] = [header(file, &[]), line(file, &[]), line(file, &[13])];
        let unended = |last: &[u8]| [&head, &b"\n"[..], last].concat();
        let lone = [&b""[..], MARK, b"x", b"\n"].map(<[u8]>::to_vec);
        [&lone[..], &[head.clone(), unended(b""), unended(&good), unended(&bad)]].concat()
    };
    let dates = states(5);
    let beside =
        |calendar: Vec<u8>| dates.iter().map(move |dates| feed(&[(2, &calendar), (5, dates)])).collect::<Vec<_>>();
    let feeds: Vec<Files> = states(2).into_iter().flat_map(beside).collect();
    feeds.into_iter().map(|files| whole("files 3 and 6".to_string(), files)).collect()
}

/// A feed with several faults in every file: none is too large, files 2 and 6 have refused headers, files 4 and 6 no end.
pub fn several() -> Files {
    let lines = |file: usize, head: &[usize], numbers: &[usize]| {
        let broken = numbers.iter().flat_map(|number| [line(file, &[*number]), line(file, &[])]);
        ended(&[header(file, head)].into_iter().chain(broken).collect::<Vec<_>>(), b"\n")
    };
    let mut files = [
        lines(0, &[], &[13, 12, 5]),
        lines(1, &[9], &[13, 6, 10, 7]),
        lines(2, &[], &[14, 11]),
        lines(3, &[], &[10, 6]),
        lines(4, &[], &[7, 13, 13, 12]),
        lines(5, &[8, 9], &[5, 11]),
    ];
    files[3].pop();
    files[5].pop();
    files
}

/// Every two files with faults, and faults in all files.
fn in_files() -> Vec<Case> {
    let broken: [Vec<u8>; FILES] = std::array::from_fn(|file| ended(&all_lines(file, header(file, &[])), b"\n"));
    let pairs = (0..FILES).flat_map(|one| (one + 1..FILES).map(move |other| [one, other]));
    let mut feeds: Vec<Files> = pairs.map(|pair| feed(&pair.map(|file| (file, &broken[file][..])))).collect();
    feeds.extend([broken, several(), base(), Files::default()]);
    feeds.into_iter().map(|files| whole("several files".to_string(), files)).collect()
}

/// Places around a fault: itself, and one number more or less, or the least or the greatest, in each of its three.
fn around(fault: &Fault) -> Vec<[i32; 3]> {
    let own = [fault[0], fault[1], fault[2]];
    let mut places = vec![own];
    for place in 0..3 {
        let others = [own[place] - 1, own[place] + 1, -1, 0, i32::MIN, i32::MAX];
        places.extend(others.map(|number| std::array::from_fn(|at| if at == place { number } else { own[at] })));
    }
    places
}

/// Lists of every length from the beginning, and short ones from every place around a fault.
fn pages() -> Vec<Case> {
    let files = several();
    let all = faults(&files);
    let page =
        |length: usize, start| Case { name: "a page".to_string(), files: files.clone(), list: vec![-9; length], start };
    let mut cases: Vec<Case> = (0..all.len() * NUMBERS + 6).map(|length| page(length, [0, 0, 0])).collect();
    cases.extend(all.iter().flat_map(around).map(|start| page(3 * NUMBERS + 1, start)));
    let corners = [i32::MIN, -1, 0, 1, 7, i32::MAX].map(|number| page(90, [number; 3]));
    cases.extend(corners);
    cases
}

/// How many calls are over the limits, and how many at them or over them.
pub const OVER_THE_LIMITS: usize = 7;
pub const AT_THE_LIMITS: usize = 11;

/// A file over the limit of rule 1 or 2, or then at it, with faults on its lines, ended or not, beside one with a fault of its own. Each is
/// made when it is asked for: some take much memory.
pub fn at_the_limits(file: usize, number: usize) -> Case {
    let lines = ended(&all_lines(file, header(file, &[])), b"\n");
    let (ends, bytes) = (MOST_LINES - line_ends(&lines), MOST_BYTES - lines.len());
    let filled = |byte: u8, count: usize, end: &[u8]| [&lines[..], &vec![byte; count], end].concat();
    let large = match number {
        0 => filled(b'\n', ends + 1, b""),
        1 => filled(b'\n', ends + 1, b"\t"),
        2 => filled(b'x', bytes, b"\n"),
        3 => filled(b'x', bytes, b"\t"),
        4..=6 => filled(b'\n', bytes, b"\t"),
        7 => filled(b'\n', ends, b""),
        8 | 9 => filled(b'\n', ends, b"\t"),
        _ => filled(b'x', bytes - 1, b"\t"),
    };
    let start = match number {
        // Of several faults of the whole file those behind the first, and behind the second.
        5 | 6 => [file as i32 + 1, 0, number as i32 - 4],
        // The last lines of a file with as many as there may be.
        9 => [file as i32 + 1, MOST_LINES as i32 - 6, 14],
        _ => [0; 3],
    };
    let mut case = Case { start, ..with_file(file, large) };
    case.files[(file + 1) % FILES].extend(b"\t\n");
    case
}

/// Stops of every type on which values are empty or malformed; the list has room for all of them.
fn of_nodes() -> Vec<Case> {
    let file = |file: String| Case { list: vec![-9; 300 * NUMBERS], ..with_file(0, file.into_bytes()) };
    nodes::files().into_iter().map(file).collect()
}

/// Every small case.
pub fn cases() -> Vec<Case> {
    let each = |of: fn(usize) -> Vec<Case>| (0..FILES).flat_map(of).collect::<Vec<_>>();
    [each(under_headers), each(on_one_line), each(at_the_end), of_services(), of_nodes(), in_files(), pages()].concat()
}
