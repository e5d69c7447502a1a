//! Columns of refusals, each small way tried: every two fields of a line broken, broken fields beside rules without a column, names twice.

use crate::edges::{with_file, BASE};
use crate::Case;
use model::columns::COLUMNS;
use model::fields::value;
use model::reading::value_breaks;
use model::FILES;

/// A column of a file: its name, and its field on a good line.
type Column = [Vec<u8>; 2];

/// For each file a column that only another one knows.
const ELSEWHERE: [&str; FILES] =
    ["direction_id", "direction_id", "direction_id", "timepoint", "direction_id", "direction_id"];

/// The columns of a file of the base feed, with two that nobody reads before and among them: in document 01's order, and backward in quotes.
fn orders(file: usize) -> [Vec<Column>; 2] {
    let mut lines = BASE[file].lines().map(|line| line.split(','));
    let (names, fields) = (lines.next().expect("a header"), lines.next().expect("a line"));
    let mut columns: Vec<Column> = names.zip(fields).map(|column| [column.0, column.1].map(Into::into)).collect();
    let quoted = |field: &Vec<u8>| [b"\"", &field[..], b"\""].concat();
    let mut backward: Vec<Column> = columns.iter().rev().map(|column| column.each_ref().map(quoted)).collect();
    for columns in [&mut columns, &mut backward] {
        columns.insert(1, [ELSEWHERE[file], "\"a,b\""].map(Into::into));
        columns.insert(0, ["\"n,ö\"", "駅"].map(Into::into));
    }
    [columns, backward]
}

/// The base feed with a file of these columns, its good line, and the same line with other fields at some places; then with a short table.
fn with_fields(file: usize, columns: &[Column], others: &[(usize, &[u8])]) -> Vec<Case> {
    let line = |of: usize| columns.iter().map(|column| column[of].clone()).collect::<Vec<_>>();
    let mut broken = line(1);
    others.iter().for_each(|(place, field)| broken[*place] = field.to_vec());
    let lines = [line(0), line(1), broken].map(|fields| [fields.join(&b","[..]), b"\n".to_vec()].concat());
    with_file(file, lines.concat())
}

/// Every two of so many places.
fn pairs(count: usize) -> impl Iterator<Item = [usize; 2]> {
    (0..count).flat_map(move |first| (first + 1..count).map(move |second| [first, second]))
}

/// Does this field break a rule under a column of this name, and none but 11 if it is long?
fn breaks(file: usize, name: &[u8], field: &[u8]) -> bool {
    let column = COLUMNS[file].iter().find(|column| column.name.as_bytes() == value(name));
    let rules = if field.len() > 64 { 11..=11 } else { 12..=13 };
    column.is_some_and(|column| rules.into_iter().any(|rule| value_breaks(rule, column, field)))
}

/// Every two fields of a line: at the right one that breaks rule 11, 12 or 13, at the left one that may break it too, or only seems to.
fn two_fields() -> Vec<Case> {
    let (long, wide) = ("i".repeat(65), "ä".repeat(33));
    let right: [&[u8]; 3] = [long.as_bytes(), b"", b"x"];
    let left: [&[u8]; 4] = [wide.as_bytes(), &[b"\"", &right[0][1..], b"\""].concat(), b"\"\"", b"x"];
    let mut cases = Vec::new();
    for (file, columns) in (0..FILES).flat_map(|file| orders(file).map(|columns| (file, columns))) {
        for [first, second] in pairs(columns.len()) {
            let broken = right.iter().filter(|field| breaks(file, &columns[second][0], field));
            let both = broken.flat_map(|field| left.map(|other| [(first, other), (second, *field)]));
            cases.extend(both.map(|fields| with_fields(file, &columns, &fields).swap_remove(0)));
        }
    }
    cases
}

/// Bytes at the end of a line by which it breaks rule 5, 14, 6, 7 or 10.
const ENDS: [&[u8]; 8] = [b"\t", b"\r", b"\xFF", b"a\"b", b"\"", &[b','; 32], b",", b"\n"];

/// A line whose every field is of no form and which breaks another rule too.
fn beside_others() -> Vec<Case> {
    let mut cases = Vec::new();
    for (file, columns) in (0..FILES).flat_map(|file| orders(file).map(|columns| (file, columns))) {
        for end in ENDS {
            let mut fields: Vec<(usize, &[u8])> = (0..columns.len()).map(|place| (place, &b"x"[..])).collect();
            fields[columns.len() - 1].1 = end;
            cases.extend(with_fields(file, &columns, &fields));
        }
    }
    cases
}

/// The base feed with a file of these names and no line.
fn with_names(file: usize, names: &[&str]) -> Case {
    with_file(file, format!("{}\n", names.join(",")).into_bytes()).swap_remove(0)
}

const ROUTE_NAMES: [&str; 4] = ["route_id", "\"route_id\"", "route_type", "Route_id"];

/// Every header of routes.txt of so many of these names.
fn short_headers(count: usize) -> Vec<Vec<&'static str>> {
    let mut headers: Vec<Vec<&str>> = vec![Vec::new()];
    for _ in 0..count {
        let longer = |names: &Vec<&'static str>| ROUTE_NAMES.map(|name| [&names[..], &[name]].concat());
        headers = headers.iter().flat_map(longer).collect();
    }
    headers
}

/// Every header with two more names, each of its own, before it and behind it; a name that only another file knows stands twice left of all.
fn longer_headers() -> Vec<Case> {
    let mut cases = Vec::new();
    for (file, base) in BASE.iter().enumerate() {
        let names: Vec<&str> = base.lines().next().expect("a header").split(',').collect();
        for more in names.iter().flat_map(|one| names.iter().map(move |other| [*one, *other])) {
            cases.push(with_names(file, &[&[ELSEWHERE[file]; 2], &more[..], &names].concat()));
            cases.push(with_names(file, &[&[ELSEWHERE[file]; 2], &names[..], &more].concat()));
        }
    }
    cases
}

/// Every case about columns.
pub fn cases() -> Vec<Case> {
    let short = (1..=4).flat_map(short_headers).map(|names| with_names(1, &names)).collect();
    [two_fields(), beside_others(), short, longer_headers()].concat()
}
