//! Well-formed UTF-8 at its edges: both sides of every row of the standard's table, cut and broken characters, rule 14 beside every other.

use crate::edges::{base, exact, with_file, BASE};
use crate::Case;
use model::FILES;

/// Table 3-7 of the Unicode standard: for each kind of character the first and the last byte that may stand at each place.
pub const TABLE: [&[[u8; 2]]; 9] = [
    &[[0x00, 0x7F]],
    &[[0xC2, 0xDF], [0x80, 0xBF]],
    &[[0xE0, 0xE0], [0xA0, 0xBF], [0x80, 0xBF]],
    &[[0xE1, 0xEC], [0x80, 0xBF], [0x80, 0xBF]],
    &[[0xED, 0xED], [0x80, 0x9F], [0x80, 0xBF]],
    &[[0xEE, 0xEF], [0x80, 0xBF], [0x80, 0xBF]],
    &[[0xF0, 0xF0], [0x90, 0xBF], [0x80, 0xBF], [0x80, 0xBF]],
    &[[0xF1, 0xF3], [0x80, 0xBF], [0x80, 0xBF], [0x80, 0xBF]],
    &[[0xF4, 0xF4], [0x80, 0x8F], [0x80, 0xBF], [0x80, 0xBF]],
];

/// Ill-formed, each in its way: a byte that no character has, one that only goes on, cut characters, overlong forms, surrogates, too high.
pub const ILL_FORMED: [&[u8]; 13] = [
    b"\xFF",
    b"\x80",
    b"\xC3",
    b"\xE2\x82",
    b"\xF0\x9F\x9A",
    b"\xC0\x80",
    b"\xE0\x9F\xBF",
    b"\xF0\x8F\xBF\xBF",
    b"\xED\xA0\x80",
    b"\xED\xA0\x80\xED\xB0\x80",
    b"\xF4\x90\x80\x80",
    b"\xF5\x80\x80\x80",
    b"\xF8\x88\x80\x80\x80",
];

/// Each kind of character twice: of the first bytes that it may have, and of the last ones.
fn characters() -> Vec<(&'static [[u8; 2]], Vec<u8>)> {
    let with = |end: usize| TABLE.map(|row| (row, row.iter().map(|ends| ends[end]).collect()));
    [with(0), with(1)].concat()
}

/// These characters, and with the byte at one place at an end of its range, one below it or one above it.
fn at_the_edges() -> Vec<Vec<u8>> {
    let mut texts = Vec::new();
    for (row, character) in characters() {
        for (place, [first, last]) in row.iter().enumerate() {
            for byte in [first.wrapping_sub(1), *first, *last, last.wrapping_add(1)] {
                texts.push(character.clone());
                texts.last_mut().expect("just pushed")[place] = byte;
            }
        }
    }
    texts.sort();
    texts.dedup();
    texts
}

/// These characters in two pieces: where each can be cut.
fn in_two() -> Vec<[Vec<u8>; 2]> {
    let pieces = |(_, character): &(_, Vec<u8>)| {
        let cut = |place| [&character[..place], &character[place..]].map(<[u8]>::to_vec);
        (1..character.len()).map(cut).collect::<Vec<_>>()
    };
    characters().iter().flat_map(pieces).collect()
}

/// Where a text may stand in routes.txt, at @: in names, ids and unread columns, bare and quoted, at ends of fields and lines, in the header.
const PLACES: [&str; 13] = [
    "route_id,route_type,route_short_name,note\nR,3,a@b,\n",
    "route_id,route_type,route_short_name,note\nR,3,@,\n",
    "route_id,route_type,route_short_name,note\nR,3,\"@\",\n",
    "route_id,route_type,route_short_name,note\nR,3,\"\"\"@\"\"\",\n",
    "route_id,route_type,route_short_name,note\nR,3,7,@\n",
    "route_id,route_type,route_short_name,note\nR,3,7,@\r\nR,3,7,\n",
    "route_id,route_type,route_short_name,note\nR,3,7,\"a,@\"\n",
    "route_id,route_type,route_short_name,note\n@,3,7,\n",
    "route_id,route_type,route_short_name,note\nR,3@,7,\n",
    "route_id,route_type,route_short_name,@\nR,3,7,\n",
    "route_id,route_type,route_short_name,@\r\nR,3,7,\n",
    "@route_id,route_type,route_short_name,note\nR,3,7,\n",
    "\u{feff}@route_id,route_type,route_short_name,note\nR,3,7,\n",
];

/// The base feed with a text in routes.txt.
fn at(place: &str, text: &[u8]) -> Case {
    let (before, after) = place.split_once('@').expect("a place has its @");
    with_file(1, [before.as_bytes(), text, after.as_bytes()].concat()).swap_remove(0)
}

/// Bytes between the two pieces of a character: none, and those that end a field, a line or a quoted part.
const BETWEEN: [&[u8]; 7] = [b"", b",", b"\"", b"\"\"", b"\n", b"\r\n", b"\r"];

/// The mark and what looks like it, and longer forms.
const MORE: [&[u8]; 8] = [
    b"\xEF\xBB\xBF",
    b"\xEF\xBB\xBF\xEF\xBB\xBF",
    b"\xEF\xBB\xBF\xEF\xBB",
    b"\xEF\xBB\xBF\xBF",
    b"\xFE\xFF",
    b"\xFF\xFE",
    b"\xF7\xBF\xBF\xBF",
    b"\xFC\x84\x80\x80\x80\x80",
];

/// Every text in every place: at the edges of the table, cut short, broken in two, and more.
fn of_the_table() -> Vec<Case> {
    let mut texts = at_the_edges();
    for [first, second] in in_two() {
        texts.extend(BETWEEN.map(|between| [&first, between, &second].concat()));
        texts.extend([first, second]);
    }
    texts.extend(ILL_FORMED.iter().chain(&MORE).map(|text| text.to_vec()));
    PLACES.iter().flat_map(|place| texts.iter().map(|text| at(place, text))).collect()
}

/// A line of routes.txt with what stands in the unread columns at its two ends.
fn line(before: &[u8], fields: &str, after: &[u8]) -> Vec<u8> {
    [before, b",", fields.as_bytes(), b",", after, b"\n"].concat()
}

const NAMES: &str = "route_id,route_type,route_short_name";
const ROUTE: &str = "R,3,7";

/// Headers that break rules 5 to 9.
fn bad_headers() -> [String; 5] {
    let many = format!("{NAMES}{}", ",".repeat(40));
    ["route_id,route_type,\t".into(), "route_id,\"route_type\"s".into(), many, "route_id,route_id".into(), "R".into()]
}

/// Record lines that break rules 5 to 7 and 10 to 13.
fn bad_lines() -> [String; 8] {
    let (many, long) = (format!("R,3{}", ",".repeat(40)), format!("{},3,7", "i".repeat(65)));
    ["R,3,\t".into(), "R,3,\r".into(), "R,3,a\"b".into(), many, "R,3".into(), long, "R,,7".into(), "R,99,7".into()]
}

/// Rule 14 and another rule: on one line, either of them first, and on two lines, either of them first.
fn beside_others() -> Vec<Case> {
    let mut files = Vec::new();
    for ill in ILL_FORMED {
        for names in bad_headers() {
            files.extend([line(ill, &names, b""), line(b"", &names, ill)]);
            files.push([line(b"", &names, b""), line(b"", ROUTE, ill)].concat());
        }
        for fields in bad_lines() {
            let rest = [
                line(ill, &fields, b""),
                line(b"", &fields, ill),
                [line(ill, ROUTE, b""), line(b"", &fields, b"")].concat(),
                [line(b"", &fields, b""), line(b"", ROUTE, ill)].concat(),
            ];
            files.extend(rest.map(|rest| [line(b"", NAMES, b""), rest].concat()));
            files.push([line(b"", NAMES, ill), line(b"", &fields, b"")].concat());
        }
    }
    files.into_iter().flat_map(|file| with_file(1, file)).collect()
}

/// A file of the base feed with a further, unread column: a text in it on one line (0 is the header).
fn with_unread(file: usize, at: usize, text: &[u8]) -> Case {
    let unread = |place: usize| if place == at { text } else { b"" };
    let lines = BASE[file].lines().enumerate();
    let bytes = lines.flat_map(|(place, line)| [line.as_bytes(), b",", unread(place), b"\n"].concat()).collect();
    with_file(file, bytes).swap_remove(0)
}

/// Rule 14 in every file, in a column that nobody reads; and in one file beside another that can't be read either.
fn in_every_file() -> Vec<Case> {
    let mut cases = Vec::new();
    for file in 0..FILES {
        for line in 0..BASE[file].lines().count() {
            cases.extend(ILL_FORMED.map(|ill| with_unread(file, line, ill)));
            cases.extend(["ä", "駅", "🚏", "\"\u{feff}\""].map(|good| with_unread(file, line, good.as_bytes())));
        }
        for other in (0..FILES).filter(|&other| other != file) {
            let ways: [&[u8]; 4] = [b"x", b"\t\n", b"\n", b"\xC3\n"];
            cases.extend(ways.map(|way| with_two(file, other, way)));
        }
    }
    cases
}

/// The base feed with an ill-formed file and another that can't be read.
fn with_two(ill: usize, other: usize, bytes: &[u8]) -> Case {
    let mut files = base();
    files[ill] = b"\xFF\n".to_vec();
    files[other] = bytes.to_vec();
    exact(format!("file {} is ill-formed, file {}: {}", ill + 1, other + 1, bytes.escape_ascii()), files)
}

/// Every case about rule 14.
pub fn cases() -> Vec<Case> {
    [of_the_table(), beside_others(), in_every_file()].concat()
}
