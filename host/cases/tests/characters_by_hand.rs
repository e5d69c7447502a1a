//! E6: the model against answers written by hand from document 02, the Unicode standard and readings A6, A8, A70 and A71.

mod common;

use cases::large::tables;
use common::{check, feed, findings, refusal, refused};
use model::{Answer, Profile};

const ROUTES: &[u8] = b"route_id,route_type,route_short_name,route_long_name\nR,3,7,Seven\n";

/// What the base feed gets with these bytes for a file.
fn with(file: usize, bytes: &[u8]) -> Answer {
    let mut files = feed(&[]);
    files[file - 1] = bytes.to_vec();
    check(&files, &mut tables(&files, 0)).0
}

/// What it gets with a third line in routes.txt.
fn with_line(line: &[u8]) -> Answer {
    with(2, &[ROUTES, line].concat())
}

/// What it gets with a third line whose short name this is.
fn with_name(name: &[u8]) -> Answer {
    with_line(&[b"Q,3,", name, b",\n"].concat())
}

/// Refused with this number, which names no column, on this line of routes.txt.
fn on(number: usize, line: usize) -> Answer {
    refusal([number, 2, line, 0])
}

/// Characters at both ends of every row of table 3-7, and their neighbours that another row allows.
#[test]
fn characters_are_good() {
    let good: [&[u8]; 27] = [
        b"\x00",
        b"\x7F",
        b"\xC2\x80",
        b"\xC2\xBF",
        b"\xDF\x80",
        b"\xDF\xBF",
        b"\xE0\xA0\x80",
        b"\xE0\xBF\xBF",
        b"\xE1\x80\x80",
        b"\xE1\xBF\xBF",
        b"\xEC\x80\x80",
        b"\xEC\xBF\xBF",
        b"\xED\x80\x80",
        b"\xED\x9F\xBF",
        b"\xEE\x80\x80",
        b"\xEF\xB7\x90",
        b"\xEF\xBF\xBE",
        b"\xEF\xBF\xBF",
        b"\xF0\x90\x80\x80",
        b"\xF0\xBF\xBF\xBF",
        b"\xF1\x80\x80\x80",
        b"\xF1\xBF\xBF\xBF",
        b"\xF3\x80\x80\x80",
        b"\xF3\xBF\xBF\xBF",
        b"\xF4\x80\x80\x80",
        b"\xF4\x8F\xBF\xBF",
        b"a\xC3\xA4\xE9\xA7\x85\xF0\x9F\x9A\x8Fz",
    ];
    for name in good {
        assert_eq!(with_name(name), Answer::Accepted, "{name:02X?}");
    }
}

/// Just outside of every row: what no row allows is 14.
#[test]
fn what_no_row_allows() {
    let bad: [&[u8]; 51] = [
        // Bytes that only go on, and bytes that no character has.
        b"\x80",
        b"\xBF",
        b"\xC3\xA4\xA4",
        b"\xE9\xA7\x85\x85",
        b"\xF0\x9F\x9A\x8F\x8F",
        b"\xC0",
        b"\xC1",
        b"\xF5",
        b"\xF8",
        b"\xFE",
        b"\xFF",
        // Two bytes.
        b"\xC0\x80",
        b"\xC0\xAF",
        b"\xC1\xBF",
        b"\xC2\x7F",
        b"\xC2\xC0",
        b"\xDF\x7F",
        b"\xDF\xC0",
        // Three bytes: overlong, surrogates, a byte that doesn't go on.
        b"\xE0\x80\x80",
        b"\xE0\x9F\xBF",
        b"\xE0\xC0\x80",
        b"\xE1\x7F\x80",
        b"\xE1\x80\x7F",
        b"\xE1\x80\xC0",
        b"\xEC\xC0\x80",
        b"\xED\x7F\x80",
        b"\xED\xA0\x80",
        b"\xED\xAF\xBF",
        b"\xED\xB0\x80",
        b"\xED\xBF\xBF",
        b"\xED\xA0\x80\xED\xB0\x80",
        b"\xEE\x7F\x80",
        b"\xEF\xBF\xC0",
        // Four bytes: overlong, above U+10FFFF, a byte that doesn't go on.
        b"\xF0\x80\x80\x80",
        b"\xF0\x8F\xBF\xBF",
        b"\xF0\xC0\x80\x80",
        b"\xF0\x90\x7F\x80",
        b"\xF0\x90\xC0\x80",
        b"\xF0\x90\x80\x7F",
        b"\xF0\x90\x80\xC0",
        b"\xF1\x7F\x80\x80",
        b"\xF3\xC0\x80\x80",
        b"\xF4\x7F\x80\x80",
        b"\xF4\x90\x80\x80",
        b"\xF4\xBF\xBF\xBF",
        b"\xF5\x80\x80\x80",
        b"\xF7\xBF\xBF\xBF",
        // Longer forms.
        b"\xF8\x88\x80\x80\x80",
        b"\xFB\xBF\xBF\xBF\xBF",
        b"\xFC\x84\x80\x80\x80\x80",
        b"\xFD\xBF\xBF\xBF\xBF\xBF",
    ];
    for name in bad {
        assert_eq!(with_name(name), on(14, 3), "{name:02X?}");
    }
}

/// A board crashed on half a character: every beginning of one, at the end of a field, of quotes, of a line and of a header.
#[test]
fn half_a_character() {
    let halves: [&[u8]; 6] = [b"\xC3", b"\xE9", b"\xE9\xA7", b"\xF0", b"\xF0\x9F", b"\xF0\x9F\x9A"];
    for half in halves {
        assert_eq!(with_name(half), on(14, 3), "{half:02X?}");
        for end in [&b"\n"[..], b"\r\n", b" \n", b"\r\nS,3,8,\n"] {
            assert_eq!(with_line(&[b"Q,3,7,", half, end].concat()), on(14, 3), "{half:02X?}");
        }
        assert_eq!(with_line(&[b"Q,3,7,\"", half, b"\"\n"].concat()), on(14, 3), "{half:02X?}");
        for end in [&b"\n"[..], b"\r\n"] {
            assert_eq!(with(2, &[b"route_id,route_type,", half, end].concat()), on(14, 1), "{half:02X?}");
        }
    }
}

/// A70: no character goes across a comma, a mark or a line's end; its second half is ill-formed too.
#[test]
fn a_character_in_two() {
    assert_eq!(with_line(b"Q,3,\xC3,\xA4\n"), on(14, 3));
    assert_eq!(with_line(b"Q,3,\"\xC3\"\"\xA4\",\n"), on(14, 3));
    assert_eq!(with_line(b"Q,3,7,\xC3\n\xA4,3,7,\n"), on(14, 3));
    assert_eq!(with_line(b"Q,3,7,\xE9\xA7\r\n\x85,3,7,\n"), on(14, 3));
    assert_eq!(with_line(b"Q,3,7,\n\xA4,3,7,\n"), on(14, 4));
    assert_eq!(with_line(b"Q,3,7,\xE9\r\xA7\x85\n"), on(5, 3));
}

/// A6, A8: the mark is dropped once and well-formed wherever it stands; a part of it isn't.
#[test]
fn the_mark() {
    let good = "route_id,route_type,route_short_name\nR,3,7\n";
    findings(&[(2, &format!("\u{feff}{good}"))], &[]);
    refused(&[(2, &format!("\u{feff}\u{feff}{good}"))], [9, 2, 1, 0]);
    findings(&[(2, "\u{feff}\u{feff}note,route_id,route_type,route_short_name\n,R,3,7\n")], &[]);
    findings(&[(2, &format!("{good}\u{feff}Q,3,Al\u{feff}der\n\"\u{feff}\",3,7\n"))], &[]);
    refused(&[(2, "\u{feff}\n")], [9, 2, 1, 0]);
    assert_eq!(with(2, b"\xEF\xBB\n"), on(14, 1));
    assert_eq!(with(2, b"\xEF\xBBroute_id,route_type\n"), on(14, 1));
    assert_eq!(with(2, b"\xEF\xBB\xBF\xEF\xBBroute_id,route_type\n"), on(14, 1));
    assert_eq!(with(2, b"\xEF\xBB\xBF\xBF,route_id,route_type\n"), on(14, 1));
    assert_eq!(with(2, b"\xBB\xBFroute_id,route_type\n"), on(14, 1));
    // Other marks than this one begin with bytes that no character has.
    assert_eq!(with(2, b"\xFE\xFFroute_id,route_type\n"), on(14, 1));
    assert_eq!(with(2, b"\xFF\xFEroute_id,route_type\n"), on(14, 1));
}

/// A70: all bytes of a line count, read or not, quoted or not, the header's too.
#[test]
fn the_whole_line_counts() {
    assert_eq!(with(2, b"route_id,route_type,route_short_name,no\xFFte\nR,3,7,\n"), on(14, 1));
    assert_eq!(with(2, b"route_id,route_type,route_short_name,\"\xFF\"\nR,3,7,\n"), on(14, 1));
    assert_eq!(with(2, b"route_id,route_type,route_short_name,note\nR,3,7,\xFF\n"), on(14, 2));
    assert_eq!(with(2, b"route_id,route_type,route_short_name,note\nR,3,7,\"a,\xFF\"\n"), on(14, 2));
    assert_eq!(with(2, b"\xC3,route_id,route_type,route_short_name\n,R,3,7\n"), on(14, 1));
    assert_eq!(with_line(b"\"Q\xC3\",3,7,\n"), on(14, 3));
    assert_eq!(with_line(b"Q,3\xC3,7,\n"), on(14, 3));
    // The same bytes, well-formed: unread, or not of their form.
    findings(&[(2, "route_id,route_type,route_short_name,\"nöte\"\nR,3,7,\"駅, 🚏\"\n")], &[]);
    assert_eq!(with_line("Q,3ä,7,\n".as_bytes()), refusal([13, 2, 3, 2]));
    // Each file is looked at.
    for file in 1..=6 {
        let bytes = [&feed(&[])[file - 1], &b"\xF0\x9F\x9A\n"[..]].concat();
        let line = bytes.iter().filter(|&&byte| byte == b'\n').count();
        assert_eq!(with(file, &bytes), refusal([14, file, line, 0]));
    }
}

/// A71: on a line 5 speaks before 14, and 14 before all others, wherever each stands.
#[test]
fn beside_other_rules() {
    for line in [&b"Q,3,\t\xFF,\n"[..], b"Q,3,\xFF\t,\n", b"Q,3,\xFF,\r\r\n", b"\xFF,\",\t\n", b"Q\r,3,\xC3\n"] {
        assert_eq!(with_line(line), on(5, 3), "{}", line.escape_ascii());
    }
    let long = [&[b'i'; 65][..], b",3,\xFF,\n"].concat();
    let many = [&[b','; 40][..], b"\xFF\n"].concat();
    let lines: [&[u8]; 12] = [
        b"Q,3,a\"b,\xFF\n",
        b"\xFF,3,a\"b,\n",
        b"Q,3,7,\"\xFF\n",
        b"Q,3,7,\"\xC3\r\n",
        b"Q,3,\"a\"\xFF,\n",
        &many,
        b"Q,3,\xFF\n",
        b"\xFF\n",
        &long,
        b",3,\xFF,\n",
        b"\xFF,,7,\n",
        b"Q,99,\xFF,\n",
    ];
    for line in lines {
        assert_eq!(with_line(line), on(14, 3), "{}", line.escape_ascii());
    }
    assert_eq!(with(2, b"route_id,route_id,route_type,\xFF\n"), on(14, 1));
    assert_eq!(with(2, b"route_id,\xFF\n"), on(14, 1));
    assert_eq!(with(2, b"route_id,\"\xFF\n"), on(14, 1));
    assert_eq!(with(2, b"route_id\t,\xFF\n"), on(5, 1));
}

/// A71: lines and files keep their order, and whole files come first.
#[test]
fn lines_and_files_keep_their_order() {
    assert_eq!(with_line(b"Q,99,7,\nS,3,\xFF,\n"), refusal([13, 2, 3, 2]));
    assert_eq!(with_line(b"Q,3,\"7,\nS,3,\xFF,\n"), on(6, 3));
    assert_eq!(with_line(b"Q,3,\xFF,\nS,3,\t,\n"), on(14, 3));
    assert_eq!(with(2, b"route_id\nR\xFF\n"), on(9, 1));
    assert_eq!(with(2, b"route_id,route_type,\xFF\nR\t\n"), on(14, 1));
    let two = |first: (usize, &[u8]), second: (usize, &[u8])| {
        let mut files = feed(&[]);
        files[first.0 - 1] = first.1.to_vec();
        files[second.0 - 1] = second.1.to_vec();
        check(&files, &mut tables(&files, 0)).0
    };
    assert_eq!(two((1, b"\xFF\n"), (2, b"\t\n")), refusal([14, 1, 1, 0]));
    assert_eq!(two((1, b"\t\n"), (2, b"\xFF\n")), refusal([5, 1, 1, 0]));
    assert_eq!(two((1, b"\n"), (2, b"\xFF\n")), refusal([9, 1, 1, 0]));
    assert_eq!(two((1, b"\xFF\n"), (6, b"x")), refusal([4, 6, 0, 0]));
    assert_eq!(two((5, b"\xFF\n"), (1, b"")), refusal([4, 1, 0, 0]));
    // A file without its end is refused as a whole, whatever its bytes.
    assert_eq!(with(2, b"route_id,\xFF\nR,\xFF"), refusal([4, 2, 0, 0]));
    let mut files = feed(&[]);
    files[1] = b"\xFF\n".to_vec();
    let mut short = tables(&files, 0);
    short[1].pop();
    assert_eq!(check(&files, &mut short).0, refusal([3, 2, 0, 0]));
}

/// A refusal leaves list and tables as lent.
#[test]
fn refused_leaves_all_as_lent() {
    let mut files = feed(&[]);
    files[5].extend(b"\xED\xA0\x80,20240704,1\n");
    let lent = tables(&files, 77);
    let (mut held, mut list) = (lent.clone(), [5; 9]);
    let answer = model::check(&files, &mut held, &mut list, [0, 0, 0], Profile::Plain);
    assert_eq!(answer, refusal([14, 6, 4, 0]));
    assert_eq!((held, list), (lent, [5; 9]));
}
