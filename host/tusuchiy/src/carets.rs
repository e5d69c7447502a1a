//! A line with carets under one of its fields or more: as much of it as stands in one row of a terminal, the first of them among it.

use crate::fields::field;
use crate::safe;
use std::ops::Range;
use unicode_width::UnicodeWidthChar;

/// How wide a line with carets is at most: with four blanks before it, and a caret behind it, it fits a row of 80 columns.
/// Were it broken into two rows, the carets would stand under the wrong one.
const WIDE: usize = 75;

/// What stands where a line is cut, before and after.
const CUTS: [&str; 2] = ["... ", " ..."];

/// The part of a line that is shown, and the carets under it; none where they could stand under something else.
#[derive(Debug, PartialEq)]
pub struct Marked {
    pub text: String,
    pub carets: Option<String>,
}

/// A line with the fields under some columns marked; none where there is no column or no such field. A line that has one is UTF-8.
pub fn under(line: &[u8], columns: &[usize]) -> Option<Marked> {
    let fields: Option<Vec<Range<usize>>> = columns.iter().map(|&column| field(line, column)).collect();
    let mut fields = fields.filter(|fields| !fields.is_empty())?;
    fields.sort_by_key(|field| field.start);
    Some(marked(std::str::from_utf8(line).ok()?, &fields))
}

/// A line with these fields of it marked, which stand in order: an empty one by one caret at its place. What isn't shown of them isn't marked.
fn marked(line: &str, fields: &[Range<usize>]) -> Marked {
    let shown = around(line, &(fields[0].start..fields[fields.len() - 1].end));
    let piece = |range: Range<usize>| safe::text(line[range].as_bytes());
    let mut text = if shown.start > 0 { CUTS[0].to_string() } else { String::new() };
    let (mut carets, mut from) = (String::new(), shown.start);
    for field in fields.iter().filter(|field| field.start < shown.end || field.end == shown.end) {
        let end = field.end.min(shown.end);
        text += &piece(from..field.start);
        carets += &" ".repeat(wide(&text) - carets.len());
        let inside = piece(field.start..end);
        carets += &"^".repeat(wide(&inside).max(1));
        text += &inside;
        from = end;
    }
    text += &piece(from..shown.end);
    text += if shown.end < line.len() { CUTS[1] } else { "" };
    let sure = !text.chars().any(|char| goes_left(char) || colours_skin(char));
    Marked { text, carets: sure.then_some(carets) }
}

/// The part of a line that is shown: all of it where it fits, else what fits of the field, and as much on either side of it. Of several fields
/// all that stands between them counts as one.
fn around(line: &str, field: &Range<usize>) -> Range<usize> {
    let whole = fitting(line.chars(), WIDE).bytes == line.len();
    let room = if whole { WIDE } else { WIDE - CUTS.concat().len() };
    let inside = fitting(line[field.clone()].chars(), room);
    if inside.bytes < field.len() {
        return field.start..field.start + inside.bytes;
    }
    let left = room - inside.wide;
    let after = |room: usize| fitting(line[field.end..].chars(), room);
    // What one side doesn't need is the other's.
    let before = fitting(line[..field.start].chars().rev(), left - after(left / 2).wide);
    let start = field.start - before.bytes;
    // Marks go with the letter that they stand on.
    let marks = if start > 0 { fitting(line[start..field.start].chars(), 0).bytes } else { 0 };
    start + marks..field.end + after(left - before.wide).bytes
}

/// A run of characters: its bytes, and how wide it is shown.
struct Run {
    bytes: usize,
    wide: usize,
}

/// The first characters that fit into so much room, in no more bytes than are shown of any line.
fn fitting(chars: impl Iterator<Item = char>, room: usize) -> Run {
    let mut run = Run { bytes: 0, wide: 0 };
    for char in chars {
        let wide = run.wide + wide(&safe::text(char.encode_utf8(&mut [0; 4]).as_bytes()));
        let bytes = run.bytes + char.len_utf8();
        if wide > room || bytes > safe::SHOWN_LINE {
            break;
        }
        run = Run { bytes, wide };
    }
    run
}

/// How many columns of a terminal a text takes that is safe to print.
fn wide(text: &str) -> usize {
    text.chars().map(|char| char.width().unwrap_or(0)).sum()
}

/// Letters and digits of scripts that go from right to left, with the ranges kept for them (Unicode's DerivedBidiClass.txt):
/// some terminals show a line that has them in another order, so that nobody knows what stands above a caret.
pub fn goes_left(char: char) -> bool {
    matches!(char as u32, 0x590..=0x8FF | 0xFB1D..=0xFDFF | 0xFE70..=0xFEFF | 0x10800..=0x10FFF | 0x1E800..=0x1EFFF)
}

/// Emoji modifiers: some terminals show one with the emoji before it, in two columns, others behind it, in four.
fn colours_skin(char: char) -> bool {
    ('\u{1F3FB}'..='\u{1F3FF}').contains(&char)
}

#[cfg(test)]
mod tests {
    use super::*;

    /// What is shown of a line, and the carets under a column of it.
    fn shown(line: &str, column: usize) -> [String; 2] {
        shown_of(line, &[column])
    }

    /// The same with several columns.
    fn shown_of(line: &str, columns: &[usize]) -> [String; 2] {
        let marked = under(line.as_bytes(), columns).expect("a field");
        [marked.text, marked.carets.expect("carets")]
    }

    /// Fails where a line with a column marked isn't shown so.
    fn assert_shown(cases: &[(&str, usize, &str, &str)]) {
        for (line, column, text, carets) in cases {
            assert_eq!(shown(line, *column), [*text, *carets], "{line}, column {column}");
        }
    }

    #[test]
    fn carets_under_a_field() {
        assert_shown(&[
            ("A,Alder,1.5,2", 1, "A,Alder,1.5,2", "^"),
            ("A,Alder,1.5,2", 2, "A,Alder,1.5,2", "  ^^^^^"),
            ("A,Alder,1.5,2", 4, "A,Alder,1.5,2", "            ^"),
            // The raw field is marked, with its quotation marks and the comma in it.
            ("A,\"Alder, \"\"old\"\"\",x", 2, "A,\"Alder, \"\"old\"\"\",x", "  ^^^^^^^^^^^^^^^^"),
            ("A,\"Alder, old\",x", 3, "A,\"Alder, old\",x", "               ^"),
            ("A,\"\",x", 2, "A,\"\",x", "  ^^"),
            // Empty fields: at the start, between commas, at the end, and alone on the line.
            (",b,c", 1, ",b,c", "^"),
            ("A,,1.5,2", 2, "A,,1.5,2", "  ^"),
            ("A,", 2, "A,", "  ^"),
            ("", 1, "", "^"),
        ]);
    }

    /// Several fields, in whatever order they are named: those of rules 60 to 62.
    #[test]
    fn carets_under_several_fields() {
        let cases: [(&str, &[usize], &str); 6] = [
            ("T,48:00:00,48:01:00,A,3", &[2, 3], "  ^^^^^^^^ ^^^^^^^^"),
            ("T,48:00:00,48:01:00,A,3", &[3, 2], "  ^^^^^^^^ ^^^^^^^^"),
            ("T,,,A,2", &[2, 3], "  ^^"),
            ("T,東,8:00:00,2,\"3\"", &[4, 5], "             ^ ^^^"),
            ("T,2,A,", &[2, 4], "  ^   ^"),
            // A mark alone in its field takes no room of its own.
            ("T,\u{301},3", &[2, 3], "  ^^"),
        ];
        for (line, columns, carets) in cases {
            assert_eq!(shown_of(line, columns), [line, carets], "{columns:?}");
        }
        // What stands between them counts: both are shown where they fit, else the first and what follows it.
        let line = |between: usize| format!("{0},2,{1},3,{0}", "x".repeat(100), "y".repeat(between));
        let text = format!("... {},2,{},3,{} ...", "x".repeat(3), "y".repeat(56), "x".repeat(2));
        let carets = format!("{}^{}^", " ".repeat(8), " ".repeat(58));
        assert_eq!(shown_of(&line(56), &[2, 4]), [text, carets]);
        let text = format!("... 2,{} ...", "y".repeat(65));
        assert_eq!(shown_of(&line(200), &[2, 4]), [text, "    ^".to_string()]);
    }

    /// Wide characters take two columns, marks on letters none, and what is escaped as many as its escape has letters.
    #[test]
    fn carets_are_counted_over_what_is_shown() {
        assert_shown(&[
            ("東京,x", 2, "東京,x", "     ^"),
            ("A,東京,x", 2, "A,東京,x", "  ^^^^"),
            ("ソウル,서울,x", 2, "ソウル,서울,x", "       ^^^^"),
            ("ﾄｳｷｮｳ,Ａ", 2, "ﾄｳｷｮｳ,Ａ", "      ^^"),
            ("🚏,🚌🚌,x", 2, "🚏,🚌🚌,x", "   ^^^^"),
            ("Cafe\u{301},x", 2, "Cafe\u{301},x", "     ^"),
            ("A,e\u{301}\u{323},x", 2, "A,e\u{301}\u{323},x", "  ^"),
            ("Café,Ω", 2, "Café,Ω", "     ^"),
            // A mark alone in its field stands on the comma before it.
            ("A,\u{301},x", 2, "A,\u{301},x", "  ^"),
            ("a\u{1b}[1m\\,x", 2, "a\\x1B[1m\\\\,x", "           ^"),
            ("A,\u{202e}x\u{7f},x", 2, "A,\\u{202E}x\\x7F,x", "  ^^^^^^^^^^^^^"),
            // Blanks and joiners that nobody sees.
            ("A\u{a0},x", 2, "A\\u{00A0},x", "          ^"),
            ("👩\u{200d}🚀,x", 2, "👩\\u{200D}🚀,x", "             ^"),
            ("☀\u{fe0f},x", 2, "☀\\u{FE0F},x", "          ^"),
        ]);
    }

    /// Scripts that go from right to left may be shown in another order, skin colours on an emoji or behind it: the line is
    /// there, and no carets.
    #[test]
    fn no_carets_where_terminals_differ() {
        for name in ["שלום", "مرحبا", "ߒߞߏ", "١٢", "ﷲ", "ﻼ", "𐤀", "𞤀", "👍🏻", "👍🏿"] {
            let line = format!("A,{name},1.5,x");
            for column in [1, 2, 4] {
                let marked = under(line.as_bytes(), &[column]).expect("a field");
                assert_eq!(marked, Marked { text: line.clone(), carets: None }, "{line}, column {column}");
            }
        }
        // What isn't shown, or as an escape, changes no order.
        let line = format!("A,x,{},שלום", "y".repeat(100));
        assert_eq!(shown(&line, 2)[1], "  ^");
        assert_eq!(shown("A\u{200f},x", 2), ["A\\u{200F},x", "          ^"]);
    }

    /// A line that fits is whole; of a wider one the part around the field is shown, with a mark where it is cut.
    #[test]
    fn the_field_is_seen_however_long_the_line() {
        let x = |count: usize| "x".repeat(count);
        let line = format!("{},b,{}", x(40), x(32));
        assert_eq!(shown(&line, 2), [line.clone(), format!("{}^", " ".repeat(41))]);
        // One letter more: 67 columns are left beside the marks of a cut, 33 of them on either side of the field.
        let line = format!("{},b,{}", x(40), x(33));
        let text = format!("... {},b,{} ...", x(32), x(32));
        assert_eq!(shown(&line, 2), [text, format!("{}^", " ".repeat(37))]);
        let line = format!("b,{}", x(500));
        assert_eq!(shown(&line, 1), [format!("b,{} ...", x(65)), "^".to_string()]);
        let line = format!("{},", x(500));
        assert_eq!(shown(&line, 2), [format!("... {},", x(66)), format!("{}^", " ".repeat(71))]);
        // A field that is wider itself is marked as far as it is shown.
        let line = format!("{},{},c", x(500), "y".repeat(500));
        assert_eq!(shown(&line, 2), [format!("... {} ...", "y".repeat(67)), format!("    {}", "^".repeat(67))]);
    }

    /// A character that takes two columns isn't cut in two, nor is an escape.
    #[test]
    fn a_wide_line_is_cut_between_characters() {
        let line = format!("{},b,{}", "東".repeat(300), "\u{1b}".repeat(300));
        let text = format!("... {},b,{} ...", "東".repeat(16), "\\x1B".repeat(8));
        assert_eq!(shown(&line, 2), [text, format!("{}^", " ".repeat(37))]);
        let line = format!("a,{}", "東".repeat(39));
        assert_eq!(shown(&line, 2), [format!("... {} ...", "東".repeat(33)), format!("    {}", "^".repeat(66))]);
        // A mark on a letter isn't cut from it, on either side; one at the line's own beginning has none, and stays.
        let line = format!("{0},b,{0}", "e\u{301}".repeat(40));
        let text = format!("... {0},b,{0} ...", "e\u{301}".repeat(32));
        assert_eq!(shown(&line, 2), [text, format!("{}^", " ".repeat(37))]);
        let line = format!("\u{301},b,{}", "x".repeat(100));
        assert_eq!(shown(&line, 2), [format!("\u{301},b,{} ...", "x".repeat(64)), " ^".to_string()]);
        // Marks that take no room are no reason to show a line of any length.
        let line = format!("e{},b", "\u{301}".repeat(1000));
        assert_eq!(shown(&line, 2), ["... ,b", "     ^"]);
        let line = format!("b,e{}", "\u{301}".repeat(1000));
        assert_eq!(shown(&line, 1), [format!("b,e{} ...", "\u{301}".repeat(199)), "^".to_string()]);
    }

    /// The characters that begin above the carets.
    fn above(text: &str, carets: &str) -> String {
        let row = carets.len() - carets.trim_start().len()..carets.len();
        let begins = |(place, _): &(usize, char)| row.contains(&wide(&text[..*place]));
        text.char_indices().filter(begins).map(|(_, char)| char).collect()
    }

    /// Whatever stands around a field, text and carets fit the row, and above the carets is the field or its beginning.
    #[test]
    fn any_line_fits_the_row() {
        let runs =
            |counts: [usize; 4]| ["x", "東", "\u{1b}", "e\u{301}"].map(|part| counts.map(|count| part.repeat(count)));
        let [around, fields] = [runs([0, 3, 40, 200]), runs([1, 8, 34, 200])].map(|runs| runs.concat());
        let pairs = around.iter().flat_map(|before| around.iter().map(move |after| (before, after)));
        for (before, field, after) in
            pairs.flat_map(|(before, after)| fields.iter().map(move |field| (before, field, after)))
        {
            let [text, carets] = shown(&format!("{before},{field},{after}"), 2);
            assert!(wide(&text) <= 75 && carets.len() <= 76, "{text}\n{carets}");
            let above = above(&text, &carets);
            assert!(safe::text(field.as_bytes()).starts_with(&above), "{text}\n{carets}");
            assert_eq!(wide(&above), carets.trim_start().len(), "{text}\n{carets}");
        }
    }

    #[test]
    fn no_field_no_carets() {
        for (line, column) in [(&b"a,b"[..], 3), (b"a,b", 0), (b"\xFF,b", 2), (b"a,\"b", 1)] {
            assert_eq!(under(line, &[column]), None, "{line:02X?}, column {column}");
            assert_eq!(under(line, &[1, column]), None, "{line:02X?}, column {column}");
        }
        assert_eq!(under(b"a,b", &[]), None);
    }
}
