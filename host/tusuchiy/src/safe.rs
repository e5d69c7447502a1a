//! Text from a feed made safe to print: no control byte and no broken UTF-8 gets through.

/// The longest piece of a line that is shown, in bytes, and of a value among words.
pub const SHOWN_LINE: usize = 400;
pub const SHOWN_VALUE: usize = 80;

/// The most characters that a name is shown with, and how many stand on either side of the dots of a longer one.
const SHOWN_NAME: usize = 200;
const KEPT: usize = (SHOWN_NAME - 3) / 2;

/// The beginning of a text, cut between characters, and whether anything was cut off.
pub fn beginning(text: &[u8], most: usize) -> (&[u8], bool) {
    if text.len() <= most {
        return (text, false);
    }
    // A byte of the form 10xxxxxx goes on with a character that began before it, at most three bytes back.
    let goes_on = |place: &usize| text[*place] & 0xC0 == 0x80;
    let end = (most - 3..=most).rev().find(|place| !goes_on(place)).unwrap_or(most);
    (&text[..end], true)
}

/// A name or a path for a terminal: beyond 200 characters, as they are shown, its middle is left out.
pub fn name(bytes: &[u8]) -> String {
    // A character has at most four bytes, and one more may be cut.
    const NEAR: usize = 4 * (KEPT + 1);
    if bytes.len() <= 4 * SHOWN_NAME {
        let whole = text(bytes);
        if whole.chars().count() <= SHOWN_NAME {
            return whole;
        }
    }
    let near = NEAR.min(bytes.len());
    let head = characters(&bytes[..near]);
    let mut tail = characters(&bytes[bytes.len() - near..]);
    tail.reverse();
    let (head, mut tail) = (fitting(head), fitting(tail));
    tail.reverse();
    format!("{}...{}", head.concat(), tail.concat())
}

/// The characters of a text, each as it is shown.
fn characters(bytes: &[u8]) -> Vec<String> {
    let mut rest = bytes;
    let mut shown = Vec::new();
    while !rest.is_empty() {
        let is_character = |length: &usize| rest.get(..*length).is_some_and(|bytes| std::str::from_utf8(bytes).is_ok());
        let (character, more) = rest.split_at((1..=4).find(is_character).unwrap_or(1));
        shown.push(text(character));
        rest = more;
    }
    shown
}

/// As many of the first ones as are kept on either side of what is left out.
fn fitting(characters: Vec<String>) -> Vec<String> {
    let mut length = 0;
    let fits = |character: &String| {
        length += character.chars().count();
        length <= KEPT
    };
    characters.into_iter().take_while(fits).collect()
}

/// Text for a terminal: what it could obey or hide is written as an escape, and so is a backslash.
pub fn text(bytes: &[u8]) -> String {
    let mut out = String::new();
    let mut rest = bytes;
    while !rest.is_empty() {
        let good = match std::str::from_utf8(rest) {
            Ok(all) => all.len(),
            Err(error) => error.valid_up_to(),
        };
        String::from_utf8_lossy(&rest[..good]).chars().for_each(|char| push(&mut out, char));
        rest = &rest[good..];
        if let Some((byte, more)) = rest.split_first() {
            out.push_str(&format!("\\x{byte:02X}"));
            rest = more;
        }
    }
    out
}

/// Adds a character, or its escape.
fn push(out: &mut String, char: char) {
    match char {
        '\\' => out.push_str("\\\\"),
        _ if char.is_ascii_control() => out.push_str(&format!("\\x{:02X}", char as u32)),
        _ if char.is_control() || is_hidden(char) => out.push_str(&format!("\\u{{{:04X}}}", char as u32)),
        _ => out.push(char),
    }
}

/// Characters that change the order of what is shown or that nobody sees: those that Unicode lets a display ignore,
/// blanks other than the space, and marks around annotations.
fn is_hidden(char: char) -> bool {
    matches!(char as u32,
        0xA0 | 0xAD | 0x34F | 0x61C | 0x115F..=0x1160 | 0x1680 | 0x17B4..=0x17B5 | 0x180B..=0x180F | 0x2000..=0x200F
        | 0x2028..=0x202F | 0x205F..=0x206F | 0x2800 | 0x3000 | 0x3164 | 0xFE00..=0xFE0F | 0xFEFF | 0xFFA0
        | 0xFFF0..=0xFFFB | 0x13441..=0x13442 | 0x16FE4 | 0x1BCA0..=0x1BCA3 | 0x1D159 | 0x1D173..=0x1D17A
        | 0xE0000..=0xE0FFF)
}

/// A JSON string in plain ASCII; bytes that aren't UTF-8 become U+FFFD.
pub fn json(bytes: &[u8]) -> String {
    let mut out = String::from("\"");
    for char in String::from_utf8_lossy(bytes).chars() {
        match char {
            '"' => out.push_str("\\\""),
            '\\' => out.push_str("\\\\"),
            ' '..='~' => out.push(char),
            _ => {
                for unit in char.encode_utf16(&mut [0; 2]) {
                    out.push_str(&format!("\\u{unit:04x}"));
                }
            }
        }
    }
    out.push('"');
    out
}

#[cfg(test)]
mod tests {
    use super::*;

    #[test]
    fn a_terminal_gets_nothing_to_obey() {
        assert_eq!(text(b"A,\"b\",\xC3\xA4"), "A,\"b\",ä");
        assert_eq!(text(b"\x1b[31m\x00\x7f\r\t"), "\\x1B[31m\\x00\\x7F\\x0D\\x09");
        assert_eq!(text(b"\xC2\x9B\xE2\x80\xAEx"), "\\u{009B}\\u{202E}x");
        assert_eq!(text(b"a\xFFb\xC3"), "a\\xFFb\\xC3");
        assert_eq!(text(b"\\x00"), "\\\\x00");
    }

    /// Blanks of every block, and their neighbours: letters and marks that are seen stay.
    #[test]
    fn blanks_that_nobody_sees_are_escaped() {
        let blank = [
            0xA0, 0x34F, 0x115F, 0x1160, 0x17B4, 0x17B5, 0x180B, 0x2000, 0x200A, 0x202F, 0x205F, 0x2800, 0x3000,
            0x3164, 0xFFA0, 0x1680, 0x1BCA0, 0x1D173, 0x1D17A, 0xE0100,
        ];
        for code in blank {
            let char = char::from_u32(code).expect("a character");
            assert_eq!(text(char.to_string().as_bytes()), format!("\\u{{{code:04X}}}"));
        }
        for char in ["é", "ß", "Ж", "中", "ᄀ", "ꥠ", "⠁", "😀", "、"] {
            assert_eq!(text(char.as_bytes()), char);
        }
    }

    #[test]
    fn json_strings_are_ascii() {
        assert_eq!(json(b"a\"\\\n\x7f"), r#""a\"\\\u000a\u007f""#);
        assert_eq!(json("ä😀".as_bytes()), r#""\u00e4\ud83d\ude00""#);
        assert_eq!(json(b"\xFF"), r#""\ufffd""#);
    }

    /// A name of 200 characters is whole; a longer one has 200 at most, its beginning and its end, and no half of an escape.
    #[test]
    fn long_names_are_cut_in_the_middle() {
        for (character, shown) in [("a", "a"), ("ä", "ä"), ("😀", "😀"), ("\n", "\\x0A"), ("\u{202E}", "\\u{202E}")]
        {
            let wide = shown.chars().count();
            for count in [1, 200 / wide, 200 / wide + 1, 201, 300, 65_000] {
                let told = name(character.repeat(count).as_bytes());
                if count * wide <= 200 {
                    assert_eq!(told, shown.repeat(count), "{character:?} {count}");
                } else {
                    let side = shown.repeat(98 / wide);
                    assert_eq!(told, format!("{side}...{side}"), "{character:?} {count}");
                }
            }
        }
        let path = format!("/{}/stops.txt", "x".repeat(500));
        assert_eq!(name(path.as_bytes()), format!("/{}...{}/stops.txt", "x".repeat(97), "x".repeat(88)));
        assert_eq!(name(&[0x80; 65_000]), format!("{0}...{0}", "\\x80".repeat(24)));
        let odd = [&b"a"[..], &[0xF0, 0x9F, 0x98].repeat(400)].concat();
        assert!(name(&odd).starts_with("a\\xF0\\x9F\\x98\\xF0") && name(&odd).chars().count() <= 200);
    }

    #[test]
    fn long_lines_are_cut_between_characters() {
        assert_eq!(beginning(&[b'x'; 400], 400), (&[b'x'; 400][..], false));
        assert_eq!(beginning(&[b'x'; 401], 400), (&[b'x'; 400][..], true));
        let line = [&[b'x'; 399][..], "ää".as_bytes()].concat();
        assert_eq!(beginning(&line, 400), (&[b'x'; 399][..], true));
        assert_eq!(beginning(&[0x80; 500], 400).0.len(), 400);
    }
}
