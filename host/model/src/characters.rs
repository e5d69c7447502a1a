//! Rule 14: well-formed UTF-8. Each character is decoded by arithmetic, and its value is judged then.

/// Is a line one well-formed character after the other?
pub fn well_formed(line: &[u8]) -> bool {
    let mut rest = line;
    while !rest.is_empty() {
        match first_character(rest) {
            Some(length) => rest = &rest[length..],
            None => return false,
        }
    }
    true
}

/// How many bytes the first character of a text has, or none where it is ill-formed.
pub fn first_character(text: &[u8]) -> Option<usize> {
    let lead = text[0];
    // How many bytes there are, the bits that the first one gives, and the least value that needs so many bytes.
    let (length, bits, least) = match lead {
        0x00..=0x7F => (1, lead, 0),
        0xC0..=0xDF => (2, lead - 0xC0, 0x80),
        0xE0..=0xEF => (3, lead - 0xE0, 0x800),
        0xF0..=0xF7 => (4, lead - 0xF0, 0x1_0000),
        // 80 to BF only go on, and forms longer than four bytes, from F8 on, write values above U+10FFFF.
        _ => return None,
    };
    let mut value = u32::from(bits);
    for &byte in text.get(1..length)? {
        if !(0x80..=0xBF).contains(&byte) {
            return None;
        }
        value = value * 64 + u32::from(byte - 0x80);
    }
    let overlong = value < least;
    let surrogate = (0xD800..=0xDFFF).contains(&value);
    let too_high = value > 0x10_FFFF;
    (!overlong && !surrogate && !too_high).then_some(length)
}

#[cfg(test)]
mod tests {
    use super::*;

    /// Bytes at both sides of every range that a byte of a character can be in.
    const EDGES: [u8; 26] = [
        0x00, 0x7F, 0x80, 0x8F, 0x90, 0x9F, 0xA0, 0xBF, 0xC0, 0xC1, 0xC2, 0xDF, 0xE0, 0xE1, 0xEC, 0xED, 0xEE, 0xEF,
        0xF0, 0xF1, 0xF3, 0xF4, 0xF5, 0xF7, 0xF8, 0xFF,
    ];

    /// Fails unless the text is well-formed just when Rust's own reader says so; is it?
    fn as_rust_says(text: &[u8]) -> bool {
        let wanted = std::str::from_utf8(text).is_ok();
        assert_eq!(well_formed(text), wanted, "{text:02X?}");
        wanted
    }

    #[test]
    fn texts_of_up_to_three_bytes() {
        let all = 0..=u8::MAX;
        let mut good = [0; 3];
        for first in all.clone() {
            good[0] += usize::from(as_rust_says(&[first]));
            for second in all.clone() {
                good[1] += usize::from(as_rust_says(&[first, second]));
                good[2] += all.clone().filter(|&third| as_rust_says(&[first, second, third])).count();
            }
        }
        // Characters of one, two and three bytes, counted from the ranges of their values.
        let (one, two, three) = (0x80, 0x800 - 0x80, 0x1_0000 - 0x800 - 0x800);
        assert_eq!(good, [one, one * one + two, one * one * one + 2 * one * two + three]);
    }

    #[test]
    fn texts_of_four_bytes_at_the_edges() {
        let mut good = 0;
        for text in EDGES.iter().flat_map(|first| EDGES.iter().map(move |second| [*first, *second])) {
            for rest in EDGES.iter().flat_map(|third| EDGES.iter().map(move |fourth| [*third, *fourth])) {
                good += usize::from(as_rust_says(&[text, rest].concat()));
            }
        }
        assert!(good > 0);
    }
}
