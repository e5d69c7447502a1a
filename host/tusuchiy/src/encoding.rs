//! Text that isn't UTF-8: where it goes wrong, and the encoding that its file may have.

/// An encoding that a file may have in the place of UTF-8.
#[derive(Clone, Copy, Debug, PartialEq, Eq)]
pub enum Guess {
    Utf16,
    Windows1252,
}

impl Guess {
    pub fn name(self) -> &'static str {
        match self {
            Guess::Utf16 => "utf-16",
            Guess::Windows1252 => "windows-1252",
        }
    }
}

/// The characters of Windows-1252 from 80 to 9F, NUL where it has none; below and above a byte is the character of its number.
const WINDOWS_1252: [char; 32] = [
    '€', '\0', '‚', 'ƒ', '„', '…', '†', '‡', 'ˆ', '‰', 'Š', '‹', 'Œ', '\0', 'Ž', '\0', '\0', '‘', '’', '“', '”', '•',
    '–', '—', '˜', '™', 'š', '›', 'œ', '\0', 'ž', 'Ÿ',
];

/// The character that a byte is in Windows-1252.
pub fn windows_1252(byte: u8) -> Option<char> {
    match byte {
        0x80..=0x9F => Some(WINDOWS_1252[usize::from(byte - 0x80)]).filter(|char| *char != '\0'),
        _ => Some(char::from(byte)),
    }
}

/// The first byte at which no UTF-8 character begins.
pub fn ill_formed(text: &[u8]) -> Option<usize> {
    std::str::from_utf8(text).err().map(|error| error.valid_up_to())
}

/// UTF-16, if the file begins with the mark of it.
pub fn guess_by_mark(file: &[u8]) -> Option<Guess> {
    [b"\xFF\xFE", b"\xFE\xFF"].iter().any(|mark| file.starts_with(*mark)).then_some(Guess::Utf16)
}

/// The encoding of a file with a byte that begins no character: by its mark, else Windows-1252 if all bytes fit and this one
/// isn't C2 or C3, which begin most characters of UTF-8.
pub fn guess(file: &[u8], found: u8, all_fit: impl FnOnce() -> bool) -> Option<Guess> {
    guess_by_mark(file).or_else(|| (!matches!(found, 0xC2 | 0xC3) && all_fit()).then_some(Guess::Windows1252))
}

/// Are all bytes of a file characters of Windows-1252, and no two in a row as in UTF-8, where C2 to F4 begin characters and 80
/// to BF go on with them?
pub fn all_fit(file: &[u8]) -> bool {
    let as_in_utf_8 = |pair: &[u8]| matches!(pair, [0xC2..=0xF4, 0x80..=0xBF]);
    file.iter().all(|&byte| windows_1252(byte).is_some()) && !file.windows(2).any(as_in_utf_8)
}

#[cfg(test)]
mod tests {
    use super::*;

    /// By the table of Windows code page 1252.
    #[test]
    fn characters_of_windows_1252() {
        let known = [(0x80, '€'), (0x8A, 'Š'), (0x92, '’'), (0x96, '–'), (0x9F, 'Ÿ'), (0xA0, '\u{A0}'), (0xE9, 'é')];
        for (byte, char) in known.into_iter().chain([(b'A', 'A'), (0x8E, 'Ž'), (0x9E, 'ž'), (0xFF, 'ÿ')]) {
            assert_eq!(windows_1252(byte), Some(char), "{byte:02X}");
        }
        let none: Vec<u8> = (0..=255).filter(|byte| windows_1252(*byte).is_none()).collect();
        assert_eq!(none, [0x81, 0x8D, 0x8F, 0x90, 0x9D]);
    }

    #[test]
    fn encodings_by_their_bytes() {
        let cases: [(&[u8], Option<Guess>); 15] = [
            (b"caf\xE9\nna\xEFve\n", Some(Guess::Windows1252)),
            (b"\x93caf\xE9\x94", None),
            (b"\x93Cit\xE9 3\x94 \xE0 5 \x80", Some(Guess::Windows1252)),
            // A byte that is none of its characters; é in UTF-8 before and after; the mark of UTF-8; half of an emoji.
            (b"caf\xE9\n\x81", None),
            (b"caf\xC3\xA9\n\xE9", None),
            (b"\xE9\ncaf\xC3\xA9", None),
            (b"\xEF\xBB\xBFcaf\xE9", None),
            (b"\xF0\x9F\x98,", None),
            // Half of é, and with another letter before it.
            (b"caf\xC3\n", None),
            (b"\xE9,caf\xC3\n", Some(Guess::Windows1252)),
            // Neighbours of what begins a character and of what goes on with it.
            (b"\xC1\x80\xF5\xBF\xF4\xC0\xC2\x7F", Some(Guess::Windows1252)),
            (b"\xFF\xFEa\0", Some(Guess::Utf16)),
            (b"\xFE\xFF\0a", Some(Guess::Utf16)),
            (b"a\xFF\xFE", Some(Guess::Windows1252)),
            (b"\xFF", Some(Guess::Windows1252)),
        ];
        for (file, wanted) in cases {
            let found = file[ill_formed(file).expect("a byte that begins no character")];
            assert_eq!(guess(file, found, || all_fit(file)), wanted, "{file:02X?}");
        }
        assert_eq!(guess_by_mark(b"\xFF"), None);
        assert_eq!(guess_by_mark(b"\xEF\xBB\xBFa"), None);
    }
}
