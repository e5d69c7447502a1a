//! The records of a zip file, held to one form: whoever reads it, by its directory or as a stream, finds the same members.

use super::{bad, names};
use crate::safe;
use std::fs::File;
use std::io::{self, ErrorKind};
use std::os::unix::fs::FileExt;

/// A longer directory isn't walked: a thousand times what a feed's has.
const MOST_DIRECTORY: u64 = 1 << 20;

/// The bytes of a record without what varies, and the longest comment behind the last one.
const LOCAL: usize = 30;
const LISTED: usize = 46;
const END: usize = 22;
const LOCATOR_64: usize = 20;
const COMMENT: usize = 0xFFFF;

/// What records begin with. The one with a member's sizes may go without.
const LOCAL_SIGN: &[u8] = b"PK\x03\x04";
const LISTED_SIGN: &[u8] = b"PK\x01\x02";
const END_SIGN: &[u8] = b"PK\x05\x06";
const LOCATOR_64_SIGN: &[u8] = b"PK\x06\x07";
const SIZES_SIGN: &[u8] = b"PK\x07\x08";

/// What stands in 16 or 32 bits where the true number stands elsewhere, in 64.
const ELSEWHERE_16: u64 = 0xFFFF;
const ELSEWHERE_32: u64 = 0xFFFF_FFFF;
const LARGE: &str = "it has numbers of 64 bits (zip64), which programs read in different ways: pack it without them";

/// Flags: encrypted; how hard it was packed; checksum and sizes stand behind the data; the name is UTF-8, of which ASCII is a part.
const ENCRYPTED: u64 = 1;
const EFFORT: u64 = 0b110;
const SIZES_BEHIND: u64 = 1 << 3;
const UTF_8: u64 = 1 << 11;

/// Methods: not packed, and deflated.
const STORED: u64 = 0;
const DEFLATED: u64 = 8;

/// Systems whose attributes are known: DOS, Unix, Windows by its three numbers, macOS.
const SYSTEMS: [u64; 6] = [0, 3, 10, 11, 14, 19];

/// A member that asks for a later version of the format, in tenths, is left out by some.
const MOST_VERSION: u64 = 45;

/// Kinds of files on Unix, and DOS's bits for a folder, and for that, a volume's name, a device or a link.
const KIND: u64 = 0o170_000;
const PLAIN: u64 = 0o100_000;
const FOLDER: u64 = 0o040_000;
const LINK: u64 = 0o120_000;
const DOS_FOLDER: u64 = 0x10;
const DOS_KINDS: u64 = 0x458;

/// Fields behind a name: numbers of 64 bits; a second name for those who read it; such as say nothing of name, kind or data, which are times,
/// owners, permissions, Java's mark and padding.
const LARGE_FIELD: u64 = 1;
const NAME_FIELD: u64 = 0x7075;
const TIMES_FIELD: u64 = 0x5455;
const OTHER_FIELDS: [u64; 9] = [TIMES_FIELD, 0x000A, 0x5855, 0x7855, 0x7875, 0x4453, 0xCAFE, 0xA11E, 0xD935];

/// A member as both of its records tell of it.
pub struct Member {
    pub name: Vec<u8>,
    pub is_packed: bool,
    pub checksum: u64,
    pub packed: u64,
    pub size: u64,
    /// Where its bytes begin.
    pub data: u64,
    flags: u64,
    method: u64,
    /// Where its first record begins.
    place: u64,
}

/// Where the directory stands, and how many members it has.
struct Directory {
    place: u64,
    length: u64,
    count: u64,
}

/// The members in the order of their data, or why some program would find others.
pub fn members(file: &File, length: u64) -> io::Result<Vec<Member>> {
    let directory = directory(file, length)?;
    let mut members = listed(&at(file, directory.place, directory.length as usize)?, directory.count)?;
    names::check_together(members.iter().map(|member| &member.name[..]))?;
    members.sort_unstable_by_key(|member| member.place);
    // Each begins where the one before it ends, the first with the file, and the directory follows the last.
    let places: Vec<u64> = members.iter().map(|member| member.place).chain([directory.place]).collect();
    if places[0] != 0 {
        return Err(bad("bytes that belong to no member stand at its beginning"));
    }
    for (member, next) in members.iter_mut().zip(&places[1..]) {
        member.locate(file, *next).map_err(|error| named(&member.name, &error))?;
    }
    Ok(members)
}

/// What is wrong with a member.
pub fn named(name: &[u8], error: &io::Error) -> io::Error {
    let name = if name.is_empty() { "a member without a name".to_string() } else { safe::name(name) };
    bad(format!("{name}: {error}"))
}

/// A number of so many bytes, low byte first.
fn number(record: &[u8], place: usize, bytes: usize) -> u64 {
    record[place..place + bytes].iter().rev().fold(0, |sum, byte| sum << 8 | u64::from(*byte))
}

/// So many bytes from a place.
fn at(file: &File, place: u64, length: usize) -> io::Result<Vec<u8>> {
    let mut bytes = Vec::new();
    bytes.try_reserve_exact(length)?;
    bytes.resize(length, 0);
    match file.read_exact_at(&mut bytes, place) {
        Err(error) if error.kind() == ErrorKind::UnexpectedEof => Err(bad("it is damaged: it ends too early")),
        read => read.map(|()| bytes),
    }
}

/// Takes so many bytes from the front of a record's rest.
fn take<'a>(rest: &mut &'a [u8], length: usize) -> Option<&'a [u8]> {
    let (taken, more) = (rest.get(..length)?, rest.get(length..)?);
    *rest = more;
    Some(taken)
}

/// Finds the record at the end, and with it the directory.
fn directory(file: &File, length: u64) -> io::Result<Directory> {
    let start = length.saturating_sub((END + COMMENT) as u64);
    let tail = at(file, start, (length - start) as usize)?;
    let end = end(&tail)?;
    let record = &tail[end..];
    let [disk, of_directory, on_disk, count] = [4, 6, 8, 10].map(|place| number(record, place, 2));
    let [length, place] = [12, 16].map(|place| number(record, place, 4));
    let end = start + end as u64;
    let before = at(file, end.saturating_sub(LOCATOR_64 as u64), end.min(LOCATOR_64 as u64) as usize)?;
    if before.starts_with(LOCATOR_64_SIGN) || count == ELSEWHERE_16 || [length, place].contains(&ELSEWHERE_32) {
        return Err(bad(LARGE));
    }
    if disk != 0 || of_directory != 0 || on_disk != count {
        return Err(bad("it is one of several parts"));
    }
    if place + length != end {
        return Err(bad("its directory doesn't end where the record at its end begins"));
    }
    if length > MOST_DIRECTORY {
        return Err(bad(format!("its directory has more than {MOST_DIRECTORY} bytes")));
    }
    Ok(Directory { place, length, count })
}

/// The place of the record at the end: the last one in the file, and the only one that reaches to its end with its comment.
fn end(tail: &[u8]) -> io::Result<usize> {
    let signs: Vec<usize> = (0..tail.len()).filter(|place| tail[*place..].starts_with(END_SIGN)).collect();
    let reaches = |place: &&usize| {
        let record = &tail[**place..];
        record.len() >= END && record.len() == END + number(record, 20, 2) as usize
    };
    let ends: Vec<&usize> = signs.iter().filter(reaches).collect();
    match (&ends[..], signs.last()) {
        (_, None) => Err(bad("it is neither a folder nor a zip file")),
        ([], _) => Err(bad("it is damaged: bytes are missing at its end, or others stand there")),
        ([only], Some(last)) if *only == last => Ok(**only),
        _ => Err(bad("it has two records of its end")),
    }
}

/// The members that the directory lists, of which there have to be so many.
fn listed(directory: &[u8], count: u64) -> io::Result<Vec<Member>> {
    let mut rest = directory;
    let mut members = Vec::new();
    members.try_reserve_exact(directory.len() / LISTED)?;
    while !rest.is_empty() {
        members.push(Member::listed(&mut rest)?);
    }
    if members.len() as u64 != count {
        return Err(bad(format!(
            "its directory has {} members, and the record at its end says {count}",
            members.len()
        )));
    }
    Ok(members)
}

impl Member {
    /// The next one of the directory.
    fn listed(rest: &mut &[u8]) -> io::Result<Member> {
        let damaged = || bad("its directory is damaged");
        let record = take(rest, LISTED).filter(|record| record.starts_with(LISTED_SIGN)).ok_or_else(damaged)?;
        let mut behind = |place: usize| take(rest, number(record, place, 2) as usize).ok_or_else(damaged);
        let (name, extra, comment) = (behind(28)?, behind(30)?, behind(32)?);
        let [flags, method] = [8, 10].map(|place| number(record, place, 2));
        let [checksum, packed, size, place] = [16, 20, 24, 42].map(|place| number(record, place, 4));
        let is_packed = method == DEFLATED;
        let member = Member { name: name.to_vec(), is_packed, checksum, packed, size, data: 0, flags, method, place };
        let checks = names::check(name).and_then(|()| check_kind(record, names::is_folder(name)));
        let checks = checks.and_then(|()| check_extra(extra)).and_then(|()| member.check());
        checks.map_err(|error| named(name, &error))?;
        // Java reads none of the members if it can't decode one of their comments.
        if comment.is_ascii() {
            Ok(member)
        } else {
            Err(named(name, &bad("its comment isn't ASCII")))
        }
    }

    /// Says what in its numbers programs read in different ways, or not at all.
    fn check(&self) -> io::Result<()> {
        let Member { flags, method, packed, size, place, .. } = *self;
        if flags & ENCRYPTED != 0 {
            return Err(bad("it is encrypted"));
        }
        if flags & !(EFFORT | SIZES_BEHIND | UTF_8) != 0 {
            return Err(bad(format!("its flags aren't known ({flags:#06x})")));
        }
        if [packed, size, place].contains(&ELSEWHERE_32) {
            return Err(bad(LARGE));
        }
        match method {
            STORED if packed != size => Err(bad("it isn't packed, but has two sizes")),
            // A reader of streams couldn't tell where it ends.
            STORED if flags & SIZES_BEHIND != 0 => Err(bad("it isn't packed, and its size stands behind it")),
            STORED | DEFLATED if size > 0 && names::is_folder(&self.name) => Err(bad("it is a folder that holds data")),
            STORED | DEFLATED => Ok(()),
            _ => Err(bad(format!("it is packed by method {method}; 0 and 8 (deflate) are read"))),
        }
    }

    /// Finds its data, and holds the record before them to the directory and what is behind them to where the next one begins.
    fn locate(&mut self, file: &File, next: u64) -> io::Result<()> {
        let record = at(file, self.place, LOCAL)?;
        let [name, extra] = [26, 28].map(|place| number(&record, place, 2) as usize);
        let behind = at(file, self.place + LOCAL as u64, name + extra)?;
        let (name, extra) = behind.split_at(name);
        let is_behind = self.flags & SIZES_BEHIND != 0;
        let is_same = |(place, listed): (usize, u64)| {
            let told = number(&record, place, 4);
            told == listed || is_behind && told == 0
        };
        let same_kind = [number(&record, 6, 2), number(&record, 8, 2)] == [self.flags, self.method];
        let same_numbers = [14, 18, 22].into_iter().zip(self.numbers()).all(is_same);
        if !record.starts_with(LOCAL_SIGN) || name != self.name || !same_kind || !same_numbers {
            return Err(bad("its directory and its data don't go together"));
        }
        check_extra(extra)?;
        self.data = self.place + (LOCAL + behind.len()) as u64;
        self.check_behind(file, next)
    }

    /// Checksum and sizes, in the order in which records have them.
    fn numbers(&self) -> [u64; 3] {
        [self.checksum, self.packed, self.size]
    }

    /// Between the data and the next member stand checksum and sizes, if a flag says so, and else nothing.
    fn check_behind(&self, file: &File, next: u64) -> io::Result<()> {
        let end = self.data + self.packed;
        let length = next.checked_sub(end).ok_or_else(|| bad("another member begins before it ends"))?;
        let plain = self.numbers().map(|number| (number as u32).to_le_bytes()).concat();
        let signed = [SIZES_SIGN, &plain].concat();
        match (self.flags & SIZES_BEHIND != 0, length) {
            (false, 0) => Ok(()),
            // A checksum that reads as the sign would be taken for it.
            (true, 12) if at(file, end, 12)? == plain && !plain.starts_with(SIZES_SIGN) => Ok(()),
            (true, 16) if at(file, end, 16)? == signed => Ok(()),
            (true, 20 | 24) => Err(bad(LARGE)),
            (true, 12 | 16) => Err(bad("the sizes behind it aren't those of the directory")),
            _ => Err(bad("bytes that belong to no member stand behind it")),
        }
    }
}

/// Says why some program would make something else of a member than a plain file, or than a folder where its name is one's.
fn check_kind(record: &[u8], is_folder: bool) -> io::Result<()> {
    let (system, version, disk) = (number(record, 5, 1), number(record, 6, 2), number(record, 34, 2));
    let attributes = number(record, 38, 4);
    let (kind, dos) = (attributes >> 16 & KIND, attributes & DOS_KINDS);
    // Some writers have the attributes of a file for a folder, but all readers go by the slash.
    let (own_kind, own_dos) = if is_folder { (FOLDER, DOS_FOLDER) } else { (PLAIN, 0) };
    if kind == LINK {
        Err(bad("it is a symbolic link"))
    } else if ![0, PLAIN, own_kind].contains(&kind) || dos & !own_dos != 0 {
        Err(bad(format!("its attributes aren't those of a {}", if is_folder { "folder" } else { "plain file" })))
    } else if !SYSTEMS.contains(&system) {
        Err(bad(format!("the system that it was packed on isn't known ({system})")))
    } else if version > MOST_VERSION {
        Err(bad(format!("it asks for version {version} of the format; {MOST_VERSION} is read")))
    } else if disk != 0 {
        Err(bad("it is in another part"))
    } else {
        Ok(())
    }
}

/// Says which of the fields behind a name could give it another name, kind or size.
fn check_extra(extra: &[u8]) -> io::Result<()> {
    let mut rest = extra;
    while !rest.is_empty() {
        let damaged = || bad("the fields behind its name are damaged");
        let head = take(&mut rest, 4).ok_or_else(damaged)?;
        let field = take(&mut rest, number(head, 2, 2) as usize).ok_or_else(damaged)?;
        match number(head, 0, 2) {
            LARGE_FIELD => return Err(bad(LARGE)),
            // On one without any times bsdtar fails.
            TIMES_FIELD if field.is_empty() => return Err(damaged()),
            NAME_FIELD => {
                // A version and a checksum stand before it.
                let other = safe::name(field.get(5..).unwrap_or_default());
                return Err(bad(format!("a second name stands behind its name: {other}")));
            }
            kind if OTHER_FIELDS.contains(&kind) => {}
            kind => return Err(bad(format!("a field behind its name isn't known ({kind:#06x})"))),
        }
    }
    Ok(())
}
