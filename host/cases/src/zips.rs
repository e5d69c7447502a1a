//! Zip files, record by record: such as writers make them, and such as none would.

pub mod change;
pub mod habits;

use flate2::write::DeflateEncoder;
use flate2::{Compression, Crc};
use std::io::Write;

/// Flags of a member: its sizes stand behind it, and its name is UTF-8.
pub const SIZES_BEHIND: u16 = 1 << 3;
pub const UTF_8: u16 = 1 << 11;

/// Methods: as it is, and deflated.
pub const PLAIN: u16 = 0;
pub const DEFLATED: u16 = 8;

/// What stands before sizes behind a member, mostly.
pub const SIZES_SIGN: [u8; 4] = *b"PK\x07\x08";

/// What a record says of a member; the local one has no system, attributes, comment, disk and place.
#[derive(Clone, Debug, Default)]
pub struct Record {
    pub name: Vec<u8>,
    pub system: u8,
    pub version: u16,
    pub flags: u16,
    pub method: u16,
    pub checksum: u32,
    pub packed: u32,
    pub size: u32,
    pub extra: Vec<u8>,
    pub comment: Vec<u8>,
    pub disk: u16,
    pub attributes: u32,
    /// Where it says that the data are, if not where they are.
    pub place: Option<u32>,
}

/// A member: its two records, its data as they stand in the file, and what stands behind them.
#[derive(Clone, Debug, Default)]
pub struct Member {
    pub local: Record,
    pub listed: Record,
    pub data: Vec<u8>,
    pub behind: Vec<u8>,
}

/// What the record at the end says, if not the truth.
#[derive(Clone, Debug, Default)]
pub struct End {
    pub disks: [u16; 2],
    pub counts: [Option<u16>; 2],
    pub length: Option<u32>,
    pub place: Option<u32>,
    pub comment_length: Option<u16>,
}

/// A zip file: members in the order of their data, those that the directory has, in its order, and bytes between these pieces.
#[derive(Clone, Debug, Default)]
pub struct Zip {
    pub first: Vec<u8>,
    pub members: Vec<Member>,
    pub listed: Vec<usize>,
    pub before_directory: Vec<u8>,
    pub before_end: Vec<u8>,
    pub end: End,
    pub comment: Vec<u8>,
    pub last: Vec<u8>,
}

/// Numbers of so many bytes each, low byte first.
pub fn low_first(numbers: &[(u64, usize)]) -> Vec<u8> {
    numbers.iter().flat_map(|(number, bytes)| number.to_le_bytes()[..*bytes].to_vec()).collect()
}

pub fn checksum(bytes: &[u8]) -> u32 {
    let mut sum = Crc::new();
    sum.update(bytes);
    sum.sum()
}

/// Deflated, to the end of the last block.
pub fn deflated(bytes: &[u8]) -> Vec<u8> {
    let mut encoder = DeflateEncoder::new(Vec::new(), Compression::default());
    encoder.write_all(bytes).expect("memory");
    encoder.finish().expect("memory")
}

/// Deflated, but for a last block: it could go on.
pub fn unfinished(bytes: &[u8]) -> Vec<u8> {
    let mut encoder = DeflateEncoder::new(Vec::new(), Compression::default());
    encoder.write_all(bytes).and_then(|()| encoder.flush()).expect("memory");
    encoder.get_ref().clone()
}

/// A field behind a name.
pub fn field(kind: u16, bytes: &[u8]) -> Vec<u8> {
    [&low_first(&[(kind.into(), 2), (bytes.len() as u64, 2)]), bytes].concat()
}

/// The field that gives a member a second name, for those whose first it sums up.
pub fn name_field(name: &[u8], second: &[u8]) -> Vec<u8> {
    field(0x7075, &[&low_first(&[(1, 1), (checksum(name).into(), 4)]), second].concat())
}

/// Checksum and sizes as they stand behind data: with a sign before them or without, in 4 bytes each or 8.
pub fn sizes(record: &Record, sign: bool, bytes: usize) -> Vec<u8> {
    let sign: &[u8] = if sign { &SIZES_SIGN } else { &[] };
    let numbers = low_first(&[(record.checksum.into(), 4), (record.packed.into(), bytes), (record.size.into(), bytes)]);
    [sign, &numbers].concat()
}

impl Member {
    /// A member with these bytes, by this method, as Unix has it.
    pub fn new(name: &str, bytes: &[u8], method: u16) -> Self {
        let data = if method == DEFLATED { deflated(bytes) } else { bytes.to_vec() };
        let kind: u32 = if name.ends_with('/') { 0o040_755 << 16 | 0x10 } else { 0o100_644 << 16 };
        let record = Record {
            name: name.into(),
            system: 3,
            version: 20,
            method,
            checksum: checksum(bytes),
            packed: data.len() as u32,
            size: bytes.len() as u32,
            attributes: kind,
            ..Record::default()
        };
        Member { local: record.clone(), listed: record, data, behind: Vec::new() }
    }

    /// The same with its sizes behind it, and none before.
    pub fn streamed(mut self) -> Self {
        self.change(|record| record.flags |= SIZES_BEHIND);
        (self.local.checksum, self.local.packed, self.local.size) = (0, 0, 0);
        self.behind = sizes(&self.listed, true, 4);
        self
    }

    /// The same with a change to both of its records.
    pub fn with(mut self, change: impl FnMut(&mut Record)) -> Self {
        self.change(change);
        self
    }

    pub fn change(&mut self, mut change: impl FnMut(&mut Record)) {
        change(&mut self.local);
        change(&mut self.listed);
    }

    /// Its first record, its data and what is behind them.
    fn write(&self, out: &mut Vec<u8>) {
        let Record { name, flags, method, checksum, packed, size, extra, .. } = &self.local;
        out.extend(b"PK\x03\x04");
        out.extend(low_first(&[(self.local.version.into(), 2), ((*flags).into(), 2), ((*method).into(), 2)]));
        out.extend(low_first(&[(0x5A21_6000, 4)]));
        out.extend(low_first(&[((*checksum).into(), 4), ((*packed).into(), 4), ((*size).into(), 4)]));
        out.extend(low_first(&[(name.len() as u64, 2), (extra.len() as u64, 2)]));
        out.extend([&name[..], extra, &self.data, &self.behind].concat());
    }

    /// Its record in the directory, where its data are at this place.
    fn list(&self, place: u32, out: &mut Vec<u8>) {
        let Record { name, flags, method, checksum, packed, size, extra, comment, .. } = &self.listed;
        let Record { system, version, disk, attributes, .. } = self.listed;
        out.extend(b"PK\x01\x02");
        out.extend(low_first(&[(20, 1), (system.into(), 1), (version.into(), 2), ((*flags).into(), 2)]));
        out.extend(low_first(&[((*method).into(), 2)]));
        out.extend(low_first(&[(0x5A21_6000, 4), ((*checksum).into(), 4), ((*packed).into(), 4), ((*size).into(), 4)]));
        out.extend(low_first(&[name, extra, comment].map(|bytes| (bytes.len() as u64, 2))));
        let place = self.listed.place.unwrap_or(place);
        out.extend(low_first(&[(disk.into(), 2), (0, 2), (attributes.into(), 4), (place.into(), 4)]));
        out.extend([&name[..], extra, comment].concat());
    }
}

impl Zip {
    /// A sound zip file of these members.
    pub fn of(members: Vec<Member>) -> Self {
        Zip { listed: (0..members.len()).collect(), members, ..Zip::default() }
    }

    /// The directory alone, and where the members are of which it tells.
    pub fn directory(&self) -> Vec<u8> {
        let (mut before, mut places, mut directory) = (self.first.clone(), Vec::new(), Vec::new());
        for member in &self.members {
            places.push(before.len() as u32);
            member.write(&mut before);
        }
        self.listed.iter().for_each(|number| self.members[*number].list(places[*number], &mut directory));
        directory
    }

    /// Where the directory begins.
    pub fn directory_place(&self) -> usize {
        let mut before = self.first.clone();
        self.members.iter().for_each(|member| member.write(&mut before));
        before.len() + self.before_directory.len()
    }

    /// The record at the end for a directory of this length at this place, without the comment.
    pub fn end_record(&self, length: usize, place: usize) -> Vec<u8> {
        let End { disks, counts, .. } = self.end;
        let counts = counts.map(|count| count.unwrap_or(self.listed.len() as u16).into());
        let (length, place) = (self.end.length.unwrap_or(length as u32), self.end.place.unwrap_or(place as u32));
        let comment = self.end.comment_length.unwrap_or(self.comment.len() as u16);
        let numbers = low_first(&[(disks[0].into(), 2), (disks[1].into(), 2), (counts[0], 2), (counts[1], 2)]);
        let places = low_first(&[(length.into(), 4), (place.into(), 4), (comment.into(), 2)]);
        [&b"PK\x05\x06"[..], &numbers, &places].concat()
    }

    /// The bytes of the file.
    pub fn write(&self) -> Vec<u8> {
        let mut out = self.first.clone();
        self.members.iter().for_each(|member| member.write(&mut out));
        out.extend(&self.before_directory);
        let (place, directory) = (out.len(), self.directory());
        out.extend(&directory);
        out.extend(&self.before_end);
        out.extend(self.end_record(directory.len(), place));
        out.extend([&self.comment[..], &self.last].concat());
        out
    }

    /// The records of 64 bits that could stand before the one at the end, with a directory of this length at this place.
    pub fn large_records(&self, place: usize, length: usize, at: usize) -> Vec<u8> {
        let count = self.listed.len() as u64;
        let (length, place, at) = (length as u64, place as u64, at as u64);
        let numbers = [(44, 8), (45, 2), (45, 2), (0, 4), (0, 4), (count, 8), (count, 8), (length, 8), (place, 8)];
        let locator = low_first(&[(0, 4), (at, 8), (1, 4)]);
        [&b"PK\x06\x06"[..], &low_first(&numbers), b"PK\x06\x07", &locator].concat()
    }
}
