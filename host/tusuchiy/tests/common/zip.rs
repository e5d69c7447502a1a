//! Zip files of feeds for the tests, which can have what no good writer would write.

use cases::zips::{self, checksum, field, low_first, unfinished, Record, Zip, DEFLATED, PLAIN};

/// A member of a zip file as it is to be written.
#[derive(Clone)]
pub struct Member {
    pub name: Vec<u8>,
    /// The name before the data; the same but in a test.
    pub local_name: Vec<u8>,
    pub bytes: Vec<u8>,
    pub packed: bool,
    pub flags: u16,
    /// Bits of its kind on Unix.
    pub mode: u32,
    /// Numbers of 64 bits.
    pub large: bool,
    /// What is added to the checksum.
    pub wrong: u32,
    /// How often the bytes stand in it, one after the other.
    pub times: usize,
    /// The size that both records say; none is the true one.
    pub claimed: Option<usize>,
}

/// A member with these bytes, deflated.
pub fn member(name: &str, bytes: &[u8]) -> Member {
    let (name, local_name, bytes) = (name.into(), name.into(), bytes.to_vec());
    Member {
        name,
        local_name,
        bytes,
        packed: true,
        flags: 0,
        mode: 0o100_644,
        large: false,
        wrong: 0,
        times: 1,
        claimed: None,
    }
}

/// The six files of a feed in a folder.
pub fn feed(folder: &str, files: &[Vec<u8>; 6]) -> Vec<Member> {
    super::NAMES.iter().zip(files).map(|(name, bytes)| member(&format!("{folder}{name}"), bytes)).collect()
}

/// A member's two records and its data, which begin at this place. Bytes that stand in it many times are packed but once: each time ends between
/// two bytes, and an empty last block follows.
fn made(member: &Member, place: usize) -> zips::Member {
    let Member { name, local_name, bytes, packed, flags, mode, large, wrong, times, claimed } = member;
    let size = claimed.unwrap_or(bytes.len() * times) as u64;
    let data = if *packed { [unfinished(bytes).repeat(*times), vec![3, 0]].concat() } else { bytes.clone() };
    let short = |number: u64| if *large { u32::MAX } else { number as u32 };
    let record = Record {
        name: name.clone(),
        system: 3,
        version: 45,
        flags: *flags,
        method: if *packed { DEFLATED } else { PLAIN },
        checksum: checksum(bytes).wrapping_add(*wrong),
        packed: short(data.len() as u64),
        size: short(size),
        attributes: mode << 16,
        ..Record::default()
    };
    let mut made = zips::Member { local: record.clone(), listed: record, data, behind: Vec::new() };
    made.local.name.clone_from(local_name);
    if *large {
        made.listed.extra = field(1, &low_first(&[(size, 8), (made.data.len() as u64, 8), (place as u64, 8)]));
    }
    made
}

/// The zip file, with a comment.
pub fn write(members: &[Member]) -> Vec<u8> {
    let mut zip = Zip { comment: b"comment".to_vec(), ..Zip::default() };
    for member in members {
        let made = made(member, zip.directory_place());
        zip.listed.push(zip.members.len());
        zip.members.push(made);
    }
    if members.iter().any(|member| member.large) {
        let (place, length) = (zip.directory_place(), zip.directory().len());
        zip.before_end = zip.large_records(place, length, place + length);
        (zip.end.counts, zip.end.length, zip.end.place) = ([Some(u16::MAX); 2], Some(u32::MAX), Some(u32::MAX));
    }
    zip.write()
}
