//! Sound zip files as several writers make them.

use super::{field, low_first, sizes, Member, Zip, DEFLATED, PLAIN, UTF_8};
use crate::random::Random;

/// The six files of a feed, and others that may stand beside them.
pub const FILES: [&str; 6] =
    ["stops.txt", "routes.txt", "calendar.txt", "trips.txt", "stop_times.txt", "calendar_dates.txt"];
const OTHERS: [&str; 8] = [
    "agency.txt",
    "shapes.txt",
    "feed info.txt",
    "README",
    "__MACOSX/._stops.txt",
    "docs/a/b.md",
    "old/stops_2.txt",
    "stops.txt~",
];

/// How a writer packs.
#[derive(Clone, Copy, Debug, PartialEq)]
enum Writer {
    InfoZip,
    Python,
    Java,
    Libarchive,
    SevenZip,
    /// Sizes behind the data without a sign, as the first writers of streams had it.
    Unsigned,
}

/// Some bytes, such as a feed's file has, or any, or those of a zip file with a feed of its own.
pub fn text(random: &mut Random) -> Vec<u8> {
    match random.below(12) {
        0 => Vec::new(),
        1 => (0..random.below(200)).map(|_| random.bits() as u8).collect(),
        2 => {
            let names = FILES.iter().filter(|_| random.once_in(3)).copied().collect::<Vec<_>>();
            let members = names.iter().map(|name| Member::new(name, b"id\nother\n", *random.pick(&[PLAIN, DEFLATED])));
            Zip::of(members.collect()).write()
        }
        _ => {
            let line = |random: &mut Random| format!("id{},name {}\n", random.below(1000), random.below(9));
            (0..random.between(1, 12)).flat_map(|_| line(random).into_bytes()).collect()
        }
    }
}

/// A member as a writer makes it.
fn member(writer: Writer, name: &str, random: &mut Random) -> Member {
    let is_folder = name.ends_with('/');
    let bytes = if is_folder { Vec::new() } else { text(random) };
    let deflates = if is_folder { writer == Writer::Java } else { random.below(4) > 0 };
    let mut member = Member::new(name, &bytes, if deflates { DEFLATED } else { PLAIN });
    let times = field(0x5455, &low_first(&[(3, 1), (1_700_000_000, 4), (1_700_000_000, 4)]));
    let owner = field(0x7875, &low_first(&[(1, 1), (4, 1), (1000, 4), (4, 1), (1000, 4)]));
    match writer {
        Writer::InfoZip => {
            member.local.extra = [&times[..], &owner].concat();
            member.listed.extra = [field(0x5455, &times[4..9]), owner].concat();
        }
        Writer::Python if is_folder => member.listed.attributes = *random.pick(&[0, 0x10, 0o100_644 << 16]),
        Writer::Python => member.listed.attributes = *random.pick(&[0o600 << 16, 0o100_644 << 16, 0x20]),
        Writer::Java => {
            member.change(|record| (record.system, record.attributes) = (0, 0));
            if deflates {
                member = member.streamed().with(|record| record.flags |= UTF_8);
            }
        }
        Writer::Libarchive if deflates => {
            member = member.streamed();
            (member.local.size, member.local.extra) = (member.listed.size, [times, owner].concat());
        }
        Writer::SevenZip => {
            let windows = field(0x000A, &low_first(&[(0, 4), (1, 2), (24, 2), (1, 8), (2, 8), (3, 8)]));
            (member.listed.extra, member.listed.attributes) = (windows, member.listed.attributes | 0x8000);
        }
        Writer::Unsigned if deflates => {
            member = member.streamed();
            member.behind = sizes(&member.listed, false, 4);
        }
        Writer::Libarchive | Writer::Unsigned => {}
    }
    if random.once_in(12) {
        member.listed.comment = records(random);
    }
    if random.once_in(12) {
        let extra =
            field(*random.pick(&[0x5455, 0x000A, 0x5855, 0x7855, 0x7875, 0x4453, 0xA11E, 0xD935]), &records(random));
        member.change(|record| record.extra.extend(&extra));
    }
    member
}

/// Bytes that begin as a record does, but for those at the end, and are ASCII.
fn records(random: &mut Random) -> Vec<u8> {
    let mut bytes = random.pick(&[*b"PK\x01\x02", *b"PK\x03\x04", *b"PK\x06\x06", *b"PK\x07\x08"]).to_vec();
    let length = *random.pick(&[0, 8, 16, 18, 26, 42]);
    bytes.extend((0..length).map(|_| *random.pick(&[0, 0, 0, 1, 0x50, 0x7F])));
    bytes
}

/// A feed in a zip file: by one writer or by several, at the top or in a folder, with some files left out and others beside them.
pub fn zip(random: &mut Random) -> Zip {
    const WRITERS: [Writer; 6] =
        [Writer::InfoZip, Writer::Python, Writer::Java, Writer::Libarchive, Writer::SevenZip, Writer::Unsigned];
    let writer = *random.pick(&WRITERS);
    let folder = *random.pick(&["", "", "", "gtfs/", "a/b c/"]);
    let mut names: Vec<String> = Vec::new();
    if !folder.is_empty() && random.once_in(2) {
        names.push(folder.to_string());
    }
    let others = OTHERS.iter().filter(|_| random.once_in(4)).copied().collect::<Vec<_>>();
    let files = FILES.iter().filter(|_| !random.once_in(8)).copied().chain(others).collect::<Vec<_>>();
    names.extend(files.iter().map(|name| format!("{folder}{name}")));
    if random.once_in(3) {
        random.shuffle(&mut names);
    }
    let by_several = random.once_in(3);
    let mut each = |name: &String| {
        let writer = if by_several { *random.pick(&WRITERS) } else { writer };
        member(writer, name, random)
    };
    let mut zip = Zip::of(names.iter().map(&mut each).collect());
    match random.below(8) {
        0 => zip.comment = b"a comment".to_vec(),
        1 => zip.comment = records(random),
        _ => {}
    }
    if random.once_in(6) {
        random.shuffle(&mut zip.listed);
    }
    zip
}
