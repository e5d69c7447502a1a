//! Changes to the records of a zip file, after which two programs may read two feeds from it.

use super::habits::{self, FILES};
use super::{deflated, field, low_first, name_field, sizes, unfinished, Member, Record, Zip, DEFLATED, PLAIN};
use crate::random::Random;

/// Other names for a file, or nearly.
pub fn other_name(name: &[u8], random: &mut Random) -> Vec<u8> {
    let text = String::from_utf8_lossy(name).into_owned();
    let other = match random.below(25) {
        0 => format!("./{text}"),
        1 => format!("/{text}"),
        2 => format!("{text}\0"),
        3 => format!("{text}\0x"),
        4 => format!("../{text}"),
        5 => format!(".\\{text}"),
        6 => text.to_uppercase(),
        7 => text.replacen('s', "S", 1),
        8 => format!("{text};1"),
        9 => format!("{text}."),
        10 => format!("{text} "),
        11 => text.replace('/', "//"),
        12 => format!("a/../{text}"),
        13 => text.replace('/', "\\"),
        14 => text.replace('_', ":"),
        15 => text.replacen('s', "\u{17F}", 1),
        16 => text.replacen('t', "t\u{301}", 1),
        17 => text.replacen('t', "\x01t", 1),
        18 => format!("C:{text}"),
        19 => format!("{text}/"),
        20 => format!("{text}/x"),
        21 => String::new(),
        22 => return [&b"\xFF"[..], name].concat(),
        23 => return [&b"\xFF/"[..], name].concat(),
        _ => (*random.pick(&FILES)).to_string(),
    };
    other.into_bytes()
}

/// Another member of the same name, or of one of the six files'.
fn decoy(zip: &Zip, random: &mut Random) -> Member {
    let bytes = habits::text(random);
    let method = *random.pick(&[PLAIN, DEFLATED]);
    let mut member = Member::new(FILES[random.below(FILES.len())], &bytes, method);
    if let (Some(of), false) = (pick(&zip.members, random), random.once_in(3)) {
        member.change(|record| record.name.clone_from(&of.listed.name));
    }
    if random.once_in(4) {
        member = member.streamed();
    }
    member
}

fn pick<'a, Piece>(pieces: &'a [Piece], random: &mut Random) -> Option<&'a Piece> {
    (!pieces.is_empty()).then(|| random.pick(pieces))
}

/// Some bytes that may stand between records: any, zeros, or records of another zip file.
fn stray(zip: &Zip, random: &mut Random) -> Vec<u8> {
    let other = Zip::of(vec![decoy(zip, random)]);
    match random.below(6) {
        0 => vec![0; random.between(1, 80)],
        1 => (0..random.between(1, 40)).map(|_| random.bits() as u8).collect(),
        2 => other.write(),
        3 => other.directory(),
        4 => other.write()[..other.directory_place()].to_vec(),
        _ => random.pick(&[*b"PK\x03\x04", *b"PK\x05\x06", *b"PK\x06\x07", *b"PK\x07\x08"]).to_vec(),
    }
}

/// One of the two records of a member, or both.
fn change_records(member: &mut Member, random: &mut Random, mut change: impl FnMut(&mut Record)) {
    match random.below(4) {
        0 => change(&mut member.local),
        1 => change(&mut member.listed),
        _ => member.change(change),
    }
}

/// Makes one change.
pub fn change(zip: &mut Zip, random: &mut Random) {
    if zip.members.is_empty() {
        return;
    }
    match random.below(15) {
        12..=14 => change_little(zip, random),
        0 | 1 => change_members(zip, random),
        2 | 3 => change_name(zip, random),
        4 | 5 => change_numbers(zip, random),
        6 => change_data(zip, random),
        7 => change_extra(zip, random),
        8 => change_between(zip, random),
        9 => change_end(zip, random),
        10 => second_directory(zip, random),
        _ => large(zip, random),
    }
}

/// What most programs don't mind: odd names, other systems, attributes, flags, fields and comments, in both records alike.
fn change_little(zip: &mut Zip, random: &mut Random) {
    const NAMES: [&str; 20] = [
        " stops.txt",
        "-stops.txt",
        "@stops.txt",
        "#U0073tops.txt",
        "%73tops.txt",
        "stops.txt,v",
        "$stops.txt",
        "`stops.txt`",
        "{stops,routes}.txt",
        "[st]ops.txt",
        "!stops.txt",
        "^stops.txt",
        "a=stops.txt",
        "stops .txt",
        "~/stops.txt",
        "+stops.txt",
        "stops.txt'",
        "stops.txt~",
        "stops&routes.txt",
        "(1)/x.txt",
    ];
    let (kind, name) = (random.below(7), *random.pick(&NAMES));
    let system = *random.pick(&[0, 3, 10, 11, 14, 19]);
    let (attributes, version) = (1 << random.below(32), *random.pick(&[0, 10, 20, 21, 45]));
    let extra = field(*random.pick(&[0x5455, 0x000A, 0x7875, 0xCAFE]), &vec![random.bits() as u8; random.below(40)]);
    let comment = stray(zip, random);
    let number = random.below(zip.members.len());
    zip.members[number].change(|record| match kind {
        0 | 1 => record.name = name.into(),
        2 => record.system = system,
        3 => record.attributes ^= attributes,
        4 => record.version = version,
        5 => record.extra.extend(&extra),
        _ => record.flags ^= 6,
    });
    if random.once_in(6) {
        zip.members[number].listed.comment.clone_from(&comment);
    }
    if random.once_in(6) {
        zip.comment = comment;
    }
}

/// Members that are there twice, or not in the directory, or in another order.
fn change_members(zip: &mut Zip, random: &mut Random) {
    let (place, count) = (random.below(zip.members.len() + 1), zip.listed.len());
    match random.below(6) {
        // Not in the directory.
        0 | 1 => {
            let decoy = decoy(zip, random);
            zip.listed.iter_mut().filter(|number| **number >= place).for_each(|number| *number += 1);
            zip.members.insert(place, decoy);
        }
        2 => {
            zip.members.push(decoy(zip, random));
            zip.listed.insert(random.below(count + 1), zip.members.len() - 1);
        }
        3 if count > 0 => drop(zip.listed.remove(random.below(count))),
        4 if count > 0 => zip.listed.push(zip.listed[random.below(count)]),
        _ => random.shuffle(&mut zip.listed),
    }
}

fn change_name(zip: &mut Zip, random: &mut Random) {
    let names: Vec<Vec<u8>> = zip.members.iter().map(|member| member.listed.name.clone()).collect();
    let name = other_name(&names[random.below(names.len())], random);
    let number = random.below(zip.members.len());
    if random.once_in(2) {
        change_records(&mut zip.members[number], random, |record| record.name.clone_from(&name));
    } else {
        zip.members.push(decoy(zip, random).with(|record| record.name.clone_from(&name)));
        zip.listed.push(zip.members.len() - 1);
    }
}

fn change_numbers(zip: &mut Zip, random: &mut Random) {
    let number = random.below(zip.members.len());
    let (kind, bit, by) = (random.below(11), random.below(16), *random.pick(&[1u32, 2, 4, 12, 16, u32::MAX, 1 << 16]));
    let (attribute, method) = (random.below(32), *random.pick(&[0, 8, 9, 12, 99]));
    change_records(&mut zip.members[number], random, |record| match kind {
        0 => record.checksum = record.checksum.wrapping_add(by),
        1 => record.packed = record.packed.wrapping_add(by),
        2 => record.size = record.size.wrapping_add(by),
        3 => (record.packed, record.size) = (record.packed.wrapping_add(by), record.size.wrapping_add(by)),
        4 => record.flags ^= 1 << bit,
        5 => record.method = method,
        6 => record.attributes ^= 1 << attribute,
        7 => record.system = bit as u8,
        8 => record.place = Some(by),
        9 => record.version = by as u16,
        _ => record.disk = 1,
    });
}

/// Data that end early or late, and sizes behind them in other forms.
fn change_data(zip: &mut Zip, random: &mut Random) {
    let bytes = habits::text(random);
    let hidden = stray(zip, random);
    let number = random.below(zip.members.len());
    let member = &mut zip.members[number];
    let listed = member.listed.clone();
    match random.below(8) {
        0 => member.behind = sizes(&listed, random.once_in(2), *random.pick(&[4, 8])),
        1 => member.behind.clear(),
        2 => member.behind.extend(hidden),
        3 | 4 => {
            // More behind the last block than the directory knows of, or nothing that ends it.
            let name = String::from_utf8_lossy(&listed.name).into_owned();
            let end = if random.once_in(2) { unfinished(&bytes) } else { [deflated(&bytes), hidden].concat() };
            let mut other = Member::new(&name, &bytes, DEFLATED);
            other.change(|record| record.packed = end.len() as u32);
            other.data = end;
            *member = if random.once_in(2) { other.streamed() } else { other };
        }
        5 => member.data.extend(hidden),
        6 => drop(member.data.pop()),
        _ if !member.data.is_empty() => {
            let place = random.below(member.data.len());
            member.data[place] ^= 1 << random.below(8);
        }
        _ => {}
    }
}

fn change_extra(zip: &mut Zip, random: &mut Random) {
    let decoy = decoy(zip, random);
    let number = random.below(zip.members.len());
    let name = zip.members[number].listed.name.clone();
    let second = if random.once_in(2) { decoy.listed.name.clone() } else { other_name(&name, random) };
    let extra = match random.below(8) {
        0..=2 => name_field(&name, &second),
        3 => name_field(&name, &name),
        4 => field(*random.pick(&[0x0017, 0x756E, 0x6C78, 0x9901, 0x000D, 0x5855, 0xCAFE]), &[0; 12]),
        5 => vec![0x55],
        6 => low_first(&[(0x5455, 2), (500, 2)]),
        _ => field(1, &low_first(&[(decoy.listed.size.into(), 8), (decoy.listed.packed.into(), 8), (0, 8)])),
    };
    change_records(&mut zip.members[number], random, |record| record.extra.extend(&extra));
    if random.once_in(8) {
        zip.members[number].listed.comment = stray(&zip.clone(), random);
    }
}

fn change_between(zip: &mut Zip, random: &mut Random) {
    let bytes = stray(zip, random);
    match random.below(6) {
        0 => zip.first.extend(bytes),
        1 => zip.before_directory.extend(bytes),
        2 => zip.before_end.extend(bytes),
        3 => zip.comment.extend(bytes),
        4 => zip.last.extend(bytes),
        _ => {
            let number = random.below(zip.members.len());
            zip.members[number].behind.extend(bytes);
        }
    }
}

fn change_end(zip: &mut Zip, random: &mut Random) {
    let (count, by) = (zip.listed.len() as u16, *random.pick(&[1, 2, 20, 22, 46]));
    let (length, place) = (zip.directory().len() as u32, zip.directory_place() as u32);
    let end = &mut zip.end;
    match random.below(7) {
        0 => end.disks[random.below(2)] = 1,
        1 => end.counts[random.below(2)] = Some(count.wrapping_add(1)),
        2 => end.counts = [Some(count.saturating_sub(1)); 2],
        3 => end.length = Some(length.wrapping_add(by)),
        4 => end.length = Some(length.saturating_sub(by)),
        5 => end.place = Some(place.saturating_sub(by)),
        _ => end.comment_length = Some(zip.comment.len() as u16 + by as u16),
    }
}

/// A second directory for other members, behind the first or before it, with a second record at the end or with none.
fn second_directory(zip: &mut Zip, random: &mut Random) {
    let mut other = zip.clone();
    for _ in 0..random.between(1, 3) {
        let decoy = decoy(zip, random);
        zip.members.push(decoy.clone());
        other.members.push(decoy);
        other.listed.push(other.members.len() - 1);
        other.listed.remove(0);
    }
    let directory = other.directory();
    let (first, end) = (zip.directory_place(), zip.directory().len() + zip.directory_place());
    match random.below(4) {
        0 => zip.before_end.extend(&directory),
        1 => zip.before_directory.extend(&directory),
        2 => {
            zip.before_end.extend(&directory);
            zip.end.length = Some((zip.directory().len() + directory.len()) as u32);
        }
        _ => {
            // The comment has a directory and a record at the end of its own, or that record alone.
            let place = end + 22;
            let record = other.end_record(directory.len(), if random.once_in(2) { place } else { first });
            zip.comment.extend([directory, record].concat());
        }
    }
}

/// Records of 64 bits: of the same directory, or of another that stands elsewhere.
fn large(zip: &mut Zip, random: &mut Random) {
    let (place, length) = (zip.directory_place(), zip.directory().len());
    let behind = place + length;
    let mut other = zip.clone();
    let records = if random.once_in(2) {
        zip.large_records(place, length, behind)
    } else {
        let decoy = decoy(zip, random);
        zip.members.push(decoy.clone());
        other.members.push(decoy);
        other.listed = vec![other.members.len() - 1];
        let (directory, behind) = (other.directory(), zip.directory_place() + length);
        let records = other.large_records(behind, directory.len(), behind + directory.len());
        [directory, records].concat()
    };
    if random.once_in(2) {
        zip.end.place = Some(u32::MAX);
    }
    if random.once_in(4) {
        zip.end.counts = [Some(u16::MAX); 2];
    }
    match (random.below(4), zip.listed.last()) {
        // Within the directory, as the last one's comment.
        (0, Some(last)) => zip.members[*last].listed.comment = records[records.len() - 20..].to_vec(),
        _ => zip.before_end.extend(records),
    }
}

/// A zip file of this seed, and whether it is still sound or has some changes.
pub fn zip(seed: u64) -> (Vec<u8>, bool) {
    let mut random = Random::new(seed);
    let mut zip = habits::zip(&mut random);
    let sound = zip.write();
    for _ in 0..*random.pick(&[0, 0, 0, 1, 1, 1, 2, 3]) {
        change(&mut zip, &mut random);
    }
    let mut bytes = zip.write();
    if random.once_in(8) && !bytes.is_empty() {
        let place = random.below(bytes.len());
        bytes[place] = *random.pick(&[0, 1, 8, 0x2F, 0x50, 0x7F, 0xFF]);
    }
    let is_sound = bytes == sound;
    (bytes, is_sound)
}
