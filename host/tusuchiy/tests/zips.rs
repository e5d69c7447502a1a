//! Zip files from which two programs could read two feeds: status 3, and why; and what every program reads alike.

mod common;

use cases::zips::{
    checksum, deflated, field, low_first, name_field, sizes, unfinished, Member, Record, Zip, DEFLATED, PLAIN, UTF_8,
};
use common::{assert_cannot, example_files, out, run, said, status, Folder, NAMES};

/// The accepted feed's files as members, with a calendar_dates.txt that has no record.
fn good() -> Vec<Member> {
    let mut files = example_files("feed");
    files[5] = b"service_id,date,exception_type\n".to_vec();
    NAMES.iter().zip(&files).map(|(name, bytes)| Member::new(name, bytes, DEFLATED)).collect()
}

/// Another file in the place of stops.txt.
fn decoy() -> Member {
    Member::new("stops.txt", b"stop_id,stop_name,stop_lat,stop_lon\nOTHER,Other,1,1\n", DEFLATED)
}

/// The good feed in a zip file, with a change.
fn changed(change: impl FnOnce(&mut Zip)) -> Zip {
    let mut zip = Zip::of(good());
    change(&mut zip);
    zip
}

/// Adds members behind the others.
fn add(zip: &mut Zip, members: impl IntoIterator<Item = Member>) {
    for member in members {
        zip.listed.push(zip.members.len());
        zip.members.push(member);
    }
}

/// Status 3 for these bytes, and words that name the zip file.
fn assert_refused(bytes: &[u8], message: &str) {
    let folder = Folder::empty("zips");
    folder.put("feed.zip", bytes);
    let path = folder.at("feed.zip");
    assert_cannot(&["check", &path], &[&format!("can't read {path}: {message}")]);
}

/// The same for the good feed with a change.
fn refused(change: impl FnOnce(&mut Zip), message: &str) {
    assert_refused(&changed(change).write(), message);
}

/// The good feed with a change is accepted.
fn accepted(change: impl FnOnce(&mut Zip)) {
    let folder = Folder::empty("zips");
    folder.put("feed.zip", &changed(change).write());
    let output = run(&["check", "--quiet", &folder.at("feed.zip")]);
    assert_eq!((status(&output), out(&output)), (0, "accepted\n"), "{}", said(&output));
}

/// The directory of the same feed with another stops.txt, whose data stand behind the last member of the zip file.
fn second_directory(zip: &mut Zip) -> Vec<u8> {
    let last = zip.members.len();
    zip.members.push(decoy());
    let mut other = zip.clone();
    other.listed[0] = last;
    other.directory()
}

/// Packs a folder with the feed by a bash command, which writes to $0, and checks what it has made.
fn packed(command: &str) -> std::process::Output {
    let folder = Folder::empty("writers");
    folder.put_feed("gtfs", &example_files("by-date"));
    folder.take("gtfs/calendar.txt");
    let zip = folder.at("feed.zip");
    let mut bash = std::process::Command::new("bash");
    let made = bash.args(["-c", &format!("set -o pipefail; {command}"), &zip]).current_dir(&folder.0).output();
    let made = made.expect("bash");
    assert!(made.status.success(), "{command}: {}", said(&made));
    run(&["check", "--quiet", &zip])
}

/// Python's way to pack by this method to where nothing can be written anew.
fn python(method: &str) -> String {
    let words = "import sys, zipfile, pathlib; out = zipfile.ZipFile(sys.stdout.buffer, 'w', zipfile.METHOD); \
                 [out.write(path) for path in pathlib.Path('gtfs').rglob('*')]; out.close()";
    format!("python3 -c \"{}\" | cat > \"$0\"", words.replace("METHOD", method))
}

/// What writers make is read, packed or not, in one go or to a pipe.
#[test]
fn zip_files_as_writers_make_them() {
    let read = [
        "zip -qr \"$0\" gtfs",
        "zip -qr0 \"$0\" gtfs",
        "zip -qr - gtfs | cat > \"$0\"",
        "zip -qr - gtfs -z <<< 'a comment' > \"$0\"",
        "cd gtfs && zip -q \"$0\" *",
        "7z a -bso0 -bsp0 \"$0\" gtfs",
        "7z a -bso0 -bsp0 -mx0 \"$0\" ./gtfs/*",
        "bsdtar -a -cf \"$0\" gtfs",
        "python3 -m zipfile -c \"$0\" gtfs",
        &python("ZIP_DEFLATED"),
        "jar cfM \"$0\" gtfs",
        "jar cf0M \"$0\" -C gtfs .",
    ];
    for command in read {
        let output = packed(command);
        assert_eq!((status(&output), out(&output)), (0, "accepted\n"), "{command}: {}", said(&output));
    }
    let behind = "it isn't packed, and its size stands behind it";
    let not_read = [
        ("zip -qr -fz \"$0\" gtfs", LARGE),
        (": > gtfs/empty.txt; zip -qr - gtfs | cat > \"$0\"", behind),
        (&python("ZIP_STORED"), behind),
        ("bsdtar --format zip --options zip:compression=store -cf \"$0\" gtfs", behind),
    ];
    for (command, words) in not_read {
        let output = packed(command);
        assert!(status(&output) == 3 && said(&output).contains(words), "{command}: {}", said(&output));
    }
}

/// What stands behind the directory could be the one that a program finds by going back from the end.
#[test]
fn a_second_directory() {
    let elsewhere = "its directory doesn't end where the record at its end begins";
    refused(|zip| zip.before_end = second_directory(zip), elsewhere);
    refused(|zip| zip.before_end = zip.directory(), elsewhere);
    refused(|zip| zip.before_end = vec![0], elsewhere);
    refused(|zip| zip.end.place = Some(zip.directory_place() as u32 - 1), elsewhere);
    refused(|zip| zip.end.length = Some(zip.directory().len() as u32 + 1), elsewhere);
    let unlisted = "calendar_dates.txt: bytes that belong to no member stand behind it";
    refused(|zip| zip.before_directory = zip.directory(), unlisted);
    // One whose records say that they are more or fewer than they are.
    let (count, length) = (good().len(), Zip::of(good()).directory().len() as u32);
    let miscounted = |told: usize| format!("its directory has {count} members, and the record at its end says {told}");
    refused(|zip| zip.end.counts = [Some(count as u16 - 1); 2], &miscounted(count - 1));
    refused(|zip| zip.end.counts = [Some(count as u16 + 1); 2], &miscounted(count + 1));
    refused(|zip| (zip.end.length, zip.end.place) = (Some(0), Some(zip.directory_place() as u32 + length)), &{
        format!("its directory has 0 members, and the record at its end says {count}")
    });
}

/// Programs look for it from the end, with more care or with less.
#[test]
fn a_second_record_at_the_end() {
    let two = "it has two records of its end";
    refused(
        |zip| {
            let directory = second_directory(zip);
            let place = zip.directory_place() + zip.directory().len() + 22;
            zip.comment = [directory.clone(), zip.end_record(directory.len(), place)].concat();
        },
        two,
    );
    refused(|zip| zip.comment = zip.end_record(0, 0), two);
    refused(|zip| zip.comment = b"PK\x05\x06".to_vec(), two);
    refused(|zip| zip.comment = b"PK\x05\x06, and more than a record has".to_vec(), two);
    // One in a member's data whose comment would reach to the end of the file.
    let mut zip = changed(|zip| add(zip, [Member::new("note", &[0; 22], PLAIN)]));
    let behind = zip.write().len() - zip.directory_place();
    zip.end.comment_length = Some(behind as u16);
    let record = zip.end_record(0, 0);
    zip.end.comment_length = None;
    *zip.members.last_mut().expect("a member") = Member::new("note", &record, PLAIN);
    assert_refused(&zip.write(), two);
    // Any other is only data.
    accepted(|zip| {
        add(zip, [Member::new("inner.zip", &Zip::of(vec![decoy()]).write(), PLAIN)]);
    });
    accepted(|zip| zip.comment = b"PK, packed on \x01\x02\xFF".to_vec());
    let cut = "it is damaged: bytes are missing at its end, or others stand there";
    refused(|zip| zip.last = vec![0], cut);
    refused(|zip| zip.last = vec![0; 512], cut);
    refused(|zip| zip.end.comment_length = Some(1), cut);
    refused(|zip| (zip.comment, zip.end.comment_length) = (b"more".to_vec(), Some(3)), cut);
}

const LARGE: &str = "it has numbers of 64 bits (zip64), which programs read in different ways: pack it without them";

/// Some programs read them wherever they are, some only where the plain ones say so.
#[test]
fn records_of_64_bits() {
    let beside = |zip: &mut Zip| {
        let (place, length) = (zip.directory_place(), zip.directory().len());
        zip.large_records(place, length, place + length)
    };
    refused(|zip| zip.before_end = beside(zip), LARGE);
    refused(|zip| (zip.before_end, zip.end.place) = (beside(zip), Some(u32::MAX)), LARGE);
    refused(|zip| (zip.before_end, zip.end.length) = (beside(zip), Some(u32::MAX)), LARGE);
    refused(|zip| (zip.before_end, zip.end.counts) = (beside(zip), [Some(u16::MAX); 2]), LARGE);
    refused(
        |zip| {
            let mut other = zip.clone();
            let directory = second_directory(&mut other);
            zip.members.push(decoy());
            let place = zip.directory_place() + zip.directory().len();
            let records = zip.large_records(place, directory.len(), place + directory.len());
            zip.before_end = [directory, records].concat();
        },
        LARGE,
    );
    // The last 20 bytes of the directory, where the locator would be.
    refused(
        |zip| {
            let last = zip.members.last_mut().expect("a member");
            last.listed.comment = [&b"PK\x06\x07"[..], &low_first(&[(0, 4), (0, 8), (1, 4)])].concat();
        },
        LARGE,
    );
    // As those write it who have to.
    let mut members = common::zip::feed("", &example_files("feed"));
    members.iter_mut().for_each(|member| member.large = true);
    assert_refused(&common::zip::write(&members), LARGE);
    let of_stops = format!("stops.txt: {LARGE}");
    let numbers = |record: &Record| field(1, &low_first(&[(record.size.into(), 8), (record.packed.into(), 8)]));
    refused(|zip| zip.members[0].local.extra = numbers(&zip.members[0].local), &of_stops);
    refused(|zip| zip.members[0].listed.extra = numbers(&zip.members[0].local), &of_stops);
    refused(|zip| zip.members[0].change(|record| record.size = u32::MAX), &of_stops);
    refused(|zip| zip.members[0].change(|record| record.packed = u32::MAX), &of_stops);
    refused(|zip| zip.members[0].listed.place = Some(u32::MAX), &of_stops);
    for sign in [true, false] {
        refused(
            |zip| {
                zip.members[0] = zip.members[0].clone().streamed();
                zip.members[0].behind = sizes(&zip.members[0].listed, sign, 8);
            },
            &of_stops,
        );
    }
}

/// A reader of streams finds what the directory doesn't list.
#[test]
fn members_that_no_directory_names() {
    let behind = "bytes that belong to no member stand behind it";
    let hide = |place: usize| {
        move |zip: &mut Zip| {
            zip.members.insert(place, decoy());
            zip.listed.iter_mut().filter(|number| **number >= place).for_each(|number| *number += 1);
        }
    };
    refused(hide(0), "bytes that belong to no member stand at its beginning");
    refused(hide(1), &format!("stops.txt: {behind}"));
    refused(hide(good().len()), &format!("calendar_dates.txt: {behind}"));
    refused(|zip| zip.listed = (1..6).collect(), "bytes that belong to no member stand at its beginning");
    refused(|zip| zip.first = b"#!/bin/sh\n".to_vec(), "bytes that belong to no member stand at its beginning");
    refused(|zip| zip.members[1].behind = vec![0; 3], &format!("routes.txt: {behind}"));
    refused(|zip| zip.before_directory = vec![0; 16], &format!("calendar_dates.txt: {behind}"));
    refused(|zip| zip.members[1].behind = sizes(&zip.members[1].listed, true, 4), &format!("routes.txt: {behind}"));
    // Behind the last block of a member, where a reader of streams goes on.
    let hidden = Zip::of(vec![decoy()]).write();
    let damaged = |name: &str| format!("{name}: it is damaged: size or checksum is wrong");
    for name in ["stops.txt", "agency.txt"] {
        for streamed in [true, false] {
            let with_more = |data: Vec<u8>| {
                let mut member =
                    Member::new(name, b"text\n", DEFLATED).with(|record| record.packed = data.len() as u32);
                member.data = data;
                if streamed {
                    member = member.streamed();
                }
                move |zip: &mut Zip| {
                    zip.members.retain(|other| other.listed.name != name.as_bytes());
                    zip.members.push(member);
                    zip.listed = (0..zip.members.len()).collect();
                }
            };
            refused(with_more([deflated(b"text\n"), hidden.clone()].concat()), &damaged(name));
            refused(with_more(unfinished(b"text\n")), &format!("{name}: it is damaged"));
        }
    }
}

/// Two listed members of the same data, or of data that overlap.
#[test]
fn members_that_overlap() {
    refused(|zip| zip.members[5].listed.place = Some(0), "stops.txt: another member begins before it ends");
    refused(|zip| zip.listed.push(0), "stops.txt stands in it twice");
    let inner = Member::new("b.txt", b"inner", PLAIN);
    let mut outer = Zip::of(vec![inner.clone()]).write();
    outer.truncate(30 + 5 + 5);
    refused(
        |zip| {
            let place = zip.directory_place() + 30 + 5;
            add(zip, [Member::new("a.txt", &outer, PLAIN), inner.with(|record| record.place = Some(place as u32))]);
        },
        "a.txt: another member begins before it ends",
    );
}

/// Names that some program unpacks as another; each stands beside the true file, and is told.
#[test]
fn other_names_for_a_file() {
    let characters = "its name has characters that programs read in different ways";
    let dots = "its path has a part . or ..";
    let names: [(&[u8], &str, &str); 34] = [
        (b"./stops.txt", "./stops.txt", dots),
        (b"a/./stops.txt", "a/./stops.txt", dots),
        (b"../stops.txt", "../stops.txt", dots),
        (b"a/../stops.txt", "a/../stops.txt", dots),
        (b"..", "..", dots),
        (b"/stops.txt", "/stops.txt", "its path is absolute"),
        (b"/etc/other/stops.txt", "/etc/other/stops.txt", "its path is absolute"),
        (b"//stops.txt", "//stops.txt", "its path is absolute"),
        (b"/", "/", "its path is absolute"),
        (b"a//stops.txt", "a//stops.txt", "a part of its path is empty"),
        (b"stops.txt//", "stops.txt//", "a part of its path is empty"),
        (b"", "a member without a name", "a part of its path is empty"),
        (b"stops.txt\0", "stops.txt\\x00", characters),
        (b"stops.txt\0.jpg", "stops.txt\\x00.jpg", characters),
        (b".\\stops.txt", ".\\\\stops.txt", characters),
        (b"a\\stops.txt", "a\\\\stops.txt", characters),
        (b"C:stops.txt", "C:stops.txt", characters),
        (b"stops.txt;1", "stops.txt;1", characters),
        (b"stop:times.txt", "stop:times.txt", characters),
        (b"stop*times.txt", "stop*times.txt", characters),
        (b"st\x01ops.txt", "st\\x01ops.txt", characters),
        (b"stops\x7F.txt", "stops\\x7F.txt", characters),
        (b"stops\xFF.txt", "stops\\xFF.txt", characters),
        (b"\xFF/stops.txt", "\\xFF/stops.txt", characters),
        // A long s, which some fold to a short one; letters of full width.
        ("\u{17F}tops.txt".as_bytes(), "\u{17F}tops.txt", characters),
        ("stops\u{FF0E}txt".as_bytes(), "stops\u{FF0E}txt", characters),
        // The two normal forms of one name.
        ("a\u{E9}.txt".as_bytes(), "a\u{E9}.txt", characters),
        ("ae\u{301}.txt".as_bytes(), "ae\u{301}.txt", characters),
        (b"stops.txt.", "stops.txt.", "Windows cuts its name"),
        (b"stops.txt ", "stops.txt ", "Windows cuts its name"),
        (b"a./stops.txt", "a./stops.txt", "Windows cuts its name"),
        (b"STOP_T~1.TXT", "STOP_T~1.TXT", "Windows takes it for a short name of another file"),
        (b"STOPS.TXT", "STOPS.TXT", "some programs take it for stops.txt"),
        (b"sub/Stops.txt", "sub/Stops.txt", "some programs take it for stops.txt"),
    ];
    for (name, shown, why) in names {
        let other = || decoy().with(|record| (record.name, record.flags) = (name.to_vec(), UTF_8));
        refused(
            |zip| {
                add(zip, [other()]);
            },
            &format!("{shown}: {why}"),
        );
        // In its place too.
        refused(|zip| zip.members[0] = other(), &format!("{shown}: {why}"));
    }
}

/// Names that are one to some programs, or of which one is a file and a folder.
#[test]
fn names_that_meet() {
    let meet = |one: &str, other: &str, message: &str| {
        for names in [[one, other], [other, one]] {
            refused(
                |zip| {
                    add(zip, names.map(|name| Member::new(name, b"", PLAIN)));
                },
                message,
            );
        }
    };
    meet("agency.txt", "agency.txt", "agency.txt stands in it twice");
    meet("Agency.txt", "agency.txt", "Agency.txt and agency.txt are one name to some programs");
    meet("a/X/b", "A/x/B", "A/x/B and a/X/b are one name to some programs");
    meet("a/", "A/", "A/ and a/ are one name to some programs");
    meet("a", "a/", "a and a/ are one name to some programs");
    // Nobody can unpack both.
    meet("note", "note/x", "note is a file, and a folder in note/x");
    meet("note", "Note/y/x", "note is a file, and a folder in Note/y/x");
    refused(
        |zip| {
            add(zip, [Member::new("calendar_dates.txt/x", b"", PLAIN)]);
        },
        "calendar_dates.txt is a file, and a folder in calendar_dates.txt/x",
    );
    accepted(|zip| {
        let names = ["note", "note-2/x", "note 3", "sub/", "sub/note", "sub/a/", "Sub/b"];
        add(zip, names.map(|name| Member::new(name, b"", PLAIN)));
    });
    // A file that may be missing isn't found under another name by some only.
    refused(
        |zip| zip.members[5].change(|record| record.name = b"Calendar_Dates.txt".to_vec()),
        "Calendar_Dates.txt: some programs take it for calendar_dates.txt",
    );
}

/// unzip, 7z and bsdtar take the name from this field, others don't.
#[test]
fn a_second_name_behind_the_first() {
    let second = |name: &str| {
        let words = format!("note: a second name stands behind its name: {name}");
        for place in 0..3 {
            let mut member = decoy().with(|record| record.name = b"note".to_vec());
            let extra = name_field(b"note", name.as_bytes());
            let [local, listed] = [place != 1, place != 2].map(|has| if has { extra.clone() } else { Vec::new() });
            (member.local.extra, member.listed.extra) = (local, listed);
            refused(
                |zip| {
                    add(zip, [member]);
                },
                &words,
            );
        }
    };
    second("stops.txt");
    second("other.txt");
    // unzip takes the size of such a member for another, if the names are the same.
    second("note");
    refused(|zip| zip.members[0].local.extra = field(0x7075, b""), "stops.txt: a second name stands behind its name: ");
}

/// Fields behind a name: known ones, unknown ones, and half of one.
#[test]
fn fields_behind_a_name() {
    for kind in [0x5455, 0x000A, 0x5855, 0x7855, 0x7875, 0x4453, 0xCAFE, 0xA11E, 0xD935] {
        accepted(|zip| zip.members[0].change(|record| record.extra = field(kind, &[0; 12])));
    }
    for kind in [0x0017, 0x756E, 0x6C78, 0x9901, 0x000D, 0x6375] {
        let words = format!("stops.txt: a field behind its name isn't known ({kind:#06x})");
        refused(|zip| zip.members[0].local.extra = field(kind, &[0; 12]), &words);
        refused(|zip| zip.members[0].listed.extra = field(kind, &[0; 12]), &words);
    }
    for extra in [&[0x55][..], &[0x55, 0x54, 9], &[0x55, 0x54, 9, 0, 1], &[0x55, 0x54, 0, 0]] {
        let words = "stops.txt: the fields behind its name are damaged";
        refused(|zip| zip.members[0].local.extra = extra.to_vec(), words);
        refused(|zip| zip.members[0].listed.extra = extra.to_vec(), words);
    }
    accepted(|zip| zip.members[0].listed.comment = b"a comment".to_vec());
    refused(|zip| zip.members[0].listed.comment = b"\xFF".to_vec(), "stops.txt: its comment isn't ASCII");
}

/// What stands before the data is what the directory says, for those who read streams.
#[test]
fn records_that_differ() {
    let differ = |change: fn(&mut Record)| {
        refused(|zip| change(&mut zip.members[1].local), "routes.txt: its directory and its data don't go together");
    };
    differ(|record| record.name = b"trips_.txt".to_vec());
    differ(|record| record.name = b"route.txt".to_vec());
    differ(|record| record.flags = 2);
    differ(|record| record.flags = UTF_8);
    differ(|record| record.method = PLAIN);
    differ(|record| record.checksum ^= 1);
    differ(|record| record.packed += 1);
    differ(|record| record.packed = 0);
    differ(|record| record.size += 1);
    differ(|record| record.size = 0);
    let damaged = "routes.txt: it is damaged: size or checksum is wrong";
    refused(|zip| zip.members[1].change(|record| record.checksum ^= 1), damaged);
    refused(|zip| zip.members[1].change(|record| record.size += 1), damaged);
    refused(|zip| zip.members[1].change(|record| record.size -= 1), damaged);
    let other = |zip: &mut Zip, change: fn(&mut Record)| {
        add(zip, [Member::new("agency.txt", b"text", DEFLATED).with(change)]);
    };
    let damaged = damaged.replace("routes", "agency");
    refused(|zip| other(zip, |record| record.checksum ^= 1), &damaged);
    refused(|zip| other(zip, |record| record.size += 1), &damaged);
    refused(|zip| other(zip, |record| record.size -= 1), &damaged);
    refused(
        |zip| zip.members[1] = Member::new("routes.txt", b"text", PLAIN).with(|record| record.size = 3),
        "routes.txt: it isn't packed, but has two sizes",
    );
}

/// Checksum and sizes behind the data, with their sign or without; nothing else, and only where the flag says so.
#[test]
fn sizes_behind_the_data() {
    let streamed = |zip: &mut Zip| zip.members[0] = zip.members[0].clone().streamed();
    for (sign, told) in [(true, 0), (true, 1), (false, 0), (false, 2)] {
        accepted(|zip| {
            streamed(zip);
            let Member { local, listed, behind, .. } = &mut zip.members[0];
            *behind = sizes(listed, sign, 4);
            // Writers that know the size before put it there too.
            (local.size, local.packed) = [(0, 0), (listed.size, 0), (listed.size, listed.packed)][told];
        });
    }
    let wrong = |change: fn(&mut Member), message: &str| {
        refused(
            |zip| {
                streamed(zip);
                change(&mut zip.members[0]);
            },
            &format!("stops.txt: {message}"),
        );
    };
    let other = "the sizes behind it aren't those of the directory";
    wrong(|member| member.behind[4] ^= 1, other);
    wrong(|member| member.behind[8] ^= 1, other);
    wrong(|member| member.behind[12] ^= 1, other);
    wrong(|member| member.behind[3] = 9, other);
    wrong(|member| member.behind = sizes(&member.local, false, 4), other);
    wrong(|member| member.behind.clear(), "bytes that belong to no member stand behind it");
    wrong(|member| member.behind.push(0), "bytes that belong to no member stand behind it");
    let apart = "its directory and its data don't go together";
    wrong(|member| member.local.size = 1, apart);
    wrong(|member| member.local.packed = 1, apart);
    wrong(|member| member.local.checksum = 1, apart);
    wrong(|member| member.local.flags = 0, apart);
    // Without a sign, a checksum that reads as one would be taken for it.
    let text = [&b"text "[..], &[0x5D, 0x19, 0x2D, 0x39]].concat();
    let sign = u32::from_le_bytes(*b"PK\x07\x08");
    assert_eq!(checksum(&text), sign);
    let with_sign = |has_sign: bool| {
        let mut member = Member::new("note", &text, DEFLATED).streamed();
        member.behind = sizes(&member.listed, has_sign, 4);
        move |zip: &mut Zip| {
            add(zip, [member]);
        }
    };
    accepted(with_sign(true));
    refused(with_sign(false), &format!("note: {other}"));
    // What isn't packed doesn't say itself where it ends.
    refused(
        |zip| zip.members[0] = Member::new("stops.txt", b"text\n", PLAIN).streamed(),
        "stops.txt: it isn't packed, and its size stands behind it",
    );
}

/// Attributes that make a link, a folder or a device of a file, for some.
#[test]
fn kinds_of_members() {
    let plain = "stops.txt: its attributes aren't those of a plain file";
    let of = |system: u8, attributes: u32| {
        move |zip: &mut Zip| {
            zip.members[0].change(|record| (record.system, record.attributes) = (system, attributes));
        }
    };
    for system in [0, 3, 10, 11, 14, 19] {
        for attributes in [0, 0o100_644 << 16, 0o600 << 16, 0x20, 0x21, 0x8020 | 0o100_600 << 16, 0x2820] {
            accepted(of(system, attributes));
        }
        refused(of(system, 0o120_777 << 16), "stops.txt: it is a symbolic link");
        for attributes in [0o040_755 << 16, 0o010_644 << 16, 0o060_644 << 16, 0x10, 0x30, 0x08, 0x40, 0x400] {
            refused(of(system, attributes), plain);
        }
    }
    for system in [1, 2, 4, 7, 13, 16, 30, 255] {
        refused(of(system, 0), &format!("stops.txt: the system that it was packed on isn't known ({system})"));
    }
    let folder = |method: u16, bytes: &'static [u8], attributes: u32| {
        move |zip: &mut Zip| {
            let member = Member::new("sub/", bytes, method).with(|record| record.attributes = attributes);
            add(zip, [member]);
        }
    };
    for attributes in [0, 0x10, 0o040_755 << 16, 0o040_755 << 16 | 0x10] {
        accepted(folder(PLAIN, b"", attributes));
        accepted(folder(DEFLATED, b"", attributes));
        refused(folder(PLAIN, b"data", attributes), "sub/: it is a folder that holds data");
        refused(folder(DEFLATED, b"data", attributes), "sub/: it is a folder that holds data");
    }
    accepted(folder(PLAIN, b"", 0o100_644 << 16));
    refused(folder(PLAIN, b"", 0o020_644 << 16), "sub/: its attributes aren't those of a folder");
    refused(folder(PLAIN, b"", 0x18), "sub/: its attributes aren't those of a folder");
}

/// Encryption, other methods, unknown flags, parts: whichever member has them.
#[test]
fn what_is_not_read() {
    let of_note = |change: fn(&mut Record)| {
        move |zip: &mut Zip| {
            add(zip, [Member::new("note", b"text", DEFLATED).with(change)]);
        }
    };
    refused(of_note(|record| record.flags = 1), "note: it is encrypted");
    refused(of_note(|record| record.flags = 0x41), "note: it is encrypted");
    for bit in [4, 5, 6, 7, 8, 9, 10, 12, 13, 14, 15] {
        let words = format!("stops.txt: its flags aren't known ({:#06x})", 1 << bit);
        refused(|zip| zip.members[0].change(|record| record.flags = 1 << bit), &words);
    }
    accepted(|zip| zip.members[0].change(|record| record.flags = UTF_8 | 6));
    let words = "note: it is packed by method 12; 0 and 8 (deflate) are read";
    refused(of_note(|record| record.method = 12), words);
    refused(of_note(|record| record.disk = 1), "note: it is in another part");
    let words = "note: it asks for version 46 of the format; 45 is read";
    refused(of_note(|record| record.version = 46), words);
    let parts = "it is one of several parts";
    refused(|zip| zip.end.disks = [1, 0], parts);
    refused(|zip| zip.end.disks = [0, 1], parts);
    refused(|zip| zip.end.counts[0] = Some(1), parts);
    refused(|zip| zip.end.counts[1] = Some(1), parts);
}

/// A folder whose name is longer than any system allows is told in a line; with one as long as there can be, each line is short.
#[test]
fn long_names_are_cut() {
    let of_folder = |name: &str| {
        let files = example_files("findings");
        let named = |(file, bytes): (&&str, &Vec<u8>)| Member::new(&format!("{name}/{file}"), bytes, DEFLATED);
        Zip::of(NAMES.iter().zip(&files).map(named).collect()).write()
    };
    let shown = |name: &str| format!("{}...{}", &name[..98], &name[name.len() - 98..]);
    let folder = Folder::empty("long-names");
    let name = "x".repeat(65_000);
    folder.put("feed.zip", &of_folder(&name));
    let path = folder.at("feed.zip");
    let words = format!("can't read {path}: {}: its name has more than 255 bytes", shown(&format!("{name}/stops.txt")));
    for mode in ["check", "report", "index"] {
        assert_cannot(&[mode, &path], &[&words]);
    }
    let name = "y".repeat(255 - "/calendar_dates.txt".len());
    folder.put("feed.zip", &of_folder(&name));
    let output = run(&["check", "--all", &path]);
    assert_eq!(status(&output), 1, "{}", said(&output));
    let text = out(&output);
    assert!(text.contains(&format!("in the folder {} of the zip file", shown(&format!("{name}/")))), "{text}");
    assert!(text.contains(&format!("\n{}:3: service_id", shown(&format!("{path}/{name}/trips.txt")))), "{text}");
    assert!(text.lines().all(|line| line.chars().count() < 400), "{text}");
    // JSON has each once, and whole.
    let told = common::document(&[&path]);
    assert_eq!(told.get("folder").text(), format!("{name}/"));
    folder.put("feed.zip", &of_folder(&format!("y{name}")));
    assert_cannot(&["check", &path], &["its name has more than 255 bytes"]);
}

/// Names in folders and on the command line are cut in the same way.
#[test]
fn long_names_elsewhere_are_cut() {
    let folder = Folder::new("long-paths");
    let long = ["a", "b"].map(|letter| letter.repeat(250));
    folder.put(&long[0], b"");
    let output = run(&["check", folder.path()]);
    let shown = format!("{0}...{0}", "a".repeat(98));
    assert!(out(&output).contains(&format!("files not read: {shown}\n")), "{}", out(&output));
    let output = run(&["check", &folder.at(&long[1]), folder.path()]);
    let whole = folder.at(&long[1]);
    let words = format!("tusuchiy: can't read {}...{}: No such file", &whole[..98], "b".repeat(98));
    assert!(said(&output).starts_with(&words), "{}", said(&output));
    // A feed in folders with long names: the file and the line are still there, in text and of many feeds.
    let deep = format!("{}/{}/{}", long[0].replace('a', "c"), long[1], long[1]);
    std::fs::create_dir_all(folder.0.join(&deep)).expect("folders");
    let feed = folder.put_feed(&deep, &example_files("findings"));
    let output = run(&["check", &feed]);
    assert_eq!(status(&output), 1, "{}", said(&output));
    assert!(out(&output).contains("bbb/trips.txt:3: service_id"), "{}", out(&output));
    assert!(out(&output).lines().all(|line| line.chars().count() < 400), "{}", out(&output));
    let output = run(&["check", &feed, &feed]);
    assert!(out(&output).lines().all(|line| line.chars().count() < 400), "{}", out(&output));
    assert_eq!(common::document(&[&feed]).get("feed").text(), feed, "JSON has it whole");
    // Words of any length.
    let word = "w".repeat(100_000);
    let option = format!("--{word}");
    for words in
        [vec![&word[..]], vec![&option], vec!["check", &option], vec!["check", "--room", &word], vec!["check", &word]]
    {
        let output = run(&words);
        assert_eq!(status(&output), 3);
        assert!(said(&output).contains("www...www") && said(&output).len() < 500, "{}", said(&output));
    }
}

/// What is said of a member names the zip file, wherever the member says that it is.
#[test]
fn messages_name_the_zip_file() {
    for (name, why) in [
        ("/etc/other/stops.txt", "its path is absolute"),
        ("sub/stops.txt", "it is encrypted"),
        ("stops.txt", "it is encrypted"),
    ] {
        let member = Member::new(name, b"x", DEFLATED).with(|record| record.flags = 1);
        assert_refused(&Zip::of(vec![member]).write(), &format!("{name}: {why}"));
    }
    // One of the six, which is unpacked, and an index beside it.
    let damaged = |name: &str| Member::new(name, b"x", DEFLATED).with(|record| record.checksum ^= 1);
    assert_refused(&Zip::of(vec![damaged("sub/stops.txt")]).write(), "sub/stops.txt: it is damaged");
    let folder = Folder::empty("in-zip");
    let members = good().into_iter().map(|member| {
        let name = [b"/etc/"[1..].to_vec(), member.listed.name.clone()].concat();
        member.with(|record| record.name.clone_from(&name))
    });
    folder.put("feed.zip", &Zip::of(members.collect()).write());
    let output = run(&["index", "--check", &folder.at("feed.zip")]);
    assert!(out(&output).contains(&format!("{}/etc/stops.ttx: refusal 40", folder.at("feed.zip"))), "{}", out(&output));
}

/// A directory that is too long, and too much beside the feed: status 3 at once, in the memory of any other feed.
#[test]
fn what_is_too_long_is_told() {
    let many = (0..12_500).map(|number| Member::new(&format!("{number:040}"), b"", PLAIN));
    let mut zip = Zip::of(good());
    add(&mut zip, many.collect::<Vec<_>>());
    assert!(zip.directory().len() > 1 << 20);
    assert_refused(&zip.write(), "its directory has more than 1048576 bytes");
    // Two members that say that they have half of it and one byte; nothing is unpacked of them.
    let large = ["a", "b"].map(|name| Member::new(name, b"x", DEFLATED).with(|record| record.size = (1 << 31) + 1));
    refused(|zip| add(zip, large), "it has more than 4294967296 bytes beside the files of the feed");
}
