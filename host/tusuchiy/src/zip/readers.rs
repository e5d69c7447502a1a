//! Every zip file that is read is unpacked alike by unzip, 7z, bsdtar (by the directory and from a pipe), Python and Java (both its readers).

use super::*;
use cases::zips::change;
use std::collections::BTreeMap;
use std::fs;
use std::ops::Range;
use std::os::unix::ffi::OsStrExt;
use std::path::PathBuf;
use std::process::{Command, Output, Stdio};
use std::sync::atomic::{AtomicUsize, Ordering};
use std::thread;

/// The seeds of the zip files that are made, and on how many of those that are read each program is run that takes one at a time. With others,
/// as TUSUCHIY_ZIPS=3000..5000, it is run on all.
const SEEDS: Range<u64> = 0..3000;
const ONE_BY_ONE: usize = 240;

/// Programs that take one zip file, as bash commands in which $1 is its path.
const SINGLY: [(&str, &str); 4] = [
    ("unzip", "unzip -qq \"$1\""),
    ("7z", "7z x -bso0 -bsp0 \"$1\""),
    ("bsdtar", "bsdtar -xf \"$1\""),
    ("bsdtar from a pipe", "cat \"$1\" | bsdtar -xf -"),
];

/// What a program unpacks: paths and bytes, or why it didn't.
type Unpacked = Result<BTreeMap<Vec<u8>, Vec<u8>>, String>;

/// A folder of its own, gone when the test is over.
struct Temporary(PathBuf);

impl Temporary {
    fn new(name: &str) -> Self {
        static NEXT: AtomicUsize = AtomicUsize::new(0);
        let number = NEXT.fetch_add(1, Ordering::Relaxed);
        let folder = std::env::temp_dir().join(format!("tusuchiy-{}-{number}-{name}", std::process::id()));
        let _ = fs::remove_dir_all(&folder);
        fs::create_dir_all(&folder).expect("a folder");
        Temporary(folder)
    }
}

impl Drop for Temporary {
    fn drop(&mut self) {
        let _ = fs::remove_dir_all(&self.0);
    }
}

/// Runs a program that .ci/host installs.
fn run(words: &[&str]) -> Output {
    let ran = Command::new(words[0]).args(&words[1..]).stdin(Stdio::null()).output();
    ran.unwrap_or_else(|error| panic!("{}: {error}", words[0]))
}

fn bytes_of_hex(text: &str) -> Vec<u8> {
    let digit = |place: usize| u8::from_str_radix(&text[place..place + 2], 16).expect("hex");
    (0..text.len()).step_by(2).map(digit).collect()
}

/// What a program says that unpacks all zip files of a folder: a line for each.
fn all_at_once(words: &[&str]) -> BTreeMap<u64, Unpacked> {
    let output = run(words);
    assert!(output.status.success(), "{words:?}: {}", String::from_utf8_lossy(&output.stderr));
    let text = String::from_utf8(output.stdout).expect("UTF-8");
    let of_line = |line: &str| {
        let (number, rest) = line.split_once(' ').unwrap_or((line, ""));
        let files = rest.split_ascii_whitespace().map(|file| {
            let (name, bytes) = file.split_once('=').ok_or(rest)?;
            Ok((bytes_of_hex(name), bytes_of_hex(bytes)))
        });
        let unpacked = if rest.starts_with("error ") { Err(rest.to_string()) } else { files.collect() };
        (number.parse().expect("a number"), unpacked)
    };
    text.lines().map(of_line).collect()
}

/// All plain files below a folder, by their paths from there.
fn below(folder: &Path, top: &Path, files: &mut BTreeMap<Vec<u8>, Vec<u8>>) {
    for entry in fs::read_dir(folder).expect("a folder").map(|entry| entry.expect("an entry")) {
        let path = entry.path();
        if entry.file_type().expect("a kind").is_dir() {
            below(&path, top, files);
        } else {
            let name = path.strip_prefix(top).expect("a path below").as_os_str().as_bytes().to_vec();
            files.insert(name, fs::read(&path).expect("a file"));
        }
    }
}

/// What a program unpacks into an empty folder.
fn one_by_one(command: &str, zip: &Path) -> Unpacked {
    let folder = Temporary::new("unpacked");
    let (into, zip) = (folder.0.to_str().expect("plain letters"), zip.to_str().expect("plain letters"));
    let output = run(&["bash", "-c", &format!("set -o pipefail; cd \"$2\" && {command}"), "bash", zip, into]);
    if !output.status.success() {
        return Err(format!("{}: {}", output.status, String::from_utf8_lossy(&output.stderr)));
    }
    let mut files = BTreeMap::new();
    below(&folder.0, &folder.0, &mut files);
    Ok(files)
}

/// Says where what was unpacked isn't the feed that was read.
fn difference(feed: &Feed, unpacked: &Unpacked) -> Option<String> {
    let files = match unpacked {
        Ok(files) => files,
        Err(words) => return Some(words.clone()),
    };
    let folder = &feed.place.folder;
    let of_name = |name: &str| files.get(&[folder, name.as_bytes()].concat()).map(|bytes| &bytes[..]);
    let differs = |number: &usize| of_name(NAMES[*number]) != feed.supplied()[*number];
    if let Some(number) = (0..NAMES.len()).find(differs) {
        return Some(format!("{} differs", NAMES[number]));
    }
    let wanted = feed.supplied().iter().flatten().count() + feed.unread.count;
    let there = files.keys().filter(|name| name.starts_with(folder)).count();
    (there != wanted).then(|| format!("{there} files, and not {wanted}"))
}

/// Makes zip files and keeps those that are read. All that are as a writer makes them are among them, and some of the others.
fn kept(folder: &Path, seeds: Range<u64>) -> BTreeMap<u64, Feed> {
    let path = folder.join("made");
    let mut feeds = BTreeMap::new();
    let (mut changed, made) = (0, seeds.end - seeds.start);
    for seed in seeds {
        let (bytes, is_sound) = change::zip(seed);
        fs::write(&path, bytes).expect("a file");
        match read(&path) {
            Ok(feed) => {
                fs::rename(&path, folder.join(format!("{seed}.zip"))).expect("a file");
                feeds.insert(seed, feed);
                changed += u64::from(!is_sound);
            }
            Err(words) => assert!(!is_sound, "seed {seed}: {words}"),
        }
    }
    println!("{} of {made} zip files are read, {changed} of them with changes", feeds.len());
    assert!(changed * 50 > made);
    feeds
}

/// What all programs make of the zip files of a folder, each in a thread of its own; those that take one at a time see every so many.
fn told(folder: &Path, seeds: &[u64], step: usize) -> Vec<(&'static str, BTreeMap<u64, Unpacked>)> {
    let all = folder.to_str().expect("plain letters");
    let source = |name: &str| format!("{}/tests/readers/{name}", env!("CARGO_MANIFEST_DIR"));
    let (python, java) = (&source("unpack.py"), &source("Unpack.java"));
    let at_once = [
        ("Python", vec!["python3", python, all]),
        ("Java's ZipFile", vec!["java", java, all, "file"]),
        ("Java's ZipInputStream", vec!["java", java, all, "stream"]),
    ];
    let zip = |seed: &u64| folder.join(format!("{seed}.zip"));
    let some =
        |command: &str| seeds.iter().step_by(step).map(|seed| (*seed, one_by_one(command, &zip(seed)))).collect();
    thread::scope(|scope| {
        let at_once = at_once.map(|(name, words)| (name, scope.spawn(move || all_at_once(&words))));
        let singly = SINGLY.map(|(name, command)| (name, scope.spawn(move || some(command))));
        let all = at_once.into_iter().chain(singly);
        all.map(|(name, told)| (name, told.join().expect("an answer"))).collect()
    })
}

#[test]
fn what_is_read_is_unpacked_alike_by_all() {
    let others = std::env::var("TUSUCHIY_ZIPS").ok().map(|text| {
        let (first, end) = text.split_once("..").expect("two seeds");
        first.parse().expect("a seed")..end.parse().expect("a seed")
    });
    let is_all = others.is_some();
    let folder = Temporary::new("readers");
    let feeds = kept(&folder.0, others.unwrap_or(SEEDS));
    let (seeds, count) = (feeds.keys().copied().collect::<Vec<_>>(), feeds.len());
    let step = if is_all { 1 } else { count.div_ceil(ONE_BY_ONE) };
    let mut wrong = Vec::new();
    for (name, unpacked) in told(&folder.0, &seeds, step) {
        println!("{name}: {} zip files", unpacked.len());
        assert!(unpacked.len() * step >= count, "{name}");
        let differing = unpacked.iter().filter_map(|(seed, files)| Some((seed, difference(&feeds[seed], files)?)));
        wrong.extend(differing.map(|(seed, words)| format!("seed {seed}: {name}: {words}")));
    }
    assert!(wrong.is_empty(), "{} of {count}:\n{}", wrong.len(), wrong[..wrong.len().min(40)].join("\n"));
}
