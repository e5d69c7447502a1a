//! Anything at all on the command line and in a feed: no abort, a status of 0 to 3, JSON that parses, text that is safe.

mod common;

use cases::generate;
use cases::random::Random;
use common::zip::{feed, member, write};
use common::{command, example_files, json, Folder, NAMES};
use std::collections::BTreeSet;
use std::ffi::{OsStr, OsString};
use std::fs;
use std::os::unix::ffi::{OsStrExt, OsStringExt};
use std::os::unix::fs::symlink;
use std::process::Output;

/// How many runs each test makes, and how many feeds a run has.
const RUNS: u64 = 30;
const FEEDS: usize = 12;

/// What holds of every run, whatever it was given.
fn assert_decent(output: &Output, what: &str) {
    let status = output.status.code().unwrap_or_else(|| panic!("{what}: ended by a signal"));
    let said = String::from_utf8_lossy(&output.stderr);
    assert!((0..=3).contains(&status), "{what}: status {status}: {said}");
    assert_eq!(status == 3, !output.stderr.is_empty(), "{what}: status {status}: {said}");
    for line in said.lines() {
        assert!(line.starts_with("tusuchiy: "), "{what}: {line}");
        assert!(!line.chars().any(char::is_control), "{what}: {line:?}");
    }
    let text = std::str::from_utf8(&output.stdout).unwrap_or_else(|_| panic!("{what}: no UTF-8"));
    assert!(!text.chars().any(|char| char.is_control() && char != '\n'), "{what}: a control character");
}

/// Some bytes: any, or such as stand in feeds.
fn bytes(random: &mut Random, most: usize) -> Vec<u8> {
    const COMMON: &[u8] = b",,,,\"\"\n\n\n\r\t01:9.-AT\xEF\xBB\xBF\xFF";
    let length = random.below(most);
    let any = random.once_in(2);
    (0..length).map(|_| if any { random.below(256) as u8 } else { *random.pick(COMMON) }).collect()
}

/// Puts something at a path: bytes, a folder, a link, or nothing.
fn put_anything(folder: &Folder, path: &str, good: &[u8], random: &mut Random) {
    match random.below(16) {
        0 => {}
        1 => fs::create_dir(folder.at(path)).expect("a folder"),
        2 => symlink(*random.pick(&["/dev/zero", "nowhere", "stops.txt", "."]), folder.at(path)).expect("a link"),
        3..=6 => folder.put(path, &bytes(random, 400)),
        7 => folder.put(path, &good[..random.below(good.len() + 1)]),
        _ => folder.put(path, good),
    }
}

/// Runs `check --json` on feeds with a profile, by turns; each document that is there parses and names it.
fn check_all(feeds: &[String], seed: u64) {
    let (what, profile) = (format!("seed {seed}"), ["plain", "boards"][seed as usize % 2]);
    let words = ["check", "--json", "--profile", profile];
    let output = command().args(words).args(feeds).output().expect("the command runs");
    assert_decent(&output, &what);
    let text = String::from_utf8(output.stdout).expect("UTF-8");
    let documents = text.lines().map(json::read).filter(|document| document.get("profile").text() == profile).count();
    assert_eq!(documents, text.lines().count(), "{what}");
    let unread = String::from_utf8_lossy(&output.stderr).lines().count();
    assert!(documents <= feeds.len() && documents + unread >= feeds.len(), "{what}: {documents} documents");
}

#[test]
fn random_folders() {
    for seed in 0..RUNS {
        let mut random = Random::new(seed);
        let folder = Folder::empty("fuzz-folders");
        let feeds: Vec<String> = (0..FEEDS)
            .map(|place| {
                // Cases 8 to 10 of sixteen may be of rule 1 or 2, which take much memory.
                let case = generate::case(seed * 16 + place as u64 % 8);
                fs::create_dir(folder.at(&place.to_string())).expect("a folder");
                for (name, good) in NAMES.iter().zip(&case.files) {
                    put_anything(&folder, &format!("{place}/{name}"), good, &mut random);
                }
                folder.at(&place.to_string())
            })
            .collect();
        check_all(&feeds, seed);
        for profile in ["plain", "boards"] {
            let words = ["check", "--profile", profile, &feeds[0]];
            let output = command().args(words).output().expect("the command runs");
            assert_decent(&output, &format!("seed {seed}, text, {profile}"));
        }
    }
}

#[test]
fn random_zip_files() {
    for seed in 0..RUNS {
        let mut random = Random::new(1000 + seed);
        let folder = Folder::empty("fuzz-zips");
        let feeds: Vec<String> = (0..FEEDS)
            .map(|place| {
                let folder_in_it: &&str = random.pick(&["", "", "a/", "b/"]);
                let mut members = feed(folder_in_it, &example_files("findings"));
                members.push(member("note", &bytes(&mut random, 100)));
                let has_large = random.once_in(6);
                members.iter_mut().for_each(|member| {
                    (member.packed, member.large) = (random.once_in(2), has_large && random.once_in(4));
                });
                let mut zip = write(&members);
                // Mostly near the end, where the directory is.
                for _ in 0..random.below(6) {
                    let near = random.below(zip.len().min(600));
                    let last = zip.len() - 1;
                    zip[last - near] = *random.pick(&[0, 1, 0x50, 0x7F, 0x80, 0xFF]);
                }
                zip.truncate(if random.once_in(8) { random.below(zip.len()) } else { zip.len() });
                folder.put(&format!("{place}.zip"), &zip);
                folder.at(&format!("{place}.zip"))
            })
            .collect();
        check_all(&feeds, seed);
    }
}

/// An index with any bytes in its place, cut, longer, with another byte, of the version that so few records never have, with its first two
/// entries swapped, or as it was.
fn damaged(mut index: Vec<u8>, random: &mut Random) -> Vec<u8> {
    match random.below(8) {
        0 => return bytes(random, 40),
        1 => index.truncate(random.below(index.len() + 1)),
        2 => index.extend(bytes(random, 4)),
        3 | 4 => {
            let place = random.below(index.len());
            index[place] = *random.pick(&[0, 1, 2, 3, 4, 255]);
        }
        5 => index[3] = 2,
        6 if index.len() >= 12 => index[8..12].rotate_left(2),
        _ => {}
    }
    index
}

/// Indexes as they are written, then damaged: each has a verdict, what is refused has words, and every refusal comes up.
#[test]
fn random_indexes() {
    const INDEXES: [&str; 4] = ["stops.ttx", "routes.ttx", "calendar.ttx", "trips.ttx"];
    let mut seen = BTreeSet::new();
    for seed in 0..RUNS / 6 {
        let mut random = Random::new(3000 + seed);
        let folder = Folder::empty("fuzz-indexes");
        let feeds: Vec<String> = (0..FEEDS)
            .map(|place| {
                let case = generate::case(seed * 16 + place as u64 % 8);
                folder.put_feed(&place.to_string(), &case.files)
            })
            .collect();
        let output = command().args(["index", "-q"]).args(&feeds).output().expect("the command runs");
        assert_decent(&output, &format!("seed {seed}, written"));
        for path in feeds.iter().flat_map(|feed| INDEXES.map(|name| format!("{feed}/{name}"))) {
            let Ok(index) = fs::read(&path) else { continue };
            fs::write(&path, damaged(index, &mut random)).expect("a file");
        }
        let output = command().args(["index", "--check", "--json"]).args(&feeds).output().expect("the command runs");
        assert_decent(&output, &format!("seed {seed}, judged"));
        for document in String::from_utf8_lossy(&output.stdout).lines().map(json::read) {
            for index in document.get("indexes").list().iter().filter(|index| index.get("verdict").text() == "refused")
            {
                let refusal = index.get("refusal");
                assert!(!refusal.get("words").text().is_empty(), "seed {seed}: {refusal:?}");
                seen.insert(refusal.get("number").number());
            }
        }
    }
    assert!((40..=44).all(|number| seen.contains(&number)), "{seen:?}");
}

/// Words that mean something, or nearly.
const WORDS: &[&str] = &[
    "check",
    "check",
    "index",
    "--check",
    "explain",
    "help",
    "--json",
    "--quiet",
    "-q",
    "--all",
    "-aqL",
    "--after",
    "--after=0,0,0",
    "1,2,3",
    "--room",
    "--room=1",
    "3",
    "20",
    "--jobs=2",
    "--color",
    "--color=always",
    "never",
    "--follow-links",
    "--profile",
    "--profile=boards",
    "plain",
    "boards",
    "--help",
    "-V",
    "--",
    "-",
    "",
    "--generate=man",
    "--generate",
    "complete-zsh",
    "--=",
    "-=",
    "--json=",
    "é",
    "/dev/null",
];

/// A word of the command line: one that means something, one that nearly does, or any bytes but NUL.
fn word(random: &mut Random, feed: &str) -> OsString {
    match random.below(4) {
        0 => feed.into(),
        1 => {
            let bytes = bytes(random, 12).into_iter().filter(|&byte| byte != 0);
            let dashes = random.pick(&["", "", "-", "--"]).bytes();
            OsString::from_vec(dashes.chain(bytes).collect())
        }
        _ => random.pick(WORDS).into(),
    }
}

#[test]
fn random_words() {
    let folder = Folder::new("fuzz-words");
    for seed in 0..RUNS * 4 {
        let mut random = Random::new(2000 + seed);
        let begin = if random.once_in(2) { vec![OsString::from("check")] } else { Vec::new() };
        let more = (0..random.below(6)).map(|_| word(&mut random, folder.path()));
        let words: Vec<OsString> = begin.into_iter().chain(more).collect();
        let output = command().args(&words).current_dir(&folder.0).output().expect("the command runs");
        let what = format!("{words:?}");
        if words.iter().any(|word| word == OsStr::from_bytes(b"--color=always") || word == "--color") {
            assert!((0..=3).contains(&output.status.code().expect("a status")), "{what}");
            continue;
        }
        assert_decent(&output, &what);
        let is_json = words.iter().any(|word| word == "--json") && output.stdout.starts_with(b"{");
        if is_json {
            String::from_utf8_lossy(&output.stdout).lines().for_each(|line| drop(json::read(line)));
        }
    }
}
