//! Reads a feed from a zip file, in memory, if every program reads the same feed from it.

mod data;
mod names;
#[cfg(test)]
mod readers;
mod records;

use crate::feed::{Feed, Place, Unread, MOST_BYTES, NAMES};
use crate::folder::{all, cannot, limited, open, Files};
use crate::{progress, safe};
use data::Data;
use records::{named, Member};
use std::collections::BTreeSet;
use std::fs::File;
use std::io::{self, ErrorKind, Read};
use std::path::Path;

/// More than this beside the six files isn't unpacked: a member without numbers of 64 bits has no more.
const MOST_BESIDE: u64 = 1 << 32;

/// A byte of packed data can't become more: deflate has 258 bytes in two bits at best.
const MOST_FROM_BYTE: u64 = 1032;

/// Members that are sought, each at the place of its name.
type Found<'a, const COUNT: usize> = [Option<&'a Member>; COUNT];

/// Reads the six files from a zip file, or says in a line for each what is in the way.
pub fn read(path: &Path) -> Result<Feed, String> {
    let (file, members) = opened(path)?;
    let in_it = |error: io::Error| cannot(path, &error.to_string());
    let folder = choose(&members).map_err(in_it)?;
    let found = sought(&members, folder, NAMES);
    let files = unpack_all(path, &file, found, MOST_BYTES)?;
    // With a file that is too long the feed is refused, whatever the other members are.
    if !files.iter().flatten().any(|file| file.len() > MOST_BYTES) {
        pass_others(&file, &members, found).map_err(in_it)?;
    }
    let mut unread = Unread::default();
    let others = members.iter().map(|member| &member.name[..]).filter(|name| !names::is_folder(name));
    others.filter_map(|name| name.strip_prefix(folder)).for_each(|name| unread.add(name));
    Ok(Feed::new(Place { path: path.to_path_buf(), is_zip: true, folder: folder.to_vec() }, files, unread))
}

/// Reads the files of these names that stand beside a feed's, each at most one byte past so many.
pub fn read_beside<const COUNT: usize>(
    place: &Place,
    names: [&str; COUNT],
    most: usize,
) -> Result<Files<COUNT>, String> {
    let (file, members) = opened(&place.path)?;
    unpack_all(&place.path, &file, sought(&members, &place.folder, names), most)
}

fn opened(path: &Path) -> Result<(File, Vec<Member>), String> {
    let opened = open(path, true).and_then(|(file, length)| {
        let members = records::members(&file, length)?;
        Ok((file, members))
    });
    opened.map_err(|error| cannot(path, &error.to_string()))
}

fn bad(words: impl Into<String>) -> io::Error {
    io::Error::new(ErrorKind::InvalidData, words.into())
}

/// The folder that has the feed: the top, or the only one with any of the six files.
fn choose(members: &[Member]) -> io::Result<&[u8]> {
    let paths = members.iter().map(|member| names::parts(&member.name));
    let feeds = paths.filter(|(_, name)| NAMES.iter().any(|known| known.as_bytes() == *name));
    let folders: BTreeSet<&[u8]> = feeds.map(|(folder, _)| folder).collect();
    // The top has the empty name, which comes before any other.
    let first = folders.first().copied().unwrap_or_default();
    if first.is_empty() || folders.len() == 1 {
        return Ok(first);
    }
    let names: Vec<String> = folders.into_iter().take(3).map(safe::name).collect();
    Err(bad(format!("it has feeds in several folders ({}): unpack the one that you mean", names.join(", "))))
}

/// The members of these names in a folder. No two have the same.
fn sought<'a, const COUNT: usize>(members: &'a [Member], folder: &[u8], names: [&str; COUNT]) -> Found<'a, COUNT> {
    names.map(|name| members.iter().find(|member| member.name.strip_prefix(folder) == Some(name.as_bytes())))
}

/// The bytes of members, or of each that can't be read what is in the way, a line each.
fn unpack_all<const COUNT: usize>(
    path: &Path,
    file: &File,
    found: Found<COUNT>,
    most: usize,
) -> Result<Files<COUNT>, String> {
    all(found.map(|member| {
        member.inspect(|member| progress::step(|| format!("unpacking {}", safe::name(names::parts(&member.name).1))));
        let bytes = member.map(|member| unpack(file, member, most).map_err(|error| named(&member.name, &error)));
        bytes.transpose().map_err(|error| cannot(path, &error.to_string()))
    }))
}

/// The bytes of a member, at most one past so many, or past the size that it claims. A longer one is refused, whatever follows.
fn unpack(file: &File, member: &Member, most: usize) -> io::Result<Vec<u8>> {
    let mut data = Data::of(file, member);
    // No memory is asked for that nothing in the file could fill.
    let expected = member.size.min(member.packed.saturating_mul(MOST_FROM_BYTE));
    let bytes = limited(data.by_ref().take(member.size + 1), expected + 1, most)?;
    if member.size.min(bytes.len() as u64) <= most as u64 {
        data.check()?;
    }
    Ok(bytes)
}

/// Unpacks all other members, and keeps nothing: what doesn't end where the directory says may hide members from it.
fn pass_others<const COUNT: usize>(file: &File, members: &[Member], found: Found<COUNT>) -> io::Result<()> {
    let is_found = |member: &Member| found.iter().flatten().any(|found| found.data == member.data);
    let others = || members.iter().filter(|member| !is_found(member));
    if others().map(|member| member.size).sum::<u64>() > MOST_BESIDE {
        return Err(bad(format!("it has more than {MOST_BESIDE} bytes beside the files of the feed")));
    }
    progress::step(|| "unpacking other members".to_string());
    for member in others() {
        let mut data = Data::of(file, member);
        data.pass().and_then(|()| data.check()).map_err(|error| named(&member.name, &error))?;
    }
    Ok(())
}
