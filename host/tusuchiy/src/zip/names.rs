//! Which names members of a zip file may have: such as every program unpacks to one place, and no two to the same.

use super::bad;
use crate::feed::NAMES;
use crate::safe;
use std::io;

/// Longer names are cut by some programs, or can't be written.
const MOST_NAME: usize = 255;

/// Printable characters that aren't kept everywhere: Windows has no such names, and unzip takes what follows a semicolon for a version.
const NOT_KEPT: &[u8] = b"\"*:;<>?\\|";

/// A member's folder, with its slash, and the name in it.
pub fn parts(name: &[u8]) -> (&[u8], &[u8]) {
    name.split_at(name.iter().rposition(|byte| *byte == b'/').map_or(0, |slash| slash + 1))
}

pub fn is_folder(name: &[u8]) -> bool {
    name.ends_with(b"/")
}

/// Says why some program would take a name for another.
pub fn check(name: &[u8]) -> io::Result<()> {
    if name.len() > MOST_NAME {
        return Err(bad(format!("its name has more than {MOST_NAME} bytes")));
    }
    if name.starts_with(b"/") {
        return Err(bad("its path is absolute"));
    }
    let path = name.strip_suffix(b"/").unwrap_or(name);
    path.split(|byte| *byte == b'/').try_for_each(check_part)?;
    let (_, last) = parts(name);
    match NAMES.iter().find(|known| last.eq_ignore_ascii_case(known.as_bytes()) && last != known.as_bytes()) {
        Some(known) => Err(bad(format!("some programs take it for {known}"))),
        None => Ok(()),
    }
}

fn check_part(part: &[u8]) -> io::Result<()> {
    let is_kept = |byte: &u8| matches!(byte, b' '..=b'~') && !NOT_KEPT.contains(byte);
    // The short name that Windows gives to a longer one.
    let is_short = |pair: &[u8]| pair[0] == b'~' && pair[1].is_ascii_digit();
    match part {
        [] => Err(bad("a part of its path is empty")),
        b"." | b".." => Err(bad("its path has a part . or ..")),
        _ if !part.iter().all(is_kept) => Err(bad("its name has characters that programs read in different ways")),
        [.., b'.' | b' '] => Err(bad("Windows cuts its name")),
        _ if part.windows(2).any(is_short) => Err(bad("Windows takes it for a short name of another file")),
        _ => Ok(()),
    }
}

/// Says which two names some program would unpack to one place.
pub fn check_together<'a>(names: impl Iterator<Item = &'a [u8]>) -> io::Result<()> {
    let mut keys: Vec<(Vec<u8>, &[u8])> = names.map(|name| (key(name), name)).collect();
    keys.sort_unstable();
    for pair in keys.windows(2) {
        let [(one_key, one), (other_key, other)] = pair else { continue };
        let [shown, shown_other] = [one, other].map(|name| safe::name(name));
        if one == other {
            return Err(bad(format!("{shown} stands in it twice")));
        }
        if one_key == other_key {
            return Err(bad(format!("{shown} and {shown_other} are one name to some programs")));
        }
        let is_within = other_key.strip_prefix(&one_key[..]).is_some_and(|rest| rest.starts_with(&[0]));
        if is_within && !is_folder(one) {
            return Err(bad(format!("{shown} is a file, and a folder in {shown_other}")));
        }
    }
    Ok(())
}

/// A path without case. What is in a folder follows it at once in the order of these: 0 for the slash is below any character.
fn key(name: &[u8]) -> Vec<u8> {
    let path = name.strip_suffix(b"/").unwrap_or(name).to_ascii_lowercase();
    path.into_iter().map(|byte| if byte == b'/' { 0 } else { byte }).collect()
}
