//! Reads a feed from a folder, which is opened once: each file at most one byte past what it may have, and nothing but regular files.

use crate::feed::{Feed, Place, Unread, MOST_BYTES, NAMES};
use crate::memory;
use crate::progress;
use crate::safe;
use crate::system;
use libc::{O_CREAT, O_DIRECTORY, O_EXCL, O_NOFOLLOW, O_NONBLOCK, O_PATH, O_RDONLY, O_WRONLY};
use std::ffi::OsStr;
use std::fs::{self, File, Metadata, OpenOptions};
use std::io::{self, ErrorKind, Read};
use std::os::unix::ffi::OsStrExt;
use std::os::unix::fs::{MetadataExt, OpenOptionsExt};
use std::path::{Path, PathBuf};

/// Reads the six files, or says of each that can't be read what is in the way, a line each.
pub fn read(path: &Path, follow_links: bool) -> Result<Feed, String> {
    let folder = Folder::open(path).map_err(|error| cannot(path, &error.to_string()))?;
    let files = folder.read_files(NAMES, MOST_BYTES, follow_links)?;
    let mut unread = Unread::default();
    system::each_name(&folder.handle, |name| unread.add(name));
    let mut feed = Feed::new(Place::at(path), files, unread);
    feed.opened = Some(folder);
    Ok(feed)
}

/// Files that were sought, each at the place of its name; one that isn't there is none.
pub type Files<const COUNT: usize> = [Option<Vec<u8>>; COUNT];

/// A folder that is open: what is read from it or put into it is in this one, whatever its path names meanwhile.
pub struct Folder {
    path: PathBuf,
    handle: File,
}

/// What tells a file from any other, and from itself before a change: device, number, length, and the times of its last changes.
#[derive(Clone, PartialEq)]
struct Stamp(u64, u64, u64, [i64; 4]);

impl Stamp {
    fn of(about: &Metadata) -> Self {
        let times = [about.mtime(), about.mtime_nsec(), about.ctime(), about.ctime_nsec()];
        Stamp(about.dev(), about.ino(), about.len(), times)
    }
}

/// Are both the same file or folder?
pub fn same(one: &Metadata, other: &Metadata) -> bool {
    (one.dev(), one.ino()) == (other.dev(), other.ino())
}

impl Folder {
    /// Opens a folder to find files in it; its names need not be readable.
    pub fn open(path: &Path) -> io::Result<Self> {
        let handle = OpenOptions::new().read(true).custom_flags(O_PATH | O_DIRECTORY).open(path)?;
        Ok(Folder { path: path.to_path_buf(), handle })
    }

    pub fn handle(&self) -> &File {
        &self.handle
    }

    /// The path of a name in it.
    pub fn path_of(&self, name: impl AsRef<Path>) -> PathBuf {
        self.path.join(name)
    }

    /// Is this the same folder?
    pub fn is(&self, other: &Folder) -> bool {
        let both = [self, other].map(|folder| folder.handle.metadata());
        matches!(both, [Ok(one), Ok(other)] if same(&one, &other))
    }

    /// What stands under a name, the link itself or what it names; none where nothing does.
    pub fn about(&self, name: &OsStr, follow_links: bool) -> io::Result<Option<Metadata>> {
        let flags = if follow_links { O_PATH } else { O_PATH | O_NOFOLLOW };
        match system::open_in(&self.handle, name, flags).and_then(|found| found.metadata()) {
            Err(error) if error.kind() == ErrorKind::NotFound => Ok(None),
            about => about.map(Some),
        }
    }

    /// Makes a file, if nothing has its name.
    pub fn make(&self, name: &OsStr) -> io::Result<File> {
        system::open_in(&self.handle, name, O_WRONLY | O_CREAT | O_EXCL)
    }

    /// Asks that what names it has outlives a loss of power.
    pub fn sync(&self) -> io::Result<()> {
        system::open_in(&self.handle, OsStr::new("."), O_RDONLY | O_DIRECTORY)?.sync_all()
    }

    /// Reads the files of these names, each at most one byte past so many, or says that they changed meanwhile: half of an old feed and half of
    /// a new one are no feed.
    pub fn read_files<const COUNT: usize>(
        &self,
        names: [&str; COUNT],
        most: usize,
        follow_links: bool,
    ) -> Result<Files<COUNT>, String> {
        let mut stamps = Vec::new();
        let files = all(names.map(|name| {
            progress::step(|| format!("reading {name}"));
            let read = self.read_file(name, most, follow_links).map_err(|why| cannot(&self.path_of(name), &why))?;
            let (stamp, bytes) = read.unzip();
            stamps.push(stamp);
            Ok(bytes)
        }))?;
        if self.is_as_read(&names, &stamps, follow_links) {
            Ok(files)
        } else {
            Err(cannot(&self.path, "it changed while it was read; try again"))
        }
    }

    /// Is each file still what it was when it was opened, and the path still this folder's? Then there was a time, between the last file's end and
    /// now, at which all stood there together.
    fn is_as_read(&self, names: &[&str], stamps: &[Option<Stamp>], follow_links: bool) -> bool {
        let now = |name: &&str| self.about(OsStr::new(name), follow_links).ok().flatten().as_ref().map(Stamp::of);
        let there = fs::metadata(&self.path).and_then(|path| Ok(same(&path, &self.handle.metadata()?)));
        names.iter().map(now).eq(stamps.iter().cloned()) && there.unwrap_or(false)
    }

    /// The bytes of a file with its stamp, or none where nothing has its name.
    fn read_file(&self, name: &str, most: usize, follow_links: bool) -> Result<Option<(Stamp, Vec<u8>)>, String> {
        let name = OsStr::new(name);
        let Some(about) = self.about(name, false).map_err(|error| error.to_string())? else { return Ok(None) };
        if about.is_symlink() && !follow_links {
            return Err("it is a symbolic link, which only --follow-links reads".to_string());
        }
        // A link that names nothing is no missing file.
        let about = self.about(name, true).and_then(|about| about.ok_or(ErrorKind::NotFound.into()));
        if !about.map_err(|error: io::Error| error.to_string())?.is_file() {
            return Err(NO_FILE.to_string());
        }
        let flags = if follow_links { O_RDONLY | O_NONBLOCK } else { O_RDONLY | O_NONBLOCK | O_NOFOLLOW };
        let opened = system::open_in(&self.handle, name, flags).and_then(regular);
        let read = opened.and_then(|(file, about)| Ok((Stamp::of(&about), limited(file, about.len(), most)?)));
        read.map(Some).map_err(|error| error.to_string())
    }
}

/// What was read, or of each that couldn't be read what was in the way, a line each.
pub fn all<const COUNT: usize>(read: [Result<Option<Vec<u8>>, String>; COUNT]) -> Result<Files<COUNT>, String> {
    let wrong: Vec<String> = read.iter().filter_map(|file| file.as_ref().err().cloned()).collect();
    if !wrong.is_empty() {
        return Err(wrong.join("\n"));
    }
    Ok(read.map(|file| file.unwrap_or(None)))
}

const NO_FILE: &str = "it isn't a regular file";

/// What was opened, if it is a regular file: what stands there may have changed since it was looked at.
fn regular(file: File) -> io::Result<(File, Metadata)> {
    let about = file.metadata()?;
    if about.is_file() {
        Ok((file, about))
    } else {
        Err(io::Error::other(NO_FILE))
    }
}

/// Opens a regular file and tells its length.
pub fn open(path: &Path, follow_links: bool) -> io::Result<(File, u64)> {
    let flags = if follow_links { O_NONBLOCK } else { O_NONBLOCK | O_NOFOLLOW };
    let (file, about) = regular(OpenOptions::new().read(true).custom_flags(flags).open(path)?)?;
    Ok((file, about.len()))
}

/// Reads to the end, but at most one byte past so many, which are all that a file may have: it is refused whatever follows.
pub fn limited(mut from: impl Read, expected: u64, all: usize) -> io::Result<Vec<u8>> {
    let most = all + 1;
    let mut bytes = Vec::new();
    memory::told(|| {
        bytes.try_reserve_exact(usize::try_from(expected).map_or(most, |size| size.min(most)))?;
        from.by_ref().take(most as u64).read_to_end(&mut bytes)
    })?;
    // Whatever hinders reading on, there is more. Nobody has seen the last line, so nobody may say that its ending is missing.
    if bytes.len() == most && !matches!(from.take(1).read_to_end(&mut Vec::new()), Ok(0)) {
        bytes[all] = b'\n';
    }
    Ok(bytes)
}

/// What stands in the way of reading a path.
pub fn cannot(path: &Path, why: &str) -> String {
    format!("can't read {}: {why}", safe::name(path.as_os_str().as_bytes()))
}

#[cfg(test)]
mod tests {
    use super::*;
    use std::env;
    use std::os::unix::fs::symlink;
    use std::process;

    /// Whatever happens to a file or to the path between the first file and the last is told, and what happens to other files isn't.
    #[test]
    fn a_change_meanwhile_is_told() {
        let all = env::temp_dir().join(format!("tusuchiy-folder-{}", process::id()));
        let [path, other, at] = ["feed", "other", "link"].map(|name| all.join(name));
        let stops = path.join("stops.txt");
        let names = ["stops.txt", "calendar.txt"];
        let change = |change: &dyn Fn() -> io::Result<()>| {
            let _ = fs::remove_dir_all(&all);
            fs::create_dir_all(&path).and_then(|()| fs::create_dir(&other)).expect("folders");
            [&path, &other].iter().for_each(|folder| fs::write(folder.join("stops.txt"), b"A").expect("a file"));
            symlink("feed", &at).expect("a link");
            let folder = Folder::open(&at).expect("a folder");
            let stamps = names.map(|name| folder.read_file(name, 9, false).expect("a file").map(|(stamp, _)| stamp));
            change().expect("a change");
            folder.is_as_read(&names, &stamps, false)
        };
        assert!(change(&|| Ok(())));
        assert!(change(&|| fs::write(path.join("agency.txt"), b"A")));
        assert!(!change(&|| fs::write(&stops, b"AB")), "longer");
        assert!(!change(&|| fs::rename(other.join("stops.txt"), &stops)), "another one with the same text");
        assert!(!change(&|| fs::remove_file(&stops)), "gone");
        assert!(!change(&|| fs::write(path.join("calendar.txt"), b"A")), "new");
        assert!(!change(&|| fs::remove_file(&at).and_then(|()| symlink("other", &at))), "the link moved");
        assert!(!change(&|| fs::remove_file(&at)), "the path is gone");
        fs::remove_dir_all(&all).expect("folders taken away");
    }
}
