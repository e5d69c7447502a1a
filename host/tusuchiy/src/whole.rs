//! A file put into its place whole or not at all.

use crate::folder::Folder;
use crate::system;
use std::ffi::{CStr, OsStr};
use std::fs::File;
use std::io::{self, ErrorKind, Write};
use std::os::fd::{AsRawFd, RawFd};
use std::os::unix::ffi::OsStrExt;
use std::process;
use std::sync::atomic::{AtomicU32, AtomicU64, Ordering};

/// Puts a file into a folder under a name: it is written beside it, and gets the name once all of it is on disk. What stood there is replaced, a
/// symbolic link and not what it names; on failure it stays, and nothing is left beside it.
pub fn put(folder: &Folder, name: &OsStr, write: impl FnOnce(&mut File) -> io::Result<()>) -> io::Result<()> {
    let (mut file, mut beside) = Beside::new(folder)?;
    write(&mut file)?;
    file.sync_all()?;
    system::rename_in(folder.handle(), beside.name().c_str(), name)?;
    beside.is_left = false;
    // The file is there; that its name outlives a loss of power can only be asked for.
    drop(folder.sync());
    Ok(())
}

/// A file that isn't whole yet: its number in this process, and where it is noted down.
struct Beside<'a> {
    folder: &'a Folder,
    number: u32,
    noted: Option<&'static AtomicU64>,
    is_left: bool,
}

/// All of them, each as the number of its folder's descriptor, its own behind it, and 0 where there is none: what ends the command finds them
/// here, without memory or a lock. There are as many as threads can be at work.
static NOTED: [AtomicU64; 256] = {
    const NONE: AtomicU64 = AtomicU64::new(0);
    [NONE; 256]
};

impl<'a> Beside<'a> {
    /// A new file under a hidden name that nothing has yet.
    fn new(folder: &'a Folder) -> io::Result<(File, Self)> {
        static NEXT: AtomicU32 = AtomicU32::new(1);
        loop {
            let number = NEXT.fetch_add(1, Ordering::Relaxed);
            let mut beside =
                Beside { folder, number, noted: note(folder.handle().as_raw_fd(), number), is_left: false };
            match folder.make(OsStr::from_bytes(beside.name().c_str().to_bytes())) {
                // Left by a command that was killed.
                Err(error) if error.kind() == ErrorKind::AlreadyExists => {}
                made => {
                    beside.is_left = made.is_ok();
                    return made.map(|file| (file, beside));
                }
            }
        }
    }

    fn name(&self) -> Name {
        Name::new(self.number)
    }
}

impl Drop for Beside<'_> {
    fn drop(&mut self) {
        if self.is_left {
            system::remove_in(self.folder.handle().as_raw_fd(), self.name().c_str());
        }
        self.noted.inspect(|noted| noted.store(0, Ordering::SeqCst));
    }
}

/// Notes a file down before it is made.
fn note(folder: RawFd, number: u32) -> Option<&'static AtomicU64> {
    let both = u64::from(folder as u32) << 32 | u64::from(number);
    NOTED.iter().find(|place| place.compare_exchange(0, both, Ordering::SeqCst, Ordering::SeqCst).is_ok())
}

/// Takes away all files that aren't whole, where the command ends at once: while a signal is handled, or where there is no memory.
pub fn remove_all() {
    for place in &NOTED {
        let both = place.load(Ordering::SeqCst);
        if both != 0 {
            system::remove_in((both >> 32) as RawFd, Name::new(both as u32).c_str());
        }
    }
}

/// The name of a file that isn't whole, made without memory of the heap.
struct Name([u8; 40]);

impl Name {
    fn new(number: u32) -> Self {
        let mut name = [0; 40];
        // Two numbers of 32 bits have twenty digits at most, so there is room for them and for a zero.
        let _ = write!(&mut name[..], ".tusuchiy-{}-{number}", process::id());
        Name(name)
    }

    fn c_str(&self) -> &CStr {
        CStr::from_bytes_until_nul(&self.0).unwrap_or_default()
    }
}

#[cfg(test)]
mod tests {
    use super::*;
    use std::env;
    use std::ffi::OsString;
    use std::fs;
    use std::panic::{self, AssertUnwindSafe};
    use std::path::{Path, PathBuf};

    /// Linux's number for a disk that is full.
    const NO_SPACE: i32 = 28;

    /// A folder of its own.
    fn folder(name: &str) -> (Folder, PathBuf) {
        let path = env::temp_dir().join(format!("tusuchiy-whole-{}-{name}", process::id()));
        let _ = fs::remove_dir_all(&path);
        fs::create_dir_all(&path).expect("a folder");
        (Folder::open(&path).expect("a folder"), path)
    }

    fn names(folder: &Path) -> Vec<OsString> {
        let entries = fs::read_dir(folder).expect("a folder");
        entries.map(|entry| entry.expect("a file").file_name()).collect()
    }

    fn put_bytes(folder: &Folder, bytes: &[u8]) -> io::Result<()> {
        put(folder, OsStr::new("stops.ttx"), |file| file.write_all(bytes))
    }

    /// While a file is written its name has what stood there before. A disk that is full leaves that as it was, and so does a fault.
    #[test]
    fn a_failure_half_way_changes_nothing() {
        let (folder, path) = folder("half");
        let file = path.join("stops.ttx");
        for before in [None, Some(b"before")] {
            before.map_or(Ok(()), |bytes| fs::write(&file, bytes)).expect("a file");
            let same = || assert_eq!(fs::read(&file).ok().as_deref(), before.map(|bytes| &bytes[..]));
            let half = |out: &mut File| {
                out.write_all(b"half").expect("room");
                same();
                assert_eq!(names(&path).len(), 1 + usize::from(before.is_some()), "the half file stands beside it");
            };
            let full = put(&folder, OsStr::new("stops.ttx"), |file| {
                half(file);
                Err(io::Error::from_raw_os_error(NO_SPACE))
            });
            assert_eq!(full.map_err(|error| error.raw_os_error()), Err(Some(NO_SPACE)));
            let fault = panic::catch_unwind(AssertUnwindSafe(|| {
                put(&folder, OsStr::new("stops.ttx"), |file| {
                    half(file);
                    panic!("a fault")
                })
            }));
            assert!(fault.is_err());
            same();
            assert_eq!(names(&path).len(), usize::from(before.is_some()), "nothing is left beside it");
        }
        put_bytes(&folder, b"after").expect("a file");
        assert_eq!((fs::read(&file).expect("a file"), names(&path)), (b"after".to_vec(), vec!["stops.ttx".into()]));
        fs::remove_dir_all(&path).expect("a folder taken away");
    }

    /// A name that a killed command left is passed over, and what stands there isn't touched.
    #[test]
    fn names_that_are_taken() {
        let (folder, path) = folder("taken");
        let taken: Vec<PathBuf> =
            (0..1000).map(|number| path.join(format!(".tusuchiy-{}-{number}", process::id()))).collect();
        taken.iter().for_each(|path| fs::write(path, b"left").expect("a file"));
        put_bytes(&folder, b"new").expect("a file");
        assert!(taken.iter().all(|path| fs::read(path).is_ok_and(|bytes| bytes == b"left")));
        assert_eq!(names(&path).len(), 1001);
        fs::remove_dir_all(&path).expect("a folder taken away");
    }

    /// The longest name there can be has its zero.
    #[test]
    fn names_have_room() {
        let longest = format!(".tusuchiy-{}-{}", u32::MAX, u32::MAX);
        assert!(longest.len() < 40);
        assert_eq!(Name::new(7).c_str().to_str(), Ok(&format!(".tusuchiy-{}-7", process::id())[..]));
    }
}
