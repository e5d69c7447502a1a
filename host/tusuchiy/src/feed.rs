//! A feed as it was read: the bytes of its six files, and where their lines are.

use crate::folder::Folder;
use crate::memory;
use crate::safe;
use std::collections::BTreeSet;
use std::os::unix::ffi::OsStrExt;
use std::path::{Path, PathBuf};
use std::sync::OnceLock;
use tusuchiy::File;

pub use tusuchiy::{FILES, MOST_BYTES, MOST_LINES};

/// The names of the files, in the order of their numbers.
pub const NAMES: [&str; FILES] = {
    let (mut names, mut place) = ([""; FILES], 0);
    while place < FILES {
        names[place] = File::ALL[place].name();
        place += 1;
    }
    names
};

/// How many names of files that aren't read are kept.
const KEPT_NAMES: usize = 20;

/// The files of a feed that nobody reads: how many there are, and the first names.
#[derive(Default)]
pub struct Unread {
    pub count: usize,
    pub names: BTreeSet<Vec<u8>>,
}

impl Unread {
    /// Takes note of a file, unless it is one of the six.
    pub fn add(&mut self, name: &[u8]) {
        if NAMES.iter().any(|known| known.as_bytes() == name) {
            return;
        }
        self.count += 1;
        self.names.insert(name.to_vec());
        if self.names.len() > KEPT_NAMES {
            self.names.pop_last();
        }
    }
}

/// Where a feed is: the path as it was given, and in a zip file perhaps a folder.
#[derive(Default)]
pub struct Place {
    pub path: PathBuf,
    pub is_zip: bool,
    pub folder: Vec<u8>,
}

impl Place {
    /// A feed that is at this path itself.
    pub fn at(path: &Path) -> Self {
        Place { path: path.to_path_buf(), is_zip: false, folder: Vec::new() }
    }

    /// The path of a file, safe to print.
    pub fn of(&self, name: &str) -> String {
        let path = self.path.as_os_str().as_bytes();
        let slash: &[u8] = if path.ends_with(b"/") { b"" } else { b"/" };
        safe::name(&[path, slash, &self.folder, name.as_bytes()].concat())
    }
}

/// The six files of a feed; one that isn't there is none.
pub struct Feed {
    pub place: Place,
    pub unread: Unread,
    /// The folder that it was read from, if it was one.
    pub opened: Option<Folder>,
    files: [Option<Vec<u8>>; FILES],
    counts: [usize; FILES],
    /// Where lines end, looked up once it is asked for: after the check, which has returned its memory by then.
    ends: [OnceLock<Vec<u32>>; FILES],
}

impl Feed {
    /// A feed of these bytes.
    pub fn new(place: Place, files: [Option<Vec<u8>>; FILES], unread: Unread) -> Self {
        let bytes = files.each_ref().map(|file| file.as_deref().unwrap_or(&[]));
        let counts = bytes.map(|file| line_ends(file).count());
        Feed { place, unread, opened: None, files, counts, ends: Default::default() }
    }

    /// Where the lines of a file end; of one with too many, which is refused, no line is named.
    fn ends(&self, file: usize) -> &[u32] {
        let kept = self.line_count(file).min(MOST_LINES);
        let ends = || memory::list(line_ends(self.slices()[file - 1]).take(kept).map(|place| place as u32), kept);
        self.ends[file - 1].get_or_init(ends)
    }

    /// The six files as the check takes them: one that isn't there has no bytes.
    pub fn slices(&self) -> [&[u8]; FILES] {
        self.files.each_ref().map(|file| file.as_deref().unwrap_or(&[]))
    }

    /// The files that are there.
    #[cfg(test)]
    pub fn supplied(&self) -> [Option<&[u8]>; FILES] {
        self.files.each_ref().map(Option::as_deref)
    }

    /// Is it without any bytes, as the check lets it be?
    pub fn left_out(&self, file: File) -> bool {
        file.may_be_missing() && self.bytes(file).is_empty() && self.has_services()
    }

    /// Has one of the files bytes of which a feed needs one?
    pub fn has_services(&self) -> bool {
        File::ALL.into_iter().any(|file| file.may_be_missing() && !self.bytes(file).is_empty())
    }

    /// The files that aren't there and that the check doesn't let be left out.
    pub fn missing(&self) -> Vec<File> {
        let there = |file: &File| self.files[file.number() - 1].is_some();
        File::ALL.into_iter().filter(|file| !there(file) && !self.left_out(*file)).collect()
    }

    /// The bytes of a file; none where it isn't there.
    pub fn bytes(&self, file: File) -> &[u8] {
        self.slices()[file.number() - 1]
    }

    /// How many records each file of a feed has that could be read; none where it is left out.
    pub fn records(&self) -> [(File, Option<usize>); FILES] {
        File::ALL.map(|file| (file, self.counts[file.number() - 1].checked_sub(1)))
    }

    /// How many LF bytes a file has; files count from 1.
    pub fn line_count(&self, file: usize) -> usize {
        self.counts[file - 1]
    }

    /// How many bytes the feed has.
    pub fn size(&self) -> usize {
        self.slices().iter().map(|file| file.len()).sum()
    }

    /// Where a line starts in its file, behind the mark that a file may begin with; none where no line ends before.
    pub fn start(&self, file: usize, line: usize) -> Option<usize> {
        let bytes = *self.slices().get(file.checked_sub(1)?)?;
        match line.checked_sub(2) {
            Some(before) => Some(*self.ends(file).get(before)? as usize + 1),
            None if bytes.starts_with(b"\xEF\xBB\xBF") => Some(3),
            None => Some(0),
        }
    }

    /// The text of a line without its ending; none where there is no such line, line 0 among them. Bytes behind the last LF
    /// are a line as they stand, as the list of faults has it.
    pub fn line(&self, file: usize, line: usize) -> Option<&[u8]> {
        let (start, bytes) = (self.start(file, line)?, self.slices()[file - 1]);
        let end = self.ends(file).get(line.checked_sub(1)?).map(|end| *end as usize);
        let text = &bytes[start..end.unwrap_or(bytes.len())];
        match end {
            Some(_) => Some(text.strip_suffix(b"\r").unwrap_or(text)),
            None => Some(text).filter(|text| !text.is_empty()),
        }
    }
}

/// The places of the LF bytes.
fn line_ends(file: &[u8]) -> impl Iterator<Item = usize> + '_ {
    (0..file.len()).filter(|&place| file[place] == b'\n')
}

#[cfg(test)]
mod tests {
    use super::*;

    /// Of calendar.txt and calendar_dates.txt one is left out where the other has bytes; with neither, what isn't there is missing.
    #[test]
    fn one_file_of_services_may_be_left_out() {
        let (calendar, dates) = (File::Calendar, File::CalendarDates);
        let cases: [([Option<&str>; 2], &[File], &[File]); 6] = [
            ([Some("x"), Some("x")], &[], &[]),
            ([Some("x"), None], &[], &[dates]),
            ([None, Some("x")], &[], &[calendar]),
            ([Some(""), Some("x")], &[], &[calendar]),
            ([Some(""), None], &[dates], &[]),
            ([None, None], &[calendar, dates], &[]),
        ];
        for (services, missing, left_out) in cases {
            let mut files: [Option<Vec<u8>>; FILES] = std::array::from_fn(|_| Some(b"x".to_vec()));
            [files[2], files[5]] = services.map(|file| file.map(|text| text.as_bytes().to_vec()));
            let feed = Feed::new(Place::default(), files, Unread::default());
            assert_eq!(feed.missing(), missing, "{services:?}");
            let told: Vec<File> = File::ALL.into_iter().filter(|file| feed.left_out(*file)).collect();
            assert_eq!(told, left_out, "{services:?}");
        }
    }

    /// Wherever a folder says that it is, it is in the zip file.
    #[test]
    fn paths_begin_with_the_feed() {
        let of =
            |path: &str, folder: &str| Place { path: path.into(), is_zip: true, folder: folder.into() }.of("stops.txt");
        assert_eq!(of("a.zip", ""), "a.zip/stops.txt");
        assert_eq!(of("a.zip", "gtfs/"), "a.zip/gtfs/stops.txt");
        assert_eq!(of("a.zip", "/etc/other/"), "a.zip//etc/other/stops.txt");
        assert_eq!(of("feeds/", ""), "feeds/stops.txt");
        assert_eq!(of("/", ""), "/stops.txt");
    }

    #[test]
    fn lines_are_cut_as_the_check_cuts_them() {
        let mut files: [Option<Vec<u8>>; FILES] = Default::default();
        files[1] = Some(b"\xEF\xBB\xBFa,b\r\n\nlast\nrest\r".to_vec());
        files[2] = Some(b"\xEF\xBB\xBF".to_vec());
        files[3] = Some(b"\xEF\xBB\xBFrest".to_vec());
        files[4] = Some(b"\n\n".to_vec());
        let feed = Feed::new(Place::default(), files, Unread::default());
        assert_eq!(feed.line_count(2), 3);
        assert_eq!(feed.line(2, 1), Some(&b"a,b"[..]));
        assert_eq!(feed.line(2, 2), Some(&b""[..]));
        assert_eq!(feed.line(2, 3), Some(&b"last"[..]));
        assert_eq!(feed.line(2, 4), Some(&b"rest\r"[..]), "no CR belongs to an ending that isn't there");
        assert_eq!(feed.line(4, 1), Some(&b"rest"[..]));
        assert_eq!([1, 2].map(|line| feed.line(5, line)), [Some(&b""[..]); 2]);
        for (file, line) in [(2, 0), (2, 5), (2, 6), (3, 1), (4, 2), (5, 0), (5, 3), (1, 1), (0, 1), (7, 1)] {
            assert_eq!(feed.line(file, line), None, "{file}:{line}");
        }
    }
}
