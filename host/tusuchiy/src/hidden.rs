//! What the list of faults leaves open, since something else is to be mended first.

use crate::feed::{Feed, NAMES};
use crate::paging::Refusal;

const LINES: &str = "a line is named once, for the first thing that is wrong with it: look at all of it";
const HEADERS: &str =
    "the header is refused, so the values below it weren't judged and may bring more faults once it is mended";
const LONG: &str = "the file is too long, so its lines weren't judged and may bring more faults once it is shorter";

/// What may still come: of lines that have a fault, of files whose header is refused, and of files that are too long, a sentence
/// each; from all faults of the feed.
pub fn sentences(feed: &Feed, faults: impl Iterator<Item = Refusal> + Clone) -> Vec<String> {
    let of = |hides: &dyn Fn(&Refusal) -> bool| {
        let has = |name: &&str| faults.clone().any(|fault| NAMES[fault.file - 1] == *name && hides(&fault));
        NAMES.into_iter().filter(has).collect::<Vec<_>>().join(", ")
    };
    // Of a single fault its line is shown, and there is nothing else to look at.
    let several = faults.clone().nth(1).is_some();
    let lines = (several && faults.clone().any(|fault| fault.line > 0)).then(|| LINES.to_string());
    // A header that nothing stands below hides nothing.
    let headers = of(&|fault| fault.line == 1 && feed.line(fault.file, 2).is_some());
    let long = of(&|fault| fault.line == 0 && matches!(fault.number, 1 | 2));
    let of_files = [(headers, HEADERS), (long, LONG)].into_iter().filter(|(files, _)| !files.is_empty());
    lines.into_iter().chain(of_files.map(|(files, words)| format!("{files}: {words}"))).collect()
}

#[cfg(test)]
mod tests {
    use super::*;
    use crate::feed::{Place, Unread, FILES};

    /// The sentences about faults, each given by file, line and number, of a feed whose files have two lines, but trips.txt one.
    fn told(faults: &[(usize, usize, usize)]) -> Vec<String> {
        let mut files: [Option<Vec<u8>>; FILES] = std::array::from_fn(|_| Some(b"x\ny\n".to_vec()));
        files[3] = Some(b"x\n".to_vec());
        let feed = Feed::new(Place::default(), files, Unread::default());
        let fault = |&(file, line, number): &_| Refusal { number, file, line, column: None };
        sentences(&feed, faults.iter().map(fault))
    }

    #[test]
    fn headers_and_long_files_hide_something() {
        assert_eq!(told(&[(1, 0, 4), (4, 0, 4)]), [] as [&str; 0]);
        assert_eq!(told(&[(1, 0, 4), (1, 2, 13), (5, 7, 5)]), [LINES]);
        assert_eq!(told(&[(1, 2, 13)]), [] as [&str; 0]);
        assert_eq!(told(&[(4, 1, 9)]), [] as [&str; 0], "trips.txt has a header alone");
        assert_eq!(told(&[(5, 1, 9)]), [format!("stop_times.txt: {HEADERS}")]);
        assert_eq!(told(&[(2, 1, 9), (2, 2, 5)]), [LINES.to_string(), format!("routes.txt: {HEADERS}")]);
        assert_eq!(told(&[(3, 0, 1), (3, 0, 2), (3, 0, 4)]), [format!("calendar.txt: {LONG}")]);
        let of_files =
            [format!("stops.txt, routes.txt: {HEADERS}"), format!("stop_times.txt, calendar_dates.txt: {LONG}")];
        assert_eq!(told(&[(1, 1, 8), (2, 1, 9), (5, 0, 2), (6, 0, 1)])[1..], of_files);
    }
}
