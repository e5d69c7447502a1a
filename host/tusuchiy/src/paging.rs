//! Lends memory to the check and gathers what it hands out, page by page.

use crate::feed::{Feed, FILES, MOST_LINES};
use crate::memory;
use crate::progress;
use tusuchiy::{faults, table_sizes, try_check, Error, Fault, Place, Profile, Verdict};

/// The most findings that one call hands out: a list of 72 MiB. Each further call is a whole check.
const MOST_ROOM: usize = 6 << 20;

/// The most rules that a line of files 1 to 6 breaks, two of the seven by a profile.
const MOST_ON_LINE: [usize; FILES] = [3, 2, 2, 3, 7, 1];

/// More findings than any feed can have.
pub const MOST_FINDINGS: usize = {
    let [stops, routes, calendar, trips, times, dates] = MOST_ON_LINE;
    (stops + routes + calendar + trips + times + dates) * MOST_LINES
};

/// One page: the findings, or the faults of a refused feed, after a place, as many as there is room for, or all of them.
#[derive(Clone, Copy, Debug, PartialEq, Eq)]
pub struct Page {
    pub after: [i32; 3],
    pub room: Option<usize>,
}

/// A page without room tells the verdict and the total.
pub const VERDICT_ONLY: Page = Page { after: [0, 0, 0], room: Some(0) };

/// A finding: file, line, rule.
#[derive(Clone, Copy, Debug, PartialEq, Eq)]
pub struct Finding {
    pub file: usize,
    pub line: usize,
    pub rule: usize,
}

/// A refusal, or a fault of the list: its number, file, line (0 is the whole file), and the column from 1 where it has one.
#[derive(Clone, Copy, Debug, PartialEq, Eq)]
pub struct Refusal {
    pub number: usize,
    pub file: usize,
    pub line: usize,
    pub column: Option<usize>,
}

impl From<Fault> for Refusal {
    fn from(fault: Fault) -> Self {
        let (number, file, line) = (fault.refusal.number(), fault.file.number(), fault.line as usize);
        Refusal { number, file, line, column: fault.column.map(|column| column.get() as usize) }
    }
}

/// Findings in their order, in four bytes each: there may be millions.
#[derive(Clone, Debug, Default, PartialEq, Eq)]
pub struct Findings(Vec<u32>);

/// How many bits a rule's number, a line and a file take.
const RULE_BITS: u32 = 6;
const LINE_BITS: u32 = 21;
const FILE_BITS: u32 = 3;
const _: () = assert!(MOST_LINES < 1 << LINE_BITS && FILES < 1 << FILE_BITS);

impl Findings {
    /// Adds what a call handed out, three numbers each; none where a number is one that no finding has.
    fn add(&mut self, numbers: &[i32]) -> Option<()> {
        let fits = |number: i32, bits: u32| u32::try_from(number).ok().filter(|number| *number < 1 << bits);
        for found in numbers.chunks_exact(3) {
            let (file, line, rule) =
                (fits(found[0], FILE_BITS)?, fits(found[1], LINE_BITS)?, fits(found[2], RULE_BITS)?);
            self.0.push(file << (LINE_BITS + RULE_BITS) | line << RULE_BITS | rule);
        }
        Some(())
    }

    pub fn len(&self) -> usize {
        self.0.len()
    }

    /// The one at a place, counted from 0.
    pub fn get(&self, place: usize) -> Option<Finding> {
        let packed = *self.0.get(place)?;
        let low = |bits: u32, number: u32| (number & ((1 << bits) - 1)) as usize;
        let (rule, line) = (low(RULE_BITS, packed), low(LINE_BITS, packed >> RULE_BITS));
        Some(Finding { file: (packed >> (LINE_BITS + RULE_BITS)) as usize, line, rule })
    }

    pub fn iter(&self) -> impl Iterator<Item = Finding> + '_ {
        (0..self.len()).filter_map(|place| self.get(place))
    }
}

/// Faults in their order, as the library hands them out.
#[derive(Clone, Debug, Default, PartialEq, Eq)]
pub struct Faults(Vec<Fault>);

impl Faults {
    pub fn len(&self) -> usize {
        self.0.len()
    }

    /// The one at a place, counted from 0.
    pub fn get(&self, place: usize) -> Option<Refusal> {
        self.0.get(place).copied().map(Refusal::from)
    }

    pub fn iter(&self) -> impl Iterator<Item = Refusal> + Clone + '_ {
        self.0.iter().copied().map(Refusal::from)
    }
}

/// What the check answered.
#[derive(Debug, PartialEq, Eq)]
pub enum Outcome {
    Accepted,
    Findings {
        list: Findings,
        total: usize,
    },
    /// What the verdict names, and the list of all faults, or a page of it.
    Refused {
        first: Refusal,
        faults: Faults,
        total: usize,
    },
}

/// What is to be printed; `page` is there where one was asked for. A feed that is refused has no tables.
pub struct Report {
    pub outcome: Outcome,
    pub profile: Profile,
    pub page: Option<Page>,
    pub tables: [Vec<i32>; FILES],
}

/// Checks a feed by the rules that are asked for: one page as the check hands it out, or all findings; where it is refused, the same of its faults.
pub fn check(feed: &Feed, page: Option<Page>, profile: Profile) -> Result<Report, String> {
    // Most feeds have less than a finding a line, so that one call is enough.
    let room = (1..=FILES).map(|file| feed.line_count(file)).sum::<usize>().clamp(1, MOST_ROOM);
    // However much is asked for, no list has more room than the lines of the feed can fill.
    let most = (1..=FILES).map(|file| feed.line_count(file) * MOST_ON_LINE[file - 1]).sum::<usize>();
    let rooms = [room, most.clamp(1, MOST_ROOM)];
    let check = || memory::told(|| check_by(feed, page, profile, rooms));
    tusuchiy::in_one_thread(check).map_err(|error| Error::Thread(error).to_string())?
}

/// The same with this room for the first page and for each further one, where no other is asked for.
fn check_by(feed: &Feed, page: Option<Page>, profile: Profile, rooms: [usize; 2]) -> Result<Report, String> {
    let mut lent = Lent::new(feed, profile)?;
    let start = page.map_or([0, 0, 0], |page| page.after);
    let asked = page.and_then(|page| page.room);
    let room = asked.map_or(rooms[0], |asked| asked.min(rooms[1]));
    let (outcome, tables) = match lent.call(start, room)? {
        Verdict::Accepted => (Outcome::Accepted, lent.tables),
        Verdict::Refused(fault) => {
            // The list of faults may take as much memory as the tables did.
            drop(lent);
            (refused(feed, fault, page)?, Default::default())
        }
        Verdict::Findings { total, written } => {
            let list = gather(&mut lent, written, asked.map_or(total, |asked| asked.min(total)), [room, rooms[1]])?;
            if page.is_none() && total != list.len() {
                return Err(format!("the check handed out {} findings and counts {total}", list.len()));
            }
            (Outcome::Findings { list, total }, lent.tables)
        }
    };
    Ok(Report { outcome, profile, page, tables })
}

/// What is lent to the check of a feed: tables that are long enough, and a list with room for a page.
struct Lent<'f> {
    feed: &'f Feed,
    profile: Profile,
    tables: [Vec<i32>; FILES],
    list: Vec<i32>,
}

impl<'f> Lent<'f> {
    fn new(feed: &'f Feed, profile: Profile) -> Result<Self, String> {
        progress::step(|| format!("checking {} bytes", feed.size()));
        let mut tables: [Vec<i32>; FILES] = Default::default();
        for (table, size) in tables.iter_mut().zip(table_sizes(feed.slices())) {
            *table = zeros(size)?;
        }
        Ok(Lent { feed, profile, tables, list: Vec::new() })
    }

    /// One call of the check: the verdict, and in the list the findings after a place, as many as there is room for.
    fn call(&mut self, after: [i32; 3], room: usize) -> Result<Verdict, String> {
        // Two lists at a time would take twice the room.
        self.list = Vec::new();
        self.list = zeros(3 * room)?;
        let tables = self.tables.each_mut().map(|table| &mut table[..]);
        let answer = try_check(self.feed.slices(), tables, &mut self.list, after, self.profile);
        let answer = answer.map_err(|error| Error::Thread(error).to_string())?;
        answer.verdict().ok_or_else(|| Error::Unknown(answer).to_string())
    }
}

fn zeros(length: usize) -> Result<Vec<i32>, String> {
    let mut numbers = Vec::new();
    numbers.try_reserve_exact(length).map_err(|error| error.to_string())?;
    numbers.resize(length, 0);
    Ok(numbers)
}

/// The findings that a call with the first room wrote, and those behind them up to so many in all, by pages of the other.
fn gather(lent: &mut Lent, written: usize, most: usize, rooms: [usize; 2]) -> Result<Findings, String> {
    let (mut list, mut written, [mut room, further]) = (Findings::default(), written, rooms);
    list.0.try_reserve_exact(most).map_err(|error| error.to_string())?;
    loop {
        let page = lent.list.get(..3 * written).and_then(|page| list.add(page).map(|()| page));
        let page = page.ok_or("the check handed out findings that nobody knows")?;
        // A page that isn't full is the last one.
        let Some(&[file, line, rule]) = page.last_chunk().filter(|_| written >= room && list.len() < most) else {
            lent.list = Vec::new();
            return Ok(list);
        };
        progress::step(|| format!("checking for more, {} of {most} findings", list.len()));
        room = further.min(most - list.len());
        written = match lent.call([file, line, rule], room)? {
            Verdict::Findings { written, .. } => written,
            _ => 0,
        };
    }
}

/// As many faults as the files of a feed have room for: one on each line, on one more without an ending, and one of the whole.
/// So one call hands out all of them.
fn most_faults(feed: &Feed) -> usize {
    (1..=FILES).map(|file| feed.line_count(file).min(MOST_LINES) + 2).sum()
}

/// A refused feed with its faults: one page of them, or all.
fn refused(feed: &Feed, fault: Fault, page: Option<Page>) -> Result<Outcome, String> {
    progress::step(|| "listing faults".to_string());
    let after = Place(page.map_or([0, 0, 0], |page| page.after));
    let room = page.and_then(|page| page.room).unwrap_or_else(|| most_faults(feed));
    let told = faults::page(feed.slices(), after, room).map_err(|error| error.to_string())?;
    // The proved list has what the verdict names, and is as long as its total.
    if page.is_none() && (told.total != told.faults.len() || !told.faults.contains(&fault)) {
        return Err(format!("{fault} was refused, and of {} faults {} told", told.total, told.faults.len()));
    }
    Ok(Outcome::Refused { first: fault.into(), faults: Faults(told.faults), total: told.total })
}

#[cfg(test)]
mod tests {
    use super::*;
    use crate::feed::{Place, Unread};

    /// The feed of document 01.
    fn feed() -> Feed {
        let files: [Option<&[u8]>; FILES] = [
            Some(include_bytes!("../../../examples/findings/stops.txt")),
            Some(include_bytes!("../../../examples/findings/routes.txt")),
            Some(include_bytes!("../../../examples/findings/calendar.txt")),
            Some(include_bytes!("../../../examples/findings/trips.txt")),
            Some(include_bytes!("../../../examples/findings/stop_times.txt")),
            None,
        ];
        Feed::new(Place::default(), files.map(|file| file.map(<[u8]>::to_vec)), Unread::default())
    }

    fn all(page: Option<Page>, profile: Profile, rooms: [usize; 2]) -> Result<(Vec<Finding>, usize), String> {
        match check_by(&feed(), page, profile, rooms)?.outcome {
            Outcome::Findings { list, total } => Ok((list.iter().collect(), total)),
            other => Err(format!("{other:?}")),
        }
    }

    /// All calls ask for the same rules: with the profile for boards the line without times is one finding more.
    #[test]
    fn pages_of_any_room_give_the_whole_list() {
        let findings = [(4, 3, 21), (4, 3, 30), (5, 3, 29), (5, 4, 21), (5, 4, 28), (5, 4, 60)];
        let findings = findings.map(|(file, line, rule)| Finding { file, line, rule });
        for (profile, total) in [(Profile::Plain, 5), (Profile::Boards, 6)] {
            let list = &findings[..total];
            for rooms in [[1, 1], [1, 2], [2, 1], [2, 3], [4, 1], [5, 9], [6, 9], [7, 9], [MOST_ROOM; 2]] {
                assert_eq!(all(None, profile, rooms), Ok((list.to_vec(), total)), "rooms {rooms:?}");
                for room in [None, Some(0), Some(1), Some(3), Some(99)] {
                    let page = Page { after: [4, 3, 30], room };
                    let wanted = list[2..].iter().copied().take(room.unwrap_or(total)).collect();
                    assert_eq!(all(Some(page), profile, rooms), Ok((wanted, total)), "rooms {rooms:?}, {room:?}");
                }
            }
        }
    }

    /// What is kept of a finding is all of it, at each end of its numbers.
    #[test]
    fn findings_in_four_bytes() {
        let mut list = Findings::default();
        let numbers =
            [1, 6].into_iter().flat_map(|file| [2, MOST_LINES].map(|line| [20, 62].map(|rule| (file, line, rule))));
        let all: Vec<Finding> = numbers.flatten().map(|(file, line, rule)| Finding { file, line, rule }).collect();
        for Finding { file, line, rule } in all.iter().copied() {
            assert_eq!(list.add(&[file, line, rule].map(|number| number as i32)), Some(()));
        }
        assert_eq!(list.iter().collect::<Vec<_>>(), all);
        assert_eq!((list.len(), list.get(7), list.get(8)), (8, Some(all[7]), None));
        for unknown in [[8, 2, 20], [1, 1 << 21, 20], [1, 2, 64], [-1, 2, 20], [1, -2, 20], [1, 2, i32::MIN]] {
            assert_eq!(list.add(&unknown), None, "{unknown:?}");
        }
    }

    /// The same feed with three faults: a stop without a name, a route that ends the file without a line ending and lacks its type.
    fn faulty() -> Feed {
        let mut files = feed().slices().map(|file| Some(file.to_vec()));
        files[0] = Some(b"stop_id,stop_name,stop_lat,stop_lon\nA,,1.5,2\n".to_vec());
        files[1] = Some(b"route_id,route_type\nR,".to_vec());
        Feed::new(Place::default(), files, Unread::default())
    }

    #[test]
    fn one_call_gives_all_faults() {
        let fault = |(file, line, number, column)| Refusal { number, file, line, column };
        let list = [(1, 2, 12, Some(2)), (2, 0, 4, None), (2, 2, 12, Some(2))].map(fault);
        let told = |page| match check(&faulty(), page, Profile::Plain).expect("an answer").outcome {
            Outcome::Refused { first, faults, total } => (first, faults.iter().collect::<Vec<_>>(), total),
            other => panic!("{other:?}"),
        };
        let refused = |faults: &[Refusal]| (list[1], faults.to_vec(), 3);
        let page = |after, room| Some(Page { after, room });
        assert_eq!(told(None), refused(&list));
        assert_eq!(told(page([1, 2, 12], None)), refused(&list[1..]));
        assert_eq!(told(page([0, 0, 0], Some(2))), refused(&list[..2]));
        assert_eq!(told(page([2, 0, 3], Some(1))), refused(&list[1..2]));
        assert_eq!(told(page([2, 2, 12], Some(9))), refused(&[]));
        assert_eq!(told(Some(VERDICT_ONLY)), refused(&[]));
    }

    /// A line that is refused in each place where one can stand, in files of all kinds: there is room for all.
    #[test]
    fn there_is_room_for_all_faults() {
        for file in [&b""[..], b"\t", b"\t\n", b"\t\n\t", b"\n\n\n\t"] {
            let feed = Feed::new(Place::default(), std::array::from_fn(|_| Some(file.to_vec())), Unread::default());
            let report = check(&feed, None, Profile::Boards).expect("an answer");
            let Outcome::Refused { faults, total, .. } = report.outcome else { panic!("not refused") };
            assert_eq!(faults.len(), total);
            assert!(total <= most_faults(&feed), "{file:?}");
        }
    }

    #[test]
    fn a_list_shorter_than_the_total_is_an_error() {
        assert!(all(None, Profile::Plain, [0, 1]).is_err());
    }
}
