//! A list that the archive hands out in pages, entry by entry: each page is asked for when it is needed.

use crate::check::{Error, Place};
use crate::MOST_LINES;

/// How many entries a page has where nobody says: most feeds need one call, and no more room is lent than a feed can use.
pub(crate) const PAGE: usize = MOST_LINES;

/// Where a list stands that is read page by page.
#[derive(Clone, Debug)]
pub(crate) struct Pages<Entry> {
    room: usize,
    after: Place,
    ready: std::vec::IntoIter<Entry>,
    over: bool,
}

impl<Entry: Copy + Into<Place>> Pages<Entry> {
    /// From the list's start, so many entries a page, at least one.
    pub(crate) fn of(room: usize) -> Self {
        Pages { room: room.max(1), after: Place::START, ready: Vec::new().into_iter(), over: false }
    }

    /// The next entry; `ask` is called, where none is ready, for those after a place, as many as there is room for.
    pub(crate) fn next_by(
        &mut self,
        ask: impl FnOnce(Place, usize) -> Result<Vec<Entry>, Error>,
    ) -> Option<Result<Entry, Error>> {
        if self.ready.len() == 0 && !self.over {
            let page = match ask(self.after, self.room) {
                Ok(page) => page,
                Err(error) => {
                    self.over = true;
                    return Some(Err(error));
                }
            };
            // A page that isn't full is the last one.
            self.over = page.len() < self.room;
            self.after = page.last().map_or(self.after, |&last| last.into());
            self.ready = page.into_iter();
        }
        self.ready.next().map(Ok)
    }
}
