//! Wrong readings of a request: those that no case has told from the right one yet.

use std::collections::BTreeSet;
use std::fmt::Debug;

/// The right reading, and the wrong ones by name that gave what it gave on every case so far.
pub struct Missed<R> {
    right: R,
    wrong: Vec<(&'static str, R)>,
}

impl<R: Copy> Missed<R> {
    pub fn new(right: R, wrong: &[(&'static str, R)]) -> Self {
        Missed { right, wrong: wrong.to_vec() }
    }

    /// Fails unless the right reading gives of a case what is wanted; wrong ones that don't are told apart.
    pub fn try_case<O: PartialEq + Debug>(&mut self, name: &str, wanted: &O, by: impl Fn(&R) -> O) {
        assert_eq!(&by(&self.right), wanted, "{name}");
        self.wrong.retain(|(_, wrong)| by(wrong) == *wanted);
    }

    /// Fails unless just these were told apart by no case.
    pub fn are(self, names: &[&str]) {
        let missed: BTreeSet<&str> = self.wrong.iter().map(|(name, _)| *name).collect();
        assert_eq!(missed, names.iter().copied().collect(), "not told apart");
    }
}
