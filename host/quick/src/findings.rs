//! The findings in their order, and the list that is handed out.

use model::Answer;

/// A finding: file, line, rule.
pub type Finding = [i32; 3];

/// Findings, added in the order of file, line and rule.
#[derive(Default)]
pub struct Findings(Vec<Finding>);

impl Findings {
    /// Adds the finding where the rule is broken; record n stands on line n + 1.
    pub fn add(&mut self, file: i32, record: usize, rule: i32, broken: bool) {
        if broken {
            self.0.push([file, record as i32 + 1, rule]);
        }
    }

    /// Writes the findings after the starting place, as many as fit, and tells the answer.
    pub fn hand_out(&self, list: &mut [i32], start: Finding) -> Answer {
        if self.0.is_empty() {
            return Answer::Accepted;
        }
        let after = self.0.partition_point(|&finding| finding <= start);
        let written = (self.0.len() - after).min(list.len() / 3);
        for (room, finding) in list.chunks_exact_mut(3).zip(&self.0[after..]) {
            room.copy_from_slice(finding);
        }
        Answer::Findings { written, total: self.0.len() }
    }
}
