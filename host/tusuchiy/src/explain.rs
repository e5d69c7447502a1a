//! The clerk's page: docs/RULES.md, a section for each refusal and each rule, found by its heading.

use std::collections::BTreeMap;
use std::sync::OnceLock;

const RULES: &str = include_str!("../../../docs/RULES.md");

/// The headings' first words: `## Refusal 4: ..` and `## Rule 20: ..`.
const WORDS: [&str; 2] = ["## Refusal ", "## Rule "];

/// The place of a section.
fn find(number: usize) -> Option<usize> {
    WORDS.iter().find_map(|word| RULES.find(&format!("\n{word}{number}: "))).map(|place| place + 1)
}

/// What a refusal or a rule means, in one line.
#[must_use]
pub fn meaning(number: usize) -> &'static str {
    meanings().get(&number).unwrap_or(&"a rule that docs/RULES.md doesn't know")
}

/// All meanings by their numbers, looked up once: a list may ask a million times.
fn meanings() -> &'static BTreeMap<usize, &'static str> {
    static MEANINGS: OnceLock<BTreeMap<usize, &str>> = OnceLock::new();
    let meaning = |line: &'static str| {
        let (number, meaning) = WORDS.iter().find_map(|word| line.strip_prefix(word))?.split_once(": ")?;
        Some((number.parse().ok()?, meaning.trim_end()))
    };
    MEANINGS.get_or_init(|| RULES.lines().filter_map(meaning).collect())
}

/// The section of a refusal or a rule, from its heading to the next one.
#[must_use]
pub fn page(number: usize) -> Option<&'static str> {
    let body = &RULES[find(number)?..];
    let end = ["\n# ", "\n## "].iter().filter_map(|heading| body.find(heading)).min();
    Some(body[..end.unwrap_or(body.len())].trim_end())
}

/// What to say for a number that has no section.
#[must_use]
pub fn no_such(number: usize) -> String {
    let refusals = "refusals are 1 to 14 and, of an index, 40 to 46";
    format!("there is no refusal or rule {number}: {refusals}, rules 20 to 31 and, of the profile boards, 60 to 62")
}

#[cfg(test)]
mod tests {
    use super::*;

    #[test]
    fn every_number_has_its_section() {
        for number in (1..=14).chain(20..=31).chain(40..=46).chain(60..=62) {
            let page = page(number).unwrap_or_else(|| panic!("no section {number}"));
            for part in ["**What it means.**", "**Example.**", "**How to mend it.**"] {
                assert_eq!(page.matches(part).count(), 1, "section {number}, {part}");
            }
            assert_eq!(page.matches("\n#").count(), 0, "section {number} runs on");
            assert!(!meaning(number).is_empty());
        }
    }

    #[test]
    fn other_numbers_have_none() {
        for number in [0, 15, 19, 32, 39, 47, 59, 63] {
            assert_eq!(page(number), None);
        }
    }
}
