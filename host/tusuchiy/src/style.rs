//! Colours for a terminal, where they are wanted.

use std::env;
use std::io::{self, IsTerminal};

/// When colours are wanted.
#[derive(Clone, Copy, Debug, Default, PartialEq, Eq)]
pub enum When {
    #[default]
    Auto,
    Always,
    Never,
}

/// With colours or without.
#[derive(Clone, Copy)]
pub struct Style(bool);

/// Colours go to a terminal that can show them, unless NO_COLOR is set or few words are wanted.
pub fn of_output(when: When, quiet: bool) -> Style {
    let able = || {
        let dumb = env::var_os("TERM").map_or(true, |term| term == "dumb");
        let no_color = env::var_os("NO_COLOR").is_some_and(|set| !set.is_empty());
        io::stdout().is_terminal() && !dumb && !no_color && !quiet
    };
    Style(match when {
        When::Always => true,
        When::Never => false,
        When::Auto => able(),
    })
}

impl Style {
    fn painted(self, code: &str, text: &str) -> String {
        if self.0 {
            format!("\x1b[{code}m{text}\x1b[0m")
        } else {
            text.to_string()
        }
    }

    pub fn good(self, text: &str) -> String {
        self.painted("1;32", text)
    }

    pub fn bad(self, text: &str) -> String {
        self.painted("1;31", text)
    }

    pub fn heading(self, text: &str) -> String {
        self.painted("1", text)
    }

    pub fn path(self, text: &str) -> String {
        self.painted("35", text)
    }
}
