//! ASSEMBLED by extract.py: crate root. Whole modules are the crate's own; error, history, keys, kill_ring,
//! validate, completion (whose sources are not here) are stubs below.
#![allow(dead_code, unused, unfulfilled_lint_expectations, mismatched_lifetime_syntaxes)]
pub mod config;
mod bracket_probe;
#[path = "../own/compare.rs"]
mod compare;
#[path = "../own/driver.rs"]
mod driver;
mod edit;
#[path = "../own/fuzz.rs"]
mod fuzz;
pub mod highlight;
pub mod hint;
mod keymap;
mod layout;
pub mod line_buffer;
mod prompt;
#[path = "../own/report.rs"]
mod report;
#[path = "../own/rules.rs"]
mod rules;
#[path = "../own/sample.rs"]
mod sample;
#[path = "../own/scripts.rs"]
mod scripts;
mod tty;
mod undo;

use std::{fmt, result};

use crate::completion::Completer;
pub use crate::config::{CompletionType, Config, EditMode};
use crate::error::ReadlineError;
use crate::highlight::Highlighter;
use crate::hint::Hinter;
use crate::history::History;
pub use crate::keymap::{Anchor, At, CharSearch, Cmd, Movement, RepeatCount, Word};
use crate::kill_ring::KillRing;
pub use crate::layout::GraphemeClusterMode;
pub use crate::prompt::Prompt;
pub use crate::undo::Changeset;
use crate::validate::Validator;

//@CUT result

//@CUT helper

//@CUT context

// ---- outside world: modules whose sources are not here
pub mod error {
    #[derive(Debug)]
    pub enum Signal {
        Interrupt,
        Resize,
    }
    #[derive(Debug)]
    pub enum ReadlineError {
        Errno(nix::errno::Errno),
        Fmt,
        Signal(Signal),
    }
    impl From<nix::errno::Errno> for ReadlineError {
        fn from(e: nix::errno::Errno) -> Self {
            Self::Errno(e)
        }
    }
    impl From<std::fmt::Error> for ReadlineError {
        fn from(_: std::fmt::Error) -> Self {
            Self::Fmt
        }
    }
}
pub mod history {
    use std::borrow::Cow;
    #[derive(Clone, Copy, Debug, PartialEq)]
    pub enum SearchDirection {
        Forward,
        Reverse,
    }
    pub struct SearchResult<'a> {
        pub entry: Cow<'a, str>,
        pub idx: usize,
        pub pos: usize,
    }
    pub trait History {
        fn len(&self) -> usize;
        fn is_empty(&self) -> bool;
        fn get(&self, i: usize, d: SearchDirection) -> crate::Result<Option<SearchResult<'_>>>;
        fn starts_with(&self, t: &str, s: usize, d: SearchDirection) -> crate::Result<Option<SearchResult<'_>>>;
    }
    pub struct NoHistory;
    impl History for NoHistory {
        fn len(&self) -> usize {
            0
        }
        fn is_empty(&self) -> bool {
            true
        }
        fn get(&self, _: usize, _: SearchDirection) -> crate::Result<Option<SearchResult<'_>>> {
            Ok(None)
        }
        fn starts_with(&self, _: &str, _: usize, _: SearchDirection) -> crate::Result<Option<SearchResult<'_>>> {
            Ok(None)
        }
    }
}
pub mod keys {
    pub struct KeyEvent;
}
pub mod kill_ring {
    use crate::line_buffer::{DeleteListener, Direction};
    pub struct KillRing;
    impl DeleteListener for KillRing {
        fn delete(&mut self, _: usize, _: &str, _: Direction) {}
    }
}
pub mod completion {
    pub trait Completer {}
    impl Completer for () {}
}
pub mod validate {
    use crate::keymap::Invoke;
    pub enum ValidationResult {
        Incomplete,
        Invalid(Option<String>),
        Valid(Option<String>),
    }
    pub struct ValidationContext<'i> {
        i: &'i dyn Invoke,
    }
    impl<'i> ValidationContext<'i> {
        pub fn new(i: &'i mut dyn Invoke) -> Self {
            Self { i }
        }
    }
    pub trait Validator {
        fn validate(&self, _: &mut ValidationContext) -> crate::Result<ValidationResult> {
            Ok(ValidationResult::Valid(None))
        }
    }
    impl Validator for () {}
}

fn main() {
    driver::main()
}
