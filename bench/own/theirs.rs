//! Acts played by the crate's text into memory. (Not the crate's text.)
use std::borrow::Cow;

use crate::completion::Completer;
use crate::edit::State;
use crate::highlight::{CmdKind, Highlighter, MatchingBracketHighlighter};
use crate::hint::Hinter;
use crate::history::NoHistory;
use crate::keymap::Refresher as _;
use crate::tty::{Renderer as _, make};
use crate::validate::Validator;
use crate::{Context, Helper};

pub enum Act {
    Insert(char, u16),
    Set(String, usize),
    Go(usize),
    Refresh,
    Message(String),
    /// the crate takes the text for its own, so each is lent once
    Notice(String),
    Clear,
    Finish,
}

/// brackets lit, or nothing; no hints
struct Aid {
    lit: MatchingBracketHighlighter,
}
impl Completer for Aid {}
impl Validator for Aid {}
impl Helper for Aid {}
impl Hinter for Aid {
    type Hint = String;
    fn hint(&self, _: &str, _: usize, _: &Context<'_>) -> Option<String> { None }
}
impl Highlighter for Aid {
    fn highlight<'l>(&self, line: &'l str, pos: usize) -> Cow<'l, str> { self.lit.highlight(line, pos) }
    fn highlight_char(&self, line: &str, pos: usize, kind: CmdKind) -> bool { self.lit.highlight_char(line, pos, kind) }
}

/// plays acts behind a create: how many were accepted, create included, and how many bytes were written
#[unsafe(export_name = "theirs_play")]
#[inline(never)]
pub fn play(cols: u16, rows: u16, colours: bool, acts: &mut [Act], out: &mut [u8]) -> (usize, usize) {
    nix::term::SINK.set((out.as_mut_ptr(), out.len(), 0));
    let mut writer = make(cols, rows, 8, colours, false);
    let aid = Aid { lit: MatchingBracketHighlighter::new() };
    let prompt = ("> ".to_string(), "> ".to_string());
    let history = NoHistory;
    let mut s = State::new(&mut writer, &prompt, Some(&aid), Context::new(&history));
    let mut accepted = usize::from(s.refresh_line().is_ok());
    for act in acts {
        let done = match act {
            Act::Insert(c, n) => s.edit_insert(*c, *n),
            Act::Set(l, p) => { s.line.update(l, *p, &mut s.changes); s.refresh_line() }
            Act::Go(p) => { s.line.set_pos(*p); s.move_cursor(CmdKind::MoveCursor) }
            Act::Refresh => s.refresh_line(),
            Act::Message(m) => s.refresh_line_with_msg(Some(m), CmdKind::Other),
            Act::Notice(m) => s.external_print(std::mem::take(m)),
            Act::Clear => s.clear_screen().and_then(|()| s.refresh_line()),
            Act::Finish => s.move_cursor_to_end().and_then(|()| s.out.write_and_flush("\n")),
        };
        accepted += usize::from(done.is_ok());
    }
    (accepted, nix::term::SINK.get().2)
}
