//! stand-in cluster: a character with the zero-width non-controls after it; a control stands alone. Each cluster is cut
//! off when it is asked for, with nothing kept on the heap.
use std::str::Chars;
use unicode_width::{is_control, table};

/// how many bytes the first cluster takes
fn first_len(text: &str) -> usize {
    let mut chars: Chars<'_> = text.chars();
    let Some(first) = chars.next() else { return 0 };
    if !is_control(first) {
        loop {
            let at = text.len() - chars.as_str().len();
            match chars.next() {
                Some(d) if !is_control(d) && table(d) == 0 => {}
                _ => return at,
            }
        }
    }
    first.len_utf8()
}

pub struct Graphemes<'a> { rest: &'a str }
impl<'a> Iterator for Graphemes<'a> {
    type Item = &'a str;
    fn next(&mut self) -> Option<&'a str> {
        let len = first_len(self.rest);
        if len == 0 { return None; }
        let (first, rest) = self.rest.split_at(len);
        self.rest = rest;
        Some(first)
    }
}

pub trait UnicodeSegmentation {
    fn graphemes(&self, extended: bool) -> Graphemes<'_>;
    fn grapheme_indices(&self, extended: bool) -> std::vec::IntoIter<(usize, &str)>;
}
impl UnicodeSegmentation for str {
    fn graphemes(&self, _: bool) -> Graphemes<'_> { Graphemes { rest: self } }
    /// for the moves by words, which are not ported and not measured
    fn grapheme_indices(&self, _: bool) -> std::vec::IntoIter<(usize, &str)> {
        let mut at = 0;
        self.graphemes(true).map(|s| { let i = at; at += s.len(); (i, s) }).collect::<Vec<_>>().into_iter()
    }
}
