//! The acts that are measured: some that prepare a line, and then many alike.
use crate::ours::Deed;
use theirs::bench::Act;

/// acts for both sides
#[derive(Default)]
pub struct Script {
    pub colours: bool,
    texts: Vec<u8>,
    deeds: Vec<Deed>,
    acts: Vec<(u16, String, usize)>,
}

impl Script {
    fn add(&mut self, kind: u16, text: &str, number: usize) {
        self.deeds.push(Deed { kind, count: 1, pos: number, from: self.texts.len(), len: text.len() });
        self.texts.extend_from_slice(text.as_bytes());
        self.acts.push((kind, text.to_string(), number));
    }
    pub fn len(&self) -> usize { self.deeds.len() }
    pub fn ours(&self) -> (&[Deed], &[u8]) { (&self.deeds, &self.texts) }
    pub fn theirs(&self) -> Vec<Act> {
        self.acts.iter().map(|(kind, text, number)| match kind {
            0 => Act::Insert(text.chars().next().unwrap(), 1),
            1 => Act::Set(text.clone(), *number),
            2 => Act::Go(*number),
            3 => Act::Refresh,
            4 => Act::Message(text.clone()),
            5 => Act::Notice(text.clone()),
            6 => Act::Clear,
            _ => Act::Finish,
        }).collect()
    }
}

/// a line of so many bytes: words of a caption
pub fn line(bytes: usize, japanese: bool) -> String {
    let words = if japanese { "ただいまの記録は二分五十三秒です " } else { "Tonight: handball, then the election results. " };
    let mut text = String::new();
    for c in words.chars().cycle() {
        if text.len() + c.len_utf8() > bytes { break; }
        text.push(c);
    }
    while text.len() < bytes { text.push('.'); }
    text
}

/// the acts that prepare, and those that are measured, `many` of them
pub fn script(name: &str, bytes: usize, many: usize) -> Script {
    let mut s = Script::default();
    let (kind, japanese) = match name.strip_suffix("-ja") { Some(k) => (k, true), None => (name, false) };
    let text = line(bytes, japanese);
    match kind {
        // letter by letter, from an empty line
        "type" => for c in text.chars().take(many) { s.add(0, c.encode_utf8(&mut [0; 4]), 1); },
        // the line drawn anew, with the position at its end
        "redraw" => { s.add(1, &text, text.len()); for _ in 0..many { s.add(3, "", 0); } }
        // the same with the position at its start
        "redraw-at-start" => { s.add(1, &text, 0); for _ in 0..many { s.add(3, "", 0); } }
        // a notice of 40 bytes above the line, with the position at its end
        "notice" => { s.add(1, &text, text.len()); for _ in 0..many { s.add(5, "Goal by number 7, 25:24, minute fifty-one", 0); } }
        "notice-at-start" => { s.add(1, &text, 0); for _ in 0..many { s.add(5, "Goal by number 7, 25:24, minute fifty-one", 0); } }
        // from the end of the line to its start, a character at a time
        "go" => {
            s.add(1, &text, text.len());
            for (i, _) in text.char_indices().rev().take(many) { s.add(2, "", i); }
        }
        // the line drawn anew with a bracket lit, its partner at the other end
        "lit" => {
            s.colours = true;
            let inner = line(bytes - 2, japanese);
            let text = format!("({inner})");
            s.add(1, &text, text.len());
            for _ in 0..many { s.add(3, "", 0); }
        }
        // from a bracket to its partner and back
        "lit-go" => {
            s.colours = true;
            let inner = line(bytes - 2, japanese);
            let text = format!("({inner})");
            s.add(1, &text, text.len());
            for i in 0..many { s.add(2, "", if i % 2 == 0 { 0 } else { text.len() - 1 }); }
        }
        _ => panic!("no such work: {name}"),
    }
    s
}

/// the same acts for the library, none of the measured ones performed: a finish stands before them, which ends a run. They are
/// still made of numbers, as those that are performed; the crate is given its acts ready made
pub fn idle(name: &str, bytes: usize, many: usize) -> Script {
    let mut s = script(name, bytes, 0);
    let prepared = s.len();
    s.add(7, "", 0);
    for (kind, text, number) in script(name, bytes, many).acts.into_iter().skip(prepared) { s.add(kind, &text, number); }
    s
}

/// how many acts are measured
pub fn many(name: &str, bytes: usize) -> usize {
    let kind = name.strip_suffix("-ja").unwrap_or(name);
    let chars = line(bytes, name.ends_with("-ja")).chars().count();
    match kind { "type" | "go" => chars, _ => 200 }
}
