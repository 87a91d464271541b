//! Our rules, written out as a model: texts, places, terminal, page, acts and refusals. (Not the crate's text.)
pub fn script(captions: &[String], line: &str, pos: usize) -> Option<String> {
    if line.is_empty() || pos != line.len() { return None; }
    let c = captions.iter().find(|c| good(c) && c.len() > line.len() && c.starts_with(line))?;
    let h = &c[line.len()..];
    if h.len() > 1024 { None } else { Some(h.to_string()) }
}
pub fn good(t: &str) -> bool { t.chars().all(|c| c == '\n' || !unicode_width::is_control(c)) }
/// visible text of a good styled text
pub fn visible(t: &str) -> String {
    let mut o = String::new();
    let mut it = t.chars();
    while let Some(c) = it.next() {
        if c == '\x1b' { for d in it.by_ref() { if d == 'm' { break; } } } else { o.push(c); }
    }
    o
}
/// where the character rules leave the cursor, column cols = full row
pub fn walk(cols: u16, t: &str) -> (u32, u32) {
    let (mut c, mut r) = (0u32, 0u32);
    for ch in t.chars() {
        if ch == '\n' { r += 1; c = 0; continue; }
        let w = unicode_width::table(ch) as u32;
        if w > 0 && c + w > u32::from(cols) { r += 1; c = 0; }
        c += w;
    }
    (c, r)
}
pub fn place(cols: u16, t: &str) -> (u32, u32) {
    let (c, r) = walk(cols, t);
    if c == u32::from(cols) { (0, r + 1) } else { (c, r) }
}

// ---- calculate_position by our rules (tabs, bytes 0x30 to 0x3F), clusters written out independently
pub fn measure(cols: u16, tab: u16, orig: (u32, u32), t: &str) -> (u32, u32) {
    let (mut c, mut r) = orig;
    let cols = u32::from(cols);
    let tab = u32::from(tab);
    let mut esc = 0;
    let ch: Vec<char> = t.chars().collect();
    let mut i = 0;
    while i < ch.len() {
        let x = ch[i];
        let mut n = 1;
        let mut w = unicode_width::table(x) as u32;
        if !unicode_width::is_control(x) {
            while i + n < ch.len() && !unicode_width::is_control(ch[i + n]) && unicode_width::table(ch[i + n]) == 0 { n += 1; }
        }
        i += n;
        if x == '\n' { r += 1; c = 0; continue; }
        if x == '\t' {
            if c < cols - 1 { c = (c + tab - c % tab).min(cols - 1); }
            continue;
        }
        if esc == 1 { esc = if x == '[' && n == 1 { 2 } else { 0 }; w = 0; }
        else if esc == 2 { if !('\u{30}'..='\u{3f}').contains(&x) { esc = 0; } w = 0; }
        else if x == '\x1b' { esc = 1; w = 0; }
        c += w;
        if c > cols { r += 1; c = w; }
    }
    if c == cols { (0, r + 1) } else { (c, r) }
}

// ---- the terminal
#[derive(Clone, Copy, Debug, PartialEq)]
pub enum Cell { Blank, Ch(char, Option<char>), Right }
#[derive(Clone, Debug)]
enum Parse { Ground, Esc, Csi(Vec<u8>), /** value so far, bytes to come, bounds of the next */ Utf(u32, u8, u8, u8) }
#[derive(Clone, Debug)]
pub struct Screen { pub cols: usize, pub rows: usize, pub paper: Vec<Vec<Cell>>, pub top: usize, pub row: usize, pub col: usize, last: Option<(usize, usize)>, pub held: bool, parse: Parse }
impl Screen {
    pub fn new(cols: usize, rows: usize) -> Self { Screen { cols, rows, paper: vec![], top: 0, row: 0, col: 0, last: None, held: false, parse: Parse::Ground } }
    fn line(&mut self, r: usize) -> &mut Vec<Cell> {
        while self.paper.len() <= r { let c = self.cols; self.paper.push(vec![Cell::Blank; c]); }
        &mut self.paper[r]
    }
    fn lf(&mut self) { self.col = 0; self.row += 1; if self.row >= self.top + self.rows { self.top += 1; } }
    fn put(&mut self, r: usize, c: usize, v: Cell) {
        let cols = self.cols;
        let l = self.line(r);
        if l[c] == Cell::Right && c > 0 { l[c - 1] = Cell::Blank; }
        if c + 1 < cols && l[c + 1] == Cell::Right { l[c + 1] = Cell::Blank; }
        l[c] = v;
    }
    pub fn ch(&mut self, ch: char) {
        if ch == '\n' { self.last = None; self.lf(); return; }
        if ch == '\r' { self.last = None; self.col = 0; return; }
        if unicode_width::is_control(ch) { self.last = None; return; }
        let w = unicode_width::table(ch);
        if w == 0 {
            if let Some((r, c)) = self.last && let Cell::Ch(b, _) = self.paper[r][c] { self.paper[r][c] = Cell::Ch(b, Some(ch)); }
            return;
        }
        if self.col + w > self.cols { self.lf(); }
        let (r, c) = (self.row, self.col);
        self.put(r, c, Cell::Ch(ch, None));
        if w == 2 { self.put(r, c + 1, Cell::Right); self.paper[r][c] = Cell::Ch(ch, None); }
        self.last = Some((r, c));
        self.col += w;
    }
    fn csi(&mut self, p: &[u8], f: u8) {
        if f == b'm' { return; }
        self.last = None;
        let plain = p.iter().all(|c| c.is_ascii_digit() || *c == b';');
        match f {
            b'A'..=b'D' if plain => {
                let mut n = 0usize;
                for c in p { if *c == b';' { break; } n = (n * 10 + (*c - b'0') as usize).min(9999); }
                let n = n.max(1);
                let c = self.col.min(self.cols - 1);
                match f {
                    b'A' => { self.row = self.row.saturating_sub(n).max(self.top); self.col = c; }
                    b'B' => { self.row = (self.row + n).min(self.top + self.rows - 1); self.col = c; }
                    b'C' => self.col = (c + n).min(self.cols - 1),
                    _ => self.col = c.saturating_sub(n),
                }
            }
            b'H' if p.is_empty() => { self.row = self.top; self.col = 0; }
            b'J' | b'K' if p.is_empty() => {
                let c = self.col.min(self.cols - 1);
                for x in c..self.cols { let r = self.row; self.put(r, x, Cell::Blank); }
                if f == b'J' { for r in self.row + 1..self.top + self.rows { for x in 0..self.cols { self.put(r, x, Cell::Blank); } } }
            }
            b'h' if p == b"?2026" => self.held = true,
            b'l' if p == b"?2026" => self.held = false,
            _ => {}
        }
    }
    pub fn byte(&mut self, b: u8) {
        let unfinished = std::mem::replace(&mut self.parse, Parse::Ground);
        if b == 27 {
            // what is unfinished is dropped, and that ends the joining
            if !matches!(unfinished, Parse::Ground) { self.last = None; }
            self.parse = Parse::Esc;
            return;
        }
        match unfinished {
            Parse::Esc => if b == b'[' { self.parse = Parse::Csi(vec![]) } else { self.last = None },
            Parse::Csi(mut p) => match b {
                0x30..=0x3F => { p.push(b); self.parse = Parse::Csi(p) }
                0x40..=0x7E => self.csi(&p, b),
                _ => self.last = None,
            },
            Parse::Utf(v, left, low, high) => {
                if (low..=high).contains(&b) {
                    let v = v * 64 + u32::from(b - 0x80);
                    if left == 1 { self.ch(char::from_u32(v).expect("the bounds leave characters only")) } else { self.parse = Parse::Utf(v, left - 1, 0x80, 0xBF) }
                } else { self.last = None; self.byte(b) }
            }
            Parse::Ground => match b {
                0..=0x7F => self.ch(b as char),
                0xC2..=0xDF => self.parse = Parse::Utf(u32::from(b - 0xC0), 1, 0x80, 0xBF),
                0xE0 => self.parse = Parse::Utf(0, 2, 0xA0, 0xBF),
                0xED => self.parse = Parse::Utf(13, 2, 0x80, 0x9F),
                0xE1..=0xEF => self.parse = Parse::Utf(u32::from(b - 0xE0), 2, 0x80, 0xBF),
                0xF0 => self.parse = Parse::Utf(0, 3, 0x90, 0xBF),
                0xF1..=0xF3 => self.parse = Parse::Utf(u32::from(b - 0xF0), 3, 0x80, 0xBF),
                0xF4 => self.parse = Parse::Utf(4, 3, 0x80, 0x8F),
                _ => self.last = None,
            },
        }
    }
    pub fn bytes(&mut self, b: &[u8]) { for &x in b { self.byte(x); } }
    /// column of the cell that a zero-width character would join, on the cursor's row
    pub fn joining(&self) -> Option<usize> { self.last.map(|x| x.1) }
    pub fn unfinished(&self) -> bool { !matches!(self.parse, Parse::Ground) }
    /// the cursor's line and the cells, as FORMAT.md says
    pub fn show(&self) -> String {
        let mut s = format!("cursor {} {} window {} held {}\n", self.row, self.col, self.top, if self.held { "yes" } else { "no" });
        let used = self.paper.iter().rposition(|r| r.iter().any(|c| *c != Cell::Blank)).map_or(0, |i| i + 1).max(self.row + 1);
        for i in 0..used {
            s.push('|');
            for j in 0..self.cols {
                match self.paper.get(i).map_or(Cell::Blank, |r| r[j]) {
                    Cell::Blank => s.push(' '),
                    Cell::Ch(c, m) => { s.push(if c == ' ' { '\u{b7}' } else { c }); s.extend(m); }
                    Cell::Right => {}
                }
            }
            s.push_str("|\n");
        }
        s
    }
}
pub fn drawn(cols: u16, t: &str) -> Vec<Vec<Cell>> {
    let mut s = Screen::new(cols as usize, 1 << 30);
    for c in t.chars() { s.ch(c); }
    s.paper
}

// ---- the session: bytes and page. Flags all true = our rules; all false = the crate's habits.
#[derive(Clone, Copy, Debug)]
pub struct Flags { pub whole: bool, pub lf_exact: bool, pub notice_anew: bool, /** a hint higher than the window counts as none */ pub low_hints: bool }
type P = (u32, u32);
#[derive(Clone, Debug, PartialEq)]
pub struct L { pub prompt: P, pub cursor: P, pub end: P, pub full: bool, pub info: bool }
use crate::driver::{Act, Settings};
#[derive(Clone)]
pub struct Model {
    pub set: Settings, pub fl: Flags, pub line: String, pub pos: usize, pub hint: Option<String>, pub note: Option<String>,
    pub lay: L, pub lit: bool, bracket: Option<(u8, usize)>, holds: usize,
    pub upper: Vec<Vec<Cell>>, pub top: usize, pub finished: bool,
}
impl Model {
    pub fn new(set: &Settings, fl: Flags) -> Self {
        Model { set: set.clone(), fl, line: String::new(), pos: 0, hint: None, note: None, lay: L { prompt: (0, 0), cursor: (0, 0), end: (0, 0), full: false, info: false },
            lit: false, bracket: None, holds: 0, upper: vec![], top: 0, finished: false }
    }
    fn from(&self, o: P, t: &str) -> P { // one stretch in the crate's way
        let cols = u32::from(self.set.cols);
        let (mut c, mut r) = o;
        for ch in t.chars() {
            if ch == '\n' { r += 1; c = 0; continue; }
            let w = unicode_width::table(ch) as u32;
            c += w;
            if c > cols { r += 1; c = w; }
        }
        if c == cols { (0, r + 1) } else { (c, r) }
    }
    pub fn cursor(&self) -> P {
        let p = visible(&self.set.raw);
        if self.fl.whole { place(self.set.cols, &(p + &self.line[..self.pos])) } else { self.from(self.from((0, 0), &p), &self.line[..self.pos]) }
    }
    pub fn compute(&self, note: Option<&str>) -> L {
        let p = visible(&self.set.raw);
        let cols = self.set.cols;
        let prompt = place(cols, &p);
        let cursor = self.cursor();
        let all = p + &self.line + note.unwrap_or("");
        let full = walk(cols, &all).0 == u32::from(cols);
        let end = if self.fl.whole { place(cols, &all) } else {
            let mut e = if self.pos == self.line.len() { cursor } else { self.from(cursor, &self.line[self.pos..]) };
            if let Some(n) = note { e = self.from(e, n); }
            e
        };
        L { prompt, cursor, end, full, info: note.is_some() }
    }
    pub fn tall(&self, line: &str, note: &str) -> bool { place(self.set.cols, &(visible(&self.set.raw) + line + note)).1 >= u32::from(self.set.rows) }
    fn ask(&mut self) {
        self.hint = script(&self.set.captions, &self.line, self.pos).filter(|h| !self.fl.low_hints || !self.tall(&self.line, h));
    }
    fn kind(b: u8) -> Option<(u8, bool)> { // partner, opens
        Some(match b { b'(' => (b')', true), b'[' => (b']', true), b'{' => (b'}', true), b')' => (b'(', false), b']' => (b'[', false), b'}' => (b'{', false), _ => return None })
    }
    pub fn check(line: &[u8], pos: usize) -> Option<(u8, usize)> {
        let n = line.len();
        if n == 0 { return None; }
        if pos >= n { return match Self::kind(line[n - 1]) { Some((_, false)) => Some((line[n - 1], n - 1)), _ => None }; }
        let cand = if Self::kind(line[pos]).is_some() { pos } else if pos > 0 && Self::kind(line[pos - 1]).is_some() { pos - 1 } else { return None };
        let (_, opens) = Self::kind(line[cand]).unwrap();
        if (opens && cand + 1 == n) || (!opens && cand == 0) { None } else { Some((line[cand], cand)) }
    }
    pub fn search(line: &[u8], pos: usize, b: u8) -> Option<usize> {
        let (partner, opens) = Self::kind(b)?;
        let mut d = 1;
        let mut i = pos;
        loop {
            if opens { i += 1; if i >= line.len() { return None; } } else { if i == 0 { return None; } i -= 1; if i >= line.len() { return None; } }
            if line[i] == partner { d -= 1; if d == 0 { return Some(i); } } else if line[i] == b { d += 1; }
        }
    }
    pub fn styled_line(&self) -> Vec<u8> {
        let l = self.line.as_bytes();
        if self.set.brackets && l.len() > 1 && let Some((b, p)) = self.bracket && let Some(i) = Self::search(l, p, b) {
            return [&l[..i], b"\x1b[1;34m", &l[i..i + 1], b"\x1b[0m", &l[i + 1..]].concat();
        }
        l.to_vec()
    }
    fn light(&mut self) -> bool {
        if !self.set.colours { return false; }
        let yes = if self.set.brackets { self.bracket = Self::check(self.line.as_bytes(), self.pos); self.bracket.is_some() } else { false };
        let was = self.lit;
        self.lit = yes;
        yes || was
    }
    fn begin(&mut self, o: &mut Vec<Vec<u8>>) { if self.set.holds { if self.holds == 0 { o.push(b"\x1b[?2026h".to_vec()); } self.holds += 1; } }
    fn end(&mut self, o: &mut Vec<Vec<u8>>) { if self.set.holds { self.holds -= 1; if self.holds == 0 { o.push(b"\x1b[?2026l".to_vec()); } } }
    fn old(l: &L, b: &mut Vec<u8>) {
        if l.end.1 > l.cursor.1 { b.extend(format!("\x1b[{}B", l.end.1 - l.cursor.1).bytes()); }
        for _ in 0..l.end.1 { b.extend(b"\r\x1b[K\x1b[A"); }
        b.extend(b"\r\x1b[K");
    }
    fn draw(&mut self, o: &mut Vec<Vec<u8>>, clear: bool, new: L, note: Option<String>) {
        self.begin(o);
        let mut b = vec![];
        if clear { Self::old(&self.lay, &mut b); }
        if self.set.colours { b.extend(self.set.styled.bytes()); b.extend(self.styled_line()); } else { b.extend(self.set.raw.bytes()); b.extend(self.line.bytes()); }
        if let Some(n) = &note { b.extend(n.bytes()); }
        let lf = if self.fl.lf_exact { new.full } else { new.end.0 == 0 && new.end.1 > 0 && !note.as_deref().unwrap_or(&self.line).ends_with('\n') };
        if lf { b.push(b'\n'); }
        if new.end.1 > new.cursor.1 { b.extend(format!("\x1b[{}A", new.end.1 - new.cursor.1).bytes()); }
        b.push(b'\r');
        if new.cursor.0 > 0 { b.extend(format!("\x1b[{}C", new.cursor.0).bytes()); }
        o.push(b);
        self.end(o);
        self.note = note;
        self.lay = new;
    }
    fn redraw(&mut self, o: &mut Vec<Vec<u8>>, note: Option<String>) { let n = self.compute(note.as_deref()); self.draw(o, true, n, note); }
    fn shift(from: P, to: P) -> Vec<u8> {
        let one = |n: u32, c: char| if n == 1 { format!("\x1b[{c}") } else { format!("\x1b[{n}{c}") };
        let mut s = String::new();
        if to.1 > from.1 { s += &one(to.1 - from.1, 'B'); } else if to.1 < from.1 { s += &one(from.1 - to.1, 'A'); }
        if to.0 > from.0 { s += &one(to.0 - from.0, 'C'); } else if to.0 < from.0 { s += &one(from.0 - to.0, 'D'); }
        s.into_bytes()
    }
    /// number of the refusal by the table (3, 4, 5, 6), for acts on a terminal of the right size
    pub fn refused(&self, a: &Act) -> Option<u8> {
        let line_of = |l: &str, p: usize| if !good(l) { Some(3) } else if l.len() > 4096 { Some(4) } else if p > l.len() || !l.is_char_boundary(p) { Some(5) } else if self.tall(l, "") { Some(6) } else { None };
        match a {
            Act::Bad(_) => Some(3),
            Act::Set(l, p) => line_of(l, *p),
            Act::Go(p) => line_of(&self.line, *p),
            Act::Insert(c, _) if !good(&c.to_string()) => Some(3),
            Act::Insert(c, n) => { let mut l = self.line.clone(); l.insert_str(self.pos, &c.to_string().repeat(*n as usize)); line_of(&l, self.pos + c.len_utf8() * *n as usize) }
            Act::Message(m) => if !good(m) { Some(3) } else if m.len() > 1024 { Some(4) } else if self.tall(&self.line, m) { Some(6) } else { None },
            Act::Notice(m) => if !good(m) { Some(3) } else if m.len() > 4096 { Some(4) } else if self.tall(&self.line, "") { Some(6) } else { None },
            _ => if self.tall(&self.line, "") { Some(6) } else { None },
        }
    }
    pub fn act(&mut self, a: &Act) -> Vec<Vec<u8>> {
        let mut o = vec![];
        match a {
            Act::Create | Act::Refresh => self.full(&mut o),
            Act::Set(l, p) => { self.line = l.clone(); self.pos = *p; self.full(&mut o) }
            Act::Insert(c, n) => {
                let push = self.pos == self.line.len();
                self.line.insert_str(self.pos, &c.to_string().repeat(*n as usize));
                self.pos += c.len_utf8() * *n as usize;
                if push {
                    let info = self.lay.info;
                    self.ask();
                    let lit = self.light();
                    let w = unicode_width::table(*c) as u32;
                    if *n == 1 && w != 0 && self.lay.cursor.0 + w < u32::from(self.set.cols) && self.hint.is_none() && !info && !lit {
                        self.lay.cursor.0 += w;
                        self.lay.end.0 += w;
                        o.push(c.to_string().into_bytes());
                    } else { let h = self.hint.clone(); self.redraw(&mut o, h); }
                } else { self.full(&mut o) }
            }
            Act::Go(p) => {
                self.pos = *p;
                let c = self.cursor();
                if c != self.lay.cursor {
                    if self.light() { self.redraw(&mut o, None); } else { o.push(Self::shift(self.lay.cursor, c)); self.lay.cursor = c; }
                }
            }
            Act::Message(m) => { self.hint = None; self.light(); self.redraw(&mut o, Some(m.clone())); }
            Act::Notice(m) => {
                self.begin(&mut o);
                let mut b = vec![];
                Self::old(&self.lay, &mut b);
                o.push(b);
                o.push(m.clone().into_bytes());
                if !m.ends_with('\n') { o.push(b"\n".to_vec()); }
                let h = self.hint.clone();
                let new = if self.fl.notice_anew { self.compute(h.as_deref()) } else { self.lay.clone() };
                self.draw(&mut o, false, new, h);
                self.end(&mut o);
                let t = m.strip_suffix('\n').unwrap_or(m);
                let n = walk(self.set.cols, t).1 as usize + 1;
                let mut rows = drawn(self.set.cols, t);
                rows.resize(n, vec![Cell::Blank; self.set.cols as usize]);
                self.upper.extend(rows);
            }
            Act::Clear => {
                o.push(b"\x1b[H\x1b[J".to_vec());
                self.lay.cursor = (0, 0);
                self.lay.end = (0, 0);
                self.upper.resize(self.top, vec![Cell::Blank; self.set.cols as usize]);
                self.full(&mut o)
            }
            Act::Bad(_) => {}
            Act::Finish => {
                if self.lay.cursor != self.lay.end { o.push(Self::shift(self.lay.cursor, self.lay.end)); self.lay.cursor = self.lay.end; }
                o.push(b"\n".to_vec());
                self.finished = true;
            }
        }
        o
    }
    fn full(&mut self, o: &mut Vec<Vec<u8>>) { self.ask(); self.light(); let h = self.hint.clone(); self.redraw(o, h); }
    /// the page by the definitions alone: (paper, cursor row, cursor col, window top); call after each act
    pub fn page(&mut self, s: &Screen) -> Result<(), String> {
        let cols = self.set.cols;
        let vis = visible(&self.set.raw);
        let all = vis.clone() + &self.line + self.note.as_deref().unwrap_or("");
        let h = place(cols, &all).1 as usize + 1;
        let at = if self.finished { (0, h) } else { let p = place(cols, &(vis + &self.line[..self.pos])); (p.0 as usize, p.1 as usize) };
        let bottom = self.upper.len() + if self.finished { h + 1 } else { h };
        self.top = self.top.max(bottom.saturating_sub(self.set.rows as usize));
        let mut want = self.upper.clone();
        want.extend(drawn(cols, &all));
        let blank = vec![Cell::Blank; cols as usize];
        let trim = |v: &Vec<Vec<Cell>>| { let mut v = v.clone(); while v.last() == Some(&blank) { v.pop(); } v };
        if s.top != self.top { return Err(format!("window {} wanted {}", s.top, self.top)); }
        if (s.col, s.row) != (at.0, self.upper.len() + at.1) { return Err(format!("cursor col {} row {} wanted {} {}", s.col, s.row, at.0, self.upper.len() + at.1)); }
        if trim(&s.paper) != trim(&want) { return Err(format!("cells {:?} wanted {:?}", trim(&s.paper), trim(&want))); }
        if s.held { return Err("held".into()); }
        Ok(())
    }
}
pub const CRATE: Flags = Flags { whole: false, lf_exact: false, notice_anew: false, low_hints: true };
pub const OURS: Flags = Flags { whole: true, lf_exact: true, notice_anew: true, low_hints: true };

/// the check before create: size, prompt
pub fn checked(s: &Settings) -> Option<u8> {
    let fine = |t: &str| {
        if t.len() > 512 { return false; }
        let mut it = t.chars();
        while let Some(c) = it.next() {
            if c == '\x1b' {
                if it.next() != Some('[') { return false; }
                loop { match it.next() { Some('m') => break, Some(d) if d.is_ascii_digit() || d == ';' => {} _ => return false } }
            } else if c != '\n' && unicode_width::is_control(c) { return false; }
        }
        true
    };
    if !(2..=500).contains(&s.cols) || !(1..=200).contains(&s.rows) { Some(1) } else if s.bad_prompt || !fine(&s.raw) || !fine(&s.styled) || visible(&s.raw) != visible(&s.styled) { Some(2) } else { None }
}
