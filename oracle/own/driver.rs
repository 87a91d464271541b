//! The driver: reads scripts, calls the crate's text, prints what was written. (Not the crate's text.)
use std::borrow::Cow;
use std::io::Read as _;
use std::panic::{AssertUnwindSafe, catch_unwind};

use nix::term::{Answer, T};

use crate::completion::Completer;
use crate::edit::State;
use crate::error::ReadlineError;
use crate::highlight::{CmdKind, Highlighter, MatchingBracketHighlighter};
use crate::hint::Hinter;
use crate::history::NoHistory;
use crate::keymap::Refresher as _;
use crate::layout::{Position, Unit};
use crate::rules::{Cell, Model, OURS, Screen};
use crate::tty::{Renderer as _, hold_count, make};
use crate::validate::Validator;
use crate::{Context, Helper};

#[derive(Clone, Debug)]
pub struct Settings {
    pub cols: u16,
    pub rows: u16,
    pub eastern: bool,
    pub raw: String,
    pub styled: String,
    pub colours: bool,
    pub holds: bool,
    pub brackets: bool,
    pub captions: Vec<String>,
    pub pacers: usize,
    pub paper: usize,
    pub faults: Vec<(usize, Answer)>,
    /// a form of the prompt is not UTF-8: our check refuses it, the crate cannot be given it
    pub bad_prompt: bool,
}
impl Default for Settings {
    fn default() -> Self {
        Settings { cols: 80, rows: 24, eastern: false, raw: "> ".into(), styled: "> ".into(), colours: false, holds: false,
            brackets: false, captions: vec![], pacers: 0, paper: 10000, faults: vec![], bad_prompt: false }
    }
}
#[derive(Clone, Debug)]
pub enum Act {
    Create,
    Insert(char, u16),
    Set(String, usize),
    Go(usize),
    Refresh,
    Message(String),
    Notice(String),
    Clear,
    Finish,
    /// text that is not UTF-8, which the crate cannot be given
    Bad(&'static str),
}
impl Act {
    pub fn name(&self) -> &'static str {
        match self {
            Act::Create => "create", Act::Insert(..) => "insert", Act::Set(..) => "set", Act::Go(_) => "go", Act::Refresh => "refresh",
            Act::Message(_) => "message", Act::Notice(_) => "notice", Act::Clear => "clear", Act::Finish => "finish", Act::Bad(n) => n,
        }
    }
}
#[derive(Clone, Debug, PartialEq)]
pub enum Outcome {
    Accepted,
    Error(String),
    Panic(String),
    /// only with --gate: by our rules, the crate is not called
    Refused(u8),
}
#[derive(Clone, Debug)]
pub struct Report {
    pub name: &'static str,
    pub outcome: Outcome,
    pub writes: Vec<Vec<u8>>,
    pub taken: Vec<usize>,
    pub worked: Vec<u8>,
    pub max_interrupts: usize,
    pub lay: Option<Lay>,
}
#[derive(Clone, Debug, PartialEq)]
pub struct Lay {
    pub prompt: (Unit, Unit), // col, row
    pub cursor: (Unit, Unit),
    pub end: (Unit, Unit),
    pub info: bool,
    pub hint: Option<String>,
    pub lit: bool,
    pub holds: usize,
    pub line: String,
    pub pos: usize,
    /// what the highlighter answers for the line
    pub drawn: Vec<u8>,
}

/// the helper the crate is given: plain or bracket highlighter, and the script as hinter
pub struct Aid {
    plain: (),
    lit: MatchingBracketHighlighter,
    set: Settings,
    raw_hints: bool,
}
impl Completer for Aid {}
impl Validator for Aid {}
impl Helper for Aid {}
impl Hinter for Aid {
    type Hint = String;
    fn hint(&self, line: &str, pos: usize, _: &Context<'_>) -> Option<String> {
        let h = crate::rules::script(&self.set.captions, line, pos)?;
        // our own rule: a hint that would pass the window's height counts as none
        let text = crate::rules::visible(&self.set.raw) + line + &h;
        if !self.raw_hints && crate::rules::place(self.set.cols, &text).1 >= u32::from(self.set.rows) { return None; }
        Some(h)
    }
}
impl Highlighter for Aid {
    fn highlight<'l>(&self, line: &'l str, pos: usize) -> Cow<'l, str> {
        if self.set.brackets { self.lit.highlight(line, pos) } else { self.plain.highlight(line, pos) }
    }
    fn highlight_prompt<'b, 's: 'b, 'p: 'b>(&'s self, prompt: &'p str, default: bool) -> Cow<'b, str> {
        if self.set.brackets { self.lit.highlight_prompt(prompt, default) } else { self.plain.highlight_prompt(prompt, default) }
    }
    fn highlight_hint<'h>(&self, hint: &'h str) -> Cow<'h, str> {
        if self.set.brackets { self.lit.highlight_hint(hint) } else { self.plain.highlight_hint(hint) }
    }
    fn highlight_char(&self, line: &str, pos: usize, kind: CmdKind) -> bool {
        if self.set.brackets { self.lit.highlight_char(line, pos, kind) } else { self.plain.highlight_char(line, pos, kind) }
    }
}

fn xy(p: Position) -> (Unit, Unit) { (p.col, p.row) }
pub fn message_of(e: Box<dyn std::any::Any + Send>) -> String {
    e.downcast_ref::<String>().cloned().or_else(|| e.downcast_ref::<&str>().map(|s| s.to_string())).unwrap_or_default()
}

/// runs the acts through the crate's text; each `create` begins a new session (new renderer, new State) on the same terminal
pub fn run(set: &Settings, acts: &[Act], raw_hints: bool) -> Vec<Report> {
    run_gated(set, acts, raw_hints, false)
}
pub fn run_gated(set: &Settings, acts: &[Act], raw_hints: bool, gate: bool) -> Vec<Report> {
    unicode_width::set_eastern(set.eastern);
    T.with(|t| { let mut t = t.borrow_mut(); *t = Default::default(); t.faults = set.faults.clone(); t.pacers = set.pacers; });
    let mut out = Vec::new();
    let mut i = 0;
    while i < acts.len() {
        let mut j = i + 1;
        while j < acts.len() && !matches!(acts[j], Act::Create) { j += 1; }
        session(set, &acts[i..j], raw_hints, gate, &mut out);
        i = j;
    }
    out
}
fn session(set: &Settings, acts: &[Act], raw_hints: bool, gate: bool, reports: &mut Vec<Report>) {
    let mut writer = make(set.cols, set.rows, 8, set.colours, set.holds);
    let aid = Aid { plain: (), lit: MatchingBracketHighlighter::new(), set: set.clone(), raw_hints };
    let prompt = (set.raw.clone(), set.styled.clone());
    let history = NoHistory;
    let mut s = State::new(&mut writer, &prompt, Some(&aid), Context::new(&history));
    let mut m = Model::new(set, OURS);
    let (mut torn, mut dead) = (false, false);
    for act in acts {
        if dead { reports.push(no_session(act)); continue; }
        if gate || matches!(act, Act::Bad(_)) {
            m.line = s.line.as_str().to_string();
            m.pos = s.line.pos();
            let no = if torn && !matches!(act, Act::Clear) { Some(7) }
                else if matches!(act, Act::Create) { crate::rules::checked(set).or_else(|| m.refused(act)) }
                else { m.refused(act) };
            if let Some(k) = no {
                dead |= matches!(act, Act::Create);
                reports.push(Report { name: act.name(), outcome: Outcome::Refused(k), writes: vec![], taken: vec![], worked: vec![], max_interrupts: 0, lay: None });
                continue;
            }
        }
        let before = T.with(|t| { let mut t = t.borrow_mut(); t.writes.clear(); t.taken.clear(); t.max_in_a_row = 0; t.taken_bytes.len() });
        let r = catch_unwind(AssertUnwindSafe(|| -> crate::Result<()> {
            match act {
                Act::Create | Act::Refresh => s.refresh_line(),
                Act::Insert(c, n) => s.edit_insert(*c, *n),
                Act::Set(l, p) => { s.line.update(l, *p, &mut s.changes); s.refresh_line() }
                Act::Go(p) => { s.line.set_pos(*p); s.move_cursor(CmdKind::MoveCursor) }
                Act::Message(m) => s.refresh_line_with_msg(Some(m), CmdKind::Other),
                Act::Notice(m) => s.external_print(m.clone()),
                Act::Clear => { s.clear_screen()?; s.refresh_line() }
                Act::Bad(_) => unreachable!(),
                Act::Finish => { s.move_cursor_to_end()?; s.out.write_and_flush("\n") }
            }
        }));
        let outcome = match r {
            Ok(Ok(())) => Outcome::Accepted,
            Ok(Err(ReadlineError::Errno(e))) => {
                let (w, k, a) = T.with(|t| { let t = t.borrow(); (t.writes.len().wrapping_sub(1), *t.taken.last().unwrap_or(&0), t.last) });
                let a = match a { Some(Answer::Down) => "down", Some(Answer::Interrupted) => "interrupted", _ => "zero" };
                Outcome::Error(format!("{e:?} write {w} taken {k} {a}"))
            }
            Ok(Err(e)) => Outcome::Error(format!("{e:?}")),
            Err(e) => Outcome::Panic(message_of(e)),
        };
        torn = match outcome { Outcome::Error(_) | Outcome::Panic(_) => true, _ => false };
        let (writes, taken, worked, mi) = T.with(|t| { let t = t.borrow(); (t.writes.clone(), t.taken.clone(), t.taken_bytes[before..].to_vec(), t.max_in_a_row) });
        reports.push(Report { name: act.name(), outcome, writes, taken, worked, max_interrupts: mi, lay: Some(Lay {
            prompt: xy(s.layout.prompt_size), cursor: xy(s.layout.cursor), end: xy(s.layout.end), info: s.layout.has_info,
            hint: s.hint.as_ref().map(|h| h.display().to_string()), lit: s.highlight_char, holds: hold_count(s.out),
            line: s.line.as_str().to_string(), pos: s.line.pos(), drawn: catch_unwind(AssertUnwindSafe(|| aid.highlight(s.line.as_str(), s.line.pos()).into_owned().into_bytes())).unwrap_or_default() }) });
    }
}

// ---- script and report text
pub fn escape(b: &[u8]) -> String {
    let mut s = String::from("\"");
    for &c in b {
        match c {
            27 => s.push_str("\\e"), b'\n' => s.push_str("\\n"), b'\r' => s.push_str("\\r"), b'\\' => s.push_str("\\\\"), b'"' => s.push_str("\\\""),
            c if c < 0x20 || c >= 0x7f => s.push_str(&format!("\\x{c:02X}")),
            c => s.push(c as char),
        }
    }
    s.push('"');
    s
}
/// one quoted string from the front; gives the bytes and the rest
pub fn quoted(b: &[u8]) -> Result<(Vec<u8>, &[u8]), String> {
    let mut i = 0;
    while i < b.len() && b[i] == b' ' { i += 1; }
    if i >= b.len() || b[i] != b'"' { return Err("quoted string expected".into()); }
    i += 1;
    let mut v = Vec::new();
    loop {
        match b.get(i) {
            None => return Err("unclosed string".into()),
            Some(b'"') => return Ok((v, &b[i + 1..])),
            Some(b'\\') => {
                i += 1;
                match b.get(i) {
                    Some(b'n') => v.push(10), Some(b't') => v.push(9), Some(b'r') => v.push(13), Some(b'e') => v.push(27),
                    Some(b'\\') => v.push(b'\\'), Some(b'"') => v.push(b'"'),
                    Some(b'x') => {
                        let h = b.get(i + 1..i + 3).and_then(|h| std::str::from_utf8(h).ok()).and_then(|h| u8::from_str_radix(h, 16).ok()).ok_or("bad \\x")?;
                        v.push(h);
                        i += 2;
                    }
                    _ => return Err("bad escape".into()),
                }
                i += 1;
            }
            Some(&c) => { v.push(c); i += 1; }
        }
    }
}
fn text(v: Vec<u8>) -> Result<String, String> { String::from_utf8(v).map_err(|_| "not UTF-8 (the crate takes &str only)".into()) }
fn num<N: std::str::FromStr>(s: Option<&str>) -> Result<N, String> { s.and_then(|s| s.parse().ok()).ok_or("number expected".into()) }

/// a line of the script: Ok(None) a setting or nothing
pub fn directive(set: &mut Settings, line: &[u8]) -> Result<Option<Act>, String> {
    let trimmed: &[u8] = line.trim_ascii();
    if trimmed.is_empty() || trimmed[0] == b'#' { return Ok(None); }
    let k = trimmed.iter().position(|&c| c == b' ').unwrap_or(trimmed.len());
    let word = std::str::from_utf8(&trimmed[..k]).map_err(|_| "bad word")?;
    let rest = &trimmed[k..];
    let words = || std::str::from_utf8(rest).unwrap_or("").split_whitespace().collect::<Vec<_>>();
    let w = words();
    let on = |s: Option<&&str>| match s { Some(&"on") => Ok(true), Some(&"off") => Ok(false), _ => Err("on|off".to_string()) };
    match word {
        "size" => { set.cols = num(w.first().copied())?; set.rows = num(w.get(1).copied())?; }
        "table" => set.eastern = match w.first() { Some(&"latin") => false, Some(&"eastern") => true, _ => return Err("latin|eastern".into()) },
        "prompt" => {
            let (a, r) = quoted(rest)?;
            let b = if r.trim_ascii().is_empty() { a.clone() } else { quoted(r)?.0 };
            set.bad_prompt = text(a.clone()).is_err() || text(b.clone()).is_err();
            (set.raw, set.styled) = if set.bad_prompt { Default::default() } else { (text(a)?, text(b)?) };
        }
        "colours" => set.colours = on(w.first())?,
        "holds" => set.holds = on(w.first())?,
        "highlighter" => set.brackets = match w.first() { Some(&"plain") => false, Some(&"brackets") => true, _ => return Err("plain|brackets".into()) },
        "caption" => {
            let c = quoted(rest)?.0;
            // of one that is not UTF-8, those of its lines that are; the others are never offered
            match text(c.clone()) { Ok(t) => set.captions.push(t), Err(_) => set.captions.extend(c.split(|&b| b == b'\n').filter_map(|l| text(l.to_vec()).ok())) }
        }
        "pace" => set.pacers = num(w.first().copied())?,
        "paper" => set.paper = num(w.first().copied())?,
        "fault" => {
            let i = num(w.first().copied())?;
            let a = match w.get(1) { Some(&"down") => Answer::Down, Some(&"interrupted") => Answer::Interrupted, k => Answer::Take(num(k.copied())?) };
            set.faults.push((i, a));
        }
        "create" => return Ok(Some(Act::Create)),
        "refresh" => return Ok(Some(Act::Refresh)),
        "clear" => return Ok(Some(Act::Clear)),
        "finish" => return Ok(Some(Act::Finish)),
        "go" => return Ok(Some(Act::Go(num(w.first().copied())?))),
        "insert" | "set" => {
            let (a, r) = quoted(rest)?;
            let Ok(a) = text(a) else { return Ok(Some(Act::Bad(if word == "set" { "set" } else { "insert" }))) };
            let r = std::str::from_utf8(r).unwrap_or("").trim();
            if word == "set" { return Ok(Some(Act::Set(a, num(Some(r))?))); }
            let mut it = a.chars();
            return match (it.next(), it.next()) { (Some(c), None) => Ok(Some(Act::Insert(c, num(Some(r))?))), _ => Ok(Some(Act::Bad("insert"))) };
        }
        "message" => return Ok(Some(text(quoted(rest)?.0).map_or(Act::Bad("message"), Act::Message))),
        "notice" => return Ok(Some(text(quoted(rest)?.0).map_or(Act::Bad("notice"), Act::Notice))),
        _ => return Err(format!("unknown word {word}")),
    }
    Ok(None)
}
pub fn print(r: &Report, layout: bool) -> String {
    let mut s = match &r.outcome {
        Outcome::Accepted => format!("{}: accepted\n", r.name),
        Outcome::Error(e) => format!("{}: error {e}\n", r.name),
        Outcome::Panic(m) => format!("{}: panic {m}\n", r.name),
        Outcome::Refused(k) => format!("{}: refused {k} {}\n", r.name, ["", "size", "prompt", "text", "long", "place", "tall", "torn"][*k as usize]),
    };
    for w in &r.writes { s += &format!("write {}\n", escape(w)); }
    if layout && let Some(l) = &r.lay {
        s += &format!("layout prompt {} {} cursor {} {} end {} {} info {} hint {} lit {} holds {} (col row)\n", l.prompt.0, l.prompt.1, l.cursor.0, l.cursor.1,
            l.end.0, l.end.1, if l.info { "yes" } else { "no" }, l.hint.as_ref().map_or("none".into(), |h| escape(h.as_bytes())), if l.lit { "yes" } else { "no" }, l.holds);
    }
    s
}
fn arg_bytes(a: &str) -> Vec<u8> {
    let v = if a.starts_with('"') { quoted(a.as_bytes()).map(|x| x.0) } else { quoted(format!("\"{a}\"").as_bytes()).map(|x| x.0) };
    v.expect("text")
}
fn arg_text(a: &str) -> String { String::from_utf8(arg_bytes(a)).expect("UTF-8") }
fn table(a: &str) { unicode_width::set_eastern(match a { "latin" => false, "eastern" => true, _ => panic!("latin|eastern") }); }

/// an act after a create that was refused
fn no_session(act: &Act) -> Report {
    Report { name: act.name(), outcome: Outcome::Error("no session".into()), writes: vec![], taken: vec![], worked: vec![], max_interrupts: 0, lay: None }
}
/// the acts by our rules, without the crate: its reports have the form of the crate's
fn run_ours(set: &Settings, acts: &[Act]) -> Result<Vec<(Report, Screen)>, String> {
    if !set.faults.is_empty() { return Err("the model of our rules knows no faults".into()); }
    unicode_width::set_eastern(set.eastern);
    let mut screen = Screen::new(set.cols as usize, set.rows as usize);
    let mut m = Model::new(set, OURS);
    let mut out = Vec::new();
    let mut dead = false;
    for act in acts {
        if matches!(act, Act::Create) {
            dead = false;
            m = Model::new(set, OURS);
            m.upper = screen.paper.clone();
            m.upper.resize(screen.row, vec![Cell::Blank; screen.cols]);
            m.top = screen.top;
        }
        if dead { out.push((no_session(act), screen.clone())); continue; }
        let no = if matches!(act, Act::Create) { crate::rules::checked(set).or_else(|| m.refused(act)) } else { m.refused(act) };
        dead = no.is_some() && matches!(act, Act::Create);
        let writes = if no.is_some() { vec![] } else { m.act(act) };
        for w in &writes { screen.bytes(w); }
        if no.is_none() { m.page(&screen)?; }
        let xy = |p: (u32, u32)| (p.0 as Unit, p.1 as Unit);
        let lay = Lay { prompt: xy(m.lay.prompt), cursor: xy(m.lay.cursor), end: xy(m.lay.end), info: m.lay.info, hint: m.hint.clone(), lit: m.lit, holds: 0, line: m.line.clone(), pos: m.pos, drawn: m.styled_line() };
        let outcome = no.map_or(Outcome::Accepted, Outcome::Refused);
        out.push((Report { name: act.name(), outcome, taken: vec![], worked: writes.concat(), writes, max_interrupts: 0, lay: Some(lay) }, screen.clone()));
    }
    Ok(out)
}
/// one measurement, `COLS TAB TABLE COL ROW TEXT`: the crate's answer, or ours
pub fn place(a: &[String], ours: bool) -> String {
    let n = |i: usize| a[i].parse::<u16>().expect("number");
    table(&a[2]);
    let t = arg_text(&a[5]);
    if ours {
        if !(2..=500).contains(&n(0)) || !(1..=32).contains(&n(1)) || n(3) > 500 || n(4) > 60000 { return "refused 1 size".into(); }
        if t.len() > 4096 { return "refused 4 long".into(); }
        let (col, row) = crate::rules::measure(n(0), n(1), (n(3).into(), n(4).into()), &t);
        return format!("column {col} row {row}");
    }
    let r = make(n(0), 24, n(1), false, false);
    match catch_unwind(AssertUnwindSafe(|| r.calculate_position(&t, Position { col: n(3), row: n(4) }))) {
        Ok(p) => format!("column {} row {}", p.col, p.row),
        Err(e) => format!("panic {}", message_of(e)),
    }
}
/// one bracket look, `LINE POS`: check_bracket, highlight_char and highlight of the crate
pub fn bracket(a: &[String]) -> String {
    let l = arg_text(&a[0]);
    let pos: usize = a[1].parse().expect("number");
    let m = MatchingBracketHighlighter::new();
    let found = crate::bracket_probe::check(&l, pos).map_or("none".to_string(), |(b, p)| format!("{} at {p}", b as char));
    let yes = m.highlight_char(&l, pos, CmdKind::Other);
    format!("bracket {found} char {} line {}", if yes { "yes" } else { "no" }, escape(m.highlight(&l, pos).as_bytes()))
}
/// words and quoted strings of one line
pub fn split(l: &[u8]) -> Vec<String> {
    let mut v = Vec::new();
    let mut l = l.trim_ascii();
    while !l.is_empty() {
        let rest = if l[0] == b'"' { quoted(l).expect("text").1 } else { &l[l.iter().position(|&c| c == b' ').unwrap_or(l.len())..] };
        v.push(String::from_utf8(l[..l.len() - rest.len()].to_vec()).expect("UTF-8"));
        l = rest.trim_ascii_start();
    }
    v
}
/// the arguments, or one case a line from standard input where there are none
fn each(a: &[String], answer: impl Fn(&[String]) -> String) {
    if !a.is_empty() { return println!("{}", answer(a)); }
    for l in stdin().split(|&c| c == b'\n') { if !l.trim_ascii().is_empty() && l[0] != b'#' { println!("{}", answer(&split(l))); } }
}
fn stdin() -> Vec<u8> {
    let mut b = Vec::new();
    std::io::stdin().read_to_end(&mut b).unwrap();
    b
}
fn script() -> (Settings, Vec<Act>) {
    let mut set = Settings::default();
    let mut acts = Vec::new();
    for (n, l) in stdin().split(|&c| c == b'\n').enumerate() {
        match directive(&mut set, l) {
            Ok(Some(x)) => acts.push(x),
            Ok(None) => {}
            Err(e) => { eprintln!("line {}: {e}", n + 1); std::process::exit(1); }
        }
    }
    (set, acts)
}

pub fn main() {
    std::panic::set_hook(Box::new(|_| {}));
    let a: Vec<String> = std::env::args().skip(1).collect();
    let flag = |f: &str| a.iter().any(|x| x == f);
    let rest: Vec<String> = a.iter().skip(1).filter(|x| *x != "--ours").cloned().collect();
    match a.first().map(|s| s.as_str()) {
        Some("acts") => {
            let (set, acts) = script();
            let both = if flag("--ours") {
                run_ours(&set, &acts).unwrap_or_else(|e| { eprintln!("{e}"); std::process::exit(1) })
            } else {
                let mut s = Screen::new(set.cols as usize, set.rows as usize);
                run_gated(&set, &acts, flag("--raw-hints"), flag("--gate")).into_iter().map(|r| { s.bytes(&r.worked); (r, s.clone()) }).collect()
            };
            for (r, s) in both {
                std::print!("{}", print(&r, flag("--layout")));
                if flag("--screen") { std::print!("{}", s.show()); }
            }
        }
        Some("report") => crate::report::main(&stdin()),
        Some("place") => each(&rest, |c| place(c, flag("--ours"))),
        Some("bracket") => each(&rest, bracket),
        Some("screen") => each(&rest, |c| {
            table(&c[2]);
            let mut s = Screen::new(c[0].parse().expect("number"), c[1].parse().expect("number"));
            s.bytes(&arg_bytes(&c[3]));
            let j = s.joining().map_or("none".to_string(), |j| j.to_string());
            format!("{}joining {j} unfinished {}", s.show(), if s.unfinished() { "yes" } else { "no" })
        }),
        Some("fuzz") => crate::fuzz::main(&rest),
        Some("compare") => crate::compare::main(&rest),
        Some("sample") => crate::sample::main(rest.first().map_or(1, |s| s.parse().expect("a number"))),
        _ => { eprintln!("oracle report < script | acts [--ours] [--gate] [--layout] [--screen] [--raw-hints] < script | place [--ours] [COLS TAB TABLE COL ROW TEXT] | bracket [LINE POS] | screen [COLS ROWS TABLE BYTES] | fuzz KIND N SEED | compare PROGRAM ACTS SEED [JOBS [DENIED]] | compare --script SEED NUMBER | sample SEED"); std::process::exit(1) }
    }
}
