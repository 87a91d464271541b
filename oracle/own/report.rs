//! The report of `caption run`, by the model of our rules: acts, faults, bytes and screen. (Not the crate's text.)
use crate::driver::{Act, Settings, directive, escape};
use crate::rules::{Model, OURS, Screen, checked};
use nix::term::Answer;

/// what the terminal answers to one call
enum Told { Took(usize), Interrupted, Down }

/// how an act ended
#[derive(Clone, Debug, PartialEq)]
pub enum End {
    Accepted,
    /// the check before `create` refused it
    Unchecked(u8),
    Refused(u8),
    /// write number `write` of the act broke with so many bytes taken, and this answer
    Broke { no: u8, write: usize, taken: usize, answer: &'static str },
}

/// the terminal under all pacers: a grid of so many rows of paper, with faults
pub struct Device { pub faults: Vec<(usize, Answer)>, pub pacers: usize, pub depth: usize, pub screen: Screen, pub calls: usize, pub worked: Vec<u8> }
impl Device {
    fn call(&mut self, bytes: &[u8]) -> Told {
        let n = self.calls;
        self.calls += 1;
        let most = match self.faults.iter().find(|f| f.0 == n).map(|f| f.1) {
            Some(Answer::Down) => return Told::Down,
            Some(Answer::Interrupted) => return Told::Interrupted,
            Some(Answer::Take(k)) => k.min(bytes.len()),
            None => bytes.len(),
        };
        for (i, &b) in bytes[..most].iter().enumerate() {
            // the window moves by one row at most, and only from its last row, at an LF or where a character wraps
            let s = &self.screen;
            let moves = s.row + 1 == s.top + s.rows && (b == b'\n' || s.col + 2 > s.cols);
            if !moves || s.top + s.rows < self.depth { self.screen.byte(b); self.worked.push(b); continue; }
            let mut next = self.screen.clone();
            next.byte(b);
            if next.top + next.rows > self.depth { return if i == 0 { Told::Down } else { Told::Took(i) }; }
            self.screen = next;
            self.worked.push(b);
        }
        Told::Took(most)
    }
    /// all bytes of a write, or how it broke: number, bytes taken, last answer
    fn write(&mut self, bytes: &[u8]) -> Result<(), (u8, usize, &'static str)> {
        let (mut taken, mut interruptions) = (0, 0);
        while taken < bytes.len() {
            let rest = &bytes[taken..];
            match self.call(if self.pacers > 0 { &rest[..rest.len().min(32)] } else { rest }) {
                Told::Took(0) => return Err((8, taken, "zero")),
                Told::Took(k) => { taken += k; interruptions = 0; }
                Told::Interrupted => { interruptions += 1; if interruptions == 8 { return Err((9, taken, "interrupted")); } }
                Told::Down => return Err((8, taken, "down")),
            }
        }
        Ok(())
    }
}

pub const WORDS: [&str; 10] = ["", "size", "prompt", "text", "long", "place", "tall", "torn", "down", "busy"];
pub const OPEN: &str = "a session is already open";
pub const NO_SESSION: &str = "no session is open";

/// plays acts, one after the other
pub struct Player { pub set: Settings, pub device: Device, pub model: Model, pub open: bool, pub torn: bool }
impl Player {
    pub fn new(set: &Settings) -> Self {
        unicode_width::set_eastern(set.eastern);
        let screen = Screen::new(set.cols as usize, set.rows as usize);
        let device = Device { faults: set.faults.clone(), pacers: set.pacers, depth: set.paper.max(set.rows as usize), screen, calls: 0, worked: vec![] };
        Player { set: set.clone(), device, model: Model::new(set, OURS), open: false, torn: false }
    }
    /// Err: what is wrong with the script
    pub fn play(&mut self, act: &Act) -> Result<End, &'static str> {
        let create = matches!(act, Act::Create);
        if create && self.open { return Err(OPEN); }
        if !create && !self.open { return Err(NO_SESSION); }
        self.device.worked.clear();
        if create {
            self.torn = false;
            self.model = Model::new(&self.set, OURS);
            if let Some(k) = checked(&self.set) { return Ok(End::Unchecked(k)); }
        }
        let refusal = if self.torn && !matches!(act, Act::Clear) { Some(7) } else { self.model.refused(act) };
        if let Some(k) = refusal { return Ok(End::Refused(k)); }
        self.open = true;
        let mut writes = self.model.act(act);
        // only the page needs the rows above the block
        self.model.upper.clear();
        // a torn session with holds lets go of what may be held, before all else
        if self.torn && self.set.holds { writes.insert(0, b"\x1b[?2026l".to_vec()); }
        self.torn = false;
        for (write, w) in writes.iter().enumerate() {
            if let Err((no, taken, answer)) = self.device.write(w) { self.torn = true; return Ok(End::Broke { no, write, taken, answer }); }
        }
        if matches!(act, Act::Finish) { self.open = false; }
        Ok(End::Accepted)
    }
    fn show(&self) -> String {
        let yes = |b: bool| if b { "yes" } else { "no" };
        let held = format!(" held {}", yes(self.device.screen.held));
        self.device.screen.show().replacen(&format!("{held}\n"), &format!("{held} torn {}\n", yes(self.torn)), 1)
    }
    /// the lines of the report for the act that was just played
    pub fn tell(&self, name: &str, end: &End) -> String {
        let mut s = match end {
            End::Accepted => format!("{name}: accepted\n"),
            End::Unchecked(k) | End::Refused(k) => format!("{name}: refused {k} {}\n", WORDS[*k as usize]),
            End::Broke { no, write, taken, answer } => format!("{name}: refused {no} {} write {write} taken {taken} {answer}\n", WORDS[*no as usize]),
        };
        if !self.device.worked.is_empty() { s += &format!("bytes {}\n", escape(&self.device.worked)); }
        // no terminal has such a size
        if *end != End::Unchecked(1) { s += &self.show(); }
        s
    }
}

/// settings, acts with their lines, and what is wrong where reading ended
pub fn read(script: &[u8]) -> (Settings, Vec<(usize, Act)>, Option<(usize, String)>) {
    let mut set = Settings::default();
    let mut acts = Vec::new();
    let mut wrong = None;
    for (n, l) in script.split(|&c| c == b'\n').enumerate() {
        let says_nothing = l.trim_ascii().is_empty() || l.trim_ascii()[0] == b'#';
        let mut new = set.clone();
        match directive(&mut new, l) {
            Ok(Some(x)) => acts.push((n + 1, x)),
            Ok(None) if !acts.is_empty() && !says_nothing => { wrong = Some((n + 1, "a setting after the first `create`".to_string())); break; }
            Ok(None) => set = new,
            Err(e) => { wrong = Some((n + 1, e)); break; }
        }
    }
    set.captions = lines_of(&set.captions);
    (set, acts, wrong)
}
/// a caption with LF in it is several captions
pub fn lines_of(captions: &[String]) -> Vec<String> { captions.iter().flat_map(|c| c.split('\n').map(String::from)).collect() }

pub fn main(script: &[u8]) {
    let (set, acts, mut wrong) = read(script);
    let mut p = Player::new(&set);
    for (n, act) in &acts {
        match p.play(act) {
            Ok(end) => print!("{}", p.tell(act.name(), &end)),
            Err(e) => { wrong = Some((*n, e.to_string())); break; }
        }
    }
    if let Some((n, e)) = wrong { eprintln!("line {n}: {e}"); std::process::exit(1); }
}
