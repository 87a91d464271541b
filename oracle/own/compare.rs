//! Our program against the crate's own text and against the model of our rules, on the same scripts. (Not the crate's text.)
use std::collections::BTreeMap;
use std::fs::File;
use std::io::Write as _;
use std::process::{Command, Stdio};
use std::sync::{Arc, Mutex, mpsc};

use crate::driver::{Act, Lay, Outcome, Report, Settings, escape, run_gated};
use crate::report::{End, NO_SESSION, Player, read};
use crate::rules::{self, Flags, L, Model, OURS};
use crate::scripts::{Kind, Script, make};

// ---- what is counted
#[derive(Default)]
struct Counts { by: BTreeMap<String, u64>, shown: Vec<String> }
impl Counts {
    fn add(&mut self, what: &str, n: u64) { *self.by.entry(what.to_string()).or_default() += n; }
    fn get(&self, what: &str) -> u64 { self.by.get(what).copied().unwrap_or(0) }
    /// something that must not be: it is counted, and the first are kept
    fn fail(&mut self, what: &str, number: u64, told: String) {
        self.add(what, 1);
        if self.shown.len() < 20 { self.shown.push(format!("{what}, script {number}: {told}")); }
    }
    fn join(&mut self, other: Counts) {
        for (k, n) in other.by { self.add(&k, n); }
        self.shown.extend(other.shown);
    }
}

// ---- our program
/// what our program printed: the lines of each act, and what it says is wrong
struct Printed { acts: Vec<String>, wrong: String, status: Option<i32> }
fn ask(program: &str, script: &[u8], worker: usize) -> Printed {
    let path = std::env::temp_dir().join(format!("oracle-compare-{}-{worker}.acts", std::process::id()));
    File::create(&path).and_then(|mut f| f.write_all(script)).expect("a file for the script");
    let stdin = File::open(&path).expect("the script");
    let out = Command::new(program).arg("run").stdin(Stdio::from(stdin)).output().expect("our program");
    let _ = std::fs::remove_file(&path);
    let mut acts: Vec<String> = vec![];
    for l in String::from_utf8_lossy(&out.stdout).split_inclusive('\n') {
        let begins = !(l.starts_with("bytes ") || l.starts_with("cursor ") || l.starts_with('|'));
        match acts.last_mut() { Some(a) if !begins => a.push_str(l), _ => acts.push(l.to_string()) }
    }
    Printed { acts, wrong: String::from_utf8_lossy(&out.stderr).into_owned(), status: out.status.code() }
}

// ---- the differences that have a name, and their conditions
/// H, L, N and T of docs/DIFFERENCES.md, as bits
const HALVES: u8 = 1;
const CLOSING: u8 = 2;
const NOTICE: u8 = 4;
const TALL: u8 = 8;
fn letters(set: u8) -> String { [(HALVES, "H"), (CLOSING, "L"), (NOTICE, "N"), (TALL, "T")].iter().filter(|x| set & x.0 != 0).map(|x| x.1).collect::<Vec<_>>().join("+") }

/// whether a split at byte k of the text stands on a full row, and the next character that is not zero-width is an LF
fn splits(cols: u16, text: &str, k: usize) -> bool {
    let next = text[k..].chars().find(|&c| unicode_width::is_control(c) || unicode_width::table(c) != 0);
    rules::walk(cols, &text[..k]).0 == u32::from(cols) && next == Some('\n')
}
/// whether the text ends in column 0 by an LF, with nothing or only zero-width characters behind it, although the crate does not see
/// that: the last part, which is the note or else the line, is empty or ends with a zero-width character
fn closes(text: &str, last: &str) -> bool {
    let end = text.trim_end_matches(|c| !unicode_width::is_control(c) && unicode_width::table(c) == 0);
    end.ends_with('\n') && !last.ends_with('\n')
}
/// the differences whose condition holds in an act, by the model of our rules before and after it
fn conditions(before: &Model, act: &Act, after: &Model) -> u8 {
    let cols = after.set.cols;
    let prompt = rules::visible(&after.set.raw);
    let asks = matches!(act, Act::Create | Act::Insert(..) | Act::Set(..) | Act::Refresh | Act::Clear);
    let mut set = 0;
    let mut notes = vec![after.note.clone()];
    if asks && let Some(h) = rules::script(&after.set.captions, &after.line, after.pos) && after.tall(&after.line, &h) {
        set |= TALL;
        // the crate draws it
        notes.push(Some(h));
    }
    for note in notes {
        let note = note.as_deref();
        let text = prompt.clone() + &after.line + note.unwrap_or("");
        if [prompt.len(), prompt.len() + after.pos, prompt.len() + after.line.len()].iter().any(|&k| splits(cols, &text, k)) { set |= HALVES; }
        if closes(&text, note.unwrap_or(&after.line)) { set |= CLOSING; }
    }
    // the layout on the screen is not that of the line with the stored hint
    if matches!(act, Act::Notice(_)) && !alike(&before.lay, &after.lay) { set |= NOTICE; }
    set
}
fn alike(a: &L, b: &L) -> bool { (a.cursor, a.end, a.info) == (b.cursor, b.end, b.info) }
/// our rules with some of the crate's habits
fn with_habits(set: u8) -> Flags {
    let h = |x| set & x == 0;
    // in a notice the crate takes the closing LF too from the layout that it keeps
    Flags { whole: h(HALVES), lf_exact: h(CLOSING), notice_anew: h(NOTICE), low_hints: h(TALL) }
}
/// whether what the next act's bytes depend on is the same: layout, hint, and what is lit
fn agree(lay: &Lay, m: &Model) -> bool {
    let xy = |p: (u16, u16)| (u32::from(p.0), u32::from(p.1));
    xy(lay.cursor) == m.lay.cursor && xy(lay.end) == m.lay.end && lay.info == m.lay.info && lay.hint == m.hint && lay.lit == m.lit
        && (!m.set.brackets || !m.set.colours || lay.drawn == m.styled_line())
}
/// the fewest differences, of those whose condition holds, that turn our act into the crate's: its writes, as far as they came, and what it leaves
fn name_of(before: &Model, act: &Act, crates: &Report, held: u8) -> Option<u8> {
    let mut sets: Vec<u8> = (1..16).filter(|s| s & !held == 0).collect();
    sets.sort_by_key(|s| s.count_ones());
    sets.into_iter().find(|&s| {
        let more: &[u8] = if s & NOTICE != 0 { &[0, CLOSING] } else { &[0] };
        more.iter().any(|m| {
            let mut model = before.clone();
            model.fl = with_habits(s | m);
            let writes = model.act(act);
            if crates.outcome != Outcome::Accepted { return writes.starts_with(&crates.writes); }
            writes == crates.writes && crates.lay.as_ref().is_some_and(|l| agree(l, &model))
        })
    })
}

// ---- one script
/// an act by our rules: how it ended, its bytes that have worked, its lines of the report, and the model around it
pub struct Step { pub act: Act, pub end: End, pub worked: Vec<u8>, pub text: String, before: Model, after: Model }
/// plays acts by our rules, up to one that is wrong
pub fn steps_of(set: &Settings, acts: Vec<(usize, Act)>) -> (Vec<Step>, Option<(usize, String)>) {
    let mut p = Player::new(set);
    let mut steps = vec![];
    for (line, act) in acts {
        let before = if matches!(act, Act::Create) { Model::new(set, OURS) } else { p.model.clone() };
        match p.play(&act) {
            Ok(end) => { let text = p.tell(act.name(), &end); steps.push(Step { act, end, worked: p.device.worked.clone(), text, before, after: p.model.clone() }); }
            Err(e) => return (steps, Some((line, e.to_string()))),
        }
    }
    (steps, None)
}
/// an act of ours, held against the crate's own text
#[derive(Clone, Debug, PartialEq)]
pub enum Verdict {
    Equal,
    /// the same write broke on both sides, after the same bytes
    Broke,
    /// by differences whose condition holds, and which turn our act into the crate's
    Different(u8),
    /// the bytes are equal, and what the next act goes on from is not
    Leaves(u8),
    /// the layouts are apart, by an act before; whether the bytes are equal
    Behind(u8, bool),
    NotAsked(&'static str),
    NoName(String),
}
impl Verdict {
    pub fn text(&self) -> String {
        match self {
            Verdict::Equal => "equal".into(),
            Verdict::Broke => "equal, a write broke".into(),
            Verdict::Different(s) => format!("different by {}", letters(*s)),
            Verdict::Leaves(s) => format!("equal bytes, another layout by {}", letters(*s)),
            Verdict::Behind(s, true) => format!("equal behind {}", letters(*s)),
            Verdict::Behind(s, false) => format!("different behind {}", letters(*s)),
            Verdict::NotAsked(why) => format!("not asked, {why}"),
            Verdict::NoName(_) => "NO NAME".into(),
        }
    }
}
const REFUSED: &str = "since our rules refuse the act (1 to 7)";
const INTERRUPTED: &str = "since the crate never ends at interruptions (F4)";
const HELD: &str = "since the crate's count of holds is off behind a broken write (F1)";
const SHIFTED: &str = "since faults meet other writes behind a difference";
const ENDING: &str = "since the paper may end";

/// the crate's own text beside our steps
struct Judge<'a> { set: &'a Settings, faulty: bool, denied: u8, /** our rules with all of the crate's habits */ habits: Model, /** the layouts are apart, by these differences */ apart: Option<u8>, /** why the crate is not asked any more */ over: Option<&'static str> }
impl Judge<'_> {
    fn act(&mut self, s: &Step, c: &Report) -> Verdict {
        if let Some(why) = self.over { return Verdict::NotAsked(why); }
        if let End::Unchecked(k) | End::Refused(k) = s.end {
            return if c.outcome == Outcome::Refused(k) { Verdict::NotAsked(REFUSED) } else { Verdict::NoName("the gate does not refuse".into()) };
        }
        if let End::Broke { no: 9, .. } = s.end { self.over = Some(INTERRUPTED); return Verdict::NotAsked(INTERRUPTED); }
        let held = conditions(&s.before, &s.act, &s.after) & !self.denied;
        let named = |apart: fn(u8) -> Verdict, what: &str| name_of(&s.before, &s.act, c, held).map_or(Verdict::NoName(format!("{what}, conditions {}", letters(held))), apart);
        if let End::Broke { write, taken, answer, .. } = s.end && matches!(&c.outcome, Outcome::Error(e) if e.ends_with(&format!(" write {write} taken {taken} {answer}"))) && c.worked == s.worked {
            // F2: with holds off both sides are next asked a clear, which begins a new layout
            if self.set.holds { self.over = Some(HELD); }
            return Verdict::Broke;
        }
        if s.end != End::Accepted || c.outcome != Outcome::Accepted {
            // another write broke, since this act's writes differ
            self.over = Some(SHIFTED);
            return if self.faulty && !matches!(c.outcome, Outcome::Panic(_)) { named(Verdict::Different, "another end") } else { Verdict::NoName("another end".into()) };
        }
        self.accepted(s, c, named)
    }
    fn accepted(&mut self, s: &Step, c: &Report, named: impl Fn(fn(u8) -> Verdict, &str) -> Verdict) -> Verdict {
        // these begin a new layout on both sides
        if matches!(s.act, Act::Create | Act::Clear) { self.apart = None; }
        if matches!(s.act, Act::Create) { self.habits = Model::new(self.set, self.habits.fl); }
        let Some(lay) = &c.lay else { return Verdict::NoName("no layout".into()) };
        if lay.line != s.after.line || lay.pos != s.after.pos { return Verdict::NoName("another line".into()); }
        if !self.faulty {
            let writes = self.habits.act(&s.act);
            self.habits.upper.clear();
            if writes != c.writes { return Verdict::NoName("not the crate's bytes by its four habits".into()); }
        }
        let same = c.worked == s.worked;
        let agreed = agree(lay, &s.after);
        let verdict = match self.apart {
            Some(set) => Verdict::Behind(set, same),
            None if same && agreed => Verdict::Equal,
            None if same => named(Verdict::Leaves, "another layout"),
            None => named(Verdict::Different, "other bytes"),
        };
        self.apart = match verdict { Verdict::Behind(set, _) | Verdict::Leaves(set) | Verdict::Different(set) if !agreed => Some(set), _ => None };
        if self.faulty && (!same || !agreed) { self.over = Some(SHIFTED); }
        verdict
    }
}
/// our steps, held against the crate's own text, up to the first difference without a name
pub fn judge(set: &Settings, steps: &[Step], kind: Kind, denied: u8) -> Vec<Verdict> {
    if kind == Kind::Paper { return vec![Verdict::NotAsked(ENDING); steps.len()]; }
    let acts: Vec<Act> = steps.iter().map(|s| s.act.clone()).collect();
    let told = run_gated(set, &acts, true, true);
    let mut judge = Judge { set, faulty: kind == Kind::Faults, denied, habits: Model::new(set, with_habits(HALVES | CLOSING | NOTICE | TALL)), apart: None, over: None };
    let mut verdicts = vec![];
    for (s, c) in steps.iter().zip(&told) {
        let mut v = judge.act(s, c);
        if let Verdict::NoName(e) = &v { v = Verdict::NoName(format!("{e}\n  ours  {:?} {}\n  crate {:?} {}\n  prompt {} line {} pos {} note {:?}", s.end, escape(&s.worked), c.outcome, escape(&c.worked), escape(set.raw.as_bytes()), escape(s.after.line.as_bytes()), s.after.pos, s.after.note)); }
        verdicts.push(v);
        if matches!(verdicts.last(), Some(Verdict::NoName(_))) { break; }
    }
    verdicts
}

struct Work<'a> { program: &'a str, worker: usize, /** names that are not accepted */ denied: u8, counts: Counts }
impl Work<'_> {
    fn script(&mut self, number: u64, script: &Script) {
        let (set, acts, mut wrong) = read(&script.bytes);
        let printed = ask(self.program, &script.bytes, self.worker);
        let (steps, stopped) = steps_of(&set, acts);
        wrong = stopped.or(wrong);
        self.counts.add("scripts", 1);
        self.counts.add(&format!("scripts {:?}", script.kind), 1);
        self.counts.add("acts", steps.len() as u64);
        // where every line is as by our rules, our bytes are those of the steps
        if !self.by_rules(number, &printed, &steps, wrong) { return; }
        for (i, v) in judge(&set, &steps, script.kind, self.denied).iter().enumerate() {
            let name = steps[i].act.name();
            if let Verdict::NoName(e) = v { self.counts.fail("CRATE: NO NAME", number, format!("act {i} {name}: {e}")); continue; }
            self.counts.add(&format!("crate: {}", v.text()), 1);
            if *v == Verdict::Equal { self.counts.add(&format!("crate: equal: {name}"), 1); }
        }
    }
    /// every line of our report, by the model of our rules
    fn by_rules(&mut self, number: u64, printed: &Printed, steps: &[Step], wrong: Option<(usize, String)>) -> bool {
        for (i, s) in steps.iter().enumerate() {
            let ours = printed.acts.get(i).map_or("", |s| s);
            if ours != s.text {
                let (a, b) = ours.lines().zip(s.text.lines()).find(|x| x.0 != x.1).unwrap_or((ours, &s.text));
                self.counts.fail("RULES: different", number, format!("act {i} {}\n  program {a}\n  rules   {b}", s.act.name()));
                return false;
            }
            self.counts.add("rules: acts with every line equal", 1);
            self.counts.add("rules: lines", ours.lines().count() as u64);
            let end = match &s.end { End::Accepted => "accepted".to_string(), End::Unchecked(k) | End::Refused(k) => format!("refused {k}"), End::Broke { no, answer, .. } => format!("refused {no} {answer}") };
            self.counts.add(&format!("rules: {} {end}", s.act.name()), 1);
        }
        let told = printed.wrong.trim_end();
        let fine = match &wrong {
            None => told.is_empty() && printed.status == Some(0),
            Some((line, _)) => told.starts_with(&format!("line {line}: ")) && printed.status == Some(1),
        };
        if !fine || printed.acts.len() != steps.len() {
            self.counts.fail("RULES: different", number, format!("the end: {} acts of {}, status {:?}, said {told:?}, wanted {wrong:?}", printed.acts.len(), steps.len(), printed.status));
            return false;
        }
        if let Some((_, e)) = wrong { self.counts.add(if e == NO_SESSION { "rules: scripts that end in an act without a session" } else { "rules: scripts that end in a line that is wrong" }, 1); }
        true
    }
}

// ---- all scripts
fn compare(program: &str, acts: u64, seed: u64, jobs: usize, denied: u8) -> Counts {
    let (send, take) = mpsc::sync_channel::<(u64, Script)>(jobs * 4);
    let take = Arc::new(Mutex::new(take));
    let all = Arc::new(Mutex::new(Counts::default()));
    std::thread::scope(|scope| {
        for worker in 0..jobs {
            let (take, all) = (take.clone(), all.clone());
            scope.spawn(move || {
                let mut work = Work { program, worker, denied, counts: Counts::default() };
                loop {
                    let next = take.lock().unwrap().recv();
                    let Ok((number, script)) = next else { break };
                    work.script(number, &script);
                }
                all.lock().unwrap().join(work.counts);
            });
        }
        let mut made = 0;
        for number in 0.. {
            if made >= acts { break; }
            let script = make(seed, number);
            made += read(&script.bytes).1.len() as u64;
            send.send((number, script)).expect("a worker");
        }
        drop(send);
    });
    Arc::into_inner(all).unwrap().into_inner().unwrap()
}
pub fn main(a: &[String]) {
    let n = |i: usize, d: u64| a.get(i).map_or(d, |s| s.parse().expect("a number"));
    match a.first().map(|s| s.as_str()) {
        Some("--script") => std::io::stdout().write_all(&make(n(1, 1), n(2, 0)).bytes).expect("output"),
        Some(program) => {
            let denied = a.get(4).map_or(0, |s| s.chars().map(|c| match c { 'H' => HALVES, 'L' => CLOSING, 'N' => NOTICE, 'T' => TALL, _ => panic!("H, L, N or T") }).sum());
            let c = compare(program, n(1, 1_500_000), n(2, 1), n(3, 2) as usize, denied);
            for (k, v) in &c.by { println!("{v:>10} {k}"); }
            for s in &c.shown { println!("{s}"); }
            let sum = |w: &[&str]| -> u64 { c.by.iter().filter(|x| w.iter().any(|w| x.0.starts_with(w))).map(|x| x.1).sum() };
            let bad = sum(&["RULES: ", "CRATE: "]);
            let (equal, apart) = (c.get("crate: equal") + c.get("crate: equal, a write broke") + sum(&["crate: equal behind"]), sum(&["crate: different", "crate: equal bytes"]));
            let unasked = sum(&["crate: not asked"]);
            println!("{} acts; as our rules say, in every line: {}", c.get("acts"), c.get("rules: acts with every line equal"));
            println!("the crate's own text: {} acts, equal {equal}, different by a name {apart}; not asked {unasked}", equal + apart);
            println!("without a name: {bad}");
            if bad == 0 && equal + apart + unasked != c.get("acts") { println!("the counts do not add up"); std::process::exit(1); }
            if bad > 0 { std::process::exit(1); }
        }
        None => { eprintln!("compare PROGRAM ACTS SEED [JOBS [DENIED]] | compare --script SEED NUMBER"); std::process::exit(1) }
    }
}
