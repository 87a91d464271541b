//! Comparisons of the crate's text with our rules. (Not the crate's text.)
use std::collections::BTreeMap;
use std::panic::{AssertUnwindSafe, catch_unwind};

use crate::driver::{Act, Outcome, Settings, escape, message_of, run};
use crate::layout::Position;
use crate::rules::{self, CRATE, Flags, Model, OURS, Screen};
use crate::tty::{Renderer as _, make};

pub struct Rng(pub u64);
impl Rng {
    pub fn n(&mut self, k: usize) -> usize { self.0 ^= self.0 << 13; self.0 ^= self.0 >> 7; self.0 ^= self.0 << 17; ((self.0 >> 11) as usize) % k }
    pub fn pick<'a, T>(&mut self, v: &'a [T]) -> &'a T { &v[self.n(v.len())] }
}
pub fn main(a: &[String]) {
    let n: usize = a.get(1).and_then(|s| s.parse().ok()).unwrap_or(10000);
    let seed: u64 = a.get(2).and_then(|s| s.parse().ok()).unwrap_or(1);
    match a.first().map(|s| s.as_str()) {
        Some("place") => places(n),
        Some("acts") => acts(n, seed),
        Some("brackets") => brackets(n),
        Some("faults") => faults(n, seed),
        Some("bound") => bound(),
        Some("stats") => stats(n, seed),
        Some("halves") => halves(n),
        Some("tear") => tear(n, seed),
        Some("big") => big(n, seed),
        Some("stale") => stale(n),
        Some("closing") => closing(n),
        _ => eprintln!("fuzz acts N SEED | big N SEED | tear N SEED | faults N SEED | stats N SEED | place LEN | brackets LEN | stale LEN | closing LEN | halves LEN | bound"),
    }
}
/// every text up to `len` clusters' characters from a small alphabet, small sizes, origins up to two past the row
fn places(len: usize) {
    let alpha: Vec<char> = "a\u{301}\u{4e2d}\n\t\x1b[1;?m\x07".chars().collect();
    let mut kinds: BTreeMap<String, (usize, String)> = BTreeMap::new();
    let mut total = 0usize;
    unicode_width::set_eastern(true);
    for l in 0..=len {
        let mut ix = vec![0; l];
        loop {
            let t: String = ix.iter().map(|&i| alpha[i]).collect();
            for cols in [2u16, 3, 5] { for tab in [1u16, 2, 3, 8] { if !t.contains('\t') && tab != 8 { continue; } for col in 0..=cols + 2 {
                total += 1;
                let r = make(cols, 24, tab, false, false);
                let got = catch_unwind(AssertUnwindSafe(|| r.calculate_position(&t, Position { col, row: 0 })));
                let want = rules::measure(cols, tab, (u32::from(col), 0), &t);
                let got = match got { Ok(p) => format!("{:?}", (p.col, p.row)), Err(e) => format!("panic {}", message_of(e)) };
                let want = format!("{want:?}");
                if got != want {
                    let why = match (t.contains('\t'), t.contains('\x1b') && t.contains(['?', ';']), col >= cols) {
                        (true, _, o) => format!("tab, origin {}", if o { "at or past cols" } else { "inside" }),
                        (_, true, _) => "sequence bytes".to_string(),
                        _ => "OTHER".to_string(),
                    };
                    let e = kinds.entry(why).or_insert((0, String::new()));
                    e.0 += 1;
                    if e.1.is_empty() { e.1 = format!("cols {cols} tab {tab} col {col} {} crate {got} ours {want}", escape(t.as_bytes())); }
                    if t.contains(';') && !t.contains('?') && !t.contains('\t') {
                        let e = kinds.entry("semicolon only".into()).or_insert((0, String::new()));
                        e.0 += 1;
                        if e.1.is_empty() { e.1 = format!("cols {cols} tab {tab} col {col} {} crate {got} ours {want}", escape(t.as_bytes())); }
                    }
                }
            } } }
            let mut k = 0;
            while k < l { ix[k] += 1; if ix[k] < alpha.len() { break; } ix[k] = 0; k += 1; }
            if k == l { break; }
        }
    }
    println!("{total} measured");
    for (k, (n, e)) in kinds { println!("{k}: {n}, first {e}"); }
}
fn brackets(len: usize) {
    let alpha: Vec<char> = "()[a\u{301}".chars().collect();
    let (mut total, mut bad) = (0, 0);
    for l in 0..=len {
        let mut ix = vec![0; l];
        loop {
            let t: String = ix.iter().map(|&i| alpha[i]).collect();
            for pos in 0..=t.len() + 2 {
                total += 1;
                let c = crate::bracket_probe::check(&t, pos);
                let m = Model::check(t.as_bytes(), pos);
                if c != m { bad += 1; if bad < 10 { println!("check {} {pos}: crate {c:?} ours {m:?}", escape(t.as_bytes())); } }
                for b in *b"()[" {
                    let f = catch_unwind(AssertUnwindSafe(|| crate::bracket_probe::find(&t, pos, b)));
                    let s = Model::search(t.as_bytes(), pos, b);
                    match f { Ok(f) => if f.map(|x| x.1) != s { bad += 1; if bad < 10 { println!("find {} {pos} {}: crate {f:?} ours {s:?}", escape(t.as_bytes()), b as char); } },
                        Err(e) => if pos < t.len() || (pos == t.len() && b == b')') { bad += 1; println!("find {} {pos} {}: PANIC {}", escape(t.as_bytes()), b as char, message_of(e)); } }
                }
            }
            let mut k = 0;
            while k < l { ix[k] += 1; if ix[k] < alpha.len() { break; } ix[k] = 0; k += 1; }
            if k == l { break; }
        }
    }
    println!("{total} lines and positions, {bad} apart");
}
fn word(r: &mut Rng, max: usize, lf: bool) -> String {
    let n = r.n(max + 1);
    (0..n).map(|_| *r.pick(if lf { &['a', 'b', '(', ')', '[', '\u{4e2d}', '\u{301}', '\u{200d}', '\n', ' ', 'é'] } else { &['a', 'b', '(', ')', '[', '\u{4e2d}', '\u{301}', '\u{200d}', 'c', ' ', 'é'] })).collect()
}
pub fn settings(r: &mut Rng) -> Settings {
    let mut s = Settings { cols: 2 + r.n(6) as u16, rows: 1 + r.n(8) as u16, eastern: r.n(2) == 0, colours: r.n(3) > 0, holds: r.n(2) == 0, brackets: r.n(2) == 0, ..Default::default() };
    if r.n(4) == 0 { s.rows = 24; }
    let v = if r.n(3) == 0 { "> ".to_string() } else { let lf = r.n(3) == 0; word(r, 6, lf) };
    s.raw = v.clone();
    if r.n(4) == 0 { let k = r.n(v.chars().count() + 1); let i = v.char_indices().nth(k).map_or(v.len(), |x| x.0); s.raw.insert_str(i, "\x1b[1;3m"); }
    s.styled = format!("\x1b[1m{v}\x1b[0m");
    for _ in 0..r.n(4) { let lf = r.n(4) == 0; let w = word(r, 8, lf); s.captions.push(w); }
    s
}
pub fn act(r: &mut Rng, m: &Model) -> Act {
    let cut = |r: &mut Rng, l: &str| { let v: Vec<usize> = l.char_indices().map(|x| x.0).chain([l.len()]).collect(); *r.pick(&v) };
    match r.n(12) {
        0 | 1 | 2 => Act::Insert(*r.pick(&['a', 'b', '(', ')', '\u{4e2d}', '\u{301}', '\n', 'é']), *r.pick(&[1u16, 1, 1, 1, 0, 2, 3])),
        3 | 4 => {
            let l = if r.n(3) == 0 && !m.set.captions.is_empty() { let c = r.pick(&m.set.captions).clone(); let k = cut(r, &c); c[..k].to_string() } else { let lf = r.n(2) == 0; word(r, 12, lf) };
            let p = if r.n(2) == 0 { l.len() } else { cut(r, &l) };
            Act::Set(l, p)
        }
        5 | 6 => Act::Go(cut(r, &m.line)),
        7 => Act::Refresh,
        8 => { let lf = r.n(2) == 0; Act::Message(word(r, 8, lf)) }
        9 | 10 => { let lf = r.n(2) == 0; Act::Notice(word(r, 8, lf)) }
        _ => Act::Clear,
    }
}
fn show(set: &Settings, acts: &[Act]) -> String {
    let mut s = format!("    size {} {}; table {}; prompt {} {}; colours {}; holds {}; brackets {}; captions {:?}\n", set.cols, set.rows, if set.eastern { "eastern" } else { "latin" },
        escape(set.raw.as_bytes()), escape(set.styled.as_bytes()), set.colours, set.holds, set.brackets, set.captions);
    for a in acts { s += &format!("    {a:?}\n"); }
    s
}
/// random in-domain runs: (1) the model with the crate's three habits = the crate, byte for byte; (2) our bytes draw our page;
/// (3) where the crate and our rules part, by which habit
fn acts(n: usize, seed: u64) {
    let mut r = Rng(seed.wrapping_mul(0x9E3779B97F4A7C15) | 1);
    let (mut runs, mut total, mut apart1, mut apart2, mut panics) = (0, 0, 0, 0, 0);
    let mut by: BTreeMap<String, usize> = BTreeMap::new();
    let mut crate_page_bad = 0;
    for _ in 0..n {
        let set = settings(&mut r);
        unicode_width::set_eastern(set.eastern);
        let mut ours = Model::new(&set, OURS);
        if ours.refused(&Act::Create).is_some() { continue; }
        runs += 1;
        let mut acts = vec![Act::Create];
        let mut scr = Screen::new(set.cols as usize, set.rows as usize);
        let mut our_writes = vec![];
        let w = ours.act(&Act::Create);
        for x in &w { scr.bytes(x); }
        let mut bad = ours.page(&scr).err();
        our_writes.push(w);
        for k in 0..10 {
            if bad.is_some() { break; }
            let a = if k == 9 { Act::Finish } else { act(&mut r, &ours) };
            if ours.refused(&a).is_some() { continue; }
            let w = ours.act(&a);
            for x in &w { scr.bytes(x); }
            our_writes.push(w);
            acts.push(a);
            bad = ours.page(&scr).err();
        }
        if let Some(e) = bad { apart2 += 1; if apart2 <= 5 { println!("OUR BYTES MISS THE PAGE: {e}\n{}", show(&set, &acts)); } }
        total += acts.len();
        let rep = run(&set, &acts, false);
        // (1)
        let mut models: Vec<(&str, Model)> = vec![("crate", Model::new(&set, CRATE))];
        let mut ok = true;
        for (i, a) in acts.iter().enumerate() {
            if let Outcome::Panic(e) = &rep[i].outcome { panics += 1; if panics <= 5 { println!("PANIC {e} at act {i}\n{}", show(&set, &acts[..=i])); } ok = false; break; }
            let w = models[0].1.act(a);
            let m = &models[0].1;
            let l = rep[i].lay.as_ref().unwrap();
            let same_lay = (u32::from(l.cursor.0), u32::from(l.cursor.1)) == m.lay.cursor && (u32::from(l.end.0), u32::from(l.end.1)) == m.lay.end && l.info == m.lay.info && l.hint == m.hint && l.lit == m.lit;
            if w != rep[i].writes || !same_lay {
                apart1 += 1;
                ok = false;
                if apart1 <= 5 { println!("MODEL AND CRATE APART at act {i}\n{}  crate {:?} {l:?}\n  model {:?} {:?}\n", show(&set, &acts[..=i]), rep[i].writes.iter().map(|x| escape(x)).collect::<Vec<_>>(), w.iter().map(|x| escape(x)).collect::<Vec<_>>(), m.lay); }
                break;
            }
        }
        if !ok { continue; }
        // (3)
        for i in 0..acts.len() {
            if rep[i].writes != our_writes[i] {
                // the first act that parts; which single habit, changed to ours, mends it?
                let mut who = vec![];
                for (name, f) in [("halves", Flags { whole: true, ..CRATE }), ("closing LF", Flags { lf_exact: true, ..CRATE }), ("notice layout", Flags { notice_anew: true, ..CRATE }),
                    ("halves+LF", Flags { notice_anew: false, ..OURS }), ("halves+notice", Flags { lf_exact: false, ..OURS }), ("LF+notice", Flags { whole: false, ..OURS })] {
                    let mut m = Model::new(&set, f);
                    let mut same = true;
                    for j in 0..=i { if m.act(&acts[j]) != our_writes[j] { same = false; break; } }
                    if same { who.push(name); break; }
                }
                *by.entry(format!("{} at {}", who.first().unwrap_or(&"all three"), acts[i].name())).or_default() += 1;
                break;
            }
        }
        let mut s2 = Screen::new(set.cols as usize, set.rows as usize);
        for x in &rep { for w in &x.writes { s2.bytes(w); } }
        if s2.paper != scr.paper || (s2.row, s2.col, s2.top) != (scr.row, scr.col, scr.top) { crate_page_bad += 1; }
    }
    println!("{runs} runs, {total} acts; panics {panics}; model(crate's habits) and crate apart {apart1}; our bytes miss the page {apart2}; crate's final screen differs from ours {crate_page_bad}");
    for (k, v) in by { println!("  first act that parts: {k}: {v}"); }
}
/// faults: one fault somewhere; what the crate does afterwards
fn faults(n: usize, seed: u64) {
    use nix::term::Answer;
    let mut r = Rng(seed.wrapping_mul(0x9E3779B97F4A7C15) | 1);
    let mut seen: BTreeMap<String, (usize, String)> = BTreeMap::new();
    for _ in 0..n {
        let mut set = settings(&mut r);
        unicode_width::set_eastern(set.eastern);
        set.rows = 24;
        set.raw = "> ".into();
        set.styled = "> ".into();
        let mut ours = Model::new(&set, OURS);
        let mut acts = vec![Act::Create];
        ours.act(&Act::Create);
        for _ in 0..3 { let a = act(&mut r, &ours); if ours.refused(&a).is_none() { ours.act(&a); acts.push(a); } }
        set.faults = vec![(r.n(8), if r.n(2) == 0 { Answer::Down } else { Answer::Take(0) })];
        let rep = run(&set, &acts, false);
        let Some(k) = rep.iter().position(|x| matches!(x.outcome, Outcome::Error(_))) else { continue };
        for x in &rep[k + 1..] {
            let what = match &x.outcome { Outcome::Panic(e) => format!("after a broken {}: {} panics: {e}", rep[k].name, x.name), Outcome::Error(e) => format!("second error {e}"), _ => continue };
            let size = acts.len();
            let e = seen.entry(what).or_insert((usize::MAX, String::new()));
            if size < e.0 { *e = (size, format!("fault {:?}\n{}", set.faults, show(&set, &acts))); }
            break;
        }
    }
    for (k, (_, e)) in seen { println!("{k}\n  {e}"); }
}
/// the largest refresh_line, with the supplied highlighters (a free highlighter may add 3 * 256 where this one adds 11)
fn bound() {
    // prompt 512 bytes (styles), old block 200 rows with the cursor in row 0, new text as long as allowed, closing LF, three-digit movements
    let vis = "p".repeat(100);
    let styled = "\x1b[00000000m".repeat((512 - 100) / 11) + &vis;
    let styled = format!("{}{}", "\x1b[0m".repeat(0), styled);
    let pad = 512 - styled.len();
    let styled = if pad >= 3 { format!("\x1b[{}m", "0".repeat(pad - 3)) + &styled } else { styled };
    let set = Settings { cols: 500, rows: 200, raw: vis.clone(), styled, colours: true, brackets: true, ..Default::default() };
    let line = String::from("()\n") + &"a".repeat(428) + &"\n".repeat(189) + &"a".repeat(3476);
    let acts = [Act::Create, Act::Set(line, 0), Act::Message("m".repeat(1024)), Act::Message("m".repeat(1024))];
    let mut m = Model::new(&set, OURS);
    for a in &acts { assert_eq!(m.refused(a), None); m.act(a); }
    let best = run(&set, &acts, false).iter().flat_map(|x| x.writes.iter().map(|w| w.len())).max().unwrap();
    println!("largest write found {best}; prompt bytes {}", set.styled.len());
}
/// the highlighter alone: memory from one line, highlight of another
fn stale(len: usize) {
    use crate::highlight::{CmdKind, Highlighter as _, MatchingBracketHighlighter};
    let alpha: Vec<char> = "()a".chars().collect();
    let mut all = vec![String::new()];
    let mut last = all.clone();
    for _ in 0..len { last = last.iter().flat_map(|s| alpha.iter().map(move |c| format!("{s}{c}"))).collect(); all.extend(last.clone()); }
    let (mut total, mut panics, mut bad, mut at_len) = (0, 0, 0, 0);
    let mut first = BTreeMap::new();
    for a in &all { for pos in 0..=a.len() { for b in &all {
        total += 1;
        let m = MatchingBracketHighlighter::new();
        m.highlight_char(a, pos, CmdKind::Other);
        let got = catch_unwind(AssertUnwindSafe(|| m.highlight(b, 0).into_owned()));
        let mem = Model::check(a.as_bytes(), pos);
        let past = match mem { Some((b'(', p)) => p + 1 > b.len(), Some((_, p)) => p > b.len(), None => false };
        match got {
            Err(e) => { panics += 1; first.entry(if mem.unwrap().0 == b'(' { "forward" } else { "backward" }).or_insert(format!("{a:?} at {pos} then {b:?}: {}", message_of(e))); if !(past && b.len() > 1) { bad += 1; } }
            Ok(g) => {
                if past && b.len() > 1 { bad += 1; }
                if let Some((x, p)) = mem && p >= b.len() && g != *b { at_len += 1; first.entry("memory at the line's end, still lit").or_insert(format!("{a:?} at {pos} then {b:?}: {g:?} {}", x as char)); }
            }
        }
    } } }
    println!("{total} pairs, {panics} panics, {bad} outside `opening: pos+1 > len, closing: pos > len, len > 1`, {at_len} lit with pos = len");
    for (k, v) in first { println!("  {k}: {v}"); }
}
/// is our wording of the crate's surplus closing LF complete? every short prompt, line, note
fn closing(len: usize) {
    let alpha: Vec<char> = "a\n\u{301}".chars().collect();
    let mut all = vec![String::new()];
    let mut last = all.clone();
    for _ in 0..len { last = last.iter().flat_map(|s| alpha.iter().map(move |c| format!("{s}{c}"))).collect(); all.extend(last.clone()); }
    let (mut total, mut more, mut less, mut unnamed) = (0, 0, 0, 0);
    for p in &all { for l in &all { for n in std::iter::once(None).chain(all.iter().map(Some)) { for cols in [2u16, 3] {
        total += 1;
        let t = p.clone() + l + n.map_or("", |s| s);
        let full = rules::walk(cols, &t).0 == u32::from(cols);
        let e = rules::place(cols, &t);
        let lf = e.0 == 0 && e.1 > 0 && !n.unwrap_or(l).ends_with('\n');
        if full && !lf { less += 1; }
        if lf && !full {
            more += 1;
            let named = (t.ends_with('\n') && n.map_or(l.is_empty(), |n| n.is_empty())) || { let z = t.trim_end_matches('\u{301}'); z.len() < t.len() && z.ends_with('\n') };
            if !named { unnamed += 1; println!("{p:?} {l:?} {n:?} {cols}"); }
        }
    } } } }
    println!("{total} texts (places from the whole text): crate writes an LF too many {more}, too few {less}, not named by our wording {unnamed}");
}
fn big(n: usize, seed: u64) {
    let mut r = Rng(seed.wrapping_mul(0x9E3779B97F4A7C15) | 1);
    let (mut total, mut refused, mut bad, mut miss, mut longest) = (0, 0, 0, 0, 0);
    for _ in 0..n {
        let mut set = Settings { cols: *r.pick(&[2, 3, 80, 499, 500]), rows: *r.pick(&[1, 2, 24, 199, 200]), eastern: r.n(2) == 0, colours: r.n(2) == 0, holds: r.n(2) == 0, brackets: true, ..Default::default() };
        unicode_width::set_eastern(set.eastern);
        if r.n(3) == 0 { set.raw = "p".repeat(r.n(513)); }
        set.styled = set.raw.clone();
        let mut cr = Model::new(&set, CRATE);
        let mut ours = Model::new(&set, OURS);
        if ours.refused(&Act::Create).is_some() { refused += 1; continue; }
        let mut acts = vec![Act::Create];
        let text = |r: &mut Rng, max: usize| {
            let full = (set.cols as usize * set.rows as usize).min(max);
            let k = match r.n(4) { 0 => r.n(20), 1 => full.saturating_sub(r.n(12)), 2 => max.saturating_sub(r.n(3)), _ => r.n(max) };
            let lf = *r.pick(&[0usize, 0, 40, 300]);
            let mut s = String::new();
            while s.len() < k { let c = if lf > 0 && r.n(lf) == 0 { '\n' } else { *r.pick(&['a', 'b', 'c', 'd', '(', ')', 'a', 'a', '\u{4e2d}', '\u{301}']) }; if s.len() + c.len_utf8() > k { s.push('x'); } else { s.push(c); } }
            s
        };
        ours.act(&Act::Create);
        for _ in 0..6 {
            let a = match r.n(6) {
                0 | 1 => { let l = text(&mut r, 4096); let v: Vec<usize> = l.char_indices().map(|x| x.0).chain([l.len()]).collect(); let p = *r.pick(&v); Act::Set(l, p) }
                2 => Act::Insert(*r.pick(&['a', '\n', '\u{4e2d}']), *r.pick(&[0, 1, 2, 100, 4000, 4094, 4096, 65535])),
                3 => { let v: Vec<usize> = ours.line.char_indices().map(|x| x.0).chain([ours.line.len()]).collect(); Act::Go(*r.pick(&v)) }
                4 => Act::Message(text(&mut r, 1024)),
                _ => Act::Notice(text(&mut r, 4096)),
            };
            if ours.refused(&a).is_some() { refused += 1; continue; }
            ours.act(&a);
            acts.push(a);
        }
        acts.push(Act::Finish);
        let rep = run(&set, &acts, false);
        let mut s2 = Model::new(&set, OURS);
        let mut scr = Screen::new(set.cols as usize, set.rows as usize);
        for (i, a) in acts.iter().enumerate() {
            total += 1;
            let w = cr.act(a);
            for x in &rep[i].writes { longest = longest.max(x.len()); }
            if rep[i].outcome != Outcome::Accepted || w != rep[i].writes { bad += 1; if bad < 4 { println!("APART {:?} at {i} {:?}", rep[i].outcome, a.name()); } break; }
            for x in s2.act(a) { scr.bytes(&x); }
            if let Err(e) = s2.page(&scr) { miss += 1; if miss < 4 { println!("MISS {} {}", a.name(), &e[..e.len().min(200)]); } break; }
        }
    }
    println!("{total} acts, refused {refused}, crate's text and the model of it apart {bad}, our bytes miss the page {miss}, longest write {longest}");
}
/// how the random runs are spread, and that the page check bites (the crate's habits must miss the page sometimes)
fn stats(n: usize, seed: u64) {
    let mut r = Rng(seed.wrapping_mul(0x9E3779B97F4A7C15) | 1);
    let mut by: BTreeMap<String, usize> = BTreeMap::new();
    for _ in 0..n {
        let set = settings(&mut r);
        unicode_width::set_eastern(set.eastern);
        *by.entry(format!("rows {:02}", set.rows)).or_default() += 1;
        *by.entry(format!("cols {}", set.cols)).or_default() += 1;
        let mut m = Model::new(&set, CRATE);
        if let Some(k) = m.refused(&Act::Create) { *by.entry(format!("create refused {k}")).or_default() += 1; continue; }
        let mut scr = Screen::new(set.cols as usize, set.rows as usize);
        for w in m.act(&Act::Create) { scr.bytes(&w); }
        let mut missed = m.page(&scr).is_err();
        for _ in 0..9 {
            if missed { break; }
            let a = act(&mut r, &m);
            if let Some(k) = m.refused(&a) { *by.entry(format!("{} refused {k}", a.name())).or_default() += 1; continue; }
            *by.entry(format!("{} accepted", a.name())).or_default() += 1;
            for w in m.act(&a) { scr.bytes(&w); }
            if m.hint.is_some() { *by.entry("hint stands".into()).or_default() += 1; }
            if m.lit { *by.entry("bracket lit".into()).or_default() += 1; }
            if scr.top > 0 { *by.entry("window moved".into()).or_default() += 1; }
            missed = m.page(&scr).is_err();
        }
        if missed { *by.entry("crate's habits miss the page".into()).or_default() += 1; }
    }
    for (k, v) in by { println!("{k}: {v}"); }
}

/// one break (any byte of any write), then clear, then further acts: (1) crate's bytes against the model of it, holds off;
/// (2) our own bytes, holds on or off, draw the page again after the clear
fn tear(n: usize, seed: u64) {
    use nix::term::Answer;
    let mut r = Rng(seed.wrapping_mul(0x9E3779B97F4A7C15) | 1);
    let (mut broke, mut bad, mut broke2, mut miss, mut stuck) = (0, 0, 0, 0, 0);
    for _ in 0..n {
        let mut set = settings(&mut r);
        unicode_width::set_eastern(set.eastern);
        let holds = set.holds;
        set.holds = false;
        // (1)
        let mut m = Model::new(&set, CRATE);
        if m.refused(&Act::Create).is_some() { continue; }
        let mut acts = vec![Act::Create];
        let mut want = vec![m.act(&Act::Create)];
        for _ in 0..6 { let a = act(&mut r, &m); if m.refused(&a).is_none() { want.push(m.act(&a)); acts.push(a); } }
        let k = r.n(acts.len());
        let call = want[..k].iter().flatten().filter(|w| !w.is_empty()).count() + r.n(want[k].iter().filter(|w| !w.is_empty()).count().max(1));
        if want[k].iter().all(|w| w.is_empty()) { continue; }
        let take = r.n(6);
        set.faults = if take == 0 { vec![(call, Answer::Down)] } else { vec![(call, Answer::Take(take)), (call + 1, Answer::Take(0))] };
        // a short take that is the whole write does not break; skip these
        let mut c = 0;
        let mut len = 0;
        for w in want.iter().flatten().filter(|w| !w.is_empty()) { if c == call { len = w.len(); } c += 1; }
        if take >= len { continue; }
        let mut m = Model::new(&set, CRATE);
        let mut seq: Vec<Act> = acts[..=k].to_vec();
        seq.push(Act::Clear);
        let mut exp: Vec<Vec<Vec<u8>>> = seq.iter().map(|a| m.act(a)).collect();
        for a in &acts[k + 1..] { if m.refused(a).is_none() { exp.push(m.act(a)); seq.push(a.clone()); } }
        let rep = run(&set, &seq, false);
        broke += 1;
        for i in 0..seq.len() {
            let ok = if i == k { matches!(rep[i].outcome, Outcome::Error(_)) && exp[i].starts_with(&rep[i].writes) } else { rep[i].outcome == Outcome::Accepted && rep[i].writes == exp[i] };
            if !ok { bad += 1; if bad < 4 { println!("APART AFTER A TEAR at {i} ({k} broke) {:?} {:?}\n{}\n {:?}\n {:?}", set.faults, rep[i].outcome, show(&set, &seq[..=i]), rep[i].writes.iter().map(|x| escape(x)).collect::<Vec<_>>(), exp[i].iter().map(|x| escape(x)).collect::<Vec<_>>()); } break; }
        }
        // (2)
        set.holds = holds;
        let mut m = Model::new(&set, OURS);
        let mut scr = Screen::new(set.cols as usize, set.rows as usize);
        let mut fine = true;
        for (i, a) in acts.iter().enumerate() {
            if m.refused(a).is_some() { continue; }
            let w = m.act(a);
            if i < k || i > k { for x in &w { scr.bytes(x); } if m.page(&scr).is_err() { fine = false; miss += 1; if miss < 4 { println!("MISS {} {:?}\n{}", i, m.page(&scr), show(&set, &acts[..=i])); } break; } continue; }
            let all: Vec<u8> = w.concat();
            if all.is_empty() { continue; }
            let cut = r.n(all.len());
            scr.bytes(&all[..cut]);
            broke2 += 1;
            m.top = scr.top;
            while scr.paper.len() < scr.top { let c = set.cols as usize; scr.paper.push(vec![rules::Cell::Blank; c]); }
            m.upper = scr.paper[..scr.top].to_vec();
            if set.holds { scr.bytes(b"\x1b[?2026l"); }
            for x in m.act(&Act::Clear) { scr.bytes(&x); }
            if let Err(e) = m.page(&scr) { stuck += 1; if stuck < 4 { println!("CLEAR MISSES {e} cut {cut}\n{}", show(&set, &acts[..=i])); } fine = false; break; }
        }
        let _ = fine;
    }
    println!("{broke} broken runs: crate and model apart after the clear {bad}; our bytes: {broke2} broken, page missed after clear {stuck}, later {miss}");
}

/// when do the crate's halves and the whole text part? against the trigger "a split on a full row whose next character of width > 0 or LF is an LF"
fn halves(len: usize) {
    use crate::line_buffer::{LineBuffer, NoListener};
    unicode_width::set_eastern(true);
    let alpha: Vec<char> = "a\n\u{301}\u{4e2d}".chars().collect();
    let mut all = vec![String::new()];
    let mut last = all.clone();
    for _ in 0..len { last = last.iter().flat_map(|s| alpha.iter().map(move |c| format!("{s}{c}"))).collect(); all.extend(last.clone()); }
    let (mut total, mut apart, mut wrong) = (0usize, 0usize, 0usize);
    for cols in [2u16, 3] { let r = make(cols, 24, 8, false, false); for p in &all { let ps = r.calculate_position(p, Position::default()); for l in &all {
        for pos in l.char_indices().map(|x| x.0).chain([l.len()]) {
            let mut lb = LineBuffer::with_capacity(100);
            lb.update(l, pos, &mut NoListener);
            for n in std::iter::once(None).chain(all.iter().map(Some)) {
                total += 1;
                let c = r.compute_layout(ps, true, &lb, n.map(|s| s.as_str()));
                let t = p.clone() + l + n.map_or("", |s| s);
                let w1 = rules::place(cols, &(p.clone() + &l[..pos]));
                let w2 = rules::place(cols, &t);
                let d = (u32::from(c.cursor.col), u32::from(c.cursor.row)) != w1 || (u32::from(c.end.col), u32::from(c.end.row)) != w2;
                let at = |k: usize| rules::walk(cols, &t[..k]).0 == u32::from(cols) && t[k..].trim_start_matches('\u{301}').starts_with('\n');
                let trig = at(p.len()) || at(p.len() + pos) || at(p.len() + l.len());
                if d { apart += 1; }
                if d != trig { wrong += 1; if wrong < 5 { println!("{cols} {p:?} {l:?} {pos} {n:?} apart {d} trigger {trig}"); } }
            }
        }
    } } }
    println!("{total} layouts, {apart} apart, {wrong} not as the trigger says");
}
