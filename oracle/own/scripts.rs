//! Random scripts of acts, each by a seed and a number. (Not the crate's text.)
use crate::driver::{Act, Settings, directive, escape};
use crate::fuzz::Rng;
use crate::report::{End, Player, lines_of};
use nix::term::Answer;

#[derive(Clone, Copy, Debug, PartialEq)]
pub enum Kind {
    /// 2 to 9 columns, short texts, no faults
    Small,
    /// sizes, prompts, texts and counts at their limits, no faults
    Limits,
    /// as small, with faults and pacers; the paper is long enough
    Faults,
    /// the same, and the paper may end
    Paper,
}
pub struct Script { pub kind: Kind, pub bytes: Vec<u8> }

/// of ten scripts in a row: six small, one at the limits, two with faults, one whose paper may end
fn kind_of(number: u64) -> Kind {
    match number % 10 { 0..=5 => Kind::Small, 6 => Kind::Limits, 7 | 8 => Kind::Faults, _ => Kind::Paper }
}
/// a generator of its own for each script
fn begin(seed: u64, number: u64) -> Rng {
    let mut x = seed.wrapping_mul(0x9E37_79B9_7F4A_7C15) ^ number.wrapping_add(1).wrapping_mul(0xD134_2543_DE82_EF95);
    x = (x ^ (x >> 30)).wrapping_mul(0xBF58_476D_1CE4_E5B9);
    x = (x ^ (x >> 27)).wrapping_mul(0x94D0_49BB_1331_11EB);
    let mut r = Rng((x ^ (x >> 31)) | 1);
    for _ in 0..8 { r.n(2); }
    r
}

const LETTERS: [char; 22] = ['a', 'b', 'c', 'd', '(', ')', '[', ']', '{', '}', ' ', 'é', '\u{4e2d}', '\u{30ab}', '\u{ff01}', '\u{d55c}', '\u{1f600}', '\u{301}', '\u{300}', '\u{36f}', '\u{200d}', '~'];
/// what no good text holds: controls, C1 controls, sequences, bad UTF-8
const BAD: [&[u8]; 18] = [b"\t", b"\r", b"\x07", b"\x7f", b"\x00", b"\x1b", b"\x1b[1m", b"\xc2\x80", b"\xc2\x85", b"\xc2\x9f", b"\xc3", b"\x80", b"\xe0\x80", b"\xed\xa0\x80", b"\xf4\x90\x80\x80", b"\xc0\x80", b"\xff", b"\xf0\x9f\x98"];

fn letter(r: &mut Rng, lf: bool) -> char { if lf && r.n(6) == 0 { '\n' } else { *r.pick(&LETTERS) } }
fn word(r: &mut Rng, most: usize) -> String {
    let n = r.n(most + 1);
    let lf = r.n(2) == 0;
    let plain = r.n(3) == 0;
    (0..n).map(|_| if plain { *r.pick(&['a', 'b', 'c']) } else { letter(r, lf) }).collect()
}
/// a text with something in it that is not good
fn spoilt(r: &mut Rng) -> Vec<u8> {
    let mut t = word(r, 4).into_bytes();
    t.extend(*r.pick(&BAD));
    t.extend(word(r, 3).into_bytes());
    t
}
/// a place between characters
fn cut(r: &mut Rng, t: &str) -> usize {
    let v: Vec<usize> = t.char_indices().map(|x| x.0).chain([t.len()]).collect();
    *r.pick(&v)
}
/// a string as a script spells it: escaped, or as it is where that can be
fn spell(r: &mut Rng, t: &[u8]) -> String {
    match std::str::from_utf8(t) {
        Ok(s) if r.n(2) == 0 && !s.chars().any(|c| c < ' ' || c == '"' || c == '\\') => format!("\"{s}\""),
        _ => escape(t),
    }
}

// ---- settings
fn styled(r: &mut Rng, visible: &str) -> String {
    let mut t = visible.to_string();
    for _ in 0..r.n(3) { let k = cut(r, visible); if t.is_char_boundary(k) { t.insert_str(k, *r.pick(&["\x1b[1;3m", "\x1b[m", "\x1b[0m", "\x1b[;38;5;9m"])); } }
    t
}
fn small(r: &mut Rng) -> (Settings, String) {
    let mut s = Settings { cols: 2 + r.n(8) as u16, rows: 2 + r.n(8) as u16, eastern: r.n(2) == 0, colours: r.n(3) > 0, holds: r.n(2) == 0, brackets: r.n(3) > 0, ..Default::default() };
    match r.n(8) { 0 | 1 => s.rows = 24, 2 => s.rows = 1, _ => {} }
    let visible = match r.n(4) { 0 | 1 => "> ".to_string(), 2 => word(r, 6), _ => word(r, usize::from(s.cols) + 1) };
    let (mut raw, mut shown) = (styled(r, &visible).into_bytes(), styled(r, &visible).into_bytes());
    match r.n(60) { 0 => raw = spoilt(r), 1 => shown = spoilt(r), 2 => shown = word(r, 4).into_bytes(), _ => {} }
    let mut t = format!("prompt {} {}\n", spell(r, &raw), spell(r, &shown));
    for _ in 0..r.n(5) {
        let c = if r.n(12) == 0 { spoilt(r) } else { let m = *r.pick(&[4, 8, 14]); word(r, m).into_bytes() };
        t += &format!("caption {}\n", spell(r, &c));
    }
    (s, t)
}
fn at_limits(r: &mut Rng) -> (Settings, String) {
    let mut s = Settings { cols: *r.pick(&[2, 3, 9, 80, 499, 500]), rows: *r.pick(&[1, 2, 24, 199, 200, 200]), eastern: r.n(2) == 0, colours: r.n(2) == 0, holds: r.n(2) == 0, brackets: r.n(2) == 0, ..Default::default() };
    match r.n(25) { 0 => s.cols = *r.pick(&[0, 1, 501, 65535]), 1 => s.rows = *r.pick(&[0, 201, 65535]), _ => {} }
    let mut t = String::new();
    if r.n(2) == 0 {
        let n = *r.pick(&[0, 1, 100, 510, 511, 512, 512, 513]);
        let mut p = vec![];
        let row = usize::from(s.cols).max(2) * 2;
        while p.len() < n { if n - p.len() > 4 && (p.len() > row || r.n(3) == 0) { p.extend(b"\x1b[1m") } else { p.push(*r.pick(b"pq ")) } }
        let shown = if r.n(3) == 0 { p.iter().copied().chain(*b"\x1b[m").collect() } else { p.clone() };
        t += &format!("prompt {} {}\n", spell(r, &p), spell(r, &shown));
    }
    for n in [1023, 1024, 1025] { if r.n(3) == 0 { t += &format!("caption \"{}{}\"\n", r.pick(&["a", "ab", "é", "("]), "h".repeat(n)); } }
    (s, t)
}
fn head(s: &Settings) -> String {
    let on = |b: bool| if b { "on" } else { "off" };
    let table = if s.eastern { "eastern" } else { "latin" };
    let light = if s.brackets { "brackets" } else { "plain" };
    format!("size {} {}\ntable {table}\ncolours {}\nholds {}\nhighlighter {light}\npace {}\n", s.cols, s.rows, on(s.colours), on(s.holds), s.pacers)
}

// ---- acts
fn small_act(r: &mut Rng, p: &Player) -> String {
    let room = (usize::from(p.set.cols) * usize::from(p.set.rows)).min(10) + 2;
    let line = &p.model.line;
    match r.n(100) {
        0..=27 => { let c = letter(r, true); format!("insert {} {}", spell(r, c.to_string().as_bytes()), r.pick(&[1, 1, 1, 1, 1, 0, 2, 3])) }
        28..=42 => {
            let l = if r.n(3) == 0 && !p.set.captions.is_empty() { let c = r.pick(&p.set.captions).clone(); c[..cut(r, &c)].to_string() } else { word(r, room) };
            let k = if r.n(2) == 0 { l.len() } else { cut(r, &l) };
            format!("set {} {k}", spell(r, l.as_bytes()))
        }
        43..=58 => format!("go {}", cut(r, line)),
        59..=65 => "refresh".into(),
        66..=74 => { let m = word(r, room.min(8)); format!("message {}", spell(r, m.as_bytes())) }
        75..=83 => { let mut m = word(r, 9); if r.n(4) == 0 { m.push('\n'); } format!("notice {}", spell(r, m.as_bytes())) }
        84..=89 => "clear".into(),
        90..=91 => "finish".into(),
        _ => bad_act(r, line),
    }
}
/// an act that is refused, or nearly so
fn bad_act(r: &mut Rng, line: &str) -> String {
    match r.n(7) {
        0 => { let t = r.pick(&BAD).to_vec(); format!("insert {} {}", spell(r, &t), r.n(3)) }
        1 => format!("insert {} {}", r.pick(&["\"\"", "\"ab\"", "\"e\\xCC\\x81\"", "\"\\n\\n\""]), r.n(3)),
        2 => { let t = spoilt(r); let k = r.n(t.len() + 2); format!("set {} {k}", spell(r, &t)) }
        3 => { let l = word(r, 6); format!("set {} {}", spell(r, l.as_bytes()), r.n(l.len() + 3)) }
        4 => format!("go {}", r.n(line.len() + 3)),
        5 => { let t = spoilt(r); format!("message {}", spell(r, &t)) }
        _ => { let t = spoilt(r); format!("notice {}", spell(r, &t)) }
    }
}
/// a text of about so many bytes, at a limit or as much as the window holds
fn long(r: &mut Rng, p: &Player, most: usize) -> String {
    let full = (usize::from(p.set.cols) * usize::from(p.set.rows)).min(most);
    let n = match r.n(6) { 0 => r.n(20), 1 => full.saturating_sub(r.n(12)), 2 => most, 3 => most + 1, 4 => most - r.n(3), _ => r.n(most) };
    let lf = *r.pick(&[0usize, 0, 40, 300]);
    let plain = r.n(2) == 0;
    let mut s = String::new();
    while s.len() < n {
        let c = if lf > 0 && r.n(lf) == 0 { '\n' } else if plain { 'a' } else { letter(r, false) };
        s.push(if s.len() + c.len_utf8() > n { 'x' } else { c });
    }
    s
}
fn limit_act(r: &mut Rng, p: &Player) -> String {
    match r.n(14) {
        0..=3 => { let l = long(r, p, 4096); let k = match r.n(3) { 0 => l.len(), 1 => 0, _ => cut(r, &l) }; format!("set {} {k}", spell(r, l.as_bytes())) }
        4 | 5 => { let c = *r.pick(&['a', '\n', '\u{4e2d}', '\u{301}', '(']); let n = *r.pick(&[0u16, 1, 1, 2, 100, 4094, 4095, 4096, 4097, 65535]); format!("insert {} {n}", spell(r, c.to_string().as_bytes())) }
        6 => { let left = 4096usize.saturating_sub(p.model.line.len()); format!("insert \"a\" {}", left + r.n(2)) }
        7 | 8 => format!("go {}", cut(r, &p.model.line)),
        9 | 10 => { let m = long(r, p, 1024); format!("message {}", spell(r, m.as_bytes())) }
        11 => { let m = long(r, p, 4096); format!("notice {}", spell(r, m.as_bytes())) }
        12 => { let l = *r.pick(&["a", "ab", "é", "("]); format!("set {} {}", spell(r, l.as_bytes()), l.len()) }
        _ => r.pick(&["refresh", "clear", "finish"]).to_string(),
    }
}

/// how some calls of the terminal's write go wrong
fn fault(r: &mut Rng) -> Vec<Answer> {
    use Answer::{Down, Interrupted, Take};
    let busy = |n: usize| vec![Interrupted; n];
    match r.n(10) {
        0 => vec![Down],
        1 => vec![Take(0)],
        2 => vec![Take(1 + r.n(9))],
        3 => vec![Take(1 + r.n(40)), Down],
        4 => vec![Take(1 + r.n(5)), Take(1 + r.n(3)), Take(0)],
        5 => busy(1 + r.n(7)),
        6 => busy(8),
        7 => [busy(7), vec![Take(1 + r.n(3))], busy(7)].concat(),
        8 => [busy(7), vec![Take(1)], busy(8)].concat(),
        _ => [busy(r.n(8)), vec![Down]].concat(),
    }
}

/// a last line that is wrong
fn wrong(r: &mut Rng, open: bool) -> &'static str {
    match r.n(6) { 0 | 1 => if open { "create" } else { "refresh" }, 2 => "size 9 9", 3 => "message \"abc", 4 => "insert \"a\" 65536", _ => "hello" }
}

/// the script of a seed and a number
pub fn make(seed: u64, number: u64) -> Script {
    let kind = kind_of(number);
    let mut r = begin(seed, number);
    let (mut s, words) = if kind == Kind::Limits { at_limits(&mut r) } else { small(&mut r) };
    let faulty = matches!(kind, Kind::Faults | Kind::Paper);
    if r.n(if faulty { 2 } else { 6 }) == 0 { s.pacers = 1 + r.n(4); }
    for l in words.lines() { directive(&mut s, l.as_bytes()).expect("a setting"); }
    s.captions = lines_of(&s.captions);
    s.paper = if kind == Kind::Paper && r.n(4) > 0 { usize::from(s.rows) + r.n(60) } else { usize::MAX >> 1 };
    let mut p = Player::new(&s);
    let mut lines = vec![];
    let most = if kind == Kind::Limits { 12 } else { 200 };
    let mut refused = 0;
    while lines.len() < most && refused < 3 {
        let line = if !p.open { "create".to_string() }
            else if p.torn && r.n(2) == 0 { "clear".into() }
            else if kind == Kind::Limits { limit_act(&mut r, &p) }
            else { small_act(&mut r, &p) };
        if faulty && r.n(10) == 0 {
            let first = p.device.calls + r.n(3);
            for (i, a) in fault(&mut r).into_iter().enumerate() { p.device.faults.push((first + i, a)); }
        }
        let act = directive(&mut Settings::default(), line.as_bytes()).expect("a line").expect("an act");
        let end = p.play(&act).expect("a session");
        if matches!(act, Act::Create) && matches!(end, End::Unchecked(_) | End::Refused(_)) { refused += 1; }
        lines.push(line);
    }
    let need = p.device.screen.top + usize::from(s.rows);
    let mut t = head(&s) + &words;
    if kind == Kind::Paper && s.paper < 10000 { t += &format!("paper {}\n", s.paper); } else if need > 10000 || r.n(3) == 0 { t += &format!("paper {need}\n"); }
    for (i, a) in &p.device.faults { t += &match a { Answer::Down => format!("fault {i} down\n"), Answer::Interrupted => format!("fault {i} interrupted\n"), Answer::Take(k) => format!("fault {i} {k}\n") }; }
    t += &lines.join("\n");
    t.push('\n');
    if r.n(30) == 0 { t += wrong(&mut r, p.open); t.push('\n'); }
    Script { kind, bytes: t.into_bytes() }
}
