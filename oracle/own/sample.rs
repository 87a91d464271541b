//! The sample that `crates/replay` holds against our program: scripts of acts, measured texts and brackets, each with an answer.
//! (Not the crate's text.)
use crate::compare::{Step, Verdict, judge, steps_of};
use crate::driver::{bracket, escape, place, split};
use crate::report::{End, WORDS, read};
use crate::scripts::{Kind, make};

/// how an act ended and its bytes, as a line of the sample
fn answer(s: &Step) -> String {
    let end = match &s.end {
        End::Accepted => "accepted".to_string(),
        End::Unchecked(k) | End::Refused(k) => format!("refused {k} {}", WORDS[*k as usize]),
        End::Broke { no, write, taken, answer } => format!("refused {no} {} write {write} taken {taken} {answer}", WORDS[*no as usize]),
    };
    format!("{end} {}", escape(&s.worked))
}
/// the screen behind an act by our rules, in one line; none where no terminal has the size
fn screen(s: &Step) -> Option<String> {
    let lines: Vec<_> = s.text.lines().skip_while(|l| !l.starts_with("cursor ")).collect();
    if lines.is_empty() { None } else { Some(lines.join(" ")) }
}
/// a script, cut behind so many acts, with an answer behind each act: the crate's own where it is equal to ours, else that of our rules;
/// and with the screen behind each, if that is wanted
fn acts(out: &mut String, told: &str, script: &[u8], most: usize, kind: Kind, screens: bool) -> usize {
    let (set, acts, _) = read(script);
    let mut acts: Vec<_> = acts.into_iter().take(most).collect();
    // an act without a session ends the script
    let (steps, _) = steps_of(&set, acts.clone());
    acts.truncate(steps.len());
    let last = acts.last().map_or(0, |a| a.0);
    let verdicts = judge(&set, &steps, kind, 0);
    *out += &format!("[acts]\n# {told}\n");
    let mut k = 0;
    for (n, l) in script.split(|&c| c == b'\n').enumerate().take(last) {
        if l.is_empty() { continue; }
        *out += std::str::from_utf8(l).expect("ASCII or UTF-8");
        *out += "\n";
        if k < acts.len() && acts[k].0 == n + 1 {
            *out += &match &verdicts[k] {
                Verdict::Equal | Verdict::Broke | Verdict::Behind(_, true) | Verdict::Leaves(_) => format!("#crate {}\n", answer(&steps[k])),
                Verdict::NoName(e) => panic!("{told}: {e}"),
                v => format!("# {}\n#rules {}\n", v.text(), answer(&steps[k])),
            };
            if screens && let Some(shown) = screen(&steps[k]) { *out += &format!("#screen {shown}\n"); }
            k += 1;
        }
    }
    k
}

/// scripts at each limit, and beyond it
fn limits() -> Vec<(&'static str, String)> {
    let n = |c: &str, k: usize| c.repeat(k);
    let mut v = vec![];
    for (c, r) in [(1, 24), (501, 24), (2, 0), (2, 201), (0, 0), (65535, 65535)] { v.push(("a size that no terminal has", format!("size {c} {r}\ncreate\ncreate\n"))); }
    for (c, r) in [(2, 1), (2, 200), (500, 1), (500, 200)] {
        v.push(("the smallest and the largest sizes", format!("size {c} {r}\nprompt \"\"\ncreate\ninsert \"a\" 1\ninsert \"b\" 1\nset \"\" 0\nset \"\\n\" 1\ngo 0\nrefresh\nnotice \"n\"\nclear\nfinish\ncreate\nfinish\n")));
    }
    v.push(("letters that just pass, and that do not", "size 5 2\ncreate\nset \"abcdefg\" 7\nset \"abcdefgh\" 8\nmessage \"a\"\nset \"\" 0\nmessage \"abcdefg\"\nmessage \"abcdefgh\"\ninsert \"a\" 7\ninsert \"a\" 1\nfinish\n".into()));
    v.push(("lines of 4,096 bytes", format!("size 500 24\ncreate\nset \"{}\" 4096\ninsert \"a\" 0\ninsert \"a\" 1\nset \"{}\" 4097\nset \"{}\" 0\nmessage \"{}\"\nset \"{}\\t\" 0\ngo 4096\ngo 4097\nset \"\" 0\ninsert \"a\" 4096\nset \"\" 0\ninsert \"a\" 4097\ninsert \"\\n\" 65535\ninsert \"a\" 65535\nset \"\\xE4\\xB8\\xAD\" 3\ninsert \"\\xE4\\xB8\\xAD\" 1364\ninsert \"\\xE4\\xB8\\xAD\" 1365\nfinish\n", n("a", 4096), n("a", 4097), n("()", 2048), n("m", 1024), n("a", 4097))));
    v.push(("prompt, line and message as long as may be", format!("size 500 24\nprompt \"{}\"\ncreate\nset \"{}\" 0\nmessage \"{}\"\ngo 4096\nrefresh\n", n("p", 512), n("a", 4096), n("m", 1024))));
    v.push(("a prompt of 513 bytes", format!("prompt \"{}\"\ncreate\ncreate\n", n("p", 513))));
    v.push(("a styled prompt of 512 bytes", format!("size 9 24\ncolours on\nprompt \"> \" \"{}> \"\ncreate\nset \"a\" 1\n", n("\\e[1;34m", 72) + "\\e[1;m")));
    v.push(("a styled prompt of 513 bytes", format!("size 9 24\ncolours on\nprompt \"> \" \"{}> \"\ncreate\n", n("\\e[1;34m", 72) + "\\e[1;3m")));
    for p in ["\"> \" \">> \"", "\"\\t\"", "\"\\e[2J\"", "\"\\xC2\\x85\"", "\"\\xC3\"", "\"> \" \"> \\xFF\"", "\"\\e\""] { v.push(("a prompt that is not good", format!("prompt {p}\ncreate\n"))); }
    v.push(("messages and hints of 1,024 bytes", format!("size 80 24\ncaption \"a{}\"\ncaption \"b{}\"\ncreate\nset \"a\" 1\ngo 0\nset \"b\" 1\nmessage \"{}\"\nmessage \"{}\"\nmessage \"\"\ninsert \"c\" 1\nfinish\n", n("h", 1024), n("h", 1025), n("m", 1024), n("m", 1025))));
    v.push(("notices of 4,096 bytes", format!("size 80 24\ncreate\nnotice \"{}\"\nnotice \"{}\"\nnotice \"\"\nnotice \"\\n\"\nnotice \"\\n\\n\"\nnotice \"a\\tb\"\n", n("n", 4096), n("n", 4097))));
    v.push(("texts that are not good", "size 9 24\ncreate\ninsert \"\\t\" 1\ninsert \"\\t\" 0\ninsert \"\" 1\ninsert \"ab\" 1\ninsert \"\\xC3\" 1\ninsert \"\\xC2\\x80\" 1\ninsert \"\\xC2\\x9F\" 1\ninsert \"\\xC2\\xA0\" 1\ninsert \"\\xED\\xA0\\x80\" 1\ninsert \"\\xF4\\x8F\\xBF\\xBF\" 1\ninsert \"\\xF4\\x90\\x80\\x80\" 1\nset \"a\\eb\" 0\nset \"\\xC0\\x80\" 0\nset \"\\x7F\" 0\nmessage \"\\r\"\nmessage \"\\xFF\"\nnotice \"\\x00\"\nnotice \"\\xE0\\x80\"\n".into()));
    v.push(("places", "size 9 24\ncreate\nset \"a\\xC3\\xA9\" 4\nset \"a\\xC3\\xA9\" 2\nset \"a\\xC3\\xA9\" 3\ngo 2\ngo 4\ngo 1\ngo 0\n".into()));
    for holds in ["off", "on"] { for f in 0..8 { for (told, faults) in [("down", "fault F down"), ("nothing taken", "fault F 0"), ("two bytes taken, then down", "fault F 2\nfault G down")] {
        let faults = faults.replace('F', &f.to_string()).replace('G', &(f + 1).to_string());
        v.push((told, format!("size 9 24\nholds {holds}\ncaption \"ab\"\n{faults}\ncreate\nset \"a\" 1\nnotice \"n\"\nfinish\nclear\ninsert \"c\" 1\ngo 0\nmessage \"m\"\nclear\nfinish\n")));
    } } }
    for k in [7, 8] { for pace in 0..4 {
        let busy: String = (0..k).map(|i| format!("fault {} interrupted\n", 2 + i)).collect();
        v.push(("seven interruptions, and eight", format!("size 9 24\npace {pace}\n{busy}fault {} 1\ncreate\nset \"abc\" 3\nrefresh\nclear\nrefresh\n", 2 + k)));
    } }
    v.push(("the paper ends", "size 9 3\npaper 5\ncreate\nnotice \"a\"\nnotice \"b\"\nnotice \"c\"\nnotice \"d\"\nclear\nfinish\n".into()));
    v
}

/// scripts that were written for one rule each: their screens are compared too
const WRITTEN: [(&str, &str); 19] = [
    ("worked", include_str!("../sample/worked.acts")),
    ("parts", include_str!("../sample/parts.acts")),
    ("holds", include_str!("../sample/holds.acts")),
    ("inserts", include_str!("../sample/inserts.acts")),
    ("places", include_str!("../sample/places.acts")),
    ("tall", include_str!("../sample/tall.acts")),
    ("hints", include_str!("../sample/hints.acts")),
    ("below", include_str!("../sample/below.acts")),
    ("brackets", include_str!("../sample/brackets.acts")),
    ("asked", include_str!("../sample/asked.acts")),
    ("colours_off", include_str!("../sample/colours_off.acts")),
    ("marks", include_str!("../sample/marks.acts")),
    ("eastern", include_str!("../sample/eastern.acts")),
    ("torn", include_str!("../sample/torn.acts")),
    ("torn_holds", include_str!("../sample/torn_holds.acts")),
    ("notices", include_str!("../sample/notices.acts")),
    ("notices_held", include_str!("../sample/notices_held.acts")),
    ("interrupted", include_str!("../sample/interrupted.acts")),
    ("finish", include_str!("../sample/finish.acts")),
];

/// scripts at limits where one refusal comes before another, and of the longest block
fn orders() -> Vec<(&'static str, String)> {
    let n = |c: &str, k: usize| c.repeat(k);
    let (long, longer) = (n("a", 4096), n("a", 4097));
    let mut v = vec![];
    for (rows, prompt) in [(1, "\\t"), (1, "abcd"), (1, "abcde"), (1, "abcdefg\\e"), (2, "abcde"), (2, "abcdefghi"), (2, "abcdefghij")] {
        v.push(("a prompt that fits, one that is too high, and one that is not good", format!("size 5 {rows}\nprompt \"{prompt}\"\ncreate\n")));
    }
    for table in ["latin", "eastern"] { v.push(("a prompt that fits by one table alone", format!("size 2 1\ntable {table}\nprompt \"\\xE4\\xB8\\xAD\"\ncreate\n"))); }
    v.push(("a styled form that shows less", "size 5 1\ncolours on\nprompt \"> \" \"\\e[1m>\\e[0m\"\ncreate\n".into()));
    for k in [512, 513] { v.push(("a prompt of 512 bytes in two rows of 500, and one of 513", format!("size 500 2\nprompt \"{}\"\ncreate\n", n("p", k)))); }
    v.push(("a line that is bad, too long or has no such position", format!("size 500 24\ncreate\nset \"{long}\" 4096\ninsert \"a\" 1\ninsert \"a\" 0\nset \"{longer}\" 0\nset \"{longer}\" 9999\nset \"{long}\\t\" 9999\nset \"{long}\" 4097\nset \"{}\" 0\ninsert \"\\xC3\\xA9\" 1\ninsert \"a\" 2\ninsert \"a\" 1\ngo 4096\nset \"\" 0\ninsert \"a\" 4097\ninsert \"a\" 65535\ninsert \"a\" 4096\n", n("a", 4095))));
    let message = n("a", 1024);
    v.push(("a message and a notice that are bad or too long", format!("size 500 24\ncreate\nmessage \"{message}\"\nmessage \"{message}a\"\nmessage \"{message}\\e\"\nnotice \"{long}\"\nnotice \"{longer}\"\nnotice \"{message}\\e{}\"\n", n("a", 3072))));
    let feeds = n("\\n", 199);
    v.push(("a line that ends in the last of 200 rows", format!("size 500 200\ncreate\nset \"{feeds}\\n\" 0\nset \"{feeds}\\n\" 201\nset \"{feeds}\" 0\ninsert \"\\n\" 1\ninsert \"\\n\" 0\nmessage \"m\"\nmessage \"\\n\"\ngo 199\nnotice \"n\"\n")));
    for rows in [12, 11] { v.push(("the longest block takes 12 rows of 500", format!("size 500 {rows}\nprompt \"{}\"\ncreate\nset \"{long}\" 0\nmessage \"{message}\"\n", n("p", 512)))); }
    v
}

/// cases of `calculate_position`: the crate's answer where ours is equal, else ours
fn places(out: &mut String) -> usize {
    let mut n = 0;
    *out += "[places]\n# columns, tab stop, table, origin (column, row), text\n";
    let mut put = |case: String, out: &mut String| {
        let words = split(case.as_bytes());
        let (crates, ours) = (place(&words, false), place(&words, true));
        *out += &if crates == ours { format!("{case}\n#crate {crates}\n") } else { format!("# the crate: {crates}\n{case}\n#rules {ours}\n") };
        n += 1;
    };
    for text in ["", "abc", "abcd", "abcde", "abcde\\n", "\\n", "\\n\\n", "\\t", "a\\tb", "abcde\\t", "\\t\\x07", "\\e[1;34mab\\e[0m", "\\e[?25l", "\\e\\na", "\\e[1\\n2ma", "\\e\\e[1m", "\\ecx", "\\xCC\\x81a", "ab\\xCC\\x81", "a\\xE2\\x80\\x8Db", "\\xC2\\x85a", "\\xE4\\xB8\\xAD", "ab\\xE4\\xB8\\xAD", "abcd\\xE4\\xB8\\xAD", "\\xEF\\xBC\\x81\\xED\\x95\\x9C\\xE3\\x82\\xAB", "\\xF0\\x9F\\x98\\x80"] {
        for table in ["latin", "eastern"] { for (cols, tab) in [(2, 8), (5, 8), (5, 2), (500, 32)] { for (c, r) in [(0, 0), (1, 0), (4, 3), (5, 0), (6, 60000)] {
            if !text.contains('t') && tab == 2 { continue; }
            put(format!("{cols} {tab} {table} {c} {r} \"{text}\""), out);
        } } }
    }
    for (cols, tab, c, r) in [(1, 8, 0, 0), (501, 8, 0, 0), (5, 0, 0, 0), (5, 33, 0, 0), (5, 1, 0, 0), (5, 32, 500, 60000), (5, 8, 501, 0), (5, 8, 0, 60001)] { put(format!("{cols} {tab} latin {c} {r} \"a\""), out); }
    put(format!("500 8 latin 0 60000 \"{}\"", "a".repeat(4096)), out);
    put(format!("500 8 latin 0 60000 \"{}\"", "a".repeat(4097)), out);
    n
}
/// every line of up to three of five characters, at each position up to two past it: the crate's answers
fn brackets(out: &mut String) -> usize {
    let mut n = 0;
    *out += "[brackets]\n# line, position\n";
    let mut lines = vec![String::new()];
    let mut last = lines.clone();
    for _ in 0..3 { last = last.iter().flat_map(|l| ["(", ")", "[", "]", "a"].iter().map(move |c| format!("{l}{c}"))).collect(); lines.extend(last.clone()); }
    lines.extend(["(a)(", "([)]", "{[()]}", "(((a)", "é(中)", "{}{}{}", "a}b{c"].map(String::from));
    for l in &lines { for pos in 0..=l.len() + 2 {
        let case = format!("{} {pos}", escape(l.as_bytes()));
        *out += &format!("{case}\n#crate {}\n", bracket(&split(case.as_bytes())));
        n += 1;
    } }
    n
}

pub fn main(seed: u64) {
    let mut out = format!("# Made by `oracle sample {seed}`: what is asked, and what the oracle answers.\n");
    let (mut n, mut made) = (0, 0);
    for (told, script) in limits() { n += acts(&mut out, told, script.as_bytes(), 60, if script.contains("paper") { Kind::Paper } else if script.contains("fault") { Kind::Faults } else { Kind::Limits }, false); }
    for number in 0.. {
        if made >= 4000 { break; }
        let s = make(seed, number);
        // long texts stand in the scripts above
        if s.kind == Kind::Limits { continue; }
        made += acts(&mut out, &format!("script {number} of seed {seed}"), &s.bytes, 80, s.kind, false);
    }
    let p = places(&mut out);
    let b = brackets(&mut out);
    let mut w = 0;
    for (name, script) in WRITTEN {
        let kind = if script.contains("\nfault ") { Kind::Faults } else { Kind::Limits };
        w += acts(&mut out, &format!("oracle/sample/{name}.acts"), script.as_bytes(), usize::MAX, kind, true);
    }
    let mut o = 0;
    for (told, script) in orders() { o += acts(&mut out, told, script.as_bytes(), usize::MAX, Kind::Limits, false); }
    eprintln!("{} acts, {p} measured texts, {b} brackets, {w} acts with screens, {o} acts at limits", n + made);
    std::print!("{out}");
}
