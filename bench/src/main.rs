//! Plays the same acts by the library and by the crate's text, into memory, and says what they cost.
//!
//!     bench time                          a table of times and ratios
//!     bench play WORK BYTES MANY SIDE     plays once, for a counter of instructions; SIDE is ours, theirs or idle: ours,
//!                                         with the acts read but none of them performed
//!     bench check                         compares what both sides write
mod ours;
mod work;

use std::time::Instant;
use work::{Script, idle, many, script};

const COLS: u16 = 80;
const ROWS: u16 = 200;
/// memory that stands for the terminal
const ROOM: usize = 1 << 23;

const WORKS: [(&str, &[usize]); 8] = [
    ("type", &[80, 1000, 4096]),
    ("redraw", &[80, 1000, 4096]),
    ("redraw-at-start", &[80, 1000, 4096]),
    ("notice", &[80, 1000, 4096]),
    ("notice-at-start", &[80, 1000, 4096]),
    ("go", &[80, 1000, 4096]),
    ("lit", &[80, 1000, 4096]),
    ("lit-go", &[80, 1000, 4096]),
];

fn play_ours(s: &Script, room: usize, out: &mut [u8]) -> (usize, usize, f64) {
    let (deeds, texts) = s.ours();
    let t = Instant::now();
    let (accepted, written) = ours::play(COLS, ROWS, s.colours, room, deeds, texts, out);
    (accepted, written, t.elapsed().as_secs_f64())
}
fn play_theirs(s: &Script, out: &mut [u8]) -> (usize, usize, f64) {
    let mut acts = s.theirs();
    let t = Instant::now();
    let (accepted, written) = theirs::bench::play(COLS, ROWS, s.colours, &mut acts, out);
    (accepted, written, t.elapsed().as_secs_f64())
}

/// the seconds that each of the measured acts takes, and the bytes that it writes: the whole script less its preparation
fn each(name: &str, bytes: usize, ours: bool) -> (f64, f64) {
    let n = many(name, bytes);
    let prepared = script(name, bytes, 0);
    let (before, whole) = (prepared.len(), script(name, bytes, n));
    // ours has a finish more
    let (none, fewest) = if ours { (idle(name, bytes, n), before + 2) } else { (prepared, before + 1) };
    // as much memory as is written
    let mut out = vec![0u8; ROOM];
    let room = play_theirs(&whole, &mut out).1;
    out.truncate(room);
    let mut best = [f64::MAX; 2];
    let mut written = [0; 2];
    let from = Instant::now();
    let mut rounds = 0;
    while rounds < 5 || (from.elapsed().as_secs_f64() < 0.4 && rounds < 1000) {
        for (i, (s, wanted)) in [(&whole, whole.len() + 1), (&none, fewest)].into_iter().enumerate() {
            let (accepted, w, t) = if ours { play_ours(s, room, &mut []) } else { play_theirs(s, &mut out) };
            assert_eq!(accepted, wanted, "{name} {bytes}");
            best[i] = best[i].min(t);
            written[i] = w;
        }
        rounds += 1;
    }
    ((best[0] - best[1]) / n as f64, (written[0] - written[1]) as f64 / n as f64)
}

fn time() {
    println!("| act | bytes of the line | ours, ns | the crate, ns | ours / crate | bytes written | on the line, µs | ours / line |");
    println!("|---|---|---|---|---|---|---|---|");
    for (name, sizes) in WORKS {
        for &bytes in sizes {
            let (a, w) = each(name, bytes, true);
            let (b, _) = each(name, bytes, false);
            let serial = w * 86.8;
            println!("| {name} | {bytes} | {:.0} | {:.0} | {:.2} | {w:.0} | {serial:.0} | {:.4} |", a * 1e9, b * 1e9, a / b, a * 1e6 / serial);
        }
    }
}

/// both sides write the same
fn check() {
    for (name, sizes) in WORKS {
        for name in [name.to_string(), format!("{name}-ja")] {
            for &bytes in sizes {
                let s = script(&name, bytes, many(&name, bytes));
                let (mut a, mut b) = (vec![0u8; ROOM], vec![0u8; ROOM]);
                let (n, len, _) = play_ours(&s, ROOM, &mut a);
                let (m, long, _) = play_theirs(&s, &mut b);
                let same = a[..len] == b[..long];
                println!("{name} {bytes}: {n} and {m} of {} accepted, {len} and {long} bytes, {}", s.len() + 1, if same { "alike" } else { "NOT ALIKE" });
            }
        }
    }
}

fn main() {
    let args: Vec<String> = std::env::args().skip(1).collect();
    match args.iter().map(String::as_str).collect::<Vec<_>>().as_slice() {
        ["time"] => time(),
        ["check"] => check(),
        ["play", name, bytes, n, side @ ("ours" | "theirs" | "idle")] => {
            let make = if *side == "idle" { idle } else { script };
            let s = make(name, bytes.parse().unwrap(), n.parse().unwrap());
            let mut out = vec![0u8; ROOM];
            let (accepted, written, _) = if *side == "theirs" { play_theirs(&s, &mut out) } else { play_ours(&s, ROOM, &mut []) };
            println!("{accepted} {written}");
        }
        _ => eprintln!("bench time | bench check | bench play WORK BYTES MANY ours|theirs|idle"),
    }
}
