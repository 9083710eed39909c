//! Whole inputs of bytes: random ones, conversations, and conversations that were damaged.

use crate::case::{self, Case};
use crate::player;
use crate::rng::Rng;
use crate::solver;
use crate::write;
use estimator::{hex, Opening, Requested, LIMIT};

/// The generators, each with its share of 2,000 inputs.
pub const KINDS: [(&str, usize); 13] = [
    ("any bytes", 150),
    ("bytes of the protocol's letters", 150),
    ("words of the protocol", 150),
    ("forms in any order", 200),
    ("conversations", 100),
    ("damaged conversations", 700),
    ("conversations with odd lines", 230),
    ("conversations cut off", 200),
    ("lists of 63 to 70", 80),
    ("lists of thousands", 7),
    ("lines of up to a megabyte", 14),
    ("thousands of lines", 16),
    ("100,000 lines", 3),
];

/// The input of a seed, and the place of its generator in the list.
pub fn input(seed: u64) -> (usize, Vec<u8>) {
    let rng = &mut Rng::new(seed);
    let mut at = rng.below(KINDS.iter().map(|kind| kind.1).sum());
    let mut kind = 0;
    while at >= KINDS[kind].1 {
        at -= KINDS[kind].1;
        kind += 1;
    }
    (kind, made(kind, rng))
}

fn made(kind: usize, rng: &mut Rng) -> Vec<u8> {
    match kind {
        0 => any_bytes(rng),
        1 => letters(rng),
        2 => words(rng),
        3 => any_order(rng),
        4 => conversations(rng),
        5 => damaged(rng),
        6 => with_odd_lines(rng),
        7 => cut_off(rng),
        8 => limits(rng),
        9 => thousands(rng),
        10 => long_lines(rng),
        11 => {
            let count = rng.between(3000, 12_000);
            many_lines(rng, count)
        }
        _ => {
            let count = rng.between(70_000, 130_000);
            many_lines(rng, count)
        }
    }
}

fn joined(lines: &[Vec<u8>]) -> Vec<u8> {
    lines.iter().flat_map(|line| line.iter().copied().chain([b'\n'])).collect()
}

// ---- random bytes, words and forms

fn size(rng: &mut Rng) -> usize {
    match rng.below(20) {
        0 => rng.below(4),
        1..=9 => rng.below(100),
        10..=18 => rng.below(1500),
        _ => rng.below(20_000),
    }
}

fn any_bytes(rng: &mut Rng) -> Vec<u8> {
    let feeds = rng.pick(&[0.0, 0.0, 0.02, 0.3]);
    let count = size(rng);
    (0..count).map(|_| if rng.chance(feeds) { b'\n' } else { rng.bits() as u8 }).collect()
}

const LETTERS: &[u8] = b"0123456789abcdef()()() -  \n\nentrdshopilcuxkgm\r\0+ABXR";

fn letters(rng: &mut Rng) -> Vec<u8> {
    let first = rng.below(LETTERS.len());
    let part = &LETTERS[first..rng.between(first + 1, LETTERS.len())];
    let from = if rng.chance(0.7) { LETTERS } else { part };
    let count = size(rng);
    (0..count).map(|_| rng.pick(from)).collect()
}

const WORDS: [&str; 25] = [
    "entered",
    "shot",
    "prior",
    "speed",
    "coefficient",
    "distance",
    "open",
    "plain",
    "drops",
    "missing",
    "none",
    "refused",
    "put-in",
    "take-out",
    "exchange",
    "asked",
    "page",
    "question",
    "report",
    "declined",
    "malformed",
    "shots",
    "distances",
    "new",
    "",
];

/// 16 digits, often of a special value.
fn double(rng: &mut Rng) -> String {
    let special =
        [f64::INFINITY, f64::NEG_INFINITY, 0.0, -0.0, 1.0, 100.0, 2000.0, 0.3, f64::MAX, 5e-324];
    match rng.below(8) {
        0..=3 => format!("{:016x}", rng.bits()),
        // Not-a-number patterns of every kind.
        4 => format!("{:016x}", 0x7ff0_0000_0000_0001 | rng.bits() & 0x800f_ffff_ffff_ffff),
        5 => rng.pick(&["7ff8000000000000", "fff8000000000000", "7ff0000000000001"]).to_string(),
        _ => hex(rng.pick(&special)),
    }
}

fn sigma(rng: &mut Rng) -> String {
    if rng.chance(0.5) {
        "none".to_string()
    } else {
        double(rng)
    }
}

/// Decimal digits as a place might have them, most of them none of a list.
fn place(rng: &mut Rng) -> String {
    let odd = [
        "0",
        "00",
        "01",
        "001",
        "+1",
        "-1",
        "1.",
        "64",
        "65",
        "66",
        "255",
        "256",
        "257",
        "65536",
        "65537",
        "4294967295",
        "4294967296",
        "4294967297",
        "9223372036854775807",
        "9223372036854775808",
        "18446744073709551614",
        "18446744073709551615",
        "18446744073709551616",
        "18446744073709551617",
        "18446744073709551625",
        "18446744073709551626",
        "18446744073709552000",
        "19999999999999999999",
        "28446744073709551617",
        "36893488147419103233",
        "99999999999999999999",
        "100000000000000000000",
        "184467440737095516170",
        "340282366920938463463374607431768211457",
        "018446744073709551615",
        "",
        "none",
    ];
    match rng.below(5) {
        0..=1 => rng.pick(&odd).to_string(),
        2 => rng.between(0, 66).to_string(),
        3 => {
            let count = rng.pick(&[19, 20, 20, 20, 21, 22, 32, 33, 100]);
            (0..count).map(|_| (b'0' + rng.below(10) as u8) as char).collect()
        }
        _ => rng.between(1, 3).to_string(),
    }
}

fn words(rng: &mut Rng) -> Vec<u8> {
    let mut text = Vec::new();
    let lines = rng.between(1, 40);
    let odd = rng.pick(&[0.0, 0.02, 0.1]);
    for _ in 0..lines {
        text.push(b'(');
        for i in 0..rng.pick(&[1, 1, 2, 2, 3, 3, 4, 4, 5, 9]) {
            if i > 0 {
                text.push(b' ');
            }
            let word = match rng.below(4) {
                _ if i == 0 => rng.pick(&WORDS).to_string(),
                0 => rng.pick(&WORDS).to_string(),
                1 => place(rng),
                _ => double(rng),
            };
            text.extend_from_slice(word.as_bytes());
            if rng.chance(odd) {
                text.push(rng.pick(LETTERS));
            }
        }
        text.extend_from_slice(b")\n");
    }
    if rng.chance(0.3) {
        text.pop();
    }
    text
}

fn entries(rng: &mut Rng, count: usize) -> String {
    let missing = rng.pick(&[0.0, 0.1]);
    let mut line = "(drops".to_string();
    for _ in 0..count {
        let entry = if rng.chance(missing) { "missing".to_string() } else { double(rng) };
        line = line + " " + &entry;
    }
    line + ")"
}

/// A line of one of the table's forms.
fn form(rng: &mut Rng) -> String {
    match rng.below(21) {
        0 => format!("(entered {} {})", double(rng), double(rng)),
        1 => write::entered([2000.0, 0.3]),
        2 => format!("(shot {} {} {})", double(rng), double(rng), double(rng)),
        3..=5 => write::shot([rng.pick(&[100.0, 200.0, 300.0]), rng.real(1.0, 20.0), 1.0]),
        6 => format!("(prior speed {} {})", double(rng), double(rng)),
        7 => write::prior("speed", [2000.0, 10.0]),
        8 => format!("(prior coefficient {} {})", double(rng), double(rng)),
        9 => format!("(distance {} {})", double(rng), sigma(rng)),
        10 => write::distance(Requested { distance: 300.0, sigma: None }),
        11..=12 => "(open plain)".to_string(),
        13..=14 => {
            let count = rng.pick(&[0, 1, 1, 2, 2, 2, 3, 3, 4, 63, 64, 65, 66, 128, 300]);
            entries(rng, count)
        }
        15 => "(refused)".to_string(),
        16 => format!("(put-in {} {} {})", place(rng), double(rng), sigma(rng)),
        17 => format!("(take-out {})", place(rng)),
        18 => format!("(exchange {} {} {})", place(rng), double(rng), sigma(rng)),
        19 => "(page)".to_string(),
        _ => "(asked)".to_string(),
    }
}

/// Forms in any order; often the lines of a request among them, in theirs.
fn any_order(rng: &mut Rng) -> Vec<u8> {
    let mut lines = Vec::new();
    let count = rng.between(1, 60);
    while lines.len() < count {
        if rng.chance(0.1) {
            let shots = rng.between(1, 3);
            lines.push(write::entered([2000.0, 0.3]).into_bytes());
            for _ in 0..shots {
                let at = rng.pick(&[100.0, 200.0, 300.0]);
                lines.push(write::shot([at, rng.real(1.0, 20.0), 1.0]).into_bytes());
            }
            if rng.chance(0.3) {
                lines.push(form(rng).into_bytes());
            }
            if rng.chance(0.3) {
                let entry = Requested { distance: 300.0, sigma: None };
                lines.push(write::distance(entry).into_bytes());
            }
            lines.push(b"(open plain)".to_vec());
            // As many replies as may bring a report.
            for _ in 0..rng.below(25) {
                lines.push(write::reply(&Some(vec![Some(10.0); shots])).into_bytes());
            }
            if rng.chance(0.5) {
                lines.push(b"(page)".to_vec());
            }
        } else {
            lines.push(form(rng).into_bytes());
        }
    }
    joined(&lines)
}

// ---- conversations

/// The lines of random cases, small ones as a rule; without their closing lines the
/// next one begins in the middle of the last.
fn conversation(rng: &mut Rng) -> Vec<Vec<u8>> {
    let most = rng.pick(&[1500, 3000, 3000, 3000, 6000, 6000, 12_000, 40_000]);
    let mut lines = Vec::new();
    for _ in 0..rng.pick(&[1, 1, 1, 2, 3]) {
        for attempt in 0.. {
            let mut case = Case::random(rng.bits());
            if rng.chance(0.3) {
                case.edits = rng.between(1, 5);
            }
            let mut script = player::play(&case, &mut 0);
            let bytes: usize = script.lines.iter().map(|line| line.len() + 1).sum();
            if bytes > most && attempt < 8 {
                continue;
            }
            // A long one loses its end.
            let mut left = most;
            script.lines.retain(|line| {
                left = left.saturating_sub(line.len() + 1);
                left > 0
            });
            if rng.chance(0.5) {
                script.lines.truncate(script.lines.len().saturating_sub(script.closing));
            }
            lines.append(&mut script.lines);
            break;
        }
    }
    if rng.chance(0.05) {
        // A page again and again.
        let at = rng.between(lines.len() / 2, lines.len());
        let again = vec![b"(page)".to_vec(); rng.between(2, 300)];
        lines.splice(at..at, again);
    }
    lines
}

fn conversations(rng: &mut Rng) -> Vec<u8> {
    joined(&conversation(rng))
}

fn cut_off(rng: &mut Rng) -> Vec<u8> {
    let mut bytes = conversations(rng);
    let at = match rng.below(4) {
        // Just the last line feed, or one more.
        0 => bytes.len().saturating_sub(rng.between(1, 2)),
        _ => rng.below(bytes.len() + 1),
    };
    bytes.truncate(at);
    bytes
}

// ---- damages

fn damaged(rng: &mut Rng) -> Vec<u8> {
    let mut bytes = conversations(rng);
    for _ in 0..rng.pick(&[1, 1, 1, 1, 2, 2, 3, 5, 10, 40]) {
        damage(rng, &mut bytes);
    }
    bytes
}

/// A place among the bytes: any, or one of a line that is as likely as another.
fn somewhere(rng: &mut Rng, bytes: &[u8]) -> usize {
    if rng.chance(0.4) {
        return rng.below(bytes.len());
    }
    let (first, end) = line_of(bytes, line_start(rng, bytes));
    match rng.below(6) {
        0 => first,
        1 => end - 1,
        2 => end.saturating_sub(2).max(first),
        _ => rng.between(first, end - 1),
    }
}

fn line_start(rng: &mut Rng, bytes: &[u8]) -> usize {
    let feeds = bytes.iter().filter(|b| **b == b'\n').count();
    let wanted = rng.below(feeds + 1);
    let after = |n: usize| bytes.iter().enumerate().filter(|b| *b.1 == b'\n').nth(n - 1);
    match wanted {
        0 => 0,
        n => after(n).map(|b| b.0 + 1).filter(|at| *at < bytes.len()).unwrap_or(0),
    }
}

/// The bounds of the line that a place lies in, its line feed with it.
fn line_of(bytes: &[u8], at: usize) -> (usize, usize) {
    let first = bytes[..at].iter().rposition(|b| *b == b'\n').map_or(0, |i| i + 1);
    let end = bytes[at..].iter().position(|b| *b == b'\n').map_or(bytes.len(), |i| at + i + 1);
    (first, end)
}

/// A place with such a byte, if there is one.
fn with(rng: &mut Rng, bytes: &[u8], such: fn(u8) -> bool) -> Option<usize> {
    let from = somewhere(rng, bytes);
    let later = bytes[from..].iter().position(|b| such(*b)).map(|i| from + i);
    later.or_else(|| bytes[..from].iter().rposition(|b| such(*b)))
}

fn exchange_lines(bytes: &mut Vec<u8>, one: (usize, usize), other: (usize, usize)) {
    let (a, b) = if one.0 < other.0 { (one, other) } else { (other, one) };
    if a.1 > b.0 {
        return;
    }
    *bytes = [&bytes[..a.0], &bytes[b.0..b.1], &bytes[a.1..b.0], &bytes[a.0..a.1], &bytes[b.1..]]
        .concat();
}

fn damage(rng: &mut Rng, bytes: &mut Vec<u8>) {
    if bytes.is_empty() {
        bytes.push(rng.pick(LETTERS));
        return;
    }
    let at = somewhere(rng, bytes);
    let line = line_of(bytes, at);
    match rng.below(30) {
        0 => bytes[at] = rng.bits() as u8,
        1 => bytes[at] = rng.pick(LETTERS),
        2 => bytes[at] ^= 1 << rng.below(8),
        3 => bytes.insert(at, rng.bits() as u8),
        4 => bytes.insert(at, rng.pick(LETTERS)),
        5 => bytes.insert(at, bytes[at]),
        6..=7 => drop(bytes.remove(at)),
        8..=9 => {
            let again = bytes[line.0..line.1].to_vec();
            bytes.splice(line.0..line.0, again);
        }
        10..=11 => drop(bytes.drain(line.0..line.1)),
        12 => {
            let place = somewhere(rng, bytes);
            exchange_lines(bytes, line, line_of(bytes, place));
        }
        13 if line.1 < bytes.len() => {
            let next = line_of(bytes, line.1);
            exchange_lines(bytes, line, next);
        }
        14 => {
            let most = rng.pick(&[10, 100, 2000]);
            let end = (at + rng.between(1, most)).min(bytes.len());
            bytes.drain(at..end);
        }
        15 => {
            // A chunk comes a second time, anywhere.
            let end = (at + rng.between(1, 300)).min(bytes.len());
            let chunk = bytes[at..end].to_vec();
            let place = somewhere(rng, bytes);
            bytes.splice(place..place, chunk);
        }
        16..=17 => {
            if let Some(at) = with(rng, bytes, |b| b == b' ') {
                bytes.insert(at, b' ');
            }
        }
        18 => {
            if let Some(at) = with(rng, bytes, |b| b == b' ') {
                match rng.below(3) {
                    0 => drop(bytes.remove(at)),
                    1 => bytes[at] = rng.pick(b"\t\n\r\0\x0b\xa0_,"),
                    _ => bytes.insert(at, rng.pick(b"\t\n\r\0")),
                }
            }
        }
        19..=20 => {
            if let Some(at) = with(rng, bytes, |b| b.is_ascii_alphabetic()) {
                bytes[at] ^= 0x20;
            }
        }
        21..=22 => {
            if let Some(at) = with(rng, bytes, |b| b.is_ascii_digit()) {
                bytes[at] = rng.pick(b"0123456789abcdef");
            }
        }
        23 => {
            // The whole field that begins here.
            if let Some(at) = with(rng, bytes, |b| b == b' ') {
                let rest = bytes[at + 1..].iter();
                let len = rest.take_while(|b| !b" )\n".contains(b)).count();
                let field = match rng.below(4) {
                    0 => rng.pick(&WORDS).to_string(),
                    1 => place(rng),
                    _ => double(rng),
                };
                bytes.splice(at + 1..at + 1 + len, field.into_bytes());
            }
        }
        24..=25 => {
            if let Some(at) = with(rng, bytes, |b| b == b'\n') {
                if rng.chance(0.5) {
                    bytes.remove(at);
                } else {
                    bytes.insert(at, b'\n');
                }
            }
        }
        26 => {
            if let Some(at) = with(rng, bytes, |b| b == b'\n') {
                bytes.insert(at, rng.pick(b"\r \0\t)"));
            }
        }
        27 => {
            if let Some(at) = with(rng, bytes, |b| b == b'(' || b == b')') {
                match rng.below(4) {
                    0 => bytes.insert(at, bytes[at]),
                    1 => drop(bytes.remove(at)),
                    2 => bytes.insert(at + 1, b' '),
                    _ => bytes.insert(at, b' '),
                }
            }
        }
        28 => bytes[at] = 0,
        _ => {
            // Every line feed is changed alike, or every blank.
            let (from, to): (u8, &[u8]) = match rng.below(8) {
                0 => (b'\n', b"\r\n"),
                1 => (b'\n', b"\n\n"),
                2 => (b'\n', b"\r"),
                3 => (b' ', b"  "),
                _ => {
                    bytes.insert(line.0, rng.pick(b" \r\0\n("));
                    return;
                }
            };
            *bytes = bytes
                .iter()
                .flat_map(|b| if *b == from { to.to_vec() } else { vec![*b] })
                .collect();
        }
    }
}

// ---- odd lines

fn odd_line(rng: &mut Rng) -> Vec<u8> {
    let h = double(rng);
    let text = match rng.below(68) {
        0..=1 => String::new(),
        2 => "()".to_string(),
        3 => rng.pick(&["(", ")", " ", "( )", "(())", ")(", "\r", "\0"]).to_string(),
        4..=6 => {
            // A form with something before, in or behind it.
            let mut line = form(rng).into_bytes();
            let at = match rng.below(4) {
                0 => 0,
                1 => line.len(),
                2 => line.len() - 1,
                _ => rng.below(line.len()),
            };
            line.insert(at, rng.pick(b" \r\0\t()\x0b\x0c\x7f\x80\xff"));
            return line;
        }
        7 => "(asked)\r".to_string(),
        8 => "(asked )".to_string(),
        9 => "(asked 0)".to_string(),
        10 => "(Asked)".to_string(),
        11 => "(ASKED)".to_string(),
        12 => "(asked)(asked)".to_string(),
        13 => "asked".to_string(),
        14 => "(asked".to_string(),
        15 => "\u{feff}(asked)".to_string(),
        16 => "(asked\u{a0})".to_string(),
        17 => "(drops )".to_string(),
        18 => format!("(drops  {h})"),
        19 => format!("(drops {h}  {h})"),
        20 => format!("(drops {h} )"),
        21 => format!("(drops {})", h.to_uppercase()),
        22 => format!("(drops {})", &h[1..]),
        23 => format!("(drops {h}0)"),
        24 => format!("(drops 0x{})", &h[2..]),
        25 => rng.pick(&["(drops none)", "(drops Missing)", "(drops missingg)"]).to_string(),
        26 => "(refused )".to_string(),
        27 => "(Refused)".to_string(),
        28 => "(open  plain)".to_string(),
        29 => rng.pick(&["(open plain )", "(open)", "(open Plain)", "(openplain)"]).to_string(),
        30..=33 => format!("(take-out {})", place(rng)),
        34 => format!("(put-in {} {h} none)", place(rng)),
        35 => format!("(exchange {} {h} none)", place(rng)),
        36 => format!("(put-in 1 {h})"),
        37 => format!("(exchange 1 {h} missing)"),
        38 => format!("(put_in 1 {h} none)"),
        39 => "(take-out １)".to_string(),
        40 => format!("(distance {h} missing)"),
        41 => format!("(shot {h} {h} none)"),
        42 => format!("(prior {h} {h})"),
        43 => format!("(prior speed {h} {h})"),
        44 => format!("(prior coefficient {h} {h})"),
        45 => format!("(shot {h} {h} {h})"),
        46 => format!("(distance {h} {h})"),
        47 => "(open plain)".to_string(),
        48 => format!("(question shots {h} {h})"),
        49 => rng.pick(&["(declined 8 0)", "(malformed 1)", "(report)", "(asked 1)"]).to_string(),
        50..=52 => {
            let count = rng.pick(&[0, 1, 2, 3, 63, 64, 65, 66, 127, 128, 129, 255, 256, 257]);
            entries(rng, count)
        }
        53 => {
            // Words about the lengths at which a reader's store might end.
            let long = rng.pick(&[15, 16, 17, 20, 22, 23, 31, 32, 33, 63, 64, 65, 255, 256, 4096]);
            let byte = rng.pick(b"0ax(");
            format!("(drops {})", (byte as char).to_string().repeat(long))
        }
        54 => format!("(drops{})", " ".repeat(rng.between(1, 5000))),
        55 => "x".repeat(rng.between(1, 9000)),
        56..=59 => form(rng),
        60..=61 => "(page)".to_string(),
        62..=63 => return player::spoilt_page(rng),
        _ => {
            let count = rng.between(1, 60);
            return (0..count).map(|_| rng.bits() as u8).collect();
        }
    };
    text.into_bytes()
}

fn with_odd_lines(rng: &mut Rng) -> Vec<u8> {
    let mut lines = conversation(rng);
    for _ in 0..rng.pick(&[1, 2, 3, 5, 10, 30]) {
        let at = rng.below(lines.len() + 1);
        lines.insert(at, odd_line(rng));
    }
    joined(&lines)
}

// ---- long lists, long lines, many lines

/// Requests at the limit of 64 and above, with edits at the limit.
fn limits(rng: &mut Rng) -> Vec<u8> {
    let mut case = Case::random(rng.bits());
    case.solver = solver::tame(rng);
    case.noise = rng.pick(&[0.0, 0.1]);
    let entered = [rng.real(2200.0, 3300.0), rng.real(0.2, 0.7)];
    case.opening = Opening { entered, ..Opening::default() };
    let around = |rng: &mut Rng| match rng.below(4) {
        0 => LIMIT,
        1 => rng.between(63, 66),
        2 => rng.between(63, 70),
        _ => rng.between(62, 64),
    };
    // Now and then all that a report can have, else mostly one list is short.
    let full = rng.chance(0.2);
    let shots = if full || rng.chance(0.4) { around(rng) } else { rng.between(2, 4) };
    let both = full || shots < 10 || rng.chance(0.2);
    let distances = if both { around(rng) } else { rng.below(3) };
    let (shots, distances) =
        if full { (shots.min(LIMIT), distances.min(LIMIT)) } else { (shots, distances) };
    if full {
        case.opening.speed_prior = Some([entered[0], 50.0]);
        case.opening.coefficient_prior = Some([entered[1], 0.1]);
    }
    let (off, sigma) = (rng.pick(&[0.0, 0.1]), rng.pick(&[0.03, 0.1, 1.0]));
    for i in 0..shots {
        let at = 200.0 + 1000.0 * (i + 1) as f64 / shots as f64;
        let drop = case.solver.drop(1, entered[0] * 1.01, entered[1], at);
        case.opening.shots.push([at, drop + off * rng.real(-1.0, 1.0), sigma]);
    }
    for _ in 0..distances {
        let mut entry = case::requested(rng, &case.opening);
        if full {
            entry.sigma = Some(rng.real(0.1, 1.0));
        }
        case.opening.distances.push(entry);
    }
    if !full && rng.chance(0.2) {
        // A fault in the last record, which the limit comes before or not.
        if rng.chance(0.5) {
            if let Some(shot) = case.opening.shots.last_mut() {
                shot[rng.below(3)] = f64::NAN;
            }
        } else if let Some(entry) = case.opening.distances.last_mut() {
            entry.distance = f64::NAN;
        }
    }
    case.edits = rng.below(6);
    let script = player::play(&case, &mut 0);
    let mut bytes = joined(&script.lines);
    if bytes.len() > 150_000 {
        bytes.truncate(150_000);
    }
    for _ in 0..rng.pick(&[0, 0, 1, 3]) {
        damage(rng, &mut bytes);
    }
    bytes
}

/// Requests of thousands of records; replies of thousands of entries.
fn thousands(rng: &mut Rng) -> Vec<u8> {
    let mut opening = Opening { entered: [2500.0, 0.4], ..Opening::default() };
    let counts = [2, 3, 64, 65, 127, 128, 129, 255, 256, 257, 320, 1000, 4096, 9000];
    let shots = rng.pick(&counts);
    for _ in 0..shots {
        opening.shots.push([rng.real(100.0, 1000.0), rng.real(0.0, 20.0), 1.0]);
    }
    let most = rng.pick(&counts);
    for _ in 0..most {
        let entry = case::requested(rng, &opening);
        opening.distances.push(entry);
    }
    let mut lines: Vec<Vec<u8>> =
        write::request(&opening).into_iter().map(String::into_bytes).collect();
    for _ in 0..rng.between(1, 8) {
        let count = match rng.below(3) {
            0 => shots,
            1 => rng.pick(&counts),
            _ => shots + 64 * rng.between(1, 4),
        };
        lines.push(entries(rng, count).into_bytes());
        lines.push(odd_line(rng));
    }
    joined(&lines)
}

fn long_lines(rng: &mut Rng) -> Vec<u8> {
    let mut lines = conversation(rng);
    let mut unended = false;
    let long = |rng: &mut Rng| match rng.below(5) {
        0 => rng.pick(&[4095, 4096, 4097, 32_767, 32_768, 65_535, 65_536, 65_537]),
        1 => rng.pick(&[(1 << 20) - 1, 1 << 20, (1 << 20) + 1]),
        _ => rng.between(900_000, 1_100_000),
    };
    for _ in 0..rng.pick(&[1, 1, 2]) {
        let size = long(rng);
        let line = match rng.below(13) {
            // A word alone, and one of a form, which is stretched to either side.
            0 => vec![rng.pick(b"x0a(-"); size],
            1..=3 => {
                let line = form(rng).into_bytes();
                let words: Vec<usize> = (0..line.len()).filter(|i| line[*i] == b' ').collect();
                let first = if words.is_empty() { 1 } else { rng.pick(&words) + 1 };
                let len = line[first..].iter().take_while(|b| !b" )".contains(b)).count();
                let at = if rng.chance(0.5) { first } else { first + len };
                let byte = rng.pick(&[line[at.min(first + len - 1)], b'0', b'1']);
                [&line[..at], &vec![byte; size], &line[at..]].concat()
            }
            // A form with a tail.
            4 => [b"(asked)".as_slice(), &vec![rng.pick(b" \0)\r"); size]].concat(),
            // Blanks.
            5 => vec![b' '; size],
            6 => [b"(drops", vec![b' '; size].as_slice(), b")"].concat(),
            // Entries, all well formed or all but one.
            7..=10 => {
                let mut line = entries(rng, size / 20).into_bytes();
                if rng.chance(0.5) {
                    let at = match rng.below(3) {
                        0 => line.len() - 1,
                        1 => rng.between(line.len() - 20, line.len() - 1),
                        _ => rng.below(line.len()),
                    };
                    line[at] = rng.pick(b"g \r\0A");
                }
                line
            }
            11 => (0..size).map(|_| rng.bits() as u8).map(|b| b.max(11)).collect(),
            _ => {
                // The last one, without its line feed.
                unended = true;
                let byte = rng.pick(b"x 0)(");
                lines.push(vec![byte; size]);
                continue;
            }
        };
        let at = rng.below(lines.len() + 1);
        lines.insert(at, line);
    }
    let mut bytes = joined(&lines);
    if unended {
        bytes.pop();
    }
    bytes
}

/// So many short lines, then a conversation with odd lines.
fn many_lines(rng: &mut Rng, count: usize) -> Vec<u8> {
    let mut bytes = Vec::new();
    let mode = rng.below(7);
    if mode == 6 {
        // Shots without end, which have no answer.
        bytes.extend(joined(&[write::entered([2500.0, 0.4]).into_bytes()]));
    }
    let shot = write::shot([300.0, 1.0, 1.0]).into_bytes();
    for _ in 0..count {
        let line: &[u8] = match mode {
            0 => b"",
            1 => b"(asked)",
            2 => rng.pick(&[b"".as_slice(), b"x", b"(page)", b"()", b"(drops)", b"(take-out 1)"]),
            3 => rng.pick(&[b"".as_slice(), b" ", b"\r", b"\0"]),
            4 => b"(refused)",
            5 => b"(page)",
            _ => &shot,
        };
        bytes.extend_from_slice(line);
        bytes.push(b'\n');
    }
    if rng.chance(0.5) {
        bytes.extend_from_slice(b"?\n(open plain)\n");
    }
    bytes.extend(with_odd_lines(rng));
    bytes
}

#[cfg(test)]
mod tests {
    use super::*;
    use oracle::form::{read, Form};

    /// The line of a form, as write.rs has it.
    fn written(form: &Form) -> String {
        match form {
            Form::Entered(point) => write::entered(*point),
            Form::Shot(shot) => write::shot(*shot),
            Form::SpeedPrior(prior) => write::prior("speed", *prior),
            Form::CoefficientPrior(prior) => write::prior("coefficient", *prior),
            Form::Distance(distance, sigma) => {
                write::distance(Requested { distance: *distance, sigma: *sigma })
            }
            Form::Open => "(open plain)".to_string(),
            Form::Drops(entries) => write::reply(&Some(entries.clone())),
            Form::Refused => write::reply(&None),
            Form::Edit(edit) => write::edit(*edit),
            Form::Asked => "(asked)".to_string(),
            Form::Page => "(page)".to_string(),
        }
    }

    /// Digits of a not-a-number as the program would write them.
    fn one_nan(line: &str) -> String {
        let word = |word: &str| {
            let bare = word.trim_end_matches(')');
            let digits = Some(bare).filter(|b| b.len() == 16);
            match digits.and_then(|b| u64::from_str_radix(b, 16).ok()) {
                // No place is meant: a not-a-number's digits have an f.
                Some(bits) if f64::from_bits(bits).is_nan() => word.replace(bare, &hex(f64::NAN)),
                _ => word.to_string(),
            }
        };
        line.split(' ').map(word).collect::<Vec<_>>().join(" ")
    }

    /// A form has one spelling: what the oracle's reader takes is what its form is
    /// written as, so that it takes nothing else.
    #[test]
    fn forms_have_one_spelling() {
        let (mut taken, mut not) = (0, 0);
        for seed in 0..60 {
            for kind in 0..9 {
                for line in made(kind, &mut Rng::new(seed)).split(|b| *b == b'\n') {
                    let Some(form) = read(line) else {
                        not += 1;
                        continue;
                    };
                    taken += 1;
                    let text = String::from_utf8(line.to_vec()).expect("letters");
                    assert_eq!(written(&form), one_nan(&text));
                }
            }
        }
        assert!(taken > 20_000 && not > 4000, "{taken} {not}");
    }

    #[test]
    fn every_generator() {
        for seed in 0..4 {
            for (kind, (name, _)) in KINDS.iter().enumerate() {
                let bytes = made(kind, &mut Rng::new(seed));
                assert_eq!(bytes, made(kind, &mut Rng::new(seed)));
                assert!(bytes.len() < 8_000_000, "{} of {name}", bytes.len());
            }
        }
        let feeds = |bytes: &[u8]| bytes.iter().filter(|b| **b == b'\n').count();
        assert!(feeds(&made(12, &mut Rng::new(1))) > 65_536);
        let longest = |bytes: &[u8]| bytes.split(|b| *b == b'\n').map(<[u8]>::len).max();
        assert!((0..20).any(|seed| longest(&made(10, &mut Rng::new(seed))) > Some(1 << 20)));
    }

    /// No damage fails on few bytes or none.
    #[test]
    fn damages() {
        for seed in 0..3000 {
            let rng = &mut Rng::new(seed);
            let mut bytes = b"(asked)\n(take-out 1)\n"[rng.below(22)..].to_vec();
            for _ in 0..20 {
                damage(rng, &mut bytes);
            }
        }
    }
}
