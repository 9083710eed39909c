//! `numbers N`: doubles of every kind, each a line of its digits, to a program that
//! writes its 14 columns of a page; and a fixed list of them.

use std::io::{self, BufWriter, Write};
use std::path::Path;
use std::process::Command;

use crate::rng::Rng;
use crate::stream::{self, Lines};
use oracle::page;

/// How many doubles the fixed list has.
const LISTED: usize = 2000;

const SIGN: u64 = 1 << 63;

// ---- the doubles

/// The double that is so many places further from zero.
fn further(x: f64, places: i64) -> f64 {
    f64::from_bits(x.to_bits().saturating_add_signed(places))
}

fn beside(rng: &mut Rng, x: f64, most: usize) -> f64 {
    further(x, rng.between(0, 2 * most) as i64 - most as i64)
}

/// Any digits behind a power of two from `low` to `high`.
fn around(rng: &mut Rng, low: i64, high: i64) -> f64 {
    let exponent = (low + 1023) as u64 + rng.below((high - low + 1) as usize) as u64;
    f64::from_bits(exponent << 52 | rng.bits() >> 12)
}

/// A whole number of up to so many bits, small ones as likely as large.
fn whole(rng: &mut Rng, bits: usize) -> u64 {
    let length = rng.between(1, bits) as u32;
    rng.bits() >> (64 - length)
}

/// Ties are the odd multiples of 1/16, and nothing else is one.
fn tie(rng: &mut Rng) -> f64 {
    (whole(rng, 38) | 1) as f64 / 16.0
}

/// Next to an odd number of half thousandths: most of these are no ties.
fn half(rng: &mut Rng) -> f64 {
    (2 * whole(rng, 44) + 1) as f64 / 2000.0
}

/// Half a thousandth below a round number.
fn carry(rng: &mut Rng) -> f64 {
    let power = 10u64.pow(rng.below(12) as u32);
    (2000 * power * rng.between(1, 9) as u64 - 1) as f64 / 2000.0
}

/// Where a number with a minus and one without become too wide, and round numbers there.
const LIMITS: [f64; 4] = [999_999_999.999_5, 9_999_999_999.999_5, 1e9, 1e10];

const SPECIAL: [u64; 10] = [
    0,
    1,
    0x000f_ffff_ffff_ffff,
    0x0010_0000_0000_0000,
    0x7fef_ffff_ffff_ffff,
    0x7ff0_0000_0000_0000,
    0x7ff0_0000_0000_0001,
    0x7ff7_ffff_ffff_ffff,
    0x7ff8_0000_0000_0000,
    0x7fff_ffff_ffff_ffff,
];

/// The bits of a double of any kind, with any sign.
pub fn pattern(rng: &mut Rng) -> u64 {
    let magnitude = match rng.below(16) {
        0..=1 => return rng.bits(),
        // About 1e-5 to 1e12, and the part of it that is shown with a few digits.
        2..=3 => around(rng, -17, 40),
        4..=5 => around(rng, -11, 17),
        6 => tie(rng),
        7 => further(tie(rng), rng.pick(&[-1, 1])),
        8..=9 => {
            let x = half(rng);
            beside(rng, x, 2)
        }
        10 => {
            let x = carry(rng);
            beside(rng, x, 2)
        }
        11..=12 => {
            let x = rng.pick(&LIMITS);
            beside(rng, x, 8)
        }
        13 => f64::from_bits(rng.bits() >> 12 >> rng.below(52)),
        14 => around(rng, -130, -9),
        _ => f64::from_bits(rng.pick(&SPECIAL)),
    };
    magnitude.to_bits() | rng.bits() & SIGN
}

/// A double of any kind that a run may end well with: finite, and so is its square.
pub fn edge(rng: &mut Rng) -> f64 {
    loop {
        let x = f64::from_bits(pattern(rng));
        if x.abs() < 1e100 {
            return x;
        }
    }
}

/// The bits of the vectors, each with its columns.
fn vectors() -> Vec<(u64, &'static str)> {
    let lines = include_str!("../../vectors/l1-numbers").lines();
    lines
        .map(|line| {
            let (digits, columns) = line.split_once(' ').expect("digits and columns");
            let bits = u64::from_str_radix(digits, 16).expect("digits");
            (bits, columns.trim_matches('|'))
        })
        .collect()
}

/// The fixed list: the vectors, then each kind in turn, then random ones.
pub fn list() -> Vec<u64> {
    let mut list: Vec<u64> = vectors().into_iter().map(|v| v.0).collect();
    // Each with its neighbours, so many places further, and below zero too.
    let mut about = |x: f64, places: &[i64]| {
        for bits in places.iter().map(|places| further(x, *places).to_bits()) {
            list.extend([bits, bits | SIGN]);
        }
    };
    for k in 0..48 {
        about((2 * k + 1) as f64 / 16.0, &[0]);
    }
    for power in 3..38 {
        about(((1u64 << power) + 1) as f64 / 16.0, &[-1, 0, 1]);
    }
    for k in (0..40).chain([499, 500, 999, 1000, 123_456, 999_999]) {
        about((2 * k + 1) as f64 / 2000.0, &[-1, 0, 1]);
    }
    for power in 0..12 {
        about((2000 * 10u64.pow(power) - 1) as f64 / 2000.0, &[-2, -1, 0, 1, 2]);
    }
    for x in LIMITS {
        about(x, &(-8..=8).collect::<Vec<i64>>());
    }
    // The least and the largest digits behind each power about the half thousandth, about
    // the width, and where a shift of a pattern's digits might end.
    for power in (-14..=1).chain(28..=36).chain([-78, -77, -76, -75, 51, 52, 53, 63, 64]) {
        about(f64::from_bits(((power + 1023) as u64) << 52), &[0, 1, (1 << 52) - 1]);
    }
    for bits in SPECIAL {
        about(f64::from_bits(bits), &[0]);
    }
    let rng = &mut Rng::new(1);
    while list.len() < LISTED {
        list.push(pattern(rng));
    }
    list
}

/// Writes the fixed list and its columns as `stdin` and `stdout`.
pub fn write(directory: &Path) -> io::Result<()> {
    std::fs::create_dir_all(directory)?;
    let file = |name: &str| std::fs::File::create(directory.join(name)).map(BufWriter::new);
    let (mut input, mut output) = (file("stdin")?, file("stdout")?);
    let mut counts = Counts::default();
    for bits in list() {
        let due = page::field(Some(f64::from_bits(bits)));
        counts.add(bits, &due);
        writeln!(input, "{bits:016x}")?;
        writeln!(output, "{due}")?;
    }
    counts.print();
    input.flush()?;
    output.flush()
}

// ---- the comparison

const KINDS: [&str; 6] =
    ["fixed", "fixed with a minus", "below zero, shown as zero", "hyphen", "hashes", "ties"];

#[derive(Default)]
struct Counts([u64; KINDS.len()]);

impl Counts {
    fn add(&mut self, bits: u64, due: &str) {
        let (x, text) = (f64::from_bits(bits), due.trim_start());
        let hyphen = text == "-";
        let fixed = text.contains('.');
        let minus = fixed && text.starts_with('-');
        let kinds = [
            fixed,
            minus,
            fixed && !minus && x < 0.0,
            hyphen,
            !fixed && !hyphen,
            fixed && (x * 16.0).abs() % 2.0 == 1.0,
        ];
        for (count, is) in self.0.iter_mut().zip(kinds) {
            *count += is as u64;
        }
    }

    /// Prints the counts; says whether every kind occurred.
    fn print(&self) -> bool {
        for (name, count) in KINDS.iter().zip(self.0) {
            println!("{name:<36}{count:>12}{}", if count == 0 { "  never" } else { "" });
        }
        self.0.iter().all(|count| *count > 0)
    }
}

/// Judges a program's lines; gives the counts and how many lines differ.
fn judge(lines: &mut Lines, count: u64, seed: u64) -> (Counts, u64) {
    let mut rng = Rng::new(seed);
    let mut counts = Counts::default();
    let made = || {
        let bits = pattern(&mut rng);
        let due = page::field(Some(f64::from_bits(bits)));
        counts.add(bits, &due);
        (bits, due)
    };
    let named = |index, bits: &u64| format!("number {index} of seed {seed}, {bits:016x}");
    let differ = lines.judge(count, made, named);
    (counts, differ)
}

/// Plays doubles of a seed to a program; says whether nothing differs and every kind
/// occurred.  The writer and the judge make the same ones, so that none are kept.
pub fn compare(command: Command, count: u64, seed: u64) -> bool {
    let write = move |pipe: &mut dyn Write| {
        let mut rng = Rng::new(seed);
        (0..count).try_for_each(|_| writeln!(pipe, "{:016x}", pattern(&mut rng)))
    };
    let judged = |lines: &mut Lines| judge(lines, count, seed);
    let (counts, differ, ended) = stream::play_counted(command, write, judged);
    let all = counts.print();
    stream::conclude(count, differ, ended) && all
}

#[cfg(test)]
mod tests {
    use super::*;
    use crate::stream::END;
    use std::sync::mpsc;

    fn field(x: f64) -> String {
        page::field(Some(x))
    }

    #[test]
    fn vectors_hold() {
        assert_eq!(vectors().len(), 40);
        for (bits, columns) in vectors() {
            assert_eq!(field(f64::from_bits(bits)), columns, "{bits:016x}");
        }
        assert_eq!(page::field(None), field(f64::NAN));
    }

    /// The rule once more, on the digits of the exact decimal, which has 1,074 at most
    /// behind the point.
    fn decimals(x: f64) -> String {
        let text = format!("{:.1074}", x.abs());
        let (before, behind) = text.split_once('.').expect("a point");
        let mut digits: Vec<u8> = [before, &behind[..3]].concat().into_bytes();
        let rest = behind[3..].trim_end_matches('0');
        let odd = digits[digits.len() - 1] % 2 == 1;
        if rest > "5" || rest == "5" && odd {
            let nines = digits.iter().rev().take_while(|d| **d == b'9').count();
            let kept = digits.len() - nines;
            digits[kept..].fill(b'0');
            match kept {
                0 => digits.insert(0, b'1'),
                _ => digits[kept - 1] += 1,
            }
        }
        let minus = x < 0.0 && digits.iter().any(|d| *d != b'0');
        digits.insert(digits.len() - 3, b'.');
        let digits = String::from_utf8(digits).expect("digits");
        if minus {
            format!("-{digits}")
        } else {
            digits
        }
    }

    #[test]
    fn rule_by_decimals() {
        let rng = &mut Rng::new(7);
        let random: Vec<u64> = (0..40_000).map(|_| pattern(rng)).collect();
        for bits in list().into_iter().chain(random) {
            let x = f64::from_bits(bits);
            let due = if x.is_finite() { decimals(x) } else { "-".to_string() };
            let due = if due.len() > 14 { "#".repeat(14) } else { due };
            assert_eq!(field(x), format!("{due:>14}"), "{bits:016x}");
        }
    }

    type Rule = (&'static str, fn(f64) -> String);

    fn shown(x: f64, minus: bool, thousandths: f64) -> String {
        let sign = if minus { "-" } else { "" };
        let whole = (thousandths / 1000.0).floor();
        let text = format!("{sign}{whole:.0}.{:03.0}", thousandths - whole * 1000.0);
        match text.len() {
            _ if !x.is_finite() => format!("{:>14}", "-"),
            0..=14 => format!("{text:>14}"),
            _ => "#".repeat(14),
        }
    }

    /// Rules that are wrong, each in one way.
    const WRONG: [Rule; 10] = [
        ("half up", |x| {
            if x.is_finite() && (x * 16.0).abs() % 2.0 == 1.0 {
                field(further(x, 1))
            } else {
                field(x)
            }
        }),
        ("cut", |x| {
            let text = format!("{:.1074}", x.abs());
            let cut = text
                .find('.')
                .map_or(0.0, |at| text[..at + 4].replace('.', "").parse().expect("thousandths"));
            shown(x, x < 0.0 && cut > 0.0, cut)
        }),
        ("rounded in doubles, away from zero", |x| {
            let thousandths = (x.abs() * 1000.0).round();
            shown(x, x < 0.0 && thousandths > 0.0, thousandths)
        }),
        ("rounded in doubles, to the even", |x| {
            let thousandths = (x.abs() * 1000.0).round_ties_even();
            shown(x, x < 0.0 && thousandths > 0.0, thousandths)
        }),
        ("a half added in doubles", |x| {
            let thousandths = (x.abs() * 1000.0 + 0.5).floor();
            shown(x, x < 0.0 && thousandths > 0.0, thousandths)
        }),
        ("width before rounding", |x| {
            let limit = if x < 0.0 { 1e9 } else { 1e10 };
            if x.is_finite() && x.abs() < limit {
                format!("{:>14}", decimals(x))
            } else {
                field(x)
            }
        }),
        ("width without the minus", |x| {
            let right = field(x.abs());
            match right.find(|c| c != ' ') {
                Some(0) if x < 0.0 && right.contains('.') => format!("-{right}"),
                _ => field(x),
            }
        }),
        ("minus before zero", |x| {
            let right = field(x);
            if x.is_sign_negative() && right.ends_with(" 0.000") {
                right.replace(" 0.000", "-0.000")
            } else {
                right
            }
        }),
        ("hyphen at the left", |x| {
            let right = field(x);
            if right.trim_start() == "-" {
                format!("{:<14}", "-")
            } else {
                right
            }
        }),
        ("hashes of the number's length", |x| {
            let right = field(x);
            if right.starts_with('#') {
                "#".repeat(decimals(x).len())
            } else {
                right
            }
        }),
    ];

    /// The fixed list and random ones tell every wrong rule apart.
    #[test]
    fn wrong_rules() {
        let kept = list();
        let rng = &mut Rng::new(1);
        let random: Vec<u64> = (0..20_000).map(|_| pattern(rng)).collect();
        for (name, rule) in WRONG {
            for doubles in [&kept, &random] {
                let wrong = |bits: &&u64| {
                    let x = f64::from_bits(**bits);
                    rule(x) != field(x)
                };
                let differ = doubles.iter().filter(wrong).count();
                assert!((1..doubles.len() / 2).contains(&differ), "{name}: {differ}");
            }
        }
    }

    /// What a program says, in pieces.
    fn said(output: Vec<u8>, pieces: usize) -> Lines {
        let (sender, chunks) = mpsc::channel();
        output.chunks(pieces).for_each(|piece| sender.send(piece.to_vec()).expect("a reader"));
        Lines::new(chunks)
    }

    fn output(count: u64, seed: u64, rule: fn(f64) -> String) -> Vec<u8> {
        let rng = &mut Rng::new(seed);
        let mut bytes = Vec::new();
        for _ in 0..count {
            bytes.extend(rule(f64::from_bits(pattern(rng))).into_bytes());
            bytes.push(b'\n');
        }
        bytes
    }

    #[test]
    fn judgements() {
        let judged = |bytes: Vec<u8>, pieces| judge(&mut said(bytes, pieces), 3000, 5).1;
        let right = output(3000, 5, field);
        for pieces in [1, 7, 64, 1 << 16] {
            assert_eq!(judged(right.clone(), pieces), 0);
        }
        let mut lines = said(right.clone(), 100);
        let (counts, _) = judge(&mut lines, 3000, 5);
        assert!(counts.0.iter().all(|count| *count > 0), "{:?}", counts.0);
        assert_eq!(lines.next(), Err(END));
        for (name, rule) in WRONG {
            assert!(judged(output(3000, 5, rule), 100) > 0, "{name}");
        }
        // Cut off, with a byte too many, and without line feeds.
        assert_eq!(judged(right[..15 * 2000].to_vec(), 100), 1000);
        assert_eq!(judged(right[..15 * 2000 + 3].to_vec(), 100), 1000);
        assert_eq!(judged([b"x", right.as_slice()].concat(), 100), 1);
        assert_eq!(judged(vec![b' '; 10_000], 100), 3000);
    }

    /// The files kept beside this program are those that it writes.
    #[test]
    fn kept_list() {
        let kept = Path::new(env!("CARGO_MANIFEST_DIR")).join("../samples/numbers");
        let read = |file: &str| std::fs::read_to_string(kept.join(file)).expect(file);
        let digits: String = list().iter().map(|bits| format!("{bits:016x}\n")).collect();
        let columns: String =
            list().iter().map(|bits| field(f64::from_bits(*bits)) + "\n").collect();
        assert!((read("stdin"), read("stdout")) == (digits, columns));
    }

    #[test]
    fn the_list() {
        let list = list();
        assert_eq!(list.len(), LISTED);
        assert!(list.iter().zip(vectors()).all(|(bits, vector)| *bits == vector.0));
        let mut counts = Counts::default();
        list.iter().for_each(|bits| counts.add(*bits, &field(f64::from_bits(*bits))));
        assert!(counts.0.iter().all(|count| *count > 30), "{:?}", counts.0);
    }
}
