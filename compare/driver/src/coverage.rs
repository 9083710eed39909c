//! `coverage N`: coverage files (L2), sound and damaged, each a line of its bytes' digits,
//! to a program that writes the table or the refusal of each; and a fixed list of them.

use std::io::{self, BufWriter, Write};
use std::path::Path;
use std::process::Command;

use crate::rng::Rng;
use crate::stream::{self, Lines};
use estimator::{Refusal, Row};
use oracle::coverage::{self, PLACES, ROWS, WHOLE};

/// How many files the fixed list has, and how long its random ones may be.
const LISTED: usize = 1000;
const SHORT: usize = 300;

// ---- written numbers

/// A whole number over a power of ten.
#[derive(Debug, Clone, Copy, PartialEq)]
struct Written {
    whole: u64,
    places: usize,
}

impl Written {
    fn plain(self) -> String {
        let digits = format!("{:0>1$}", self.whole, self.places + 1);
        let (before, behind) = digits.split_at(digits.len() - self.places);
        if behind.is_empty() {
            before.to_string()
        } else {
            format!("{before}.{behind}")
        }
    }

    /// With zeros before and behind that change nothing.
    fn text(mut self, rng: &mut Rng) -> String {
        if rng.chance(0.2) {
            let more = rng.between(0, PLACES - self.places);
            for _ in 0..more {
                if self.whole * 10 < WHOLE {
                    self.whole *= 10;
                    self.places += 1;
                }
            }
        }
        let zeros = match rng.below(40) {
            0..=3 => rng.between(1, 3),
            4 => rng.between(4, 40),
            5 if rng.chance(0.05) => rng.between(100, 3000),
            _ => 0,
        };
        "0".repeat(zeros) + &self.plain()
    }

    /// Both are doubles, so that one rounded division gives the nearest.
    fn double(self) -> f64 {
        self.whole as f64 / 10u64.pow(self.places as u32) as f64
    }
}

const LEVELS: [(u64, usize); 8] =
    [(5, 1), (8, 1), (9, 1), (95, 2), (99, 2), (999, 3), (68, 2), (9973, 4)];

fn level(rng: &mut Rng) -> Written {
    let places = rng.between(1, PLACES);
    let one = 10u64.pow(places as u32);
    let near = 1 + rng.bits() % (one - 1).min(9);
    match rng.below(6) {
        0 => Written { whole: near, places },
        1 => Written { whole: one - near, places },
        2..=3 => {
            let (whole, places) = rng.pick(&LEVELS);
            Written { whole, places }
        }
        _ => Written { whole: 1 + rng.bits() % (one - 1), places },
    }
}

fn factor(rng: &mut Rng) -> Written {
    let places = rng.between(0, PLACES);
    let length = rng.between(1, 53) as u32;
    let whole = match rng.below(6) {
        0 => WHOLE - 1 - rng.below(10) as u64,
        1 => rng.between(1, 20) as u64,
        2..=3 => (rng.real(0.2, 5.0) * 10f64.powi(places as i32)) as u64,
        _ => rng.bits() >> (64 - length),
    };
    Written { whole: whole.max(1), places }
}

/// So many numbers that rise as doubles.
fn rising(rng: &mut Rng, count: usize, made: fn(&mut Rng) -> Written) -> Vec<Written> {
    let mut numbers: Vec<Written> = Vec::new();
    while numbers.len() < count {
        let next = made(rng);
        let place = numbers.partition_point(|number| number.double() < next.double());
        if numbers.get(place).is_none_or(|number| number.double() > next.double()) {
            numbers.insert(place, next);
        }
    }
    numbers
}

fn line(level: &str, factor: &str) -> Vec<u8> {
    format!("(level {level} {factor})").into_bytes()
}

/// A file of lines, each ended.
fn ended(lines: &[Vec<u8>]) -> Vec<u8> {
    lines.iter().flat_map(|line| line.iter().chain(b"\n")).copied().collect()
}

fn whole_file(rows: &[Vec<u8>]) -> Vec<Vec<u8>> {
    let mut lines = vec![b"(coverage".to_vec()];
    lines.extend_from_slice(rows);
    lines.push(b")".to_vec());
    lines
}

/// A factor that moves an interval's ends about the bounds.
fn usual(rng: &mut Rng) -> Written {
    let places = rng.between(1, PLACES);
    let whole = (rng.scale(-1.5, 1.2) * 10f64.powi(places as i32)) as u64;
    Written { whole: whole.clamp(1, WHOLE - 1), places }
}

/// An accepted file with so many rows, its factors the usual ones or any.
pub fn sound(rng: &mut Rng, count: usize, any: bool) -> Vec<u8> {
    let levels = rising(rng, count, level);
    let factors = rising(rng, count, if any { factor } else { usual });
    let rows = levels.iter().zip(factors);
    let rows: Vec<Vec<u8>> = rows.map(|(l, f)| line(&l.text(rng), &f.text(rng))).collect();
    ended(&whole_file(&rows))
}

// ---- faults

const NOTHING: [&str; 9] =
    ["0", "0.0", "00", "0.000", "0.000000000000000", "1", "1.0", "1.000000000000000", "001"];

/// A value outside its range, in one row or in several.
fn outside(rng: &mut Rng, rows: &mut [[String; 2]]) {
    for _ in 0..rng.pick(&[1, 1, 1, 2, 3]) {
        let at = rng.below(rows.len());
        if rng.chance(0.6) {
            rows[at][0] = match rng.below(4) {
                0 => factor(rng).text(rng),
                1 => rng.pick(&["2", "1.5", "1.000000000000001", "9007199254740991"]).to_string(),
                _ => rng.pick(&NOTHING).to_string(),
            };
        } else {
            rows[at][1] = rng.pick(&NOTHING[..5]).to_string();
        }
    }
}

/// A row that does not rise: equal in another way of writing, equal as a double alone,
/// falling, exchanged.
fn flat(rng: &mut Rng, rows: &mut [[String; 2]]) {
    if rows.len() < 2 {
        return;
    }
    for _ in 0..rng.pick(&[1, 1, 1, 2]) {
        let at = rng.between(1, rows.len() - 1);
        let part = rng.below(2);
        match rng.below(5) {
            0 => rows[at][part] = rows[at - 1][part].clone(),
            1 => rows[at][part] = format!("0{}", rows[at - 1][part]),
            2 => rows.swap(at - 1, at),
            3 => {
                // The next decimal is often the same double.
                let whole = WHOLE - 2 - rng.bits() % (WHOLE / 2);
                let places = rng.between(0, PLACES);
                rows[at - 1][1] = Written { whole, places }.plain();
                rows[at][1] = Written { whole: whole + 1, places }.plain();
            }
            _ => {
                let first = rows[0][part].clone();
                rows[at][part] = first;
            }
        }
    }
}

/// A word that is not a written number.
fn no_number(rng: &mut Rng) -> String {
    let any = factor(rng);
    let text = any.plain();
    match rng.below(16) {
        0 => String::new(),
        1 => format!(".{}", any.whole),
        2 => format!("{}.", any.whole),
        3 => format!("-{text}"),
        4 => format!("+{text}"),
        5 => format!("{text}e0"),
        6 => text.replacen('.', "..", 1) + ".5",
        7 => text.replace('.', ",") + ",5",
        // 16 places, and from 2^53 on.
        8 => format!("0.{:0>16}", any.whole % 10u64.pow(16)),
        9 => (WHOLE + rng.bits() % rng.pick(&[1, 2, 100])).to_string(),
        10 => {
            let digits = (WHOLE + rng.bits() % rng.pick(&[1, 10u64.pow(15)])).to_string();
            let at = rng.between(1, digits.len() - 1);
            format!("{}.{}", &digits[..at], &digits[at..])
        }
        11 => format!("{text}{}", "0".repeat(20)),
        12 => format!("{}{}", any.whole.max(1), rng.bits()),
        13 => rng.pick(&["inf", "nan", "NaN", "infinity", "0x1", "1_0", "none", "."]).to_string(),
        14 => format!("{text} {text}"),
        _ => format!("{text}{}", rng.pick(&["\r", "\t", "\0", " ", ")", "(", "f", "\u{e9}"])),
    }
}

/// Spoils one line in its letters.
fn spoil(rng: &mut Rng, line: &mut Vec<u8>) {
    let at = rng.below(line.len() + 1);
    match rng.below(12) {
        0 => line.insert(0, b' '),
        1 => line.push(b' '),
        2 => line.push(b'\r'),
        3 => line.insert(at, rng.pick(b" \t\r\0().0x-+e")),
        4 => {
            if let Some(blank) = line.iter().position(|b| *b == b' ') {
                line.insert(blank, b' ');
            } else {
                line.push(b'(');
            }
        }
        5 => line.make_ascii_uppercase(),
        6 => line.clear(),
        7 => drop(line.pop()),
        8 => line.iter_mut().for_each(|b| *b = if *b == b' ' { b'\t' } else { *b }),
        9 => *line = rng.pick(&["(", "()", "x", "(level)", "(level 0.5)", "( coverage"]).into(),
        10 => *line = rng.pick(&["(coverage", ")", "(level 0.5 2)", "(coverage)", "))"]).into(),
        _ => {
            if let Some(byte) = line.get_mut(at) {
                *byte = rng.bits() as u8;
            }
        }
    }
}

/// Another number of lines, or another order.
fn reorder(rng: &mut Rng, lines: &mut Vec<Vec<u8>>) {
    let at = rng.below(lines.len());
    let other = rng.below(lines.len());
    match rng.below(7) {
        0 => drop(lines.remove(at)),
        1 => lines.insert(at, lines[at].clone()),
        2 => lines.swap(at, other),
        3 => lines.insert(at, lines[other].clone()),
        4 => lines.insert(at, Vec::new()),
        5 => {
            // More lines behind the last.
            let more = rng.pick(&["", "x", ")", "(coverage", "(level 0.5 2)", " "]);
            lines.push(more.into());
        }
        _ => lines.extend(lines.clone()),
    }
}

/// Bytes changed, put in and taken out.
fn damage(rng: &mut Rng, bytes: &mut Vec<u8>) {
    for _ in 0..rng.pick(&[1, 1, 1, 2, 5]) {
        let byte = match rng.below(3) {
            0 => rng.bits() as u8,
            1 => rng.pick(b"0123456789.  \n()"),
            _ => rng.pick(b"\r\n\t\0 LC-+eE_,"),
        };
        let at = rng.below(bytes.len() + 1);
        match rng.below(3) {
            0 => bytes.insert(at, byte),
            1 if at < bytes.len() => drop(bytes.remove(at)),
            _ if at < bytes.len() => bytes[at] = byte,
            _ => bytes.push(byte),
        }
    }
}

/// A file of any kind.
pub fn file(rng: &mut Rng) -> Vec<u8> {
    let kind = rng.below(16);
    let count = if kind == 11 { rng.between(ROWS + 1, ROWS + 3) } else { rng.between(1, ROWS) };
    let levels = rising(rng, count, level);
    let factors = rising(rng, count, factor);
    let mut rows: Vec<[String; 2]> =
        levels.iter().zip(&factors).map(|(l, f)| [l.text(rng), f.text(rng)]).collect();
    match kind {
        0..=3 => {}
        4..=5 => outside(rng, &mut rows),
        6..=7 => flat(rng, &mut rows),
        8 => {
            outside(rng, &mut rows);
            flat(rng, &mut rows);
        }
        // A fault of the form is told before all others.
        _ if rng.chance(0.3) => {
            outside(rng, &mut rows);
            flat(rng, &mut rows);
        }
        _ => {}
    }
    if kind == 9 || kind == 10 {
        let (at, part) = (rng.below(rows.len()), rng.below(2));
        rows[at][part] = no_number(rng);
    }
    let rows: Vec<Vec<u8>> = rows.iter().map(|[level, factor]| line(level, factor)).collect();
    let mut lines = whole_file(&rows);
    match kind {
        11 if rng.chance(0.3) => drop(lines.pop()),
        12 => {
            let at = rng.below(lines.len());
            spoil(rng, &mut lines[at]);
        }
        13 => reorder(rng, &mut lines),
        14 if rng.chance(0.1) => lines = whole_file(&[]),
        _ => {}
    }
    let mut bytes = ended(&lines);
    match kind {
        14 => {
            // Cut off anywhere, or at the end of a line, with its line feed or without.
            let mut length = rng.below(bytes.len() + 1);
            if rng.chance(0.5) {
                let feeds: Vec<usize> = (0..bytes.len()).filter(|at| bytes[*at] == b'\n').collect();
                length = rng.pick(&feeds) + rng.below(2);
            }
            bytes.truncate(length);
        }
        15 if rng.chance(0.1) => {
            let length = rng.below(80);
            bytes = (0..length).map(|_| rng.bits() as u8).collect();
        }
        15 => damage(rng, &mut bytes),
        _ => {}
    }
    bytes
}

/// Zeros before a number, so that the file is longer than what is read at once.
pub fn lengthen(rng: &mut Rng, bytes: &mut Vec<u8>) {
    let first = |at: &usize| *at > 0 && bytes[*at - 1] == b' ' && bytes[*at].is_ascii_digit();
    let firsts: Vec<usize> = (0..bytes.len()).filter(first).collect();
    if firsts.is_empty() {
        return;
    }
    let at = rng.pick(&firsts);
    let zeros = match rng.below(3) {
        0 => rng.between(3900, 4200),
        1 => rng.between(1, 9000),
        _ => rng.between(10_000, 70_000),
    };
    bytes.splice(at..at, std::iter::repeat_n(b'0', zeros));
}

/// A file that is played: of any kind, now and then a long one.
fn played(rng: &mut Rng) -> Vec<u8> {
    let mut bytes = file(rng);
    if rng.chance(0.001) {
        lengthen(rng, &mut bytes);
    }
    bytes
}

// ---- the fixed list

/// A file of the vectors: its name, its bytes and the line that it gets.
struct Vector {
    name: &'static str,
    file: Vec<u8>,
    due: String,
}

fn vectors() -> Vec<Vector> {
    let vectors = Path::new(env!("CARGO_MANIFEST_DIR")).join("../vectors");
    let vector = |line: &'static str| {
        let (name, due) = line.split_once(' ').expect("a name and what it gets");
        let due = match due.strip_prefix("table ") {
            Some(rows) => {
                let row = |row: &str| format!(" ({})", row.replace('/', " "));
                format!("(coverage{})", rows.split(' ').map(row).collect::<String>())
            }
            None => due.to_string(),
        };
        let file = std::fs::read(vectors.join("l2-files").join(name)).expect(name);
        Vector { name, file, due }
    };
    include_str!("../../vectors/l2-files.expected").lines().map(vector).collect()
}

/// Written numbers and what is almost one.
const WORDS: [&str; 48] = [
    "0",
    "00",
    "0.0",
    "1",
    "0.5",
    "00.5",
    "0.50",
    "2",
    "1.5",
    "10",
    "0.999999999999999",
    "0.000000000000001",
    "0.0000000000000001",
    "0.0000000000000000",
    "0.5000000000000000",
    "9007199254740991",
    "9007199254740992",
    "9007199254740993",
    "9.007199254740991",
    "9.007199254740992",
    "10.000000000000000",
    "90071992547409910",
    "900719925474099.1",
    "900719925474099.2",
    "0000000000000000000000009007199254740991",
    "18446744073709551616.5",
    "18446744073709551617",
    "1.0000000000000000000",
    "",
    ".",
    ".5",
    "5.",
    "0.5.",
    "0..5",
    "0.5.5",
    "-0.5",
    "+0.5",
    "0.5e0",
    "5e-1",
    "0,5",
    "0x1",
    "inf",
    "nan",
    "0.5\r",
    "0.5\t",
    "0.5\0",
    "0_5",
    "O.5",
];

/// The fixed list: the vectors, then each fault at each place, then random ones.
pub fn list() -> Vec<Vec<u8>> {
    let mut list: Vec<Vec<u8>> = vectors().into_iter().map(|vector| vector.file).collect();
    let rows = |count: usize| -> Vec<Vec<u8>> {
        (1..=count).map(|i| line(&format!("0.{i:02}"), &i.to_string())).collect()
    };
    let full = whole_file(&rows(ROWS));
    for count in 0..=ROWS + 3 {
        list.push(ended(&whole_file(&rows(count))));
        list.push(ended(&whole_file(&rows(count))[..count + 1]));
    }
    // A value in each row of eight; row i stands at place i of the lines.
    for i in 1..=ROWS {
        let mut put = |level: &str, factor: &str| {
            let mut lines = full.clone();
            lines[i] = line(level, factor);
            list.push(ended(&lines));
        };
        let (level, own) = (format!("0.{i:02}"), i.to_string());
        put("0", &own);
        put("1", &own);
        put(&level, "0.00");
        put("1.5", "0");
        // Equal to the row's before, in another way of writing, and below it.
        let (before, last) = (format!("0.{:02}0", i - 1), format!("{}.0", i - 1));
        put(&before, &own);
        put(&level, &last);
        put(&before, &last);
        put("0.001", &own);
        put(&level, "0.001");
        put(&level, "100");
        put("x", &own);
    }
    // Two faults at once, in either order.
    for (first, second) in [(1, 3), (3, 1), (2, 8), (8, 2), (2, 3), (7, 8)] {
        for (a, b) in [("0", "0.005"), ("0.005", "0"), ("0", "x"), ("0.005", "x"), ("1", "2")] {
            let mut lines = full.clone();
            lines[first] = line(a, &first.to_string());
            lines[second] = line(b, &second.to_string());
            list.push(ended(&lines));
        }
    }
    // Each line of ten.
    for at in 0..full.len() {
        let mut put = |change: &dyn Fn(&mut Vec<Vec<u8>>)| {
            let mut lines = full.clone();
            change(&mut lines);
            list.push(ended(&lines));
        };
        put(&|lines| drop(lines.remove(at)));
        put(&|lines| lines.insert(at, lines[at].clone()));
        put(&|lines| lines.insert(at, Vec::new()));
        put(&|lines| lines[at].push(b'\r'));
        put(&|lines| lines[at].push(b' '));
        put(&|lines| lines.truncate(at));
        let feeds: usize = full[..at].iter().map(|line| line.len() + 1).sum();
        list.push(ended(&full)[..feeds + full[at].len()].to_vec());
    }
    for more in ["\n", "x", "x\n", ")\n", "(coverage\n", "\0", " \n", "\r\n"] {
        list.push([ended(&full), more.as_bytes().to_vec()].concat());
        list.push([ended(&whole_file(&rows(1))), more.as_bytes().to_vec()].concat());
    }
    for word in WORDS {
        list.push(ended(&whole_file(&[line(word, "2")])));
        list.push(ended(&whole_file(&[line("0.5", word)])));
    }
    // Each byte of a small one.
    let small = ended(&whole_file(&[line("0.5", "12")]));
    for at in 0..small.len() {
        list.push(small[..at].to_vec());
        let mut put = |change: &dyn Fn(&mut Vec<u8>)| {
            let mut bytes = small.clone();
            change(&mut bytes);
            list.push(bytes);
        };
        put(&|bytes| {
            bytes.remove(at);
        });
        put(&|bytes| bytes.insert(at, bytes[at]));
        put(&|bytes| bytes[at] = b' ');
        put(&|bytes| bytes[at] = b'0');
        put(&|bytes| bytes[at] ^= 0x80);
    }
    // Neighbours in decimals.
    for i in 0..12 {
        let pair = [0, 1].map(|more| format!("8.{:015}", i + more));
        list.push(ended(&whole_file(&[line("0.5", &pair[0]), line("0.6", &pair[1])])));
        let pair = [0, 1].map(|more| format!("{}.{}", 600_000_000_000_000u64, i + more));
        list.push(ended(&whole_file(&[line("0.5", &pair[0]), line("0.6", &pair[1])])));
    }
    let rng = &mut Rng::new(1);
    while list.len() < LISTED {
        let next = file(rng);
        if next.len() <= SHORT {
            list.push(next);
        }
    }
    list
}

fn put_digits(pipe: &mut dyn Write, file: &[u8], line: &mut Vec<u8>) -> io::Result<()> {
    line.clear();
    let digit = |value: u8| b"0123456789abcdef"[value as usize];
    line.extend(file.iter().flat_map(|byte| [digit(byte >> 4), digit(byte & 15)]));
    line.push(b'\n');
    pipe.write_all(line)
}

/// Writes the fixed list and what each gets as `stdin` and `stdout`.
pub fn write(directory: &Path) -> io::Result<()> {
    std::fs::create_dir_all(directory)?;
    let create = |name: &str| std::fs::File::create(directory.join(name)).map(BufWriter::new);
    let (mut input, mut output) = (create("stdin")?, create("stdout")?);
    let (mut counts, mut line) = (Counts::default(), Vec::new());
    for file in list() {
        let loaded = coverage::load(&file);
        counts.add(&file, &loaded);
        put_digits(&mut input, &file, &mut line)?;
        writeln!(output, "{}", coverage::answer(&loaded))?;
    }
    counts.print();
    input.flush()?;
    output.flush()
}

// ---- the comparison

/// Files in which the order of the judgements shows, and rarer faults of the form.
const WAYS: [&str; 11] = [
    "16 behind a row outside its range",
    "16 behind a row that does not rise",
    "16 at an end without a row",
    "16 at an end without a line feed",
    "16 with a carriage return",
    "16 with a tab",
    "17 behind a row that does not rise",
    "17 before another such row",
    "18 before another such row",
    "18 by the doubles alone",
    "taken, above 4,096 bytes",
];

/// A written number in units of its last place that there may be.
fn units(word: &[u8]) -> u128 {
    let places = word.iter().position(|b| *b == b'.').map_or(0, |at| word.len() - at - 1);
    let digits = word.iter().filter(|b| b.is_ascii_digit());
    let whole = digits.fold(0, |whole: u128, digit| whole * 10 + u128::from(digit - b'0'));
    whole * 10u128.pow((PLACES - places) as u32)
}

/// The rows before the first line that is none, and their two numbers in units.
fn leading(file: &[u8]) -> Vec<(Row, [u128; 2])> {
    let row = |line: &[u8]| {
        let row = coverage::row(line)?;
        let mut words = line[..line.len() - 1].split(|b| *b == b' ').skip(1).map(units);
        Some((row, [words.next()?, words.next()?]))
    };
    file.split(|b| *b == b'\n').skip(1).map_while(row).collect()
}

fn ways(file: &[u8], loaded: &Result<Vec<Row>, Refusal>) -> [bool; WAYS.len()] {
    let rows = if loaded.is_err() { leading(file) } else { Vec::new() };
    let outside =
        |(row, _): &&(Row, [u128; 2])| row.level <= 0.0 || row.level >= 1.0 || row.factor <= 0.0;
    let flat = |pair: &&[(Row, [u128; 2])]| {
        let (before, row) = (pair[0].0, pair[1].0);
        row.level <= before.level || row.factor <= before.factor
    };
    let outsides = |rows: &[(Row, [u128; 2])]| rows.iter().filter(outside).count();
    let flats = |rows: &[(Row, [u128; 2])]| rows.windows(2).filter(flat).count();
    let mut ways = [false; WAYS.len()];
    match *loaded {
        Err((16, line)) => {
            // The rows that stand before the line.
            let rows = &rows[..rows.len().min(line.max(2) - 2)];
            ways[0] = outsides(rows) > 0;
            ways[1] = flats(rows) > 0;
            ways[2] = line == 2 && file == b"(coverage\n)\n";
            ways[3] = file.last().is_some_and(|last| *last != b'\n');
            ways[4] = file.contains(&b'\r');
            ways[5] = file.contains(&b'\t');
        }
        Err((17, row)) => {
            ways[6] = flats(&rows[..row - 1]) > 0;
            ways[7] = outsides(&rows[row..]) > 0;
        }
        Err((_, row)) => {
            let (before, after) = (rows[row - 2].1, rows[row - 1].1);
            ways[8] = flats(&rows[row - 1..]) > 0;
            ways[9] = before[0] < after[0] && before[1] < after[1];
        }
        Ok(_) => ways[10] = file.len() > 4096,
    }
    ways
}

/// How often each outcome occurred, by its number of rows, its line or its row.
#[derive(Default)]
struct Counts {
    taken: [u64; ROWS],
    form: [u64; ROWS + 3],
    outside: [u64; ROWS],
    flat: [u64; ROWS],
    ways: [u64; WAYS.len()],
}

impl Counts {
    fn add(&mut self, file: &[u8], loaded: &Result<Vec<Row>, Refusal>) {
        match loaded {
            Ok(table) => self.taken[table.len() - 1] += 1,
            Err((16, line)) => self.form[line - 1] += 1,
            Err((17, row)) => self.outside[row - 1] += 1,
            Err((_, row)) => self.flat[row - 1] += 1,
        }
        for (count, way) in self.ways.iter_mut().zip(ways(file, loaded)) {
            *count += way as u64;
        }
    }

    /// Each outcome's name and count.
    fn each(&self) -> Vec<(String, u64)> {
        let groups: [(&str, usize, &[u64]); 4] = [
            ("taken, rows", 1, &self.taken),
            ("declined 16, line", 1, &self.form),
            ("declined 17, row", 1, &self.outside),
            // The first row has none before it.
            ("declined 18, row", 2, &self.flat[1..]),
        ];
        let numbered = groups.into_iter().flat_map(|(name, first, counts)| {
            counts.iter().enumerate().map(move |(i, n)| (format!("{name} {}", first + i), *n))
        });
        let ways = WAYS.iter().zip(self.ways).map(|(name, n)| (format!("way: {name}"), n));
        numbered.chain(ways).collect()
    }

    /// Prints the counts; says whether every kind occurred.
    fn print(&self) -> bool {
        for (name, count) in self.each() {
            println!("{name:<44}{count:>12}{}", if count == 0 { "  never" } else { "" });
        }
        self.each().iter().all(|(_, count)| *count > 0)
    }
}

/// Judges the answers to the vectors and then to random files.
fn judge(lines: &mut Lines, count: u64, seed: u64) -> (Counts, u64) {
    let mut rng = Rng::new(seed);
    let mut counts = Counts::default();
    let vectors = vectors();
    let first = vectors.len() as u64;
    let mut vectors = vectors.into_iter();
    let made = || match vectors.next() {
        Some(Vector { name, file, due }) => ((Some(name), file), due),
        None => {
            let file = played(&mut rng);
            let loaded = coverage::load(&file);
            counts.add(&file, &loaded);
            ((None, file), coverage::answer(&loaded))
        }
    };
    let named = |index, (name, file): &(Option<&str>, Vec<u8>)| match name {
        Some(name) => format!("the vector {name}"),
        None => format!("file {} of seed {seed}, {}", index - first, shown(file)),
    };
    let differ = lines.judge(first + count, made, named);
    (counts, differ)
}

/// A file's text, the middle of a long one left out.
pub fn shown(file: &[u8]) -> String {
    if file.len() <= 1000 {
        return format!("\"{}\"", file.escape_ascii());
    }
    let (head, tail) = (&file[..400], &file[file.len() - 400..]);
    format!("{} bytes, \"{}\" .. \"{}\"", file.len(), head.escape_ascii(), tail.escape_ascii())
}

/// Plays the vectors and files of a seed to a program; says whether nothing differs and
/// every kind occurred.  The writer and the judge make the same ones, so that none are kept.
pub fn compare(command: Command, count: u64, seed: u64) -> bool {
    let vectors = vectors();
    let first = vectors.len() as u64;
    let mut held = true;
    for Vector { name, file, due } in &vectors {
        let found = coverage::answer(&coverage::load(file));
        if found != *due {
            println!("the oracle's reader, the vector {name}\n  due   |{due}|\n  found |{found}|");
            held = false;
        }
    }
    let write = move |pipe: &mut dyn Write| {
        let (mut rng, mut line) = (Rng::new(seed), Vec::new());
        vectors.iter().try_for_each(|vector| put_digits(pipe, &vector.file, &mut line))?;
        (0..count).try_for_each(|_| put_digits(pipe, &played(&mut rng), &mut line))
    };
    let judged = |lines: &mut Lines| judge(lines, count, seed);
    let (counts, differ, ended) = stream::play_counted(command, write, judged);
    let all = counts.print();
    println!("{:<44}{first:>12}", "vectors");
    stream::conclude(first + count, differ, ended) && all && held
}

#[cfg(test)]
mod tests {
    use super::*;
    use crate::stream::END;
    use std::sync::mpsc;

    fn due(file: &[u8]) -> String {
        coverage::answer(&coverage::load(file))
    }

    /// A written number's whole number and places, or nothing.
    fn written(word: &[u8], wrong: &str) -> Option<Written> {
        let text: String = word.iter().map(|byte| *byte as char).collect();
        let (before, behind) = text.split_once('.').unwrap_or((&text, "0"));
        let places = if text.contains('.') { behind.len() } else { 0 };
        let digits = |part: &str| part.chars().all(|c| c.is_ascii_digit());
        let bare = wrong == "a part without digits taken" && before.len() + behind.len() > 0;
        let parts = bare || !before.is_empty() && !behind.is_empty();
        let most = if wrong == "16 places taken" { 16 } else { 15 };
        let all = format!("{before}{}", &behind[..places]);
        if !digits(before) || !digits(behind) || !parts || places > most {
            return None;
        }
        let significant = all.trim_start_matches('0');
        let long = if wrong == "leading zeros counted" { all.len() } else { significant.len() };
        let judged = if wrong == "2^53 before the point alone" { before } else { significant };
        let whole: u64 = format!("0{significant}").parse().unwrap_or(u64::MAX);
        let limited: u64 = format!("0{judged}").parse().unwrap_or(u64::MAX);
        let limit = if wrong == "2^53 taken" { WHOLE + 1 } else { WHOLE };
        (long <= 16 && limited < limit).then_some(Written { whole, places })
    }

    fn double(number: Written, wrong: &str) -> f64 {
        let Written { whole, places } = number;
        let power = 10u64.pow(places as u32);
        match wrong {
            "times a rounded power" => whole as f64 * (1.0 / power as f64),
            "two parts added" => (whole / power) as f64 + (whole % power) as f64 / power as f64,
            _ => whole as f64 / power as f64,
        }
    }

    /// The rule once more, line by line with all judged at the end, or a rule that is wrong
    /// in the way named.
    fn judged(file: &[u8], wrong: &str) -> String {
        let is = |name: &str| wrong == name;
        let mut lines: Vec<&[u8]> = file.split(|byte| *byte == b'\n').collect();
        // What stands behind the last line feed is no line, or one that is not ended.
        let rest = lines.pop().unwrap_or_default();
        if is("unended last line taken") && !rest.is_empty() {
            lines.push(rest);
        }
        let mut rows: Vec<[Written; 2]> = Vec::new();
        let (mut open, mut closed, mut form) = (false, false, None);
        for (at, line) in lines.iter().copied().chain([b"\n".as_slice()]).enumerate() {
            let over = at == lines.len();
            let line = match line {
                [line @ .., b'\r'] if is("carriage return taken") => line,
                line => line,
            };
            let numbers = line.strip_prefix(b"(level ").and_then(|l| l.strip_suffix(b")"));
            let pair: Option<Vec<Written>> = numbers
                .and_then(|n| n.split(|byte| *byte == b' ').map(|w| written(w, wrong)).collect());
            let row = pair.and_then(|pair| <[Written; 2]>::try_from(pair).ok());
            let empty = rows.is_empty() && !is("no row taken");
            let good = match row {
                _ if closed && over => rest.is_empty() || is("unended last line taken"),
                _ if closed => is("lines after the last ignored"),
                _ if over => false,
                _ if !open => line == b"(coverage",
                None => line == b")" && !empty,
                Some(_) => rows.len() < ROWS || is("a ninth row ignored"),
            };
            if !good {
                form = Some(at + 1);
                break;
            }
            closed |= open && row.is_none();
            rows.extend(row.filter(|_| open && !closed && rows.len() < ROWS));
            open = true;
        }
        let doubles: Vec<[f64; 2]> =
            rows.iter().map(|row| row.map(|number| double(number, wrong))).collect();
        let outside = doubles.iter().position(|[level, factor]| {
            let least = *level > 0.0 || is("level 0 taken");
            let most = *level < 1.0 || is("level 1 taken") && *level == 1.0;
            !(least && most && (*factor > 0.0 || is("factor 0 taken")))
        });
        let rises = |at: usize, part: usize| {
            let (a, b) = (rows[at][part], rows[at + 1][part]);
            if is("decimals compared") {
                let scaled =
                    |x: Written, y: Written| u128::from(x.whole) * 10u128.pow(y.places as u32);
                return scaled(a, b) < scaled(b, a);
            }
            let (a, b) = (doubles[at][part], doubles[at + 1][part]);
            a < b || is("equal rows taken") && a == b
        };
        let flat = (1..rows.len()).find(|at| {
            let level = rises(at - 1, 0) || is("factors alone compared");
            let factor = rises(at - 1, 1) || is("levels alone compared");
            !(level && factor)
        });
        let later = is("line where the row is due") as usize;
        let earlier = is("row where the line is due") as usize;
        let sixteen = form.map(|line| (16, line - earlier));
        let seventeen = outside.map(|at| (17, at + 1 + later));
        let eighteen = flat.map(|at| (18, at + 1 + later));
        let first = match wrong {
            "17 before a later 16" => seventeen.or(sixteen).or(eighteen),
            "18 before a later 16" => sixteen.filter(|_| flat.is_none()).or(seventeen).or(eighteen),
            "18 before 17" => sixteen.or(eighteen).or(seventeen),
            "17 as 16" => sixteen.or(seventeen.map(|(_, row)| (16, row + 1))).or(eighteen),
            _ => sixteen.or(seventeen).or(eighteen),
        };
        let row = |row: &[f64; 2]| Row { level: row[0], factor: row[1] };
        coverage::answer(&match first {
            Some(refusal) => Err(refusal),
            None => Ok(doubles.iter().map(row).collect()),
        })
    }

    const WRONG: [&str; 25] = [
        "a part without digits taken",
        "16 places taken",
        "leading zeros counted",
        "2^53 before the point alone",
        "2^53 taken",
        "times a rounded power",
        "two parts added",
        "unended last line taken",
        "carriage return taken",
        "no row taken",
        "lines after the last ignored",
        "a ninth row ignored",
        "level 0 taken",
        "level 1 taken",
        "factor 0 taken",
        "decimals compared",
        "equal rows taken",
        "factors alone compared",
        "levels alone compared",
        "line where the row is due",
        "row where the line is due",
        "17 before a later 16",
        "18 before a later 16",
        "18 before 17",
        "17 as 16",
    ];

    /// The fixed list and random files tell every wrong rule apart, and the right one
    /// agrees with itself in other words.
    #[test]
    fn wrong_rules() {
        let rng = &mut Rng::new(1);
        let random: Vec<Vec<u8>> = (0..8_000).map(|_| file(rng)).collect();
        let lists = [list(), random].map(|files| {
            files.into_iter().map(|file| (due(&file), file)).collect::<Vec<(String, Vec<u8>)>>()
        });
        for (due, file) in lists.iter().flatten() {
            assert_eq!(judged(file, ""), *due, "{}", file.escape_ascii());
        }
        for name in WRONG {
            for files in &lists {
                let differ = files.iter().filter(|(due, file)| judged(file, name) != *due).count();
                assert!((1..files.len() * 2 / 3).contains(&differ), "{name}: {differ}");
            }
        }
    }

    fn digits(file: &[u8]) -> Vec<u8> {
        let mut line = Vec::new();
        put_digits(&mut io::sink(), file, &mut line).expect("a sink");
        line
    }

    #[test]
    fn digits_of_a_file() {
        let bytes: Vec<u8> = (0..=255).collect();
        let line = digits(&bytes);
        assert_eq!(coverage::bytes(line.strip_suffix(b"\n").expect("a line feed")), Some(bytes));
        assert_eq!(digits(b""), b"\n");
    }

    /// Every sound file is taken, with its number of rows.
    #[test]
    fn sound_files() {
        let rng = &mut Rng::new(3);
        for _ in 0..2000 {
            let (count, any) = (rng.between(1, ROWS), rng.chance(0.5));
            let file = sound(rng, count, any);
            let table = coverage::load(&file).expect("a table");
            assert_eq!(table.len(), count, "{}", file.escape_ascii());
        }
    }

    #[test]
    fn judgements() {
        let rng = &mut Rng::new(5);
        let files = vectors().into_iter().map(|vector| vector.file);
        let files = files.chain((0..3000).map(|_| played(rng)));
        let lines: Vec<String> = files.map(|file| due(&file) + "\n").collect();
        let judged = |bytes: Vec<u8>, pieces: usize| {
            let (sender, chunks) = mpsc::channel();
            bytes.chunks(pieces).for_each(|piece| sender.send(piece.to_vec()).expect("a reader"));
            drop(sender);
            let mut lines = Lines::new(chunks);
            let (counts, differ) = judge(&mut lines, 3000, 5);
            (counts, differ, lines.next() == Err(END))
        };
        let right = lines.concat().into_bytes();
        for pieces in [1, 100, 1 << 16] {
            let (_, differ, end) = judged(right.clone(), pieces);
            assert_eq!((differ, end), (0, true));
        }
        let some = lines[..lines.len() - 1000].concat().into_bytes();
        assert_eq!(judged(some, 100).1, 1000);
        assert_eq!(judged([b"x", right.as_slice()].concat(), 100).1, 1);
    }

    /// Each kind of outcome occurs among random files.
    #[test]
    fn every_outcome() {
        let rng = &mut Rng::new(1);
        let mut counts = Counts::default();
        for _ in 0..60_000 {
            let file = played(rng);
            counts.add(&file, &coverage::load(&file));
        }
        for (name, count) in counts.each() {
            assert!(count > 10, "{name}: {count}");
        }
    }

    /// In which ways some files are judged.
    #[test]
    fn ways_of_files() {
        let [a, outside, low, other, x] =
            ["0.5 1", "1.0 2", "0.4 3", "0.6 4", "0.6 x"].map(|row| format!("(level {row})\n"));
        let near = ["8.000000000000001", "8.000000000000002"];
        let near = [format!("(level 0.6 {})\n", near[0]), format!("(level 0.7 {})\n", near[1])];
        let end = ")\n".to_string();
        for (rows, due, found) in [
            (vec![&a, &outside, &x, &end], "16 4", vec![0]),
            (vec![&a, &low, &x, &end], "16 4", vec![1]),
            (vec![&a, &x, &outside, &end], "16 3", vec![]),
            (vec![&end], "16 2", vec![2]),
            (vec![&a, &low], "16 4", vec![1]),
            (vec![&a, &low, &outside, &end], "17 3", vec![6]),
            (vec![&a, &outside, &outside, &end], "17 2", vec![7]),
            (vec![&outside, &low, &end], "17 1", vec![]),
            (vec![&low, &low, &a, &low, &end], "18 2", vec![8]),
            (vec![&a, &near[0], &near[1], &end], "18 3", vec![9]),
            (vec![&other, &a, &end], "18 2", vec![]),
        ] {
            let rows: String = rows.into_iter().map(String::as_str).collect();
            let file = format!("(coverage\n{rows}").into_bytes();
            let loaded = coverage::load(&file);
            assert_eq!(coverage::answer(&loaded), format!("(declined {due})"), "{rows}");
            let ways = ways(&file, &loaded);
            let ways: Vec<usize> = (0..WAYS.len()).filter(|way| ways[*way]).collect();
            assert_eq!(ways, found, "{rows}");
        }
    }

    #[test]
    fn long_files() {
        let rng = &mut Rng::new(2);
        for _ in 0..200 {
            let mut file = sound(rng, 3, true);
            let before = (file.len(), due(&file));
            lengthen(rng, &mut file);
            assert!(file.len() > before.0 && due(&file) == before.1);
        }
    }

    /// The files kept beside this program are those that it writes.
    #[test]
    fn kept_list() {
        let kept = Path::new(env!("CARGO_MANIFEST_DIR")).join("../samples/coverage");
        let read = |file: &str| std::fs::read(kept.join(file)).expect(file);
        let list = list();
        let input: Vec<u8> = list.iter().flat_map(|file| digits(file)).collect();
        let output: String = list.iter().map(|file| due(file) + "\n").collect();
        assert!((read("stdin"), read("stdout")) == (input, output.into_bytes()));
    }

    #[test]
    fn the_list() {
        let list = list();
        assert_eq!(list.len(), LISTED);
        let mut counts = Counts::default();
        list.iter().for_each(|file| counts.add(file, &coverage::load(file)));
        for (name, count) in counts.each() {
            // The one long file is a vector's.
            assert!(count > 1 || name.starts_with("way: taken"), "{name}: {count}");
        }
    }

    #[test]
    fn vectors_hold() {
        let vectors = vectors();
        let kept = Path::new(env!("CARGO_MANIFEST_DIR")).join("../vectors/l2-files");
        assert_eq!(std::fs::read_dir(kept).expect("a directory").count(), vectors.len());
        for vector in vectors {
            assert_eq!(due(&vector.file), vector.due, "{}", vector.name);
        }
    }
}
