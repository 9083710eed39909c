//! `bytes N`: inputs of any bytes, each the whole standard input of a process of its
//! own, whose whole standard output is compared with the oracle's.

use std::ffi::OsString;
use std::io::{Read, Write};
use std::panic::{catch_unwind, AssertUnwindSafe};
use std::path::{Path, PathBuf};
use std::process::{ChildStdin, Command, ExitStatus, Stdio};
use std::sync::mpsc::{self, RecvTimeoutError};
use std::sync::Arc;
use std::time::{Duration, Instant};

use crate::inputs::{self, KINDS};
use crate::player::PLAIN;
use crate::rng::Rng;

/// How long a process may take over one input.
const PATIENCE: Duration = Duration::from_secs(20);

/// A program that hangs this often is given up.
const HANGS: u64 = 3;

/// How much more than is due is read of a process.
const SURPLUS: usize = 1 << 20;

#[derive(Debug)]
enum End {
    Status(ExitStatus),
    Hang,
    Surplus,
}

/// Writes the input in pieces.  A process that reads no more is met in its output.
fn write_in_pieces(mut pipe: ChildStdin, input: &[u8], rng: &mut Rng) {
    let manner = rng.below(10);
    let pauses = rng.chance(0.1);
    let (mut rest, mut written) = (input, 0);
    while !rest.is_empty() {
        let size = match manner {
            0 => rest.len(),
            1 if input.len() < 4000 => 1,
            2 => rng.between(1, 20),
            // To a line feed, without it or with the byte behind it.
            3..=4 => {
                let feed = rest.iter().position(|b| *b == b'\n').unwrap_or(rest.len());
                feed + rng.below(3)
            }
            _ => rng.between(1, 5000),
        };
        let (piece, left) = rest.split_at(size.clamp(1, rest.len()));
        if pipe.write_all(piece).is_err() {
            return;
        }
        rest = left;
        written += 1;
        // So that the process reads what there is before there is more.
        if pauses && written <= 100 {
            std::thread::sleep(Duration::from_micros(10));
        }
    }
}

/// The output of one process for one input.
fn run(
    path: &Path,
    arguments: &[OsString],
    input: &Arc<Vec<u8>>,
    due: usize,
    mut rng: Rng,
    limit: Duration,
) -> (Vec<u8>, End) {
    let deadline = Instant::now() + limit;
    let mut child = Command::new(path)
        .args(arguments)
        .stdin(Stdio::piped())
        .stdout(Stdio::piped())
        .spawn()
        .unwrap_or_else(|e| panic!("{}: {e}", path.display()));
    let pipe = child.stdin.take().expect("a pipe");
    let mut reader = child.stdout.take().expect("a pipe");
    let bytes = Arc::clone(input);
    std::thread::spawn(move || write_in_pieces(pipe, &bytes, &mut rng));
    let (sender, chunks) = mpsc::channel();
    std::thread::spawn(move || {
        let mut chunk = vec![0; 1 << 16];
        while let Ok(read @ 1..) = reader.read(&mut chunk) {
            if sender.send(chunk[..read].to_vec()).is_err() {
                return;
            }
        }
    });
    let mut output = Vec::new();
    let mut end = loop {
        match chunks.recv_timeout(deadline.saturating_duration_since(Instant::now())) {
            Ok(chunk) => output.extend(chunk),
            Err(RecvTimeoutError::Disconnected) => break None,
            Err(RecvTimeoutError::Timeout) => break Some(End::Hang),
        }
        if output.len() > due + SURPLUS {
            break Some(End::Surplus);
        }
    };
    let mut pause = Duration::from_micros(10);
    while end.is_none() {
        match child.try_wait() {
            Ok(Some(status)) => end = Some(End::Status(status)),
            Ok(None) if Instant::now() < deadline => {
                std::thread::sleep(pause);
                pause = (pause * 2).min(Duration::from_millis(20));
            }
            _ => end = Some(End::Hang),
        }
    }
    let end = end.expect("an end was found");
    if !matches!(end, End::Status(_)) {
        let _ = child.kill();
    }
    let _ = child.wait();
    (output, end)
}

/// What is wrong with a process's whole output for a whole input, and whether it hangs.
pub fn play(
    path: &Path,
    arguments: &[OsString],
    input: &Arc<Vec<u8>>,
    due: &[u8],
    cuts: Rng,
) -> (Option<String>, bool) {
    let (output, end) = run(path, arguments, input, due.len(), cuts, PATIENCE);
    let hangs = matches!(end, End::Hang);
    let ended = match end {
        End::Status(status) if status.success() => String::new(),
        End::Status(status) => format!(", and ends with {status}"),
        End::Hang => ", and hangs".to_string(),
        End::Surplus => ", and does not end".to_string(),
    };
    let fault = if output != due {
        let (line, due, found) = first_difference(due, &output);
        Some(format!("the answer {line}{ended}\n  due   {due}\n  found {found}"))
    } else if !ended.is_empty() {
        Some(format!("the end{ended}"))
    } else {
        None
    };
    (fault, hangs)
}

#[derive(Default)]
struct Counts {
    inputs: [u64; KINDS.len()],
    bytes: [u64; KINDS.len()],
    lines: [u64; KINDS.len()],
    questions: [u64; 3],
    reports: u64,
    longest: usize,
    declined: [u64; 16],
    malformed: u64,
    most: u64,
    asked: u64,
    pages: u64,
    empty_pages: u64,
    page_lines: u64,
    longest_page: usize,
    unended: u64,
    empty: u64,
}

const LISTS: [&str; 3] = ["shots", "distances", "new"];

impl Counts {
    fn add(&mut self, kind: usize, input: &[u8], due: &[u8]) {
        self.inputs[kind] += 1;
        self.bytes[kind] += input.len() as u64;
        let unended = input.last().is_some_and(|last| *last != b'\n');
        let feeds = input.iter().filter(|b| **b == b'\n').count() as u64;
        self.lines[kind] += feeds + unended as u64;
        self.unended += unended as u64;
        self.empty += due.is_empty() as u64;
        let mut lines = due.split(|b| *b == b'\n').filter(|line| !line.is_empty());
        while let Some(line) = lines.next() {
            self.longest = self.longest.max(line.len());
            let mut words = line.split(|b| *b == b' ').map(|w| w.strip_suffix(b")").unwrap_or(w));
            let first = words.next().unwrap_or_default();
            let second = String::from_utf8_lossy(words.next().unwrap_or_default());
            match first {
                b"(question" => {
                    let list = LISTS.iter().position(|name| *name == second);
                    self.questions[list.expect("a list")] += 1;
                }
                b"(report" => self.reports += 1,
                b"(declined" => self.declined[second.parse::<usize>().expect("a number")] += 1,
                b"(malformed" => {
                    self.malformed += 1;
                    self.most = self.most.max(second.parse().expect("a number"));
                }
                b"(asked" => self.asked += 1,
                b"(page" => {
                    let count = second.parse::<usize>().expect("a number");
                    self.pages += 1;
                    self.empty_pages += (count == 0) as u64;
                    self.page_lines += lines.by_ref().take(count).count() as u64;
                    self.longest_page = self.longest_page.max(count);
                }
                _ => panic!("no answer: {}", String::from_utf8_lossy(line)),
            }
        }
    }

    /// Prints the counts; says whether every kind of answer occurred.
    fn print(&self) -> bool {
        println!("{:<36}{:>10}{:>12}{:>14}", "inputs", "", "lines", "bytes");
        for (i, (name, _)) in KINDS.iter().enumerate() {
            println!("{name:<36}{:>10}{:>12}{:>14}", self.inputs[i], self.lines[i], self.bytes[i]);
        }
        let sum = |counts: &[u64]| counts.iter().sum::<u64>();
        let (inputs, lines, bytes) = (sum(&self.inputs), sum(&self.lines), sum(&self.bytes));
        println!("{:<36}{inputs:>10}{lines:>12}{bytes:>14}", "all");
        let mut all = true;
        let mut row = |name: String, count: u64| {
            all &= count > 0;
            println!("{name:<36}{count:>10}{}", if count == 0 { "  never" } else { "" });
        };
        for (count, list) in self.questions.iter().zip(LISTS) {
            row(format!("question {list}"), *count);
        }
        row("report".to_string(), self.reports);
        for number in 1..=15 {
            row(format!("declined {number}"), self.declined[number]);
        }
        row("malformed".to_string(), self.malformed);
        row("asked".to_string(), self.asked);
        row("page".to_string(), self.pages);
        row("page where no report stands".to_string(), self.empty_pages);
        row("page's lines".to_string(), self.page_lines);
        row("inputs with an unended last line".to_string(), self.unended);
        row("inputs without an answer".to_string(), self.empty);
        println!(
            "the longest line has {} bytes, the longest page {} lines, \
             the highest number of a malformed line is {}",
            self.longest, self.longest_page, self.most
        );
        all
    }
}

/// The first line in which two outputs differ, its number from 1, and both texts of it.
pub fn first_difference(due: &[u8], found: &[u8]) -> (usize, String, String) {
    let equal = due.iter().zip(found).take_while(|(d, f)| d == f).count();
    let number = due[..equal].iter().filter(|b| **b == b'\n').count() + 1;
    let first = due[..equal].iter().rposition(|b| *b == b'\n').map_or(0, |i| i + 1);
    let text = |bytes: &[u8]| {
        let line = bytes[first..].split(|b| *b == b'\n').next().unwrap_or_default();
        // Of a long line what stands about the difference.
        let from = (equal - first).saturating_sub(60).min(line.len());
        let part = &line[from..line.len().min(from + 200)];
        let dots = |cut: bool| if cut { ".." } else { "" };
        let (before, after) = (dots(from > 0), dots(from + part.len() < line.len()));
        let nothing = if first == bytes.len() { "(nothing)" } else { "" };
        format!("{before}{}{after}{nothing}", part.escape_ascii())
    };
    (number, text(due), text(found))
}

/// Keeps an input and what is due, and says how it is played again.
fn keep(path: &Path, name: &str, input: &[u8], due: Option<&[u8]>) {
    let file = std::env::temp_dir().join(name);
    let beside = PathBuf::from(format!("{}.due", file.display()));
    let written = std::fs::write(&file, input)
        .and_then(|()| due.map_or(Ok(()), |due| std::fs::write(&beside, due)));
    match written {
        Ok(()) => println!(
            "  played again by: {} < {} | cmp - {}",
            path.display(),
            file.display(),
            beside.display()
        ),
        Err(e) => println!("  not kept: {}: {e}", file.display()),
    }
}

/// Plays inputs of a seed to a program, from the one with the number `first`; says
/// whether nothing differs and every kind of answer occurred.
pub fn compare(path: &Path, count: u64, seed: u64, first: u64) -> bool {
    let mut counts = Counts::default();
    let (mut differ, mut hangs) = (0, 0);
    for index in first..first + count {
        let own = crate::case_seed(seed, index);
        let (kind, input) = inputs::input(own);
        let (name, bytes) = (KINDS[kind].0, input.len());
        let answers = || oracle::answers(&input, PLAIN);
        let due = catch_unwind(AssertUnwindSafe(answers)).ok();
        let input = Arc::new(input);
        let fault = match &due {
            None => Some("the oracle has no answer".to_string()),
            Some(due) => {
                counts.add(kind, &input, due);
                let cuts = Rng::new(own ^ 0xc075);
                let (fault, hung) = play(path, &[], &input, due, cuts);
                hangs += hung as u64;
                fault
            }
        };
        let Some(fault) = fault else { continue };
        differ += 1;
        if differ <= 10 {
            println!("input {index} of seed {seed} ({name}, {bytes} bytes) differs: {fault}");
        }
        if differ == 1 {
            keep(path, &format!("truing-bytes-{seed}-{index}"), &input, due.as_deref());
            let program = path.display();
            println!(
                "  or, in the same pieces: compare/run bytes 1 {seed} {index} --program {program}"
            );
        }
        if hangs == HANGS {
            println!("the program hangs: given up");
            differ += first + count - (index + 1);
            break;
        }
    }
    let all = counts.print();
    println!("{} equal, {differ} differ", count - differ);
    all && differ == 0
}

#[cfg(test)]
mod tests {
    use super::*;

    const SHORT: Duration = Duration::from_secs(10);

    /// What is written in pieces comes whole, and more output than a pipe holds is read.
    #[test]
    fn pieces() {
        for seed in 0..60 {
            let mut rng = Rng::new(seed);
            let size = if seed < 3 { 1 << 20 } else { rng.below(5000) };
            let input: Arc<Vec<u8>> = Arc::new((0..size).map(|_| rng.bits() as u8).collect());
            let (output, end) = run(Path::new("/bin/cat"), &[], &input, size, rng, SHORT);
            assert!(matches!(end, End::Status(status) if status.success()), "{end:?}");
            assert!(output == *input, "{size} bytes");
        }
    }

    #[test]
    fn ends() {
        let input = Arc::new(vec![b'x'; 1 << 20]);
        let limit = Duration::from_millis(300);
        let end = |path| run(Path::new(path), &[], &input, 0, Rng::new(1), limit).1;
        assert!(matches!(end("/bin/false"), End::Status(status) if !status.success()));
        assert!(matches!(end("/bin/true"), End::Status(status) if status.success()));
        // One that reads nothing and writes without end.
        assert!(matches!(end("/usr/bin/yes"), End::Surplus));
    }

    #[test]
    fn differences() {
        let told = |due: &str, found: &str| first_difference(due.as_bytes(), found.as_bytes());
        let three = |n: usize, a: &str, b: &str| (n, a.to_string(), b.to_string());
        assert_eq!(told("a\nb\n", "a\nc\n"), three(2, "b", "c"));
        assert_eq!(told("a\nb\n", "a\n"), three(2, "b", "(nothing)"));
        assert_eq!(told("a\n", "a\nb\n"), three(2, "(nothing)", "b"));
        assert_eq!(told("a\n", "a"), three(1, "a", "a"));
        assert_eq!(told("", "b"), three(1, "(nothing)", "b"));
    }
}
