//! `tables N`: random cases under coverage tables (L2), a process for each with the table's
//! file as its one argument; and a fixed list of cases under a table of three rows.

use std::ffi::OsString;
use std::io::{self, Read, Write};
use std::path::{Path, PathBuf};
use std::process::{Child, Command, Stdio};
use std::sync::mpsc::{self, Receiver};
use std::sync::Arc;
use std::time::{Duration, Instant};

use crate::bytes::{self, first_difference};
use crate::case::Case;
use crate::player::{self, Script};
use crate::program::{Difference, Program, SILENCE};
use crate::rng::{mix, Rng};
use crate::sample;
use crate::solver::{Base, Gap};
use crate::tally::Tally;
use crate::write;
use crate::{case_seed, coverage, edits, SILENCES};
use estimator::{Requested, Row};
use oracle::coverage::{load, ROWS};
use oracle::form::Edit;
use oracle::Text;

/// How long a process that has nothing to read may take.
const PATIENCE: Duration = Duration::from_secs(20);

const CROSSES: &str = "(IntervalCrossesFitBounds)";

// ---- what a program is given

enum Given {
    Table(Vec<u8>, Vec<Row>),
    Refused(Vec<u8>),
    Empty,
    /// The name of no file.
    Missing(String),
    /// A directory, which is opened but cannot be read.
    Unread,
    /// More than one argument, the first of them a sound table.
    Several(usize),
}

const REFUSALS: [&str; 5] = [
    "table that is refused",
    "empty file",
    "file that is not there",
    "directory in its place",
    "more than one argument",
];

/// The table that stands for no file.
const SINGLE: &[u8] = include_bytes!("../../vectors/l2-files/single");
const THREE: &[u8] = include_bytes!("../../vectors/l2-files/three-15");

impl Given {
    fn random(rng: &mut Rng) -> Given {
        match rng.below(24) {
            0..=1 => loop {
                let mut file = coverage::file(rng);
                if rng.chance(0.2) {
                    coverage::lengthen(rng, &mut file);
                }
                if load(&file).is_err() {
                    return Given::Refused(file);
                }
            },
            2 => Given::Empty,
            3 => Given::Missing(match rng.below(4) {
                0 => String::new(),
                1 => "missing/table".to_string(),
                2 => "x".repeat(300),
                _ => "missing".to_string(),
            }),
            4 => Given::Unread,
            5 => Given::Several(rng.between(2, 4)),
            _ => Given::sound(rng),
        }
    }

    fn sound(rng: &mut Rng) -> Given {
        let count = if rng.chance(0.25) { 1 } else { rng.between(2, ROWS) };
        let any = rng.chance(0.2);
        let mut file = match rng.below(12) {
            0 => SINGLE.to_vec(),
            1 => THREE.to_vec(),
            _ => coverage::sound(rng, count, any),
        };
        if rng.chance(0.2) {
            coverage::lengthen(rng, &mut file);
        }
        let table = load(&file).expect("a sound table");
        Given::Table(file, table)
    }

    /// Which of the refusals it is.
    fn refusal(&self) -> usize {
        match self {
            Given::Table(..) | Given::Refused(_) => 0,
            Given::Empty => 1,
            Given::Missing(_) => 2,
            Given::Unread => 3,
            Given::Several(_) => 4,
        }
    }
}

/// A folder of this process's own.
struct Folder(PathBuf);

impl Folder {
    fn new() -> io::Result<Folder> {
        let own = std::env::temp_dir().join(format!("truing-tables-{}", std::process::id()));
        std::fs::create_dir_all(&own)?;
        Ok(Folder(own))
    }

    /// A program's arguments, with the file as it is to be found.
    fn arguments(&self, given: &Given) -> Vec<OsString> {
        let bytes = match given {
            Given::Table(file, _) | Given::Refused(file) => file.as_slice(),
            Given::Empty => b"",
            Given::Missing(name) if name.is_empty() => return vec![OsString::new()],
            Given::Missing(name) => return vec![self.0.join(name).into()],
            Given::Unread => return vec![self.0.clone().into()],
            Given::Several(_) => SINGLE,
        };
        let name = self.0.join("a table");
        std::fs::write(&name, bytes).unwrap_or_else(|e| panic!("{}: {e}", name.display()));
        let count = if let Given::Several(count) = given { *count } else { 1 };
        vec![name.into(); count]
    }
}

impl Drop for Folder {
    fn drop(&mut self) {
        let _ = std::fs::remove_dir_all(&self.0);
    }
}

// ---- programs that read nothing

/// Reads all of a pipe beside the others.
fn whole(mut pipe: impl Read + Send + 'static) -> Receiver<Vec<u8>> {
    let (sender, whole) = mpsc::channel();
    std::thread::spawn(move || {
        let mut bytes = Vec::new();
        let _ = pipe.read_to_end(&mut bytes);
        let _ = sender.send(bytes);
    });
    whole
}

/// Whether a process ends in time, and its status is 0.
fn ended(child: &mut Child) -> Option<bool> {
    let deadline = Instant::now() + PATIENCE;
    while Instant::now() < deadline {
        match child.try_wait() {
            Ok(Some(status)) => return Some(status.success()),
            Ok(None) => std::thread::sleep(Duration::from_millis(1)),
            Err(_) => return None,
        }
    }
    None
}

/// What is wrong with a program that has one line to write and nothing to read, and whether
/// it hangs.  Its standard input has lines and stays open: it must end by itself, and leave
/// them all.
fn at_once(path: &Path, arguments: &[OsString], input: &[u8], due: &str) -> (Option<String>, bool) {
    let (mut left, mut pipe) = io::pipe().expect("a pipe");
    let mut child = Command::new(path)
        .args(arguments)
        .stdin(left.try_clone().expect("a pipe's end"))
        .stdout(Stdio::piped())
        .stderr(Stdio::piped())
        .spawn()
        .unwrap_or_else(|e| panic!("{}: {e}", path.display()));
    let output = whole(child.stdout.take().expect("a pipe"));
    let errors = whole(child.stderr.take().expect("a pipe"));
    let (status, rest) = std::thread::scope(|scope| {
        let (held, kept) = mpsc::channel::<()>();
        scope.spawn(move || {
            let _ = pipe.write_all(input);
            let _ = kept.recv();
        });
        let status = ended(&mut child);
        if status.is_none() {
            let _ = child.kill();
            let _ = child.wait();
        }
        drop(held);
        let mut rest = Vec::new();
        let _ = left.read_to_end(&mut rest);
        (status, rest)
    });
    let all = |pipe: Receiver<Vec<u8>>| pipe.recv_timeout(PATIENCE).unwrap_or_default();
    let (output, errors) = (all(output), all(errors));
    let several = arguments.len() > 1;
    let usage = errors.iter().position(|b| *b == b'\n') == errors.len().checked_sub(1);
    let wrong = if output != due.as_bytes() {
        let (_, due, found) = first_difference(due.as_bytes(), &output);
        Some(format!("  due   {due}\n  found {found}"))
    } else if status.is_none() {
        Some("  it does not end".to_string())
    } else if rest != input {
        Some(format!("  of {} bytes of standard input it leaves {}", input.len(), rest.len()))
    } else if several && (errors.is_empty() || !usage) {
        let (_, _, found) = first_difference(b"", &errors);
        Some(format!("  due on standard error: a line on how it is used\n  found {found}"))
    } else if !several && !errors.is_empty() {
        let (_, _, found) = first_difference(b"", &errors);
        Some(format!("  due on standard error: nothing\n  found {found}"))
    } else if !several && status != Some(true) {
        Some("  its status is not 0".to_string())
    } else {
        None
    };
    (wrong, status.is_none())
}

/// Lines for a program that must not read them.
fn unread(rng: &mut Rng) -> Vec<u8> {
    let size = rng.pick(&[0, 1, 3, 40, 20_000]);
    b"(asked)\n(page)\n(entered 409f400000000000 3fd3333333333333)\n(\n".repeat(size)
}

// ---- the comparison

const BUILT_IN: Row = Row { level: 0.95, factor: 1.959963984540054 };

/// A fit that stays where it is entered, so that the priors' sigmas are the deviations,
/// with a bound about as far away as one of the factors reaches.
fn near(rng: &mut Rng, seed: u64, table: &[Row]) -> Case {
    let shots = [[100.0, 10.0, 1.0], [200.0, 11.0, 1.0]];
    let bounds = [[1000.0, 5000.0], [0.05, 2.0]];
    // The speed, the coefficient or both.
    let which = rng.below(3);
    let mut prior = |[low, high]: [f64; 2], close: bool| {
        let away = (high - low) * rng.real(0.01, 0.4);
        let mean = if rng.chance(0.5) { low + away } else { high - away };
        let any = rng.pick(table);
        let row = rng.pick(&[any, table[table.len() - 1], BUILT_IN]);
        let reach = row.factor.clamp(1e-3, 1e3) * rng.pick(&[0.5, 0.8, 0.999, 1.001, 1.25, 2.0]);
        [mean, away / if close { reach } else { 1e4 }]
    };
    let priors = [prior(bounds[0], which != 1), prior(bounds[1], which != 0)];
    let mut case = sample::case(priors.map(|prior| prior[0]), &shots, Base::Flat(10.0));
    case.opening.speed_prior = Some(priors[0]);
    case.opening.coefficient_prior = Some(priors[1]);
    let sigma = rng.chance(0.5).then_some(2.0);
    case.opening.distances = vec![Requested { distance: 150.0, sigma }];
    Case { seed, edits: rng.below(4), pages: 0.7, ..case }
}

/// How many reports have the crossing warning by which rows.
#[derive(Default)]
struct Crossings {
    counts: [u64; CROSSINGS.len()],
    single: u64,
}

const CROSSINGS: [&str; 5] = [
    "by every row",
    "by no row",
    "by the last row, not by the first",
    "by the last row, not by the built-in one",
    "by the built-in row, not by the last",
];

impl Crossings {
    fn add(&mut self, script: &Script, table: &[Row], first: u64) {
        let recited = |text| player::recite_to(text, &script.lines, &mut first.clone());
        let plain = recited(player::PLAIN);
        let by_first = recited(Text::Under(&table[..1]));
        if table == [BUILT_IN] {
            assert!(script.answers == plain, "the built-in row stands for no file");
            self.single +=
                plain.iter().flatten().filter(|a| a.starts_with("(report ")).count() as u64;
        }
        for ((found, plain), by_first) in script.answers.iter().zip(&plain).zip(&by_first) {
            let text = found.as_deref().unwrap_or_default();
            if text.starts_with("(report ") {
                let crosses = |a: &Option<String>| a.as_ref().is_some_and(|a| a.contains(CROSSES));
                let (last, plain, by_first) = (crosses(found), crosses(plain), crosses(by_first));
                let ways = [by_first, !last, last && !by_first, last && !plain, plain && !last];
                self.counts.iter_mut().zip(ways).for_each(|(count, way)| *count += way as u64);
            } else {
                // Nothing else goes by the table, but for what a page shows.
                assert!(text.starts_with("(page ") || found == plain, "{text}");
            }
        }
    }
}

/// A conversation of the vectors, under a table.
struct Vector {
    name: &'static str,
    table: &'static [u8],
    input: &'static [u8],
    due: &'static [u8],
}

const VECTORS: [Vector; 2] = [
    Vector {
        name: "one-row",
        table: SINGLE,
        input: include_bytes!("../../vectors/l2-print/one-row.stdin"),
        due: include_bytes!("../../vectors/l2-print/one-row.stdout"),
    },
    Vector {
        name: "three-rows",
        table: THREE,
        input: include_bytes!("../../vectors/l2-print/three-rows.stdin"),
        due: include_bytes!("../../vectors/l2-print/three-rows.stdout"),
    },
];

/// How many cases a process plays under its table, at least and at most.
const CASES: [usize; 2] = [3, 12];

/// A table of eight rows, under which the longest lists are played.
const EIGHT: &[u8] = include_bytes!("../../vectors/l2-files/eight");

struct Comparison<'p> {
    path: &'p Path,
    seed: u64,
    folder: Folder,
    tally: Tally,
    crossings: Crossings,
    sizes: [u64; ROWS],
    /// Tables whose files are not read at once.
    long: u64,
    refusals: [u64; REFUSALS.len()],
    edited: u64,
    /// The longest answer's line.
    longest: usize,
    played: u64,
    differ: u64,
    silent: u64,
}

/// A conversation that is played under a table.
struct Played<'s> {
    name: &'s str,
    script: &'s Script,
    /// How many lines come before its first.
    before: u64,
    wait: bool,
    /// What is wrong with it by itself.
    faults: Vec<String>,
}

impl Comparison<'_> {
    fn fault(&mut self, what: &str, text: &str) {
        self.differ += 1;
        if self.differ <= 10 {
            println!("{what} of seed {} differs\n{text}", self.seed);
        }
    }

    fn given_up(&self) -> bool {
        self.silent >= SILENCES
    }

    fn vector(&mut self, vector: &Vector) {
        let Vector { name, table, input, due } = *vector;
        let rows = load(table).expect("a sound table");
        let arguments = self.folder.arguments(&Given::Table(table.to_vec(), rows));
        let (input, cuts) = (Arc::new(input.to_vec()), Rng::new(self.seed));
        let (wrong, hangs) = bytes::play(self.path, &arguments, &input, due, cuts);
        self.played += 1;
        self.silent += hangs as u64;
        if let Some(text) = wrong {
            self.fault(&format!("the vector {name}"), &text);
        }
    }

    /// A program that must read nothing.
    fn refused(&mut self, given: &Given, arguments: &[OsString], input: &[u8], what: &str) {
        let due = match given {
            Given::Refused(file) => oracle::output(Some(file), b""),
            Given::Several(_) => Vec::new(),
            _ => oracle::output(Some(b""), b""),
        };
        let due = String::from_utf8(due).expect("letters");
        let (wrong, hangs) = at_once(self.path, arguments, input, &due);
        self.refusals[given.refusal()] += 1;
        self.played += 1;
        self.silent += hangs as u64;
        if let Some(text) = wrong {
            self.fault(&format!("{what} ({})", REFUSALS[given.refusal()]), &text);
        }
    }

    fn play(&mut self, program: &mut Program, file: &[u8], table: &[Row], played: Played<'_>) {
        let Played { name, script, before, wait, mut faults } = played;
        self.tally.add(script);
        self.tally.rows(script, table);
        self.crossings.add(script, table, before);
        let lines = script.answers.iter().flatten().flat_map(|answer| answer.split('\n'));
        self.longest = lines.map(|line| line.len() + 1).fold(self.longest, usize::max);
        self.played += 1;
        if let Err(difference) = program.play(script, wait) {
            let Difference { line, due, found } = difference;
            self.silent += (found == SILENCE) as u64;
            let (_, due, found) = first_difference(due.as_bytes(), found.as_bytes());
            faults.push(format!("  line  {line}\n  due   {due}\n  found {found}"));
        }
        if !faults.is_empty() {
            self.fault(&format!("{name} under {}", coverage::shown(file)), &faults.join("\n"));
        }
    }

    /// Plays the end of standard input to a program.
    fn end(&mut self, program: &mut Program, line: u64, what: &str) {
        let last = if program.is_fresh() { 0 } else { line };
        if !self.given_up() && !program.end(last) {
            self.fault(&format!("the end of {what}"), "");
        }
    }

    /// The longest lists under eight rows.
    fn longest_lists(&mut self) {
        let table = load(EIGHT).expect("a sound table");
        let text = Text::Under(&table);
        let arguments = self.folder.arguments(&Given::Table(EIGHT.to_vec(), table.clone()));
        let mut program = Program::new(self.path.to_path_buf(), arguments);
        let mut line = 0;
        for (name, case) in sample::long() {
            let before = if program.is_fresh() { 0 } else { line };
            line = before;
            let script = &player::play_to(text, &case, &mut line);
            let played = Played { name, script, before, wait: false, faults: Vec::new() };
            self.play(&mut program, EIGHT, &table, played);
        }
        self.end(&mut program, line, "the longest lists");
    }

    /// Plays so many cases.
    fn random(&mut self, count: u64) {
        let (mut index, mut tables) = (0, 0);
        while index < count && !self.given_up() {
            let rng = &mut Rng::new(case_seed(self.seed ^ 0x7ab1e, tables));
            let given = Given::random(rng);
            let arguments = self.folder.arguments(&given);
            tables += 1;
            let Given::Table(file, table) = &given else {
                self.refused(&given, &arguments, &unread(rng), &format!("case {index}"));
                index += 1;
                continue;
            };
            self.sizes[table.len() - 1] += 1;
            self.long += (file.len() > 4096) as u64;
            let mut program = Program::new(self.path.to_path_buf(), arguments);
            let mut line = 0;
            for _ in 0..rng.between(CASES[0], CASES[1]).min((count - index) as usize) {
                let before = if program.is_fresh() { 0 } else { line };
                line = before;
                let (text, own) = (Text::Under(table), case_seed(self.seed, index));
                let mut faults = Vec::new();
                let script = match index % 8 {
                    // The book of S3, its fresh runs under the table too.
                    1 => {
                        let case = edits::consistent(own);
                        let (script, found, ended) = edits::play(text, &case, &mut line);
                        self.edited += ended;
                        faults = found;
                        script
                    }
                    2 | 5 => player::play_to(text, &near(rng, own, table), &mut line),
                    _ => player::play_to(text, &Case::random(own), &mut line),
                };
                let (name, wait) = (&format!("case {index}"), index % 8 == 0);
                let played = Played { name, script: &script, before, wait, faults };
                self.play(&mut program, file, table, played);
                index += 1;
                if self.given_up() {
                    break;
                }
            }
            self.end(&mut program, line, &format!("the cases before case {index}"));
        }
    }

    /// Prints the counts; says whether each kind of table and crossing occurred and the
    /// scope's claims held.
    fn print(&self) -> bool {
        self.tally.print();
        let mut all = true;
        let mut row = |name: String, count: u64| {
            all &= count > 0;
            println!("{name:<52}{count:>10}{}", if count == 0 { "  never" } else { "" });
        };
        for (i, count) in self.sizes.iter().enumerate() {
            row(format!("tables of {} rows", i + 1), *count);
        }
        row("tables above 4,096 bytes".to_string(), self.long);
        for (name, count) in REFUSALS.iter().zip(self.refusals) {
            row(name.to_string(), count);
        }
        for (name, count) in CROSSINGS.iter().zip(self.crossings.counts) {
            row(format!("crossing {name}"), count);
        }
        row("reports under the built-in row".to_string(), self.crossings.single);
        row("edits compared with a fresh run under the table".to_string(), self.edited);
        println!("the longest answer has {} bytes", self.longest);
        all && self.tally.held()
    }
}

/// Plays the vectors, the longest lists and cases of a seed under tables to a program; says
/// whether nothing differs and each kind of table and crossing occurred.
pub fn compare(path: &Path, count: u64, seed: u64) -> bool {
    let mut comparison = Comparison {
        path,
        seed,
        folder: Folder::new().unwrap_or_else(|e| panic!("a folder for tables: {e}")),
        tally: Tally::default(),
        crossings: Crossings::default(),
        sizes: [0; ROWS],
        long: 0,
        refusals: [0; REFUSALS.len()],
        edited: 0,
        longest: 0,
        played: 0,
        differ: 0,
        silent: 0,
    };
    VECTORS.iter().for_each(|vector| comparison.vector(vector));
    comparison.longest_lists();
    comparison.random(count);
    if comparison.given_up() {
        println!("the program is silent: given up");
    }
    let all = comparison.print();
    // What was not played differs too.
    let total = (VECTORS.len() + sample::long().len()) as u64 + count;
    let differ = comparison.differ + total - comparison.played;
    println!("{} equal, {differ} differ", total.saturating_sub(differ));
    differ == 0 && all
}

// ---- the fixed list

/// Its last factor is below the built-in one, so that a crossing may vanish.
const TABLE: &[u8] = b"(coverage\n\
    (level 0.5 0.674489750196082)\n\
    (level 0.8 1.2815515655446)\n\
    (level 0.9 1.644853626951473)\n\
    )\n";

/// Fits that stay where they are entered, so that the priors' sigmas are the deviations.
/// Beside each bound the interval crosses it by every row, by the last row alone, by the
/// built-in row alone, and by none.
fn crossing() -> Vec<Case> {
    let two = [[100.0, 10.0, 1.0], [200.0, 11.0, 1.0]];
    let mut cases = Vec::new();
    for (entered, which) in
        [([1100.0, 0.3], 0), ([4900.0, 0.3], 0), ([2000.0, 0.15], 1), ([2000.0, 1.9], 1)]
    {
        for width in [2.0, 0.7, 0.55, 0.45] {
            let mut case = sample::case(entered, &two, Base::Flat(10.0));
            let sigmas = if which == 0 { [100.0 * width, 0.01] } else { [10.0, 0.1 * width] };
            case.opening.speed_prior = Some([entered[0], sigmas[0]]);
            case.opening.coefficient_prior = Some([entered[1], sigmas[1]]);
            case.opening.distances = vec![Requested { distance: 150.0, sigma: Some(2.0) }];
            cases.push(case);
        }
    }
    cases
}

/// Flights with bands of every kind, and edits of them.
fn flights() -> Vec<Case> {
    let (_, mut long) = sample::long().swap_remove(0);
    // Fewer edits of the longest report.
    let full = long.opening.distances.len() as u64;
    long.plan =
        vec![Edit::PutIn(1, 700.0, None), Edit::TakeOut(3), Edit::PutIn(full, 700.0, Some(0.5))];
    let some = |shots: usize| {
        let mut case = long.clone();
        case.opening.shots = long.opening.shots.iter().step_by(63 / shots).copied().collect();
        case.opening.speed_prior = None;
        case.opening.coefficient_prior = None;
        case.plan = Vec::new();
        let at = |distance: f64, sigma| Requested { distance, sigma };
        case.opening.distances =
            vec![at(300.0, Some(0.5)), at(500.0, None), at(700.0, Some(1e-3)), at(900.0, None)];
        case
    };
    let (two, mut three, mut odd) = (some(2), some(3), some(4));
    three.plan = vec![
        Edit::PutIn(2, 400.0, Some(0.25)),
        Edit::PutIn(1, 2100.0, None),
        Edit::Exchange(1, 450.0, None),
        Edit::TakeOut(5),
        Edit::TakeOut(9),
        Edit::PutIn(5, 1500.0, Some(3.0)),
    ];
    // A drop that is not finite has no interval, though there is a covariance.
    odd.solver.gap = Gap::OddAt(700.0, f64::INFINITY);
    odd.plan = vec![Edit::TakeOut(3), Edit::PutIn(1, 700.0, Some(1.0))];
    let mut vast = some(3);
    vast.solver.gap = Gap::OddAt(700.0, -1e200);
    let mut none = some(3);
    none.opening.distances.clear();
    none.plan = vec![Edit::PutIn(1, 640.0, Some(1.0)), Edit::TakeOut(1)];
    let Ok([_, (_, mut shots), (_, distances)]) = <[_; 3]>::try_from(sample::long()) else {
        panic!("three long lists")
    };
    shots.plan.truncate(1);
    vec![two, three, odd, vast, none, long, shots, distances]
}

/// Some runs without a covariance, refused ones among them.
const NAMED: [&str; 10] = [
    "bench",
    "bench at the bound",
    "not-a-number slope",
    "effective count 2 of three",
    "effective count 2 of two",
    "distance before the nearest observation",
    "distances equal to the observations",
    "gap in a distance",
    "not finite in a distance",
    "refused baseline",
];

/// How many random cases with a covariance there are, and how long they may be.
const RANDOM: usize = 8;
const SHORT: usize = 7_000;

/// The fixed list's conversations, under its table.
fn list() -> Vec<Script> {
    let table = load(TABLE).expect("a sound table");
    let text = Text::Under(&table);
    // The vectors' conversation, closed as a case is.
    let vector = include_str!("../../vectors/l2-print/three-rows.stdin").lines();
    let mut lines: Vec<Vec<u8>> = vector.map(|line| line.as_bytes().to_vec()).collect();
    lines.push(write::entered([0.0, 0.0]).into_bytes());
    lines.push(b"(open plain)".to_vec());
    let mut line = 0;
    let answers = player::recite_to(text, &lines, &mut line);
    let mut scripts = vec![Script { lines, answers, closing: 2 }];
    let named = sample::named().into_iter().filter(|(name, _)| NAMED.contains(name));
    let mut cases: Vec<Case> =
        named.chain(sample::pages()).map(|(_, case)| case).chain(crossing()).collect();
    cases.extend(flights());
    let random = (1..).map(|seed| Case::plain(mix(seed))).filter(|case| {
        let script = player::play(case, &mut 0);
        let available = |answer: &String| answer.contains("(Available ");
        sample::size(&script) <= SHORT && script.answers.iter().flatten().any(available)
    });
    cases.extend(random.take(RANDOM));
    for case in cases {
        let script = player::play_to(text, &case, &mut line.clone());
        scripts.push(sample::paged_to(text, &script, &mut line, |_| true));
    }
    scripts
}

/// Its standard input and output.
fn files(scripts: &[Script]) -> (Vec<u8>, Vec<u8>) {
    let (mut input, mut output) = (Vec::new(), Vec::new());
    for script in scripts {
        script.lines.iter().for_each(|line| input.extend([line, b"\n".as_slice()].concat()));
        let answers = script.answers.iter().flatten();
        answers.for_each(|answer| output.extend(format!("{answer}\n").into_bytes()));
    }
    (input, output)
}

/// Writes the fixed list as `stdin`, `stdout` and `data/table`.
pub fn write(directory: &Path) -> io::Result<()> {
    let scripts = list();
    let mut tally = Tally::default();
    scripts.iter().for_each(|script| tally.add(script));
    tally.print();
    let (input, output) = files(&scripts);
    println!("{} cases, {} and {} bytes", scripts.len(), input.len(), output.len());
    std::fs::create_dir_all(directory.join("data"))?;
    for (name, bytes) in [("stdin", &input[..]), ("stdout", &output), ("data/table", TABLE)] {
        std::fs::write(directory.join(name), bytes)?;
    }
    Ok(())
}

#[cfg(test)]
mod tests {
    use super::*;
    use crate::facts::Tree;
    use std::sync::OnceLock;

    fn table() -> Vec<Row> {
        load(TABLE).expect("a sound table")
    }

    fn written(tree: &Tree) -> String {
        match tree {
            Tree::Word(word) => word.clone(),
            Tree::List(parts) => {
                format!("({})", parts.iter().map(written).collect::<Vec<_>>().join(" "))
            }
        }
    }

    fn word(text: &str) -> Tree {
        Tree::Word(text.to_string())
    }

    /// A report with its intervals changed, each to a field or several.
    fn changed(line: &str, change: &dyn Fn(&Tree) -> Vec<Tree>) -> String {
        let Tree::List(mut report) = Tree::read(line) else { panic!("a report is a list") };
        let spread = |tree: &Tree, at: [usize; 2]| {
            let parts = tree.parts().iter().enumerate();
            let fields =
                parts.flat_map(
                    |(i, part)| {
                        if at.contains(&i) {
                            change(part)
                        } else {
                            vec![part.clone()]
                        }
                    },
                );
            Tree::List(fields.collect())
        };
        if report[10].at(0).word() == "Available" {
            report[10] = spread(&report[10], [2, 3]);
        }
        report[11] = Tree::List(report[11].parts().iter().map(|b| spread(b, [2, 3])).collect());
        written(&Tree::List(report))
    }

    fn is_report(answer: &str) -> bool {
        answer.starts_with("(report ")
    }

    /// All answers of the list under a table, one after the other.
    fn said(rows: &[Row]) -> Vec<String> {
        static LINES: OnceLock<Vec<Vec<u8>>> = OnceLock::new();
        let made = || list().into_iter().flat_map(|script| script.lines).collect();
        let lines = LINES.get_or_init(made);
        player::recite_to(Text::Under(rows), lines, &mut 0).into_iter().flatten().collect()
    }

    /// A report with the warnings of another.
    fn warned(line: &str, other: &str) -> String {
        let Tree::List(mut report) = Tree::read(line) else { panic!("a report is a list") };
        report[12] = Tree::read(other).at(12).clone();
        written(&Tree::List(report))
    }

    /// Programs that are wrong in one way each differ on the list; so many answers do.
    fn differ(right: &[String], wrong: impl Iterator<Item = String>) -> usize {
        let wrong: Vec<String> = wrong.collect();
        assert_eq!(right.len(), wrong.len());
        right.iter().zip(&wrong).filter(|(right, wrong)| right != wrong).count()
    }

    #[test]
    fn wrong_programs() {
        let rows = table();
        let right = said(&rows);
        // What the changes are made with changes nothing by itself.
        let same = |tree: &Tree| vec![tree.clone()];
        let reports = |change: &dyn Fn(&str) -> String| -> Vec<String> {
            let one = |a: &String| if is_report(a) { change(a) } else { a.clone() };
            right.iter().map(one).collect()
        };
        assert_eq!(differ(&right, reports(&|a| changed(a, &same)).into_iter()), 0);
        assert_eq!(differ(&right, reports(&|a| warned(a, a)).into_iter()), 0);
        let found = |name: &str, count: usize| assert!(count > 0, "{name}");

        for (name, row) in
            [("first row", rows[0]), ("second row", rows[1]), ("built-in row", BUILT_IN)]
        {
            let other = said(&[row]);
            let page = |(a, b): (&String, &String)| {
                if a.starts_with("(page ") {
                    b.clone()
                } else {
                    a.clone()
                }
            };
            let pages = right.iter().zip(&other).map(page);
            found(&format!("{name} for the page"), differ(&right, pages));
            let crossing = |(a, b): (&String, &String)| {
                if is_report(a) {
                    warned(a, b)
                } else {
                    a.clone()
                }
            };
            let crossings = right.iter().zip(&other).map(crossing);
            found(&format!("{name} for the crossing"), differ(&right, crossings));
        }

        let scaled = |tree: &Tree| {
            let one = |(row, due): (&Tree, &Row)| {
                let (estimate, deviation) = (row.at(0).double(), row.at(1).double());
                let half = BUILT_IN.factor * deviation * (due.factor / BUILT_IN.factor);
                let ends = [estimate - half, estimate + half].map(estimator::hex);
                let mut parts = row.parts().to_vec();
                parts[2..4].clone_from_slice(&ends.map(Tree::Word));
                Tree::List(parts)
            };
            match tree.rows() {
                [] => vec![tree.clone()],
                rows => vec![Tree::List(rows.iter().zip(&table()).map(one).collect())],
            }
        };
        let level = |tree: &Tree| {
            let one = |row: &Tree| {
                let mut parts = row.parts().to_vec();
                parts[4] = word("3fee666666666666");
                Tree::List(parts)
            };
            match tree.rows() {
                [] => vec![tree.clone()],
                rows => vec![Tree::List(rows.iter().map(one).collect())],
            }
        };
        let none = |tree: &Tree| tree.word() == "none";
        type Change<'a> = &'a dyn Fn(&Tree) -> Vec<Tree>;
        let changes: [(&str, Change); 8] = [
            ("half widths scaled from the 95 percent ones", &scaled),
            ("95 percent as every row's level", &level),
            ("three nones", &|tree| vec![tree.clone(); if none(tree) { 3 } else { 1 }]),
            ("a list of three nones", &|tree| {
                vec![if none(tree) { Tree::List(vec![word("none"); 3]) } else { tree.clone() }]
            }),
            ("a list of one none", &|tree| {
                vec![if none(tree) { Tree::List(vec![word("none")]) } else { tree.clone() }]
            }),
            ("rows without a list", &|tree| {
                if none(tree) {
                    vec![tree.clone()]
                } else {
                    tree.rows().to_vec()
                }
            }),
            ("the last row alone", &|tree| vec![tree.rows().last().unwrap_or(tree).clone()]),
            ("rows turned round", &|tree| match tree.rows() {
                [] => vec![tree.clone()],
                rows => vec![Tree::List(rows.iter().rev().cloned().collect())],
            }),
        ];
        for (name, change) in changes {
            found(name, differ(&right, reports(&|a| changed(a, change)).into_iter()));
        }

        // Brackets round a single row.
        let single = said(&rows[2..]);
        let bracketed = |tree: &Tree| {
            vec![if none(tree) { tree.clone() } else { Tree::List(vec![tree.clone()]) }]
        };
        let wrong =
            single.iter().map(|a| if is_report(a) { changed(a, &bracketed) } else { a.clone() });
        found("brackets round a single row", differ(&single, wrong));
    }

    /// What the list is to show.
    #[test]
    fn the_list() {
        let scripts = list();
        let rows = table();
        let mut tally = Tally::default();
        for script in &scripts {
            tally.add(script);
            tally.rows(script, &rows);
        }
        assert!(tally.held());
        let right = said(&rows);
        let crosses = |rows: &[Row]| -> Vec<bool> {
            said(rows).iter().filter(|a| is_report(a)).map(|a| a.contains(CROSSES)).collect()
        };
        let by: Vec<Vec<bool>> =
            [&rows[..1], &rows[1..2], &rows, &[BUILT_IN]].map(crosses).into_iter().collect();
        let count = |due: [bool; 4]| {
            (0..by[0].len()).filter(|i| [0, 1, 2, 3].map(|row| by[row][*i]) == due).count()
        };
        // By every row, by the last alone, and by the built-in row alone.
        assert!(count([true; 4]) >= 4 && count([false; 4]) >= 10);
        assert!(count([false, false, true, true]) >= 4 && count([false, false, false, true]) >= 4);
        let reports: Vec<Tree> =
            right.iter().filter(|a| is_report(a)).map(String::as_str).map(Tree::read).collect();
        let has = |what: &dyn Fn(&Tree) -> bool| reports.iter().any(what);
        let bands = |report: &Tree, latent: usize, future: usize| {
            let mut bands = report.at(11).parts().iter();
            bands.any(|b| b.at(2).rows().len() == latent && b.at(3).rows().len() == future)
        };
        let available = |report: &Tree| report.at(10).at(0).word() == "Available";
        assert!(has(&|r| !available(r) && bands(r, 0, 0)));
        assert!(has(&|r| available(r) && bands(r, 3, 3) && bands(r, 3, 0) && bands(r, 0, 0)));
        let long = |r: &Tree| [7, 11].map(|i| r.at(i).parts().len());
        assert!(has(&|r| long(r) == [64, 64]) && has(&|r| long(r) == [64, 63]));
        for edit in ["(put-in ", "(take-out ", "(exchange "] {
            let line = |line: &Vec<u8>| line.starts_with(edit.as_bytes());
            assert!(scripts.iter().any(|script| script.lines.iter().any(line)), "{edit}");
        }
    }

    /// An interval list and its words.
    #[test]
    fn rows_that_are_wrong() {
        let rows = table();
        let report = said(&rows).into_iter().find(|a| a.contains("(Available ")).expect("one");
        let held = |line: &str, rows: &[Row]| {
            let mut facts = crate::facts::Facts::default();
            facts.rows(line, rows);
            facts.held()
        };
        assert!(held(&report, &rows));
        assert!(!held(&report, &rows[1..]) && !held(&report, &[rows[0], rows[2], rows[1]]));
        let alone = changed(&report, &|tree| vec![tree.rows().last().unwrap_or(tree).clone()]);
        assert!(held(&alone, &rows[2..]) && !held(&alone, &rows));
    }

    /// The files kept beside this program are those that it writes.
    #[test]
    fn kept_list() {
        let kept = Path::new(env!("CARGO_MANIFEST_DIR")).join("../samples/tables");
        let read = |file: &str| std::fs::read(kept.join(file)).expect(file);
        assert!((read("stdin"), read("stdout")) == files(&list()));
        assert!(read("data/table") == TABLE);
        assert!(oracle::output(Some(TABLE), &read("stdin")) == read("stdout"));
    }

    /// A program that must end by itself: what it writes, what it leaves unread, its status
    /// and its end are seen.
    #[test]
    fn at_once_or_not() {
        let words = |words: &[&str]| words.iter().map(OsString::from).collect::<Vec<_>>();
        let told = |program: &str, arguments: &[&str], due: &str| {
            let input = b"x\n".repeat(1 << 19);
            let one = |size| at_once(Path::new(program), &words(arguments), &input[..size], due).0;
            let own = [1, 4, 3000, input.len()].map(one);
            assert!(own.iter().all(|told| told.is_some() == own[0].is_some()), "{own:?}");
            own[0].clone()
        };
        let is = |told: Option<String>, what: &str| told.is_some_and(|told| told.contains(what));
        assert_eq!(told("/bin/echo", &["due"], "due\n"), None);
        assert!(is(told("/bin/echo", &["due"], "other\n"), "found"));
        assert!(is(told("/bin/false", &["x"], ""), "status"));
        assert_eq!(told("/bin/true", &["x"], ""), None);
        // Of several arguments a line on standard error is due.
        assert!(is(told("/bin/true", &["x", "y"], ""), "standard error"));
        let folder = Folder::new().expect("a folder");
        let script = |name: &str, text: &str| {
            let name = folder.0.join(name);
            std::fs::write(&name, text).expect("a file");
            name.into_os_string().into_string().expect("letters")
        };
        let shell = |arguments: &[&str], due: &str| told("/bin/sh", arguments, due);
        assert_eq!(shell(&[&script("usage", "echo use >&2; exit 3"), "x"], ""), None);
        assert!(is(shell(&[&script("says", "echo use >&2")], ""), "standard error"));
        // One that reads a byte.
        let reads = script("reads", "head -c 1 > /dev/null");
        assert!(is(shell(&[&reads], ""), "leaves"));
    }

    /// The request's examples: how rows are printed, and by which factors a bound is crossed.
    #[test]
    fn examples() {
        let shots = [[100.0, 10.0, 1.0], [200.0, 11.0, 1.0]];
        let mut case = sample::case([1000.5, 0.3], &shots, Base::Flat(10.0));
        case.opening.speed_prior = Some([1000.5, 0.25]);
        case.opening.coefficient_prior = Some([0.3, 0.01]);
        let wanted = |sigma| Requested { distance: 150.0, sigma };
        case.opening.distances = vec![wanted(Some(1.0)), wanted(None)];
        let report = |file: &[u8]| {
            let table = load(file).expect("a sound table");
            let answers = player::play_to(Text::Under(&table), &case, &mut 0).answers;
            answers.into_iter().flatten().find(|answer| is_report(answer)).expect("a report")
        };
        // Estimate 10 and deviation 1; the band without a sigma has one `none`.
        let three = report(THREE);
        assert!(three.contains(
            " ((4024000000000000 3ff0000000000000 4020b5d5bed312a8 40274a2a412ced58 3feccccccccccccd) \
             (4024000000000000 3ff0000000000000 4020147f99c22010 4027eb80663ddff0 3fee666666666666) \
             (4024000000000000 3ff0000000000000 401db259cd94b750 402926d31935a458 3fefae147ae147ae)))"
        ));
        let single = report(SINGLE);
        assert!(single.contains(
            ") (4024000000000000 3ff0000000000000 4020147f99c22010 4027eb80663ddff0 3fee666666666666))"
        ));
        assert!([&three, &single].iter().all(|line| line.matches(") none)").count() == 1));
        for (rows, due) in [
            ("(level 0.5 1)\n", false),
            ("(level 0.5 1)\n(level 0.6 2.5)\n", true),
            ("(level 0.5 2.5)\n", true),
        ] {
            let line = report(format!("(coverage\n{rows})\n").as_bytes());
            assert_eq!(line.contains(CROSSES), due, "{line}");
        }
    }

    /// Cases near the bounds have the crossing warning by some rows and not by others.
    #[test]
    fn near_the_bounds() {
        let rng = &mut Rng::new(1);
        let (mut crossings, mut tally) = (Crossings::default(), Tally::default());
        for seed in 0..400 {
            let Given::Table(_, table) = Given::sound(rng) else { panic!("a sound table") };
            let script = player::play_to(Text::Under(&table), &near(rng, seed, &table), &mut 0);
            tally.add(&script);
            tally.rows(&script, &table);
            crossings.add(&script, &table, 0);
        }
        assert!(tally.held());
        for (name, count) in CROSSINGS.iter().zip(crossings.counts) {
            assert!(count > 30, "{name}: {count}");
        }
    }

    #[test]
    fn vectors_hold() {
        for Vector { name, table, input, due } in VECTORS {
            assert!(oracle::output(Some(table), input) == due, "{name}");
        }
    }
}
