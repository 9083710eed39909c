//! The session beside the Rust: time, instructions and bytes of state, over the same requests and the same solver. Both are processes that read the same line and
//! write the same one; what a process takes to start is left out by an empty run.
mod layout;

use std::alloc::{GlobalAlloc, Layout, System};
use std::cell::Cell;
use std::io::Write;
use std::process::{Command, Stdio};
use std::sync::atomic::{AtomicUsize, Ordering::Relaxed};

use estimator::Variant;
use session_bench::{opening, run, Solver};

const USAGE: &str = "usage: session-bench time | instructions PROGRAM [BEFORE]\n       session-bench state MIR";
const ROUNDS: usize = 7;

/// Observations, distances, and runs in a round.
const TRIVIAL: [(u64, u64, u64); 9] =
    [(2, 0, 8000), (8, 0, 3000), (8, 3, 3000), (8, 16, 2500), (8, 64, 1500), (16, 0, 2000), (16, 4, 2000), (64, 0, 800), (64, 64, 600)];
const POINT_MASS: [(u64, u64, u64); 5] = [(2, 0, 400), (8, 0, 40), (8, 3, 40), (16, 4, 20), (64, 64, 2)];

struct Side {
    name: &'static str,
    program: String,
}

/// What a process wrote, and the nanoseconds of processor time that it took.
fn started(mut command: Command, line: &str) -> (String, f64) {
    let before = children();
    let mut child = command.stdin(Stdio::piped()).stdout(Stdio::piped()).stderr(Stdio::piped()).spawn().expect("the program");
    child.stdin.take().expect("its input").write_all(line.as_bytes()).expect("written");
    let output = child.wait_with_output().expect("its output");
    assert!(output.status.success(), "{}", String::from_utf8_lossy(&output.stderr));
    (String::from_utf8(output.stdout).expect("text"), children() - before)
}

/// Nanoseconds of processor time, user's and system's, of the processes that have been waited for: what else runs on the machine counts little.
fn children() -> f64 {
    // On 64-bit Linux struct rusage has 144 bytes, and begins with the two times, each seconds and microseconds.
    let mut usage = [0i64; 18];
    extern "C" {
        fn getrusage(who: i32, usage: *mut i64) -> i32;
    }
    assert_eq!(unsafe { getrusage(-1, usage.as_mut_ptr()) }, 0);
    (usage[0] + usage[2]) as f64 * 1e9 + (usage[1] + usage[3]) as f64 * 1e3
}

/// The two counts of a line of output: questions and bytes.
fn counts(text: &str) -> (u64, u64) {
    let mut words = text.split_whitespace().map(|word| word.parse().expect("a count"));
    (words.next().expect("questions"), words.next().expect("bytes"))
}

/// Stops unless every side writes the same counts and the same report as the comparison's own estimator; gives the questions of a run.
fn agree(sides: &[Side], n: u64, m: u64, solver: u64) -> u64 {
    let solve = Solver::numbered(solver);
    let mut questions = 0;
    let opening = opening(solve, n as usize, m as usize);
    let ranges = [opening.shots.iter().map(|s| s[0]).collect::<Vec<_>>(), opening.distances.iter().map(|d| d.distance).collect()];
    let report = estimator::run(Variant::Recipes, &opening, &mut |place, mv, bc, _| {
        questions += 1;
        solve.solve(mv, bc, &ranges[(place == estimator::Place::Bands) as usize])
    });
    let report = report.expect("a report").line;
    let due = format!("{questions} {}\n{report}\n", report.len());
    for side in sides {
        let (wrote, _) = started(Command::new(&side.program), &line([1, n, m, solver, 1]));
        assert_eq!(wrote, due, "{} at {n} observations, {m} distances", side.name);
    }
    questions
}

/// The line that a program is given: runs, observations, distances, solver, and what becomes of the reports.
type Input = [u64; 5];

fn line(input: Input) -> String {
    input.map(|count| count.to_string()).join(" ") + "\n"
}

/// Processor time: the best of some rounds, the sides in turn.
fn times(sides: &[Side], input: Input) -> Vec<f64> {
    let mut best = vec![f64::MAX; sides.len()];
    let mut same = None;
    for _ in 0..ROUNDS {
        for (side, best) in sides.iter().zip(&mut best) {
            let (wrote, took) = started(Command::new(&side.program), &line(input));
            assert_eq!(*same.get_or_insert(counts(&wrote)), counts(&wrote), "{} at {input:?}", side.name);
            *best = best.min(took);
        }
    }
    best
}

/// Instructions, as callgrind counts them.
fn instructions(sides: &[Side], input: Input) -> Vec<f64> {
    let counted = |side: &Side| {
        let mut command = Command::new("valgrind");
        command.args(["--tool=callgrind", "--callgrind-out-file=/dev/null", "--log-fd=1", &side.program]);
        // A string instruction counts once for each byte there, so the C library is kept from copying by one.
        command.env("GLIBC_TUNABLES", "glibc.cpu.x86_rep_movsb_threshold=1000000:glibc.cpu.x86_rep_stosb_threshold=1000000");
        let (wrote, _) = started(command, &line(input));
        let (_, count) = wrote.split_once("Collected : ").unwrap_or_else(|| panic!("{wrote}"));
        count.split_whitespace().next().and_then(|word| word.parse().ok()).expect("a count")
    };
    sides.iter().map(counted).collect()
}

/// What each side takes: a question with the report left unwritten, and a run with its report, the empty run left out of both.
fn table(sides: &[Side], cases: &[(u64, u64, u64)], solver: u64, units: [&str; 2], measure: impl Fn(&[Side], Input) -> Vec<f64>) {
    let names: Vec<&str> = sides.iter().map(|side| side.name).collect();
    let (rust, others) = names.split_last().expect("two sides");
    let head = |unit: &str| {
        let each: String = names.iter().map(|name| format!(" {name}, {unit} |")).collect();
        each + &others.iter().map(|name| format!(" {name} / {rust} |")).collect::<String>()
    };
    println!("| observations | distances | questions a run |{}{}", head(units[0]), head(units[1]));
    println!("|---|---|---|{}", "---|".repeat(2 * (names.len() + others.len())));
    for &(n, m, runs) in cases {
        let questions = agree(sides, n, m, solver);
        let none = measure(sides, [0, n, m, solver, 0]);
        let a_run = |report| {
            let all = measure(sides, [runs, n, m, solver, report]);
            all.iter().zip(&none).map(|(all, none)| (all - none) / runs as f64).collect::<Vec<f64>>()
        };
        print!("| {n} | {m} | {questions} |");
        for (took, scale) in [(a_run(2), questions as f64), (a_run(0), 1e3)] {
            let last = took[took.len() - 1];
            let figures = took.iter().map(|took| figure(took / scale));
            let ratios = took[..took.len() - 1].iter().map(|took| format!("{:.2}", took / last));
            print!("{}", figures.chain(ratios).map(|cell| format!(" {cell} |")).collect::<String>());
        }
        println!();
    }
}

/// Three digits, or all of the whole ones.
fn figure(value: f64) -> String {
    if value < 10.0 {
        format!("{value:.2}")
    } else if value < 100.0 {
        format!("{value:.1}")
    } else {
        grouped(value.round() as usize)
    }
}

/// A count with its digits in groups of three.
fn grouped(count: usize) -> String {
    if count < 1000 {
        return count.to_string();
    }
    format!("{},{:03}", grouped(count / 1000), count % 1000)
}

/// Counts what is allocated in this process.
struct Counting;

static LIVE: AtomicUsize = AtomicUsize::new(0);
static PEAK: AtomicUsize = AtomicUsize::new(0);
static TIMES: AtomicUsize = AtomicUsize::new(0);

unsafe impl GlobalAlloc for Counting {
    unsafe fn alloc(&self, layout: Layout) -> *mut u8 {
        TIMES.fetch_add(1, Relaxed);
        PEAK.fetch_max(LIVE.fetch_add(layout.size(), Relaxed) + layout.size(), Relaxed);
        System.alloc(layout)
    }

    unsafe fn dealloc(&self, at: *mut u8, layout: Layout) {
        LIVE.fetch_sub(layout.size(), Relaxed);
        System.dealloc(at, layout)
    }
}

#[global_allocator]
static COUNTING: Counting = Counting;

/// What the Rust holds while a question is open, which it cannot be resumed from, and what it allocates in a run.
fn rust_state(n: u64, m: u64) -> [usize; 4] {
    let opening = opening(Solver::Trivial, n as usize, m as usize);
    let (heap, stack) = (Cell::new(0), Cell::new(0));
    let floor = LIVE.load(Relaxed);
    let marker = 0u8;
    let base = &marker as *const u8 as usize;
    let solve = |mv: f64, bc: f64, ranges: &[f64]| {
        let marker = 0u8;
        heap.set(heap.get().max(LIVE.load(Relaxed) - floor));
        stack.set(stack.get().max(base - std::hint::black_box(&marker as *const u8) as usize));
        Solver::Trivial.solve(mv, bc, ranges)
    };
    PEAK.store(floor, Relaxed);
    let times = TIMES.load(Relaxed);
    run(&opening, Solver::Given(&solve), None).expect("a report");
    [heap.get(), stack.get(), PEAK.load(Relaxed) - floor, TIMES.load(Relaxed) - times]
}

fn state(mir: &str) {
    println!("| bytes | |\n|---|---|");
    for name in ["editing::Session", "editing::Answer", "session::Session"] {
        println!("| `{name}` | {} |", grouped(layout::size_of(mir, name).expect("a declared type")));
    }
    println!("\n| observations | distances | Rust, heap at a question | Rust, stack at a question | Rust, most heap in a run | Rust, allocations a run |");
    println!("|---|---|---|---|---|---|");
    for (n, m, _) in TRIVIAL {
        let [heap, stack, peak, times] = rust_state(n, m).map(grouped);
        println!("| {n} | {m} | {heap} | {stack} | {peak} | {times} |");
    }
}

fn main() {
    let words: Vec<String> = std::env::args().skip(1).collect();
    let text = std::env::current_exe().expect("this program").with_file_name("text");
    let sides = |programs: &[String]| {
        let mut sides = vec![Side { name: "session", program: programs[0].clone() }];
        if let Some(before) = programs.get(1) {
            sides.insert(0, Side { name: "before", program: before.clone() });
        }
        sides.push(Side { name: "Rust", program: text.to_string_lossy().into_owned() });
        sides
    };
    match words.first().map(String::as_str) {
        Some("time") if words.len() > 1 => {
            let sides = sides(&words[1..]);
            println!("Over the trivial solver:\n");
            table(&sides, &TRIVIAL, 0, ["ns a question", "µs a run"], times);
            println!("\nOver `point_mass`:\n");
            table(&sides, &POINT_MASS, 1, ["ns a question", "µs a run"], times);
        }
        Some("instructions") if words.len() > 1 => {
            let cases = TRIVIAL.map(|(n, m, _)| (n, m, 10));
            table(&sides(&words[1..]), &cases, 0, ["instructions a question", "thousands a run"], instructions);
        }
        Some("state") if words.len() == 2 => state(&std::fs::read_to_string(&words[1]).expect("the MIR")),
        _ => {
            eprintln!("{USAGE}");
            std::process::exit(2);
        }
    }
}
