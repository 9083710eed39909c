//! A fixed list of cases, written as the host's lines and the oracle's answers.

use std::io::{self, Write};
use std::path::Path;

use crate::case::{odd, Case};
use crate::edits;
use crate::numbers::edge;
use crate::player::{self, Script};
use crate::rng::{mix, Rng};
use crate::solver::{Base, Gap, Slip, Solver};
use crate::tally::Tally;
use crate::write;
use estimator::{Opening, Requested, LIMIT};
use oracle::form::Edit;
use oracle::Text;

/// About how many bytes the two files may have together, the long lists and all pages
/// left out.
const BYTES: usize = 402_500;
const CASES: usize = 420;

fn solver(base: Base) -> Solver {
    Solver { seed: 1, base, noise: 0.0, gap: Gap::Nothing, slip: None }
}

pub fn case(entered: [f64; 2], shots: &[[f64; 3]], base: Base) -> Case {
    let opening = Opening { entered, shots: shots.to_vec(), ..Opening::default() };
    let solver = solver(base);
    Case { seed: 1, opening, solver, noise: 0.0, edits: 0, plan: Vec::new(), pages: 0.0 }
}

fn wanted(mut case: Case, distances: &[f64]) -> Case {
    case.opening.distances =
        distances.iter().map(|d| Requested { distance: *d, sigma: None }).collect();
    case
}

fn slipped(mut case: Case, number: u64, slip: Slip) -> Case {
    case.solver.slip = Some((number, slip));
    case
}

/// The bench figures (S24) and other vectors worked out by hand, whole runs.
pub fn named() -> Vec<(&'static str, Case)> {
    let two = [[100.0, 10.0, 1.0], [200.0, 11.0, 1.0]];
    let zero = [[200.0, 0.0, 1.0], [300.0, 0.0, 1.0]];
    let far = [[500.0, 10.0, 1.0], [900.0, 11.0, 1.0]];
    let weighted = [[100.0, 0.0, 100.0], [200.0, 0.0, 100.0], [300.0, 50.0, 100.0]];
    let flat = |speed: f64| case([speed, 0.3], &two, Base::Flat(10.0));
    let cut = |knee| {
        let base = Base::Cut { speed: 1000.0, coefficient: 1.5, knee, high: 1e6 };
        case([1000.0, 1.5], &zero, base)
    };
    let axes = Base::Axes { speed: 2000.0, coefficient: 0.3 };
    let below = f64::from_bits(500f64.to_bits() - 1);
    let bench = || wanted(flat(2000.0), &[100.0, 150.0]);
    vec![
        ("bench", flat(2000.0)),
        ("bench at the bound", flat(1000.0)),
        (
            "not-a-number slope",
            case([2000.0, 0.3], &two, Base::NanSlope { speed: 2000.0, value: 10.0 }),
        ),
        ("effective count 2 of three", case([2000.0, 0.3], &weighted, axes)),
        ("effective count 2 of two", case([2000.0, 0.3], &weighted[..2], axes)),
        ("near the bound", flat(1000.003)),
        ("not near the bound", flat(1000.005)),
        ("near the upper bound", flat(4999.997)),
        ("not near the upper bound", flat(4999.995)),
        (
            "distance of the nearest observation",
            wanted(case([2000.0, 0.3], &far, Base::Flat(10.0)), &[500.0, 900.0]),
        ),
        (
            "distance before the nearest observation",
            wanted(case([2000.0, 0.3], &far, Base::Flat(10.0)), &[600.0, below]),
        ),
        ("distances equal to the observations", wanted(flat(2000.0), &[100.0, 200.0])),
        (
            "step of not-a-number",
            case(
                [2000.0, 0.3],
                &zero,
                Base::Overflow { speed: 2000.0, coefficient: 0.3, scale: 1.0 },
            ),
        ),
        ("cut at the least radius", cut(1.3395)),
        ("cut before it", cut(1.3385)),
        ("refused at the first question", slipped(bench(), 1, Slip::Refused)),
        ("gap at the first question", slipped(bench(), 1, Slip::Missing)),
        ("not finite at the first question", slipped(bench(), 1, Slip::Value(f64::NAN))),
        ("gap in the nominal", slipped(bench(), 2, Slip::Missing)),
        ("not finite in the nominal", slipped(bench(), 2, Slip::Value(f64::INFINITY))),
        ("refused in the fifth", slipped(bench(), 6, Slip::Refused)),
        ("gap in a distance", slipped(bench(), 12, Slip::Missing)),
        ("refused distances", slipped(bench(), 16, Slip::Refused)),
        ("not finite in a distance", slipped(bench(), 14, Slip::Value(f64::NAN))),
        ("refused baseline", slipped(bench(), 17, Slip::Refused)),
        ("gap in the baseline", slipped(bench(), 17, Slip::Missing)),
        ("not finite baseline", slipped(bench(), 17, Slip::Value(1e200))),
    ]
}

/// The bench with requested distances, at one of which its drop is not a number; and
/// reports with numbers of every kind, without and with intervals.
pub fn pages() -> Vec<(&'static str, Case)> {
    let mut bench = named().swap_remove(0).1;
    let at = |distance: f64, sigma| Requested { distance, sigma };
    bench.opening.distances = vec![at(150.0, Some(1.0)), at(160.0, None), at(170.0, None)];
    bench.solver.gap = Gap::OddAt(170.0, f64::NAN);
    bench.plan = vec![
        Edit::TakeOut(4),
        Edit::PutIn(4, 170.0, Some(1.0)),
        Edit::Exchange(3, 180.0, None),
        Edit::TakeOut(1),
    ];
    let mut step = named().into_iter().find(|c| c.0 == "step of not-a-number").expect("named").1;
    step.opening.distances = vec![at(150.0, None)];
    let mut numbers = vec![("page of the bench", bench), ("page of a fit of not-a-number", step)];
    for (seed, intervals) in [(1, false), (2, false), (3, true), (4, true)] {
        let rng = &mut Rng::new(seed);
        numbers.push(("page of numbers", of_numbers(rng, intervals)));
    }
    numbers
}

/// A run with numbers of every kind that ends in a report, with intervals or without.
fn of_numbers(rng: &mut Rng, intervals: bool) -> Case {
    loop {
        let mut case = Case { noise: 0.0, edits: 0, pages: 0.0, ..odd(1, rng) };
        while case.opening.distances.len() < 20 {
            let distance = edge(rng).abs();
            if distance > 0.0 {
                case.opening.distances.push(Requested { distance, sigma: None });
            }
        }
        case.plan = vec![Edit::PutIn(2, 700.0, None)];
        let (end, _) = edits::fresh(&case, &case.opening.distances);
        let sound = matches!(case.solver.gap, Gap::Nothing) && end.starts_with("(report ");
        if sound && end.contains("(Available ") == intervals {
            return case;
        }
    }
}

/// As many records as a list may have: both lists at once, with edits of the
/// longest report, and each alone.
pub fn long() -> Vec<(&'static str, Case)> {
    let flight = solver(Base::Flight);
    // With these figures each fit ends by its gradient, without a poll.
    let shot = |i: usize| {
        let (at, sigma) = (200.0 + 15.0 * i as f64, 1.0 + (i % 16) as f64 / 16.0);
        let off = 0.1 * sigma * ((i * 5 % 7) as f64 - 3.0);
        [at, flight.drop(1, 2701.0, 0.4, at) + off, sigma]
    };
    let entry = |i: usize| Requested {
        distance: 150.0 + 17.0 * i as f64,
        sigma: Some(0.1 + 0.02 * i as f64),
    };
    let shots: Vec<[f64; 3]> = (0..LIMIT).map(shot).collect();
    let distances: Vec<Requested> = (0..LIMIT).map(entry).collect();
    let opened = |shots: &[[f64; 3]], distances: &[Requested], plan: &[Edit]| {
        let mut case = case([2700.0, 0.4], shots, Base::Flight);
        case.opening.distances = distances.to_vec();
        case.plan = plan.to_vec();
        // No distance of a list is so far, but an edit's is.
        case.solver.gap = Gap::MissingBeyond(2000.0);
        case
    };
    let full = LIMIT as u64;
    let refused = [
        Edit::PutIn(full + 1, 700.0, Some(1.0)),
        Edit::PutIn(1, f64::NAN, None),
        Edit::PutIn(full + 2, 700.0, None),
        Edit::Exchange(full + 1, 700.0, None),
        Edit::TakeOut(full + 1),
        Edit::Exchange(full / 2, 2100.0, Some(1.0)),
    ];
    // The two that the missing drop refuses are followed by a report of the old list.
    let ended = [
        Edit::TakeOut(1),
        Edit::TakeOut(full - 1),
        Edit::PutIn(1, 2100.0, None),
        Edit::Exchange(full / 2, 333.0, Some(0.75)),
        Edit::PutIn(full - 1, 1250.0, None),
        Edit::PutIn(1, 125.0, Some(0.5)),
        Edit::PutIn(1, 700.0, None),
    ];
    let mut both = opened(&shots, &distances, &[refused.as_slice(), &ended].concat());
    both.opening.speed_prior = Some([2710.0, 100.0]);
    both.opening.coefficient_prior = Some([0.39, 0.1]);
    let into_none = [Edit::PutIn(1, 700.0, Some(1.0))];
    vec![
        ("64 shots and 64 distances", both),
        ("64 shots", opened(&shots, &[], &into_none)),
        ("64 distances", opened(&[shots[20], shots[60]], &distances, &[])),
    ]
}

/// Lines that need no host's wit: forms, their order, and a session's corners.
fn plain_lines() -> Vec<String> {
    let ten = "4024000000000000";
    let point = write::entered([2000.0, 0.3]);
    let shots = [write::shot([100.0, 10.0, 1.0]), write::shot([200.0, 11.0, 1.0])];
    let speed = write::prior("speed", [2000.0, 50.0]);
    let coefficient = write::prior("coefficient", [0.3, 0.1]);
    let distance = write::distance(Requested { distance: 150.0, sigma: Some(1.0) });
    let mut lines: Vec<String> = Vec::new();
    let mut say = |line: &str| lines.push(line.to_string());
    // Before any session.
    say("(page)");
    for line in ["(asked)", "(drops)", "(refused)", "(open plain)", "(take-out 1)", "(take-out 0)"]
    {
        say(line);
    }
    say("(page)");
    for line in [&shots[0], &speed, &coefficient, &distance] {
        say(line);
    }
    // The order of a request.
    for line in [&point, &coefficient, &speed, &coefficient, &shots[0], &distance, &coefficient] {
        say(line);
    }
    say("(open plain)");
    say("(page)");
    say("(open plain)");
    for line in [&point, &shots[0], &speed, &speed, &shots[1]] {
        say(line);
    }
    for line in [&point, &distance, &shots[0], &speed] {
        say(line);
    }
    say("(open plain)");
    // Forms that are none.
    for line in [
        "",
        " ",
        "(",
        ")",
        "()",
        "( )",
        "(asked",
        "asked)",
        "(asked) ",
        " (asked)",
        "(asked )",
        "(ASKED)",
        "((asked))",
        "(asked)(asked)",
        "(open)",
        "(open strict)",
        "(open plain )",
        "(refused )",
        "(drops )",
        "(drops 402400000000000)",
        "(drops 40240000000000000)",
        "(drops 402400000000000G)",
        "(drops 402400000000000A)",
        "(drops  4024000000000000)",
        "(drops 4024000000000000,)",
        "(drops\t4024000000000000)",
        "(drops none)",
        "(drops -024000000000000)",
        "(drops 4024000000000000)\r",
        "(drops missing missing",
        "(entered 409f400000000000)",
        "(shot 4024000000000000 4024000000000000)",
        "(prior 4024000000000000 4024000000000000)",
        "(prior drop 4024000000000000 4024000000000000)",
        "(distance 4024000000000000)",
        "(distance none none)",
        "(take-out)",
        "(take-out 01)",
        "(take-out 00)",
        "(take-out +1)",
        "(take-out 1 )",
        "(take-out 18446744073709551616)",
        "(put-in 1 4024000000000000)",
        "(put-in 4024000000000000 none)",
        "(exchange 1 none none)",
        "(exchange x 4024000000000000 none)",
        "(report)",
        "(question shots 409f400000000000 3fd3333333333333)",
        "(declined 1 1)",
        "(asked 0)",
        "(page",
        "page)",
        "(page )",
        "( page)",
        "(page 0)",
        "(page 1)",
        "(Page)",
        "(PAGE)",
        "(pages)",
        "(page)\r",
        "(page)(page)",
    ] {
        say(line);
    }
    say(&"(drops ".repeat(400));
    say("\0");
    say("(asked\0)");
    // Any not-a-number is one.
    say("(entered fff8000000000001 7ff0000000000001)");
    say("(open plain)");
    say("(entered 409f400000000000 ffffffffffffffff)");
    say("(open plain)");
    // A session: replies that are declined, and a new request in its middle.
    let reply = format!("(drops {ten} {ten})");
    for line in [&point, &shots[0], &shots[1], &distance] {
        say(line);
    }
    say("(open plain)");
    for line in ["(asked)", "(page)", "(drops)", "(drops missing)", "(take-out 1)", "(open plain)"]
    {
        say(line);
    }
    say(&format!("(drops{})", format!(" {ten}").repeat(65)));
    for _ in 0..6 {
        say(&reply);
    }
    say(&point);
    say("(page)");
    say(&shots[0]);
    say("(asked)");
    for _ in 0..5 {
        say(&reply);
    }
    for _ in 0..5 {
        say(&reply);
        say(&format!("(drops {ten})"));
    }
    say(&reply);
    say(&reply);
    say("(page)");
    say("(refused)");
    say("(asked)");
    say("(page)");
    // Edits of its report.
    let put = |place: &str, distance: f64, sigma: &str| {
        format!("(put-in {place} {} {sigma})", estimator::hex(distance))
    };
    say("(take-out 0)");
    say("(take-out 2)");
    say("(take-out 18446744073709551615)");
    say("(exchange 2 4024000000000000 none)");
    say(&put("3", 150.0, "none"));
    say(&put("2", 0.0, "none"));
    say(&put("1", 150.0, "8000000000000000"));
    say("(page)");
    let one = format!("(drops {ten})");
    let mut edit = |first: String, lines: &[&str]| {
        say(&first);
        for line in lines {
            say(line);
        }
    };
    edit(put("2", 250.0, "3ff0000000000000"), &[&one, &one, "(page)", &one, &one, &one, "(page)"]);
    edit(put("1", 50.0, "none"), &[&one, &one, "(drops missing)", &one, &one, "(page)"]);
    edit(put("1", 50.0, "none"), &[&one, "(refused)", "(page)", &one, &one, "(asked)"]);
    edit(put("1", 50.0, "none"), &["(page)", &one, &reply, "(take-out 1)", "(asked)", &one]);
    edit("(drops)".to_string(), &["(page)", &one, &one, &one, "(take-out 3)", "(take-out 2)"]);
    edit("(exchange 1 4069000000000000 none)".to_string(), &[one.as_str(); 5]);
    edit("(page)".to_string(), &["(take-out 1)", "(page)", "(take-out 1)", "(take-out 1)"]);
    edit("(asked)".to_string(), &["(asked)", "(drops)", "(page)", "(page)"]);
    // The request from the middle is still being made.
    say(&shots[1]);
    say("(page)");
    say("(open plain)");
    say("(page)");
    say("(refused)");
    say("(asked)");
    say("(page)");
    say("(drops)");
    say("(refused)");
    // A gap, then a refused point: 10.  Gaps in several questions: the least
    // position, of observations (11) and of requested distances (13).
    let (first, second) = (format!("(drops missing {ten})"), format!("(drops {ten} missing)"));
    let mut run = |before: usize, replies: &[&str]| {
        for line in [&point, &shots[0], &shots[1], &distance, &distance] {
            say(line);
        }
        say("(open plain)");
        for _ in 0..before {
            say(&reply);
        }
        for reply in replies {
            say(reply);
        }
        say("(asked)");
    };
    run(1, &[&first, "(refused)"]);
    run(1, &[&second, &reply, &reply, &first, &reply]);
    run(1, &[&second, &reply, &reply, &reply, &second]);
    run(11, &[&first, &reply, &reply, "(refused)"]);
    run(11, &[&reply, &second, &reply, &reply, &first]);
    run(11, &[&reply, &second, &reply, &reply, &reply]);
    // A page while the lines of the next request are read.
    for line in [&point, &shots[0], &shots[1]] {
        say(line);
    }
    say("(open plain)");
    for _ in 0..12 {
        say(&reply);
    }
    for line in [&point, &shots[0], &speed, &coefficient, &distance] {
        say("(page)");
        say(line);
    }
    say("(take-out 1)");
    say("(page)");
    say(&write::entered([0.0, 0.0]));
    say("(page)");
    say("(open plain)");
    say("(page)");
    lines
}

/// Openings with one fault or several, and the number each gives first.
fn openings() -> Vec<Case> {
    let good = [[100.0, 10.0, 1.0], [200.0, 11.0, 1.0]];
    let entered = [2000.0, 0.3];
    let base = Base::Flat(10.0);
    let nan = f64::NAN;
    let inf = f64::INFINITY;
    let mut cases = Vec::new();
    for speed in [nan, inf, -inf, 999.9999999999999, 5000.000000000001, 0.0, -2000.0] {
        cases.push(case([speed, 0.3], &good, base));
        cases.push(case([speed, nan], &[], base));
    }
    for coefficient in [nan, inf, 0.049999999999999996, 2.0000000000000004, -0.3] {
        cases.push(case([2000.0, coefficient], &good, base));
    }
    for (speed, coefficient) in [(1000.0, 0.05), (5000.0, 2.0), (1000.0, 2.0)] {
        cases.push(case([speed, coefficient], &good, base));
    }
    cases.push(case(entered, &[], base));
    cases.push(case(entered, &good[..1], base));
    cases.push(case(entered, &[[nan, nan, nan]], base));
    for bad in [nan, inf, -inf, 0.0, -0.0, -1.0] {
        for part in 0..3 {
            for at in 0..2 {
                let mut shots = good;
                shots[at][part] = bad;
                // A drop of any finite value is sound.
                if part != 1 || !bad.is_finite() {
                    cases.push(case(entered, &shots, base));
                }
            }
        }
        for part in 0..2 {
            let mut sound = [2000.0, 50.0];
            sound[part] = bad;
            let mut one = case(entered, &good, base);
            one.opening.speed_prior = Some(sound);
            cases.push(one.clone());
            one.opening.coefficient_prior = Some([bad, bad]);
            cases.push(one.clone());
            one.opening.speed_prior = None;
            cases.push(one);
        }
        let mut one = wanted(case(entered, &good, base), &[300.0, bad]);
        cases.push(one.clone());
        one.opening.distances[0].sigma = Some(bad);
        cases.push(one.clone());
        one.opening.distances.swap(0, 1);
        cases.push(one);
    }
    for mean in [999.0, 1000.0, 5000.0, 5001.0] {
        let mut one = case(entered, &good, base);
        one.opening.speed_prior = Some([mean, -1.0]);
        cases.push(one);
    }
    let mut many = case(entered, &[good[0]; 65], base);
    cases.push(many.clone());
    many.opening.shots[64] = [nan, 0.0, 0.0];
    many.opening.speed_prior = Some([0.0, 0.0]);
    cases.push(many);
    cases.push(wanted(case(entered, &good, base), &[nan; 65]));
    let mut both = wanted(case(entered, &good, base), &[nan; 65]);
    both.opening.coefficient_prior = Some([nan, 1.0]);
    cases.push(both);
    cases
}

/// The bytes of a conversation, pages left out.
pub fn size(script: &Script) -> usize {
    let lines = script.lines.iter().filter(|line| *line != b"(page)");
    let answers = script.answers.iter().flatten().filter(|a| !a.starts_with("(page "));
    lines.map(|l| l.len() + 1).sum::<usize>() + answers.map(|a| a.len() + 1).sum::<usize>()
}

/// A conversation with `(page)` after some of the lines that get a report or a refusal,
/// told by their places among these; `line` goes on counting the lines.
fn paged(script: &Script, line: &mut u64, after: impl Fn(usize) -> bool) -> Script {
    paged_to(player::PLAIN, script, line, after)
}

pub fn paged_to(
    text: Text<'_>,
    script: &Script,
    line: &mut u64,
    after: impl Fn(usize) -> bool,
) -> Script {
    let kept = script.lines.len() - script.closing;
    let (mut lines, mut closing, mut ends) = (Vec::new(), 0, 0);
    for (i, (said, answer)) in script.lines.iter().zip(&script.answers).enumerate() {
        let first = lines.len();
        lines.push(said.clone());
        let answer = answer.as_deref().unwrap_or_default();
        if answer.starts_with("(report ") || answer.starts_with("(declined ") {
            lines.extend(after(ends).then(|| b"(page)".to_vec()));
            ends += 1;
        }
        closing += if i < kept { 0 } else { lines.len() - first };
    }
    let answers = player::recite_to(text, &lines, line);
    Script { lines, answers, closing }
}

/// Writes `stdin`, `stdout` and `cases`, the first line and name of each case.
pub fn write(directory: &Path) -> io::Result<()> {
    let mut scripts: Vec<(String, Script)> = Vec::new();
    let mut line = 0;

    let lines: Vec<Vec<u8>> = plain_lines().into_iter().map(String::into_bytes).collect();
    let answers = player::recite(&lines, &mut line);
    scripts.push(("plain lines".to_string(), Script { lines, answers, closing: 0 }));
    for (name, case) in named() {
        let script = player::play(&case, &mut line.clone());
        scripts.push((name.to_string(), paged(&script, &mut line, |_| true)));
    }
    for (i, case) in openings().iter().enumerate() {
        // Some of them are sound: their runs are refused at once, to be short.
        let case = slipped(case.clone(), 1, Slip::Refused);
        scripts.push((format!("opening {}", i + 1), player::play(&case, &mut line)));
    }

    // Random cases: those that show something new, two polls with a covariance,
    // edits of a report with one, then reports, then whatever is small.
    let mut tally = Tally::default();
    scripts.iter().for_each(|(_, script)| tally.add(script));
    let mut bytes: usize = scripts.iter().map(|(_, script)| size(script)).sum();
    let has = |script: &Script, what: &str| {
        script.answers.iter().flatten().any(|answer| answer.contains(what))
    };
    let polled = |s: &Script| has(s, " ObjectiveMesh ") && has(s, "(Available ");
    let edited = |s: &Script, before: &str| {
        let answers: Vec<&String> = s.answers.iter().flatten().collect();
        let ends = |w: &[&String]| w[0].starts_with(before) && w[1].contains("(Available ");
        answers.windows(2).any(ends)
    };
    for (pass, most, until, mut left) in [
        (0, 2_500, BYTES, CASES),
        (0, 5_000, BYTES, CASES),
        (0, 12_000, BYTES, CASES),
        (1, 14_000, BYTES, 2),
        (2, 9_000, BYTES, 2),
        (3, 9_000, BYTES, 2),
        (4, 3_500, BYTES - 12_000, CASES),
        (5, 900, BYTES, CASES),
    ] {
        for seed in 1..4000 {
            if left == 0 || scripts.len() >= CASES || bytes > until - most {
                break;
            }
            let script = player::play(&Case::plain(mix(seed)), &mut line.clone());
            let taken = match pass {
                0 => tally.would_show(&script),
                1 => polled(&script),
                2 => edited(&script, "(question new "),
                3 => edited(&script, "(report "),
                4 => has(&script, "(report "),
                _ => true,
            };
            if size(&script) > most || !taken {
                continue;
            }
            left -= 1;
            let script = paged(&script, &mut line, |_| true);
            bytes += size(&script);
            tally.add(&script);
            scripts.push((format!("random {seed}"), script));
        }
    }
    // The long lists and the pages' cases come after these and are not counted among their bytes.
    for (name, case) in long() {
        let script = player::play(&case, &mut line.clone());
        // After the run and after the last edit.
        let script = paged(&script, &mut line, |end| end == 0 || end == case.plan.len());
        bytes += size(&script);
        tally.add(&script);
        scripts.push((name.to_string(), script));
    }
    for (name, case) in pages() {
        let script = player::play(&case, &mut line.clone());
        let script = paged(&script, &mut line, |_| true);
        bytes += size(&script);
        tally.add(&script);
        scripts.push((name.to_string(), script));
    }
    tally.print();
    println!("{} cases, {bytes} bytes without the pages", scripts.len());

    std::fs::create_dir_all(directory)?;
    let file = |name: &str| std::fs::File::create(directory.join(name)).map(io::BufWriter::new);
    let (mut input, mut output, mut names) = (file("stdin")?, file("stdout")?, file("cases")?);
    let mut first = 1;
    for (name, script) in &scripts {
        writeln!(names, "{first} {name}")?;
        first += script.lines.len();
        for line in &script.lines {
            input.write_all(line)?;
            input.write_all(b"\n")?;
        }
        for answer in script.answers.iter().flatten() {
            writeln!(output, "{answer}")?;
        }
    }
    // A last line without its line feed.
    writeln!(names, "{first} unended")?;
    input.write_all(b"(asked)")?;
    writeln!(output, "(malformed {first})")?;
    input.flush()?;
    output.flush()?;
    names.flush()
}

#[cfg(test)]
mod tests {
    use super::*;
    use crate::case::answering;
    use estimator::{Place, Report, Variant};

    struct Seen {
        report: Report,
        questions: usize,
    }

    impl Seen {
        fn leaf(&self, name: &str) -> &str {
            &self.report.leaves.iter().find(|l| l.0 == name).expect(name).1
        }
        fn warnings(&self) -> Vec<&str> {
            let leaves = self.report.leaves.iter();
            leaves.filter(|l| l.0 == "warnings").map(|l| l.1.as_str()).collect()
        }
    }

    fn run(case: &Case) -> Seen {
        let mut answer = answering(&case.opening, &case.solver);
        let mut questions = 0;
        let outcome = estimator::run(Variant::Recipes, &case.opening, &mut |p, mv, bc, n| {
            questions += 1;
            answer(p, mv, bc, n)
        });
        Seen { report: outcome.expect("a report"), questions }
    }

    fn seen(name: &str) -> Seen {
        let named = named();
        run(&named.iter().find(|c| c.0 == name).expect(name).1)
    }

    #[test]
    fn bench() {
        let seen = seen("bench");
        assert_eq!((seen.questions, seen.leaf("iterations")), (12, "1"));
        assert_eq!(seen.leaf("failure code"), "RankDeficientInformation");
        let due = ["WeakBcSensitivity", "IllConditionedData", "GaussianApproximationUnavailable"];
        assert_eq!(seen.warnings(), due);
    }

    #[test]
    fn bounds() {
        for (name, code) in [
            ("bench at the bound", "MapAtParameterBound"),
            ("near the bound", "MapAtParameterBound"),
            ("not near the bound", "RankDeficientInformation"),
            ("near the upper bound", "MapAtParameterBound"),
            ("not near the upper bound", "RankDeficientInformation"),
        ] {
            assert_eq!(seen(name).leaf("failure code"), code, "{name}");
        }
    }

    #[test]
    fn not_a_number_slope() {
        let seen = seen("not-a-number slope");
        assert_eq!(seen.questions, 12);
        assert_eq!(seen.leaf("map_convergence_criterion"), "ScaledGradient");
        assert_eq!(seen.leaf("failure code"), "NonFiniteInformation");
        assert_eq!(seen.leaf("bc_sensitivity_ratio"), "0000000000000000");
        assert_eq!(seen.leaf("data_condition_number"), "7ff0000000000000");
        assert_eq!(seen.leaf("map_scaled_gradient_inf_norm"), "0000000000000000");
        let due = ["WeakBcSensitivity", "IllConditionedData", "GaussianApproximationUnavailable"];
        assert_eq!(seen.warnings(), due);
    }

    #[test]
    fn effective_count() {
        let three = seen("effective count 2 of three");
        assert_eq!(three.leaf("effective_parameter_count"), "4000000000000000");
        assert_eq!(three.leaf("effective_degrees_of_freedom"), "3ff0000000000000");
        assert_eq!(three.leaf("reduced_chi_square"), three.leaf("chi_square"));
        assert!(three.warnings().contains(&"LowEffectiveDegreesOfFreedom"));
        let two = seen("effective count 2 of two");
        assert_eq!(two.leaf("effective_parameter_count"), "4000000000000000");
        assert_eq!(two.leaf("effective_degrees_of_freedom"), "0000000000000000");
        assert_eq!(two.leaf("reduced_chi_square"), "none");
        assert!(two.warnings().contains(&"LowEffectiveDegreesOfFreedom"));
    }

    #[test]
    fn outside_the_observations() {
        let outside = "PredictionOutsideObservedDomain";
        assert!(!seen("distance of the nearest observation").warnings().contains(&outside));
        assert!(seen("distance before the nearest observation").warnings().contains(&outside));
    }

    #[test]
    fn step_of_not_a_number() {
        let seen = seen("step of not-a-number");
        assert_eq!(seen.questions, 18);
        assert_eq!(seen.leaf("converged"), "yes");
        assert_eq!(seen.leaf("map_muzzle_velocity_fps"), "7ff8000000000000");
        assert_eq!(seen.leaf("map_ballistic_coefficient"), "7ff8000000000000");
    }

    #[test]
    fn cut_poll() {
        let cut = seen("cut at the least radius");
        assert_eq!(cut.questions, 1076);
        assert_eq!(cut.leaf("map_objective_poll_evaluations"), "1024");
        assert_eq!(cut.leaf("map_convergence_criterion"), "ObjectiveMesh");
        assert_eq!(cut.leaf("map_objective_poll_radius"), "3e7ad7f29abcaf48");
        assert_eq!(cut.leaf("failure code"), "MapAtParameterBound");

        let early = seen("cut before it");
        assert_eq!(early.leaf("map_convergence_criterion"), "none");
        assert_eq!(early.leaf("map_objective_poll_evaluations"), "1024");
        assert_eq!(early.leaf("failure code"), "OptimizerDidNotConverge");

        let base = Base::Cut { speed: 1000.0, coefficient: 1.5, knee: 1.3405, high: 1e6 };
        let uncut = run(&case([1000.0, 1.5], &[[200.0, 0.0, 1.0], [300.0, 0.0, 1.0]], base));
        assert_eq!(uncut.leaf("map_objective_poll_evaluations"), "1020");
        assert_eq!(uncut.leaf("map_convergence_criterion"), "ObjectiveMesh");
    }

    /// The poll begins where the fit stopped; see the note on the build in README.md.
    #[test]
    fn poll_begins_at_the_fit() {
        let mut one = case([2230.0, 0.3338], &[], Base::Flight);
        one.opening.shots =
            [500.0, 900.0, 1200.0].map(|d| [d, one.solver.drop(1, 2244.0, 0.34, d), 0.01]).to_vec();
        let mut answer = answering(&one.opening, &one.solver);
        let mut least = f64::INFINITY;
        let report = estimator::run(Variant::Recipes, &one.opening, &mut |p, mv, bc, n| {
            if p == Place::Objective {
                least = least.min(bc);
            }
            answer(p, mv, bc, n)
        })
        .expect("a report");
        assert!(least > 0.33 && report.fit.1 > 0.33, "{least} {:?}", report.fit);
        assert!(report.line.contains("ObjectiveMesh"));
    }

    #[test]
    fn refusals_of_a_run() {
        let due = [
            ("refused at the first question", (10, 0)),
            ("gap at the first question", (11, 0)),
            ("not finite at the first question", (12, 0)),
            ("refused in the fifth", (10, 0)),
            ("gap in the nominal", (11, 0)),
            ("gap in a distance", (13, 0)),
            ("refused distances", (10, 0)),
        ];
        let named = named();
        for (name, (number, _)) in due {
            let case = &named.iter().find(|c| c.0 == name).expect(name).1;
            let mut answer = answering(&case.opening, &case.solver);
            let outcome = estimator::run(Variant::Recipes, &case.opening, &mut answer);
            let (found, position) = outcome.map(|r| r.line).expect_err(name);
            assert_eq!(found, number, "{name}");
            assert_eq!(position > 0, matches!(number, 11 | 13), "{name}");
        }
        for name in ["refused baseline", "gap in the baseline", "not finite baseline"] {
            assert_eq!(seen(name).leaf("baseline"), "none", "{name}");
        }
    }

    /// The lists are at their limit, with every interval, and no fit polls.
    #[test]
    fn long_lists() {
        let counts = [[LIMIT, LIMIT], [LIMIT, 0], [2, LIMIT]];
        for ((name, case), [shots, distances]) in long().iter().zip(counts) {
            let seen = run(case);
            let count = |leaf: &str| seen.report.leaves.iter().filter(|l| l.0 == leaf).count();
            for (leaf, parts, due) in [
                ("observations, echoed", 3, shots),
                ("baseline.observations, echoed", 3, shots),
                ("bands.range_yd", 1, distances),
                ("bands.latent_interval_95", 5, distances),
                ("bands.future_observation_interval_95", 5, distances),
                ("covariance", 3, 1),
            ] {
                assert_eq!(count(leaf), parts * due, "{name}: {leaf}");
            }
            assert_eq!(seen.leaf("map_objective_poll_evaluations"), "0", "{name}");
        }
    }

    /// Each planned edit that ends gives the report of a fresh run; the others their number.
    #[test]
    fn long_edits() {
        let mut refused = Vec::new();
        for (name, case) in long() {
            let script = player::play(&case, &mut 0);
            let ends = |a: &&String| a.starts_with("(report ") || a.starts_with("(declined ");
            let kept = script.lines.len() - script.closing;
            let found: Vec<&String> =
                script.answers[..kept].iter().flatten().filter(ends).collect();
            assert_eq!(found.len(), 1 + case.plan.len(), "{name}");
            let mut book = case.opening.distances.clone();
            assert_eq!(*found[0], edits::fresh(&case, &book).0, "{name}");
            for (edit, found) in case.plan.iter().zip(&found[1..]) {
                let Some(list) = edits::made(*edit, &book) else {
                    assert_eq!(*found, "(declined 15 0)", "{name}: {edit:?}");
                    continue;
                };
                assert_eq!(**found, edits::fresh(&case, &list).0, "{name}: {edit:?}");
                if found.starts_with("(report ") {
                    book = list;
                } else {
                    refused.push(found.to_string());
                }
            }
        }
        let full = "(declined 6 0)";
        assert_eq!(refused, [full, full, "(declined 13 32)", "(declined 13 1)", full]);
    }

    /// The answers to `(page)` in a case of the list.
    fn shown(case: &Case) -> Vec<String> {
        let script = paged(&player::play(case, &mut 0), &mut 0, |_| true);
        let page = |a: &String| a.starts_with("(page ");
        script.answers.into_iter().flatten().filter(page).collect()
    }

    #[test]
    fn page_of_the_bench() {
        let (_, bench) = pages().swap_remove(0);
        let found = shown(&bench);
        let page = include_str!("../../vectors/l1-page-1.page");
        assert_eq!(format!("{}\n", found[0]), format!("(page 11)\n{page}"));
        let report = include_str!("../../vectors/l1-page-1.report");
        assert_eq!(run(&bench).report.line + "\n", report);
        // An edit that is refused leaves it, one that ends makes it anew, and after the
        // declined opening there is none.
        assert_eq!(found[1], found[0]);
        let lines: Vec<usize> = found.iter().map(|page| page.lines().count() - 1).collect();
        assert_eq!(lines, [11, 11, 12, 12, 11, 0]);
    }

    /// The pages of the list have numbers of every kind, and its intervals.
    #[test]
    fn pages_of_numbers() {
        let all: Vec<String> = pages().iter().flat_map(|(_, case)| shown(case)).collect();
        let has = |text: &str| all.iter().any(|page| page.contains(text));
        for text in ["##############", "         0.000", "             -", "9999999999.999"] {
            assert!(has(text), "{text}");
        }
        assert!(all.iter().all(|page| page.split('\n').skip(1).all(|line| line.len() == 64)));
        // The latent interval is the drop itself where the numbers have intervals.
        let ends = |page: &&String| {
            let bands = page.lines().filter(|line| line.starts_with("distance "));
            bands.filter(|l| l[20..34] == l[34..48] && !l.contains("  -")).count() > 5
        };
        assert!(all.iter().filter(ends).count() >= 4);
    }

    /// The files kept beside this program are those that it writes.
    #[test]
    fn kept_samples() {
        let kept = Path::new(env!("CARGO_MANIFEST_DIR")).join("../samples");
        let read = |file: &str| std::fs::read(kept.join(file)).expect(file);
        let input = read("stdin");
        let ended = input.strip_suffix(b"\n(asked)").expect("an unended last line");
        let lines: Vec<Vec<u8>> = ended.split(|b| *b == b'\n').map(<[u8]>::to_vec).collect();
        let mut found = Vec::new();
        for answer in player::recite(&lines, &mut 0).into_iter().flatten() {
            found.extend_from_slice(answer.as_bytes());
            found.push(b'\n');
        }
        found.extend_from_slice(format!("(malformed {})\n", lines.len() + 1).as_bytes());
        assert!(found == read("stdout"));
    }
}
