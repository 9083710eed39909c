//! The untouched text against the recipes, field by field.

use std::collections::BTreeMap;

use crate::case::{answering, Case};
use crate::case_seed;
use crate::rng::Rng;
use estimator::{hex, Refusal, Report, Variant};

struct Run {
    questions: Vec<[String; 2]>,
    outcome: Result<Report, Refusal>,
}

fn run(variant: Variant, case: &Case) -> Run {
    let mut questions = Vec::new();
    let mut answer = answering(&case.opening, &case.solver);
    let outcome = estimator::run(variant, &case.opening, &mut |place, mv, bc, wanted| {
        questions.push([hex(mv), hex(bc)]);
        answer(place, mv, bc, wanted)
    });
    Run { questions, outcome }
}

/// A report's leaves of one name, in order.
fn by_name(report: &Report) -> BTreeMap<&'static str, Vec<&str>> {
    let mut fields = BTreeMap::new();
    for (name, text) in &report.leaves {
        fields.entry(*name).or_insert_with(Vec::new).push(text.as_str());
    }
    fields
}

fn polled(report: &Report) -> bool {
    let evaluations = by_name(report)["map_objective_poll_evaluations"][0];
    evaluations != "0"
}

/// Counts over random cases; the two columns are runs without and with a poll.
pub fn table(count: u64, seed: u64) {
    let mut order = Vec::new();
    let mut differing: BTreeMap<&str, [u64; 2]> = BTreeMap::new();
    let (mut reports, mut any, mut asked, mut ended, mut runs) =
        ([0u64; 2], [0u64; 2], [0u64; 2], 0, 0);
    for index in 0..count {
        let case = Case::plain(case_seed(seed, index));
        if estimator::opening_refusal(&case.opening).is_some() {
            continue;
        }
        runs += 1;
        let (mine, theirs) = (run(Variant::Recipes, &case), run(Variant::Untouched, &case));
        let (Ok(a), Ok(b)) = (&mine.outcome, &theirs.outcome) else {
            ended += (mine.outcome.err() != theirs.outcome.err()) as u64;
            continue;
        };
        let column = (polled(a) || polled(b)) as usize;
        reports[column] += 1;
        asked[column] += (mine.questions != theirs.questions) as u64;
        any[column] += (a.line != b.line) as u64;
        for (name, _) in a.leaves.iter().chain(&b.leaves) {
            if !order.contains(name) {
                order.push(*name);
            }
        }
        let (a, b) = (by_name(a), by_name(b));
        for name in &order {
            if a.get(name) != b.get(name) {
                differing.entry(*name).or_default()[column] += 1;
            }
        }
    }
    println!("{runs} runs; {ended} end in a report in one variant only or in another refusal");
    println!("| untouched against recipes | without a poll | with a poll |");
    println!("|---|---|---|");
    println!("| reports compared | {} | {} |", reports[0], reports[1]);
    println!("| questions differ | {} | {} |", asked[0], asked[1]);
    println!("| report differs | {} | {} |", any[0], any[1]);
    for name in order {
        let [without, with] = differing.get(name).copied().unwrap_or_default();
        println!("| {name} | {without} | {with} |");
    }
}

/// The inverse alone, on matrices near its limits, where the rank and finiteness
/// tests may part: how often each kind of answer differs, and the first example.
pub fn inverses(count: u64, seed: u64) {
    let mut rng = Rng::new(seed);
    let (mut differ, mut verdict, mut first) = (0u64, 0u64, None);
    for _ in 0..count {
        let entries = near_a_limit(&mut rng);
        let [a, b] = [Variant::Recipes, Variant::Untouched].map(|v| estimator::inverse(v, entries));
        let shown = |r: &Result<[f64; 4], String>| r.clone().map(|e| e.map(f64::to_bits));
        differ += (shown(&a) != shown(&b)) as u64;
        if a.as_ref().err() != b.as_ref().err() {
            verdict += 1;
            first.get_or_insert((entries, a, b));
        }
    }
    println!("{count} inverses near a limit: {differ} differ, {verdict} in their verdict");
    if let Some((entries, recipes, untouched)) = first {
        println!("  {} {recipes:?} {untouched:?}", entries.map(hex).join(" "));
    }
}

/// The ratio of the eigenvalues is within a few units of 1e-12; a small a01 still
/// moves the last bit of the larger one.
fn near_a_limit(rng: &mut Rng) -> [f64; 3] {
    let a01 = rng.scale(-7.0, -5.0);
    let ratio = 1e-12 * (1.0 + a01 * a01) * (1.0 + a01 * a01);
    [1.0, a01, a01 * a01 + ratio * (1.0 + rng.real(-8.0, 8.0) * f64::EPSILON)]
}
