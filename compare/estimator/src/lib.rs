//! The Rust estimator's own text, run question by question.
//!
//! `run` is the run of docs/SCOPE.md (S20): it calls the text's
//! `run_with_model` and gives its report, or the number and position of its
//! refusal.  `run_under` is the same under a coverage table (L2).
//! `opening_refusal` is the scope's judgement of an opening.

mod atmosphere;
mod coverage;
mod print;
mod recipe;
mod truing;

include!(concat!(env!("OUT_DIR"), "/variants.rs"));

use std::panic::Location;
use std::sync::OnceLock;

pub use coverage::Row;
pub use print::hex;
pub use truing::DropUnit;

/// The scope's upper limit (S5) of observations and of requested distances.
pub const LIMIT: usize = 64;

#[derive(Debug, Clone, Copy, PartialEq, Eq)]
pub enum Variant {
    /// The text as it stands.
    Untouched,
    /// The text with the recipes (S8).
    Recipes,
}

#[derive(Debug, Clone, Copy)]
pub struct Requested {
    pub distance: f64,
    pub sigma: Option<f64>,
}

/// What a session is opened with.
#[derive(Debug, Clone, Default)]
pub struct Opening {
    /// Speed and coefficient.
    pub entered: [f64; 2],
    /// Distance, drop and sigma.
    pub shots: Vec<[f64; 3]>,
    /// Mean and sigma.
    pub speed_prior: Option<[f64; 2]>,
    pub coefficient_prior: Option<[f64; 2]>,
    pub distances: Vec<Requested>,
}

/// A report: its line, its leaves by name, the fitted point, and what its page shows.
#[derive(Debug, Clone)]
pub struct Report {
    pub line: String,
    pub leaves: Vec<(&'static str, String)>,
    pub fit: (f64, f64),
    pub sheet: Sheet,
}

/// The numbers and names on a report's page, line by line; a number may be missing.
#[derive(Debug, Clone, PartialEq)]
pub struct Sheet {
    /// The fitted value and its interval's ends.
    pub speed: [Option<f64>; 3],
    pub coefficient: [Option<f64>; 3],
    pub chi_square: f64,
    /// Distance, measured drop and the drop predicted at the fit.
    pub shots: Vec<[f64; 3]>,
    /// The predicted drop and the latent interval's ends.
    pub distances: Vec<[Option<f64>; 3]>,
    /// The codes' names in the source.
    pub warnings: Vec<String>,
}

/// A refusal's number and position.
pub type Refusal = (u32, usize);

/// The function of the text that puts a question.
#[derive(Debug, Clone, Copy, PartialEq, Eq)]
pub enum Place {
    Objective,
    Evaluate,
    Bands,
    Baseline,
    /// An edit's question, put by `new_row` and not by the text.
    New,
}

impl Place {
    fn at(location: &Location<'_>) -> Place {
        if location.file() == file!() {
            return Place::New;
        }
        static PLACES: OnceLock<Vec<Option<Place>>> = OnceLock::new();
        PLACES.get_or_init(places)[location.line() as usize].expect("a place that asks")
    }
}

/// For each line of the text the asking function that it stands in, if any.
fn places() -> Vec<Option<Place>> {
    let mut place = None;
    let mut places = vec![None];
    for line in include_str!("../../source/truing_uncertainty.rs").lines() {
        if let Some((name, _)) = line.strip_prefix("fn ").and_then(|l| l.split_once('(')) {
            place = match name {
                "objective" => Some(Place::Objective),
                "evaluate" => Some(Place::Evaluate),
                "build_predictive_bands" => Some(Place::Bands),
                "baseline_at_entered_parameters" => Some(Place::Baseline),
                _ => None,
            };
        }
        places.push(place);
    }
    places
}

/// One entry per distance, or nothing for a refused point.
pub type Reply = Option<Vec<Option<f64>>>;

/// Runs the text.  `solver` takes the place, the point and how many entries are
/// wanted.
pub fn run(
    variant: Variant,
    opening: &Opening,
    solver: &mut dyn FnMut(Place, f64, f64, usize) -> Reply,
) -> Result<Report, Refusal> {
    watched(solver, |model| match variant {
        Variant::Untouched => untouched::run(opening, model),
        Variant::Recipes => recipes::run(opening, model),
    })
}

/// What the text comes to over a solver; a message becomes its refusal by what was replied.
fn watched<T>(
    solver: &mut dyn FnMut(Place, f64, f64, usize) -> Reply,
    text: impl FnOnce(&truing::TruingForwardModel<'_>) -> Result<T, String>,
) -> Result<T, Refusal> {
    let mut watch = Watch::default();
    let mut ask = |place, mv, bc, wanted| {
        let reply = solver(place, mv, bc, wanted);
        watch.note(place, &reply);
        reply
    };
    let outcome = text(&truing::TruingForwardModel::new(&mut ask));
    outcome.map_err(|message| watch.refusal(&message))
}

/// Runs the text, with the recipes, under a coverage table (L2): once for each row, on the
/// replies to the first.  Each interval comes from every row's report; the crossing warning
/// is the last row's; all else must be the same for each, the questions too.
pub fn run_under(
    table: &[Row],
    opening: &Opening,
    solver: &mut dyn FnMut(Place, f64, f64, usize) -> Reply,
) -> Result<Report, Refusal> {
    let (first, others) = table.split_first().expect("a table has a row");
    let mut record: Vec<((Place, [u64; 2]), Reply)> = Vec::new();
    // One not-a-number equals another.
    let question = |place: Place, mv: f64, bc: f64| {
        (place, [mv, bc].map(|x| if x.is_nan() { f64::NAN.to_bits() } else { x.to_bits() }))
    };
    let mut reports = vec![row_report(*first, opening, &mut |place, mv, bc, wanted| {
        let reply = solver(place, mv, bc, wanted);
        record.push((question(place, mv, bc), reply.clone()));
        reply
    })];
    for row in others {
        let mut recorded = record.iter();
        reports.push(row_report(*row, opening, &mut |place, mv, bc, _| {
            let (due, reply) = recorded.next().expect("no question more");
            assert_eq!(question(place, mv, bc), *due, "the same questions");
            reply.clone()
        }));
        assert!(recorded.next().is_none(), "no question less");
    }
    let same = |outcome: &Result<_, Refusal>| outcome.as_ref().map(rows::rowless).map_err(|r| *r);
    let due = same(&reports[0]);
    reports.iter().for_each(|report| assert_eq!(same(report), due, "the same by every row"));
    let reports: Result<Vec<_>, Refusal> = reports.into_iter().collect();
    reports.map(|reports| rows::print_report(&reports))
}

fn row_report(
    row: Row,
    opening: &Opening,
    solver: &mut dyn FnMut(Place, f64, f64, usize) -> Reply,
) -> Result<rows::UncertaintyTruingReportV1, Refusal> {
    watched(solver, |model| coverage::under(row, || rows::report(opening, model)))
}

/// What a refusal's number and position are decided by: the last group of
/// questions, one or five, and what was missing in it.
#[derive(Default)]
struct Watch {
    place: Option<Place>,
    asked: usize,
    gap: Option<usize>,
    refused: bool,
}

impl Watch {
    fn note(&mut self, place: Place, reply: &Reply) {
        let size = if matches!(place, Place::Evaluate | Place::Bands) { 5 } else { 1 };
        if self.place != Some(place) || self.asked == size {
            (self.place, self.asked, self.gap) = (Some(place), 0, None);
        }
        self.asked += 1;
        match reply {
            Some(entries) => {
                let gap = entries.iter().position(Option::is_none).map(|i| i + 1);
                self.gap = [self.gap, gap].into_iter().flatten().min();
            }
            None => self.refused = place != Place::Baseline,
        }
    }

    fn refusal(&self, message: &str) -> Refusal {
        let (refusal, due) = match (self.refused, self.place, self.gap) {
            (true, ..) => ((10, 0), "the solver refused"),
            (_, Some(Place::Objective), None) => ((12, 0), "non-finite penalized chi-square"),
            (_, Some(Place::Objective | Place::Evaluate), Some(i)) => {
                ((11, i), "trajectory did not reach")
            }
            (_, Some(Place::Bands), Some(i)) => ((13, i), "trajectory did not reach"),
            _ => unreachable!("the text failed without a cause: {message}"),
        };
        assert!(message.starts_with(due), "{refusal:?} against: {message}");
        refusal
    }
}

/// An edit's five questions about its one new distance: the five drops, or the
/// refusal, with `place` as the position of a gap.
pub fn new_row(
    fit: (f64, f64),
    distance: f64,
    place: usize,
    solver: &mut dyn FnMut(f64, f64) -> Reply,
) -> Result<[f64; 5], Refusal> {
    let mut drops = Vec::new();
    let mut ask = |_: Place, mv, bc, _: usize| {
        let reply = solver(mv, bc)?;
        drops.push(reply[0]);
        Some(reply)
    };
    let model = truing::TruingForwardModel::new(&mut ask);
    truing::truing_jacobian_rows(&model, fit.0, fit.1, &[distance], DropUnit::Mil)
        .map_err(|_| (10, 0))?;
    let drops: Option<Vec<f64>> = drops.into_iter().collect();
    let drops = drops.ok_or((13, place))?;
    Ok(drops.try_into().expect("five replies"))
}

/// 1 or 2 if the entered speed or coefficient is at fault, speed first.
pub(crate) fn entered_fault(speed: f64, coefficient: f64) -> Option<usize> {
    // A not-a-number lies in no range.
    if !(truing::TRUING_MV_MIN_FPS..=truing::TRUING_MV_MAX_FPS).contains(&speed) {
        Some(1)
    } else if !(truing::TRUING_BC_MIN..=truing::TRUING_BC_MAX).contains(&coefficient) {
        Some(2)
    } else {
        None
    }
}

/// Refusals 1 to 7 of an opening.  Each record is judged by the
/// text's own `validate_request`, the limits and the order by docs/SCOPE.md.
pub fn opening_refusal(opening: &Opening) -> Option<Refusal> {
    let refusal = judged(opening);
    // The text has no limits; where none is met its verdict must be the same.
    let text = untouched::fault(opening);
    match refusal {
        Some((3 | 6, _)) => {}
        _ => assert_eq!(refusal.is_some(), text.is_some(), "{opening:?}: {text:?}"),
    }
    refusal
}

fn judged(opening: &Opening) -> Option<Refusal> {
    if let Some(which) = entered_fault(opening.entered[0], opening.entered[1]) {
        return Some((1, which));
    }
    if opening.shots.len() < 2 {
        return Some((2, 0));
    }
    if opening.shots.len() > LIMIT {
        return Some((3, 0));
    }
    // A request that is sound but for the record in question.
    let sound = Opening {
        entered: opening.entered,
        shots: vec![[100.0, 1.0, 1.0]; 2],
        ..Opening::default()
    };
    let faulty = |o: Opening| untouched::fault(&o).is_some();
    for (i, shot) in opening.shots.iter().enumerate() {
        if faulty(Opening { shots: vec![*shot; 2], ..sound.clone() }) {
            return Some((4, i + 1));
        }
    }
    if faulty(Opening { speed_prior: opening.speed_prior, ..sound.clone() }) {
        return Some((5, 1));
    }
    if faulty(Opening { coefficient_prior: opening.coefficient_prior, ..sound.clone() }) {
        return Some((5, 2));
    }
    if opening.distances.len() > LIMIT {
        return Some((6, 0));
    }
    for (i, requested) in opening.distances.iter().enumerate() {
        if faulty(Opening { distances: vec![*requested], ..sound.clone() }) {
            return Some((7, i + 1));
        }
    }
    None
}

/// The message of the text's own `validate_request`, if it refuses.
pub fn text_fault(opening: &Opening) -> Option<String> {
    untouched::fault(opening)
}

/// Whether a requested entry is at fault (7), by the text's judgement.
pub fn requested_fault(requested: Requested) -> bool {
    let opening = Opening {
        entered: [2000.0, 0.3],
        shots: vec![[100.0, 1.0, 1.0]; 2],
        distances: vec![requested],
        ..Opening::default()
    };
    untouched::fault(&opening).is_some()
}

/// The inverse and its condition number, or the failure code.
pub fn inverse(variant: Variant, entries: [f64; 3]) -> Result<[f64; 4], String> {
    match variant {
        Variant::Untouched => untouched::inverse(entries),
        Variant::Recipes => recipes::inverse(entries),
    }
}

/// The objective sum at the entered point, before the text judges it.  There is
/// one reply to each shot.
pub fn objective_sum(opening: &Opening, replies: &[f64]) -> f64 {
    let mut ask =
        |_: Place, _: f64, _: f64, _: usize| Some(replies.iter().map(|d| Some(*d)).collect());
    let model = truing::TruingForwardModel::new(&mut ask);
    unjudged::sum(opening, &model).expect("a sum that is not judged")
}

#[cfg(test)]
mod tests {
    use super::*;

    const BOTH: [Variant; 2] = [Variant::Untouched, Variant::Recipes];

    fn bits(entries: [f64; 4]) -> [u64; 4] {
        entries.map(f64::to_bits)
    }

    /// The bench figures that are proved (S24), on the text itself.
    #[test]
    fn proved_figures() {
        let power = |n: i32| 2f64.powi(n);
        for variant in BOTH {
            let inverse = |entries| inverse(variant, entries);
            assert_eq!(inverse([4.0, 0.0, 1.0]).map(bits), Ok(bits([0.25, -0.0, 1.0, 4.0])));
            let rank = Err("RankDeficientInformation".to_string());
            assert_eq!(inverse([1.0, 1.0, 1.0]), rank);
            assert_eq!(inverse([1.0, 0.0, power(-39)]).unwrap()[3], 549755813888.0);
            assert_eq!(inverse([1.0, 0.0, power(-40)]), rank);
        }
        use recipes::{condition, deviation, material};
        assert!(material(1.0, 1.0 - power(-26)));
        assert!(!material(1.0, 1.0 - power(-27)));
        assert!(!material(1e-8, 0.0));
        assert_eq!(condition([4.0, 2.0, 4.0]), 3.0);
        assert_eq!(condition([0.0, 0.0, 1.0]), f64::INFINITY);
        assert_eq!(deviation(4.0), Some(2.0));
        assert_eq!(deviation(-0.0).map(f64::to_bits), Some((-0.0f64).to_bits()));
        assert_eq!(deviation(-1.0), None);
        assert_eq!(f64::from_bits(1).sqrt().to_bits(), 2f64.powi(-537).to_bits());
    }

    #[test]
    fn objective_sum() {
        let mut opening = Opening {
            entered: [2100.0, 0.3],
            shots: vec![[100.0, 10.0, 2.0], [200.0, 20.0, 1.0]],
            ..Opening::default()
        };
        let sum = |opening: &Opening| {
            let mut ask = |_: Place, _: f64, _: f64, _: usize| Some(vec![Some(14.0), Some(19.0)]);
            recipes::sum(opening, &truing::TruingForwardModel::new(&mut ask))
        };
        assert_eq!(sum(&opening), Some(5.0));
        opening.speed_prior = Some([2000.0, 50.0]);
        assert_eq!(sum(&opening), Some(9.0));
    }

    #[test]
    fn recipes_as_written() {
        use recipe::{hypot, poll_sin_cos};
        assert_eq!(hypot(3.0, -4.0), 5.0);
        assert_eq!(hypot(f64::NAN, f64::NEG_INFINITY), f64::INFINITY);
        assert!(hypot(f64::NAN, 1.0).is_nan());
        assert_eq!(hypot(-0.0, 0.0).to_bits(), 0);
        assert_eq!(hypot(f64::MAX, f64::MAX), f64::INFINITY);
        assert_eq!(poll_sin_cos(0.0, 0.0), (0.0, 1.0));
        assert_eq!(poll_sin_cos(f64::MAX, f64::MAX), (0.0, 1.0));
        assert_eq!(poll_sin_cos(-1.0, 0.0), (1.0, 0.0));
        assert_eq!(poll_sin_cos(0.0, -1.0), (-(0.5f64.sqrt()), 0.5f64.sqrt()));
    }
}
