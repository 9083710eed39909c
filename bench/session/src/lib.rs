//! The Rust's side of the measurement: the estimator's text with S8's recipes over a solver, with as little between them as can be, and the request that
//! the program `session_bench` makes too.
#[path = "../../../compare/estimator/src/atmosphere.rs"]
mod atmosphere;
pub mod point_mass;
mod print;
#[path = "../../../compare/estimator/src/recipe.rs"]
mod recipe;
mod truing;

include!(concat!(env!("OUT_DIR"), "/module.rs"));

use estimator::{Opening, Requested};

/// What answers a question: a drop for each distance, if it gets there, or nothing for a refused point.
#[derive(Clone, Copy)]
pub enum Solver<'a> {
    Trivial,
    PointMass,
    /// The caller's own.
    Given(&'a dyn Fn(f64, f64, &[f64]) -> Option<Vec<Option<f64>>>),
}

/// The drop at a distance falls with the square of the time of flight, more or less.
fn trivial(mv: f64, bc: f64, range: f64) -> f64 {
    let t = range * (1.0 + range * 0.0001 / bc) / mv;
    t * t * 1500.0
}

impl Solver<'_> {
    /// By its number on a line.
    pub fn numbered(number: u64) -> Self {
        if number == 1 {
            Solver::PointMass
        } else {
            Solver::Trivial
        }
    }

    pub fn solve(&self, mv: f64, bc: f64, ranges: &[f64]) -> Option<Vec<Option<f64>>> {
        match self {
            Solver::Trivial => Some(ranges.iter().map(|&range| Some(trivial(mv, bc, range))).collect()),
            Solver::PointMass => Some(ranges.iter().map(|&range| point_mass::drop_at(mv, bc, range)).collect()),
            Solver::Given(solve) => solve(mv, bc, ranges),
        }
    }
}

/// Runs the text: the report's line is put behind `line`, if there is one, and the number of questions given.
pub fn run(opening: &Opening, solver: Solver<'_>, line: Option<&mut Vec<u8>>) -> Result<u64, String> {
    let model = truing::TruingForwardModel::new(solver);
    match text::run(opening, &model, line) {
        Ok(()) => Ok(model.asked()),
        Err(error) => Err(format!("{error:?}")),
    }
}

/// The request of `session_bench`, whose drops are the solver's at another point than the entered one.
pub fn opening(solver: Solver<'_>, observations: usize, distances: usize) -> Opening {
    let from = |first: f64, n: usize| {
        let mut ranges = vec![first; n];
        for i in 1..n {
            ranges[i] = ranges[i - 1] + 12.5;
        }
        ranges
    };
    let ranges = from(100.0, observations);
    let drops = solver.solve(2730.0, 0.41, &ranges).expect("a sane point");
    Opening {
        entered: [2700.0, 0.4],
        shots: ranges.iter().zip(drops).map(|(&range, drop)| [range, drop.expect("a near distance"), 0.5]).collect(),
        speed_prior: Some([2700.0, 60.0]),
        coefficient_prior: None,
        distances: from(150.0, distances).into_iter().map(|distance| Requested { distance, sigma: Some(0.25) }).collect(),
    }
}
