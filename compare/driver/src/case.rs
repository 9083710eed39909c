//! Random requests, sound and faulty, with a solver each.

use crate::numbers;
use crate::rng::Rng;
use crate::solver::{self, Base, Gap, Slip, Solver};
use estimator::{Opening, Place, Requested, Variant};
use oracle::form::Edit;

#[derive(Debug, Clone)]
pub struct Case {
    pub seed: u64,
    pub opening: Opening,
    pub solver: Solver,
    /// How often another line comes between the due ones.
    pub noise: f64,
    /// How many edits follow a report.
    pub edits: usize,
    /// Edits that are laid down beforehand; they come before those.
    pub plan: Vec<Edit>,
    /// How often `(page)` follows an end; unless it is 0, one comes elsewhere too.
    pub pages: f64,
}

const BAD: [f64; 6] = [f64::NAN, f64::INFINITY, f64::NEG_INFINITY, 0.0, -0.0, -3.0];

impl Case {
    /// A case with pages; one in sixteen is made for what they show.
    pub fn random(seed: u64) -> Case {
        let rng = &mut Rng::new(seed ^ 0x0dd);
        if rng.chance(0.0625) {
            odd(seed, rng)
        } else {
            Case { pages: 0.7, ..Case::plain(seed) }
        }
    }

    /// A case without pages.
    pub fn plain(seed: u64) -> Case {
        let rng = &mut Rng::new(seed);
        // Two in five are fits as a range would make them.
        let tame = rng.chance(0.4);
        let entered = if tame {
            [rng.real(2200.0, 3300.0), rng.real(0.2, 0.7)]
        } else {
            let at_a_bound = [rng.pick(&[1000.0, 5000.0]), 1.5];
            if rng.chance(0.1) {
                at_a_bound
            } else {
                [entered_speed(rng), entered_coefficient(rng)]
            }
        };
        let mut opening = Opening { entered, ..Opening::default() };
        let [speed, coefficient] = entered;
        let mut solver =
            if tame { solver::tame(rng) } else { solver::random(rng, speed, coefficient) };
        opening.shots = if tame {
            tame_shots(rng, &solver, speed, coefficient)
        } else {
            shots(rng, &solver, speed, coefficient)
        };
        if rng.chance(0.3) {
            let sigma = if rng.chance(0.1) { extreme(rng) } else { rng.scale(-1.0, 3.0) };
            let other = rng_speed(rng);
            opening.speed_prior = Some([rng.pick(&[speed, other, 1000.0, 5000.0]), sigma]);
        }
        if rng.chance(0.3) {
            let sigma = if rng.chance(0.1) { extreme(rng) } else { rng.scale(-4.0, 1.0) };
            opening.coefficient_prior =
                Some([rng.pick(&[coefficient, 0.05, 2.0, 0.4, 0.25]), sigma]);
        }
        let count = match rng.below(20) {
            0..=7 => 0,
            8..=15 => rng.between(1, 4),
            16..=18 => rng.between(5, 20),
            _ => rng.between(21, 64),
        };
        for _ in 0..count {
            let requested = requested(rng, &opening);
            opening.distances.push(requested);
        }
        if rng.chance(0.15) {
            spoil(rng, &mut opening);
        }
        if rng.chance(0.08) {
            solver.slip = slip(rng, &opening, &solver);
        }
        Case {
            seed,
            opening,
            solver,
            noise: rng.pick(&[0.0, 0.0, 0.0, 0.0, 0.01, 0.1]),
            edits: if rng.chance(0.3) { rng.between(1, 5) } else { 0 },
            plan: Vec::new(),
            pages: 0.0,
        }
    }
}

/// A fit whose report has numbers of every kind.  Each drop goes by its distance alone,
/// so that no slope moves the fit; with priors the latent interval is the drop itself.
pub fn odd(seed: u64, rng: &mut Rng) -> Case {
    // Most of these are ties.
    let entered = [
        1000.0 + rng.below(64_000) as f64 / rng.pick(&[16.0, 16.0, 20.0]),
        rng.between(1, 32) as f64 / rng.pick(&[16.0, 16.0, 17.0]),
    ];
    let solver = Solver {
        seed: rng.bits(),
        base: Base::Shelf,
        noise: 0.0,
        gap: if rng.chance(0.1) { Gap::MissingBeyond(rng.scale(3.0, 12.0)) } else { Gap::Nothing },
        slip: None,
    };
    let mut opening = Opening { entered, ..Opening::default() };
    let sigma = rng.pick(&[1.0, 1.0, 1.0, 4.0, 1e6]);
    let count = rng.between(2, 9);
    let exact = rng.chance(0.5);
    while opening.shots.len() < count {
        let at = numbers::edge(rng).abs();
        let drop = solver.drop(1, entered[0], entered[1], at);
        // A residual of an odd number of quarters has a tie for its square.
        let measured = match rng.below(3) {
            _ if !exact => numbers::edge(rng),
            0 => drop + 0.25 * rng.between(1, 20) as f64,
            _ => drop,
        };
        if at > 0.0 && drop.abs() < 1e100 {
            opening.shots.push([at, measured, sigma]);
        }
    }
    if rng.chance(0.6) {
        // Not so far apart that the rank is lost; the widest ends have too many digits.
        let width = rng.scale(-5.0, 9.0);
        opening.speed_prior = Some([entered[0], 100.0 * width * rng.scale(-1.0, 1.0)]);
        opening.coefficient_prior = Some([entered[1], 0.1 * width * rng.scale(-1.0, 1.0)]);
    }
    for _ in 0..rng.below(10) {
        let distance = numbers::edge(rng).abs();
        if distance > 0.0 {
            opening.distances.push(Requested { distance, sigma: None });
        }
    }
    let noise = rng.pick(&[0.0, 0.0, 0.1]);
    let edits = rng.below(4);
    Case { seed, opening, solver, noise, edits, plan: Vec::new(), pages: 1.0 }
}

fn rng_speed(rng: &mut Rng) -> f64 {
    rng.real(1000.0, 5000.0)
}

fn entered_speed(rng: &mut Rng) -> f64 {
    match rng.below(20) {
        0 => 1000.0,
        1 => 5000.0,
        2 => rng.pick(&[1000.003, 1000.005, 4999.997, 4999.995, 1000.004]),
        3..=7 => rng_speed(rng),
        8 => 2000.0,
        _ => rng.real(2200.0, 3300.0),
    }
}

fn entered_coefficient(rng: &mut Rng) -> f64 {
    match rng.below(20) {
        0 => 0.05,
        1 => 2.0,
        2 => rng.pick(&[0.050001, 0.050002, 0.0500019, 1.999998, 1.99999]),
        3..=6 => rng.real(0.05, 2.0),
        7 => 0.3,
        8 => 1.5,
        _ => rng.real(0.15, 0.7),
    }
}

fn extreme(rng: &mut Rng) -> f64 {
    rng.pick(&[5e-324, 1e-310, f64::MIN_POSITIVE, 1e-160, 1e-80, 1e80, 1e154, 1e300, f64::MAX])
}

fn distance(rng: &mut Rng) -> f64 {
    match rng.below(150) {
        0 => rng.scale(-300.0, 300.0),
        1 => rng.pick(&[5e-324, 1.0, f64::MAX, 1e9]),
        _ => (rng.real(2.0, 40.0) as u64 * 50) as f64 / rng.pick(&[1.0, 1.0, 3.0]),
    }
}

fn shot_count(rng: &mut Rng) -> usize {
    match rng.below(100) {
        0..=34 => 2,
        35..=54 => 3,
        55..=84 => rng.between(4, 8),
        85..=94 => rng.between(9, 24),
        95..=98 => rng.between(25, 63),
        _ => 64,
    }
}

fn tame_shots(rng: &mut Rng, solver: &Solver, speed: f64, coefficient: f64) -> Vec<[f64; 3]> {
    let truth = (speed * rng.real(0.98, 1.02), coefficient * rng.real(0.95, 1.05));
    let sigma = rng.pick(&[0.01, 0.03, 0.1, 0.5, 2.0]);
    let off = rng.pick(&[0.0, 0.1, 1.0]);
    let count = shot_count(rng);
    (0..count)
        .map(|i| {
            let at = 200.0 + 1000.0 * (i + 1) as f64 / count as f64;
            let drop = solver.drop(1, truth.0, truth.1, at) + off * sigma * rng.real(-1.0, 1.0);
            [at, drop, sigma]
        })
        .collect()
}

fn shots(rng: &mut Rng, solver: &Solver, speed: f64, coefficient: f64) -> Vec<[f64; 3]> {
    let count = shot_count(rng);
    // The drops are those of a true point, now and then outside the bounds.
    let (near, far) = (rng.chance(0.7), rng.chance(0.1));
    let truth = if far {
        rng.pick(&[(700.0, 0.3), (9000.0, 0.3), (2500.0, 0.01), (2500.0, 5.0)])
    } else if near {
        (speed * rng.real(0.97, 1.03), coefficient * rng.real(0.9, 1.1))
    } else {
        (rng.real(1500.0, 4000.0), rng.real(0.1, 1.0))
    };
    let sigma = match rng.below(20) {
        0..=9 => rng.real(0.02, 1.0),
        10..=12 => 1.0,
        13..=17 => rng.scale(-4.0, 3.0),
        18 => rng.scale(-12.0, 12.0),
        _ => extreme(rng),
    };
    let (each, exact) = (rng.chance(0.3), rng.chance(0.3));
    let zero = match solver.base {
        Base::Pit { .. } | Base::Cut { .. } | Base::Overflow { .. } | Base::Banana { .. } => true,
        Base::Wild | Base::Turning { .. } => rng.chance(0.5),
        _ => false,
    };
    let repeated = rng.chance(0.1);
    let first = distance(rng);
    (0..count)
        .map(|i| {
            let at = if repeated && rng.chance(0.7) { first } else { distance(rng) };
            // The banana goes by the distance's parity, the overflow by its hundreds.
            let at = match solver.base {
                Base::Banana { .. } => 50.0 * (2 + i) as f64,
                Base::Overflow { .. } => 100.0 * (2 + i) as f64,
                _ => at,
            };
            let sigma = if each { sigma * rng.real(0.5, 2.0) } else { sigma };
            let sigma = if sigma > 0.0 && sigma.is_finite() { sigma } else { 1.0 };
            let mut drop = solver.drop(1, truth.0, truth.1, at);
            if zero || !drop.is_finite() {
                drop = 0.0;
            } else if !exact {
                drop += sigma.min(1.0) * rng.real(-1.5, 1.5);
            }
            [at, drop, sigma]
        })
        .collect()
}

/// A requested entry, often at an observation's distance.
pub fn requested(rng: &mut Rng, opening: &Opening) -> Requested {
    let distance = match rng.below(4) {
        0 if !opening.shots.is_empty() => opening.shots[rng.below(opening.shots.len())][0],
        _ => distance(rng),
    };
    let sigma = match rng.below(10) {
        0..=4 => None,
        5 => Some(extreme(rng)),
        _ => Some(rng.scale(-3.0, 1.0)),
    };
    Requested { distance, sigma }
}

/// Faults of every kind, several at once.
fn spoil(rng: &mut Rng, opening: &mut Opening) {
    let p = rng.pick(&[0.15, 0.3, 0.6]);
    if rng.chance(p * 0.5) {
        opening.entered[0] = rng.pick(&[
            f64::NAN,
            f64::INFINITY,
            f64::NEG_INFINITY,
            999.9999999999999,
            5000.000000000001,
            0.0,
            -2000.0,
        ]);
    }
    if rng.chance(p * 0.5) {
        opening.entered[1] =
            rng.pick(&[f64::NAN, f64::INFINITY, 0.049999999999999996, 2.0000000000000004, -0.3]);
    }
    if rng.chance(p * 0.5) {
        opening.shots.truncate(rng.below(2));
    }
    if rng.chance(p * 0.4) {
        let count = rng.pick(&[64, 65, 66, 80]);
        let shot = opening.shots.first().copied().unwrap_or([100.0, 1.0, 1.0]);
        opening.shots.resize(count, shot);
    }
    for _ in 0..rng.below(3) {
        if rng.chance(p) && !opening.shots.is_empty() {
            let i = rng.below(opening.shots.len());
            let (part, bad) = (rng.below(3), rng.pick(&BAD));
            opening.shots[i][part] = bad;
        }
    }
    for prior in [&mut opening.speed_prior, &mut opening.coefficient_prior] {
        if rng.chance(p) {
            let mean = rng.pick(&[f64::NAN, 0.0, 0.3, 2000.0, 6000.0, f64::INFINITY, 2.1, 999.0]);
            *prior = Some([mean, rng.pick(&[1.0, 0.0, -0.0, f64::NAN, -1.0, f64::INFINITY])]);
        }
    }
    if rng.chance(p * 0.4) {
        let count = rng.pick(&[64, 65, 70]);
        opening.distances.resize(count, Requested { distance: 300.0, sigma: None });
    }
    for _ in 0..rng.below(3) {
        if rng.chance(p) && !opening.distances.is_empty() {
            let i = rng.below(opening.distances.len());
            opening.distances[i] = faulty_entry(rng);
        }
    }
}

pub fn faulty_entry(rng: &mut Rng) -> Requested {
    let bad = rng.pick(&BAD);
    match rng.below(3) {
        0 => Requested { distance: bad, sigma: None },
        1 => Requested { distance: 500.0, sigma: Some(bad) },
        _ => Requested { distance: bad, sigma: Some(rng.pick(&BAD)) },
    }
}

/// A slip at one of the run's questions, often the last: so much the run must be
/// known, and it is run once to learn it.
fn slip(rng: &mut Rng, opening: &Opening, solver: &Solver) -> Option<(u64, Slip)> {
    if estimator::opening_refusal(opening).is_some() {
        return None;
    }
    let questions = questions(opening, solver).len() as u64;
    let number = if rng.chance(0.5) {
        questions
    } else {
        questions - rng.below(questions.min(12) as usize) as u64
    };
    let slip = match rng.below(3) {
        0 => Slip::Refused,
        1 => Slip::Missing,
        _ => Slip::Value(rng.pick(&[f64::NAN, f64::INFINITY, f64::NEG_INFINITY, 1e200, 3.0])),
    };
    Some((number, slip))
}

/// Answers a run's questions in place of a host.
pub fn answering<'a>(
    opening: &'a Opening,
    solver: &'a Solver,
) -> impl FnMut(Place, f64, f64, usize) -> estimator::Reply + 'a {
    let shots: Vec<f64> = opening.shots.iter().map(|s| s[0]).collect();
    let distances: Vec<f64> = opening.distances.iter().map(|d| d.distance).collect();
    let mut number = 0;
    move |place, mv, bc, _| {
        number += 1;
        let list = if place == Place::Bands { &distances } else { &shots };
        solver.reply(number, mv, bc, list)
    }
}

/// The points that a run of the recipes asks about.
fn questions(opening: &Opening, solver: &Solver) -> Vec<(Place, u64, u64)> {
    let mut asked = Vec::new();
    let mut answer = answering(opening, solver);
    let _ = estimator::run(Variant::Recipes, opening, &mut |place, mv, bc, wanted| {
        asked.push((place, mv.to_bits(), bc.to_bits()));
        answer(place, mv, bc, wanted)
    });
    asked
}

#[cfg(test)]
mod tests {
    use super::*;

    /// The number and position that a message of `validate_request` stands for.
    fn told(message: &str) -> (u32, usize) {
        let words: Vec<&str> = message.split(' ').collect();
        match words[0] {
            "entered" => (1, words[2].parse().unwrap()),
            "at" => (2, 0),
            "observation" => (4, words[1].parse().unwrap()),
            "muzzle-velocity" => (5, 1),
            "ballistic-coefficient" => (5, 2),
            "prediction" => (7, words[1].parse().unwrap()),
            _ => panic!("{message}"),
        }
    }

    #[test]
    fn openings_follow_the_text() {
        let mut seen = [0; 8];
        for seed in 0..20_000 {
            let opening = Case::random(crate::rng::mix(seed)).opening;
            let refusal = estimator::opening_refusal(&opening);
            seen[refusal.map_or(0, |r| r.0 as usize)] += 1;
            // The text goes on where the scope meets one of its limits (S5).
            match refusal {
                Some((3, _)) => assert!(opening.shots.len() > 64),
                Some((6, _)) => assert!(opening.distances.len() > 64),
                _ => assert_eq!(refusal, estimator::text_fault(&opening).map(|m| told(&m))),
            }
        }
        assert!(seen.iter().all(|count| *count > 0), "{seen:?}");
    }
}
