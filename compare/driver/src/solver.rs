//! Solvers of many kinds.  All are functions of the question; the slips alone
//! depend on the question's number, and make the host inconsistent.

use crate::numbers;
use crate::rng::{mix, unit, Rng};
use estimator::Reply;

#[derive(Debug, Clone, Copy)]
pub enum Base {
    /// A plausible flight: speed falls with distance by the coefficient.
    Flight,
    /// Linear in both coordinates.
    Linear { level: f64, speed: f64, coefficient: f64 },
    /// The same everywhere.
    Flat(f64),
    /// Steep, with almost the same slope in both scaled coordinates.
    Valley { steep: f64, bend: f64 },
    /// A curved valley that takes many iterations.
    Banana { steep: f64 },
    /// Low at one point alone, so that no step is taken.
    Pit { speed: f64, coefficient: f64, wall: f64 },
    /// Falling by steps along the coefficient at one speed: cuts the poll.
    Cut { speed: f64, coefficient: f64, knee: f64, high: f64 },
    /// Huge values that make a step of not-a-number.
    Overflow { speed: f64, coefficient: f64, scale: f64 },
    /// A not-a-number at every other speed than this.
    NanSlope { speed: f64, value: f64 },
    /// Unit slopes: at 100 yards by the speed alone, at 200 by the coefficient.
    Axes { speed: f64, coefficient: f64 },
    /// Any bits at all.
    Wild,
    /// By the distance alone, numbers of every kind.
    Shelf,
    /// By the question's number alone.
    Turning { fall: f64 },
}

/// Where a solver gives something else than its base.
#[derive(Debug, Clone, Copy)]
pub enum Gap {
    Nothing,
    MissingBeyond(f64),
    MissingSlow(f64, f64),
    MissingNow(f64),
    RefusedFast(f64),
    RefusedBelow(f64),
    RefusedNow(f64),
    OddNow(f64, f64),
    OddBeyond(f64, f64),
    /// At one distance alone.
    OddAt(f64, f64),
}

#[derive(Debug, Clone, Copy)]
pub enum Slip {
    Refused,
    Missing,
    Value(f64),
}

#[derive(Debug, Clone)]
pub struct Solver {
    pub seed: u64,
    pub base: Base,
    /// Amplitude of a texture that depends on the point's bits.
    pub noise: f64,
    pub gap: Gap,
    /// What happens at the question of this number.
    pub slip: Option<(u64, Slip)>,
}

impl Solver {
    fn hash(&self, salt: u64, mv: f64, bc: f64, distance: f64) -> u64 {
        // One not-a-number equals another, whatever its bits.
        let bits = |x: f64| if x.is_nan() { 0 } else { x.to_bits() };
        let h = mix(self.seed ^ salt) ^ bits(mv);
        mix(mix(mix(h) ^ bits(bc)) ^ distance.to_bits())
    }

    /// Whether equal questions get equal replies, entry by entry.
    pub fn consistent(&self) -> bool {
        self.slip.is_none() && !matches!(self.base, Base::Turning { .. })
    }

    fn refuses(&self, mv: f64, bc: f64) -> bool {
        match self.gap {
            Gap::RefusedFast(limit) => mv > limit,
            Gap::RefusedBelow(limit) => bc < limit,
            Gap::RefusedNow(p) => unit(self.hash(1, mv, bc, 0.0)) < p,
            _ => false,
        }
    }

    /// The drop without gaps.
    pub fn drop(&self, number: u64, mv: f64, bc: f64, distance: f64) -> f64 {
        let x = (mv - 2000.0) / 100.0;
        let y = (bc - 0.3) / 0.1;
        let d = distance / 100.0;
        let plain = match self.base {
            Base::Flight => flight(mv, bc, distance),
            Base::Linear { level, speed, coefficient } => {
                level * d + speed * x * d + coefficient * y * d * d
            }
            Base::Flat(value) => value,
            Base::Valley { steep, bend } => steep * (x + y + bend * d * y),
            // The two residuals of Rosenbrock's function, by the distance's parity.
            Base::Banana { steep } => {
                if ((distance / 50.0) as u64).is_multiple_of(2) {
                    steep * (y - x * x)
                } else {
                    1.0 - x
                }
            }
            Base::Pit { speed, coefficient, wall } => {
                if mv == speed && bc == coefficient {
                    0.0
                } else {
                    wall * (1.0 + unit(self.hash(2, mv, bc, 0.0)))
                }
            }
            Base::Cut { speed, coefficient, knee, high } => {
                let step = coefficient * 1e-3;
                if mv != speed {
                    high
                } else if bc == coefficient + step {
                    0.0
                } else if bc == coefficient - step {
                    20.0
                } else {
                    10.0 + (bc - knee).max(0.0)
                }
            }
            Base::Overflow { speed, coefficient, scale } => {
                if mv.is_nan() {
                    1.0
                } else if mv == speed && bc == coefficient {
                    1e150 * scale
                } else if mv > speed {
                    4e73
                } else if bc > coefficient {
                    6e72 / (1.0 + (d as u64 % 2) as f64)
                } else {
                    0.0
                }
            }
            Base::NanSlope { speed, value } => {
                if mv == speed {
                    value
                } else {
                    f64::NAN
                }
            }
            // With sigma 100 both weighted slopes are 1 to the last bit.
            Base::Axes { speed, coefficient } => {
                let sign = |x: f64| if x == 0.0 { 0.0 } else { x.signum() };
                match distance {
                    100.0 => speed * 1e-3 * sign(mv - speed),
                    200.0 => 1000.0 * (coefficient * 1e-3) * sign(bc - coefficient),
                    _ => 0.0,
                }
            }
            Base::Wild => f64::from_bits(self.hash(3, mv, bc, distance)),
            Base::Shelf => {
                let seed = self.hash(7, 0.0, 0.0, distance);
                f64::from_bits(numbers::pattern(&mut Rng::new(seed)))
            }
            Base::Turning { fall } => fall / number as f64 * (1.0 + 1e-3 * unit(mix(number))),
        };
        if self.noise == 0.0 {
            plain
        } else {
            plain + self.noise * (unit(self.hash(4, mv, bc, distance)) - 0.5)
        }
    }

    fn entry(&self, number: u64, mv: f64, bc: f64, distance: f64) -> Option<f64> {
        let missing = match self.gap {
            Gap::MissingBeyond(limit) => distance > limit,
            Gap::MissingSlow(speed, limit) => mv < speed && distance > limit,
            Gap::MissingNow(p) => unit(self.hash(5, mv, bc, distance)) < p,
            _ => false,
        };
        if missing {
            return None;
        }
        match self.gap {
            Gap::OddNow(p, value) if unit(self.hash(6, mv, bc, distance)) < p => Some(value),
            Gap::OddBeyond(limit, value) if distance > limit => Some(value),
            Gap::OddAt(place, value) if distance == place => Some(value),
            _ => Some(self.drop(number, mv, bc, distance)),
        }
    }

    pub fn reply(&self, number: u64, mv: f64, bc: f64, distances: &[f64]) -> Reply {
        if self.refuses(mv, bc) {
            return None;
        }
        let mut entries: Vec<Option<f64>> =
            distances.iter().map(|d| self.entry(number, mv, bc, *d)).collect();
        if let Some((at, slip)) = self.slip {
            if at == number {
                let place = (mix(number ^ self.seed) % entries.len() as u64) as usize;
                match slip {
                    Slip::Refused => return None,
                    Slip::Missing => entries[place] = None,
                    Slip::Value(value) => entries[place] = Some(value),
                }
            }
        }
        Some(entries)
    }
}

/// Drop in mil at a distance in yards, by an exponential fall of the speed.
fn flight(mv: f64, bc: f64, distance: f64) -> f64 {
    let k = 1.3e-4 / bc;
    let x = 3.0 * distance;
    let time = ((k * x).exp() - 1.0) / (k * mv);
    16.1 * time * time / x * 1000.0
}

const ODD: [f64; 6] = [f64::NAN, f64::INFINITY, f64::NEG_INFINITY, f64::MAX, -0.0, 1e200];

/// A solver that a range could have.
pub fn tame(rng: &mut Rng) -> Solver {
    let base = if rng.chance(0.7) {
        Base::Flight
    } else {
        Base::Linear {
            level: 3.0,
            speed: rng.pick(&[-0.3, -1.0]),
            coefficient: rng.pick(&[-0.1, 0.4]),
        }
    };
    let noise = rng.pick(&[0.0, 0.0, 1e-9, 1e-5]);
    Solver { seed: rng.bits(), base, noise, gap: Gap::Nothing, slip: None }
}

/// A random solver for a fit that starts at the given point.
pub fn random(rng: &mut Rng, speed: f64, coefficient: f64) -> Solver {
    let base = match rng.below(100) {
        0..=39 => Base::Flight,
        40..=51 => Base::Linear {
            level: rng.real(-2.0, 5.0),
            speed: rng.pick(&[0.0, -0.1, -1.0, 3.0, 1e-9]),
            coefficient: rng.pick(&[0.0, -0.05, 0.5, 2.0, 1e-7]),
        },
        52..=56 => Base::Flat(rng.pick(&[10.0, 0.0, -0.0, 1e-320, 3.5])),
        57..=64 => Base::Valley {
            steep: rng.scale(-2.0, 7.0),
            bend: rng.pick(&[0.0, 1e-9, 1e-6, 1e-3, 0.1]),
        },
        65..=68 => Base::Banana { steep: rng.scale(0.0, 3.0) },
        69..=74 => Base::Pit { speed, coefficient, wall: rng.scale(-3.0, 6.0) },
        75..=77 => Base::Cut {
            speed,
            coefficient,
            // With a coefficient of 1.5 most of these bring the poll to its limit.
            knee: coefficient - rng.pick(&[0.1605, 0.1595, 0.1615, 0.1, 0.2]) + rng.real(0.0, 5e-4),
            high: rng.pick(&[1e6, 1e3, 1e9]),
        },
        78..=80 => Base::Overflow { speed, coefficient, scale: rng.pick(&[1.0, 0.1, 1e-3, 2.0]) },
        81..=83 => Base::NanSlope { speed, value: rng.real(-5.0, 20.0) },
        84..=88 => Base::Wild,
        _ => Base::Turning { fall: rng.scale(-3.0, 4.0) },
    };
    let exact = matches!(base, Base::Cut { .. } | Base::Overflow { .. }) && rng.chance(0.8);
    let noise = match rng.below(10) {
        _ if exact => 0.0,
        0..=4 => 0.0,
        5..=6 => rng.scale(-12.0, -6.0),
        7..=8 => rng.scale(-6.0, -2.0),
        _ => rng.scale(-2.0, 1.0),
    };
    let gap = match rng.below(100) {
        0..=74 => Gap::Nothing,
        75..=77 => Gap::MissingBeyond(rng.real(100.0, 1500.0)),
        78..=79 => Gap::MissingSlow(speed - rng.real(-10.0, 20.0), rng.real(100.0, 1200.0)),
        80..=82 => Gap::MissingNow(rng.scale(-4.0, -1.0)),
        83..=84 => Gap::RefusedFast(speed + rng.real(0.0, 300.0)),
        85..=86 => Gap::RefusedBelow(coefficient - rng.real(0.0, 0.1)),
        87..=89 => Gap::RefusedNow(rng.scale(-4.0, -1.0)),
        90..=95 => Gap::OddNow(rng.scale(-4.0, -0.5), rng.pick(&ODD)),
        _ => Gap::OddBeyond(rng.real(300.0, 1500.0), rng.pick(&ODD)),
    };
    Solver { seed: rng.bits(), base, noise, gap, slip: None }
}
