//! `truing_objective_sum` against the text's objective.

use crate::rng::Rng;
use crate::tally::Tally;
use crate::{any_double, archive, Lent};
use estimator::Opening;

pub struct Sum {
    pub point: [f64; 2],
    pub observations: Vec<u8>,
    pub replies: Vec<u8>,
    pub priors: u32,
    /// Mean and sigma, of the speed and of the coefficient.
    pub given: [[f64; 2]; 2],
}

fn doubles(bytes: &[u8]) -> Vec<f64> {
    bytes.chunks(8).map(|b| f64::from_le_bytes(b.try_into().expect("8 bytes"))).collect()
}

impl Sum {
    /// The sum, or the number of the refusal, as include/truing.h has it.
    pub fn due(&self, out_length: usize) -> Result<f64, u32> {
        let shots = self.observations.len() / 24;
        if self.observations.len() != 24 * shots || shots > 64 {
            return Err(1);
        }
        if self.replies.len() != 8 * shots {
            return Err(2);
        }
        if out_length < 8 {
            return Err(3);
        }
        let prior = |i: usize| (self.priors >> i & 1 == 1).then_some(self.given[i]);
        let opening = Opening {
            entered: self.point,
            shots: doubles(&self.observations).chunks(3).map(|s| [s[0], s[1], s[2]]).collect(),
            speed_prior: prior(0),
            coefficient_prior: prior(1),
            distances: Vec::new(),
        };
        Ok(estimator::objective_sum(&opening, &doubles(&self.replies)))
    }

    fn call(&self, out: &mut Lent) -> u32 {
        let [[speed_mean, speed_sigma], [coefficient_mean, coefficient_sigma]] = self.given;
        let length = out.length;
        // SAFETY: each pointer has its length behind it, and `out` is apart from the others.
        unsafe {
            archive::truing_objective_sum(
                self.point[0],
                self.point[1],
                self.observations.as_ptr(),
                self.observations.len(),
                self.replies.as_ptr(),
                self.replies.len(),
                self.priors,
                speed_mean,
                speed_sigma,
                coefficient_mean,
                coefficient_sigma,
                out.at(),
                length,
            )
        }
    }
}

/// A number near one that a host would have, or any.
fn value(rng: &mut Rng, wild: bool, low: f64, high: f64) -> f64 {
    if wild && rng.chance(0.5) {
        any_double(rng)
    } else {
        rng.real(low, high)
    }
}

fn random(rng: &mut Rng) -> Sum {
    let wild = rng.chance(0.3);
    let shots = match rng.below(10) {
        0 => 0,
        1 => rng.between(60, 64),
        2 => rng.between(9, 59),
        _ => rng.between(1, 8),
    };
    let mut sum = Sum {
        point: [value(rng, wild, 1000.0, 5000.0), value(rng, wild, 0.05, 2.0)],
        observations: Vec::new(),
        replies: Vec::new(),
        priors: if rng.chance(0.1) { rng.bits() as u32 } else { rng.below(4) as u32 },
        given: [
            [value(rng, wild, 1000.0, 5000.0), value(rng, wild, 1.0, 100.0)],
            [value(rng, wild, 0.05, 2.0), value(rng, wild, 0.001, 0.1)],
        ],
    };
    for _ in 0..shots {
        let drop = value(rng, wild, 0.0, 40.0);
        for x in [value(rng, wild, 50.0, 2000.0), drop, value(rng, wild, 0.01, 2.0)] {
            sum.observations.extend(x.to_le_bytes());
        }
        let reply = if wild { value(rng, true, 0.0, 40.0) } else { drop + rng.real(-1.0, 1.0) };
        sum.replies.extend(reply.to_le_bytes());
    }
    sum
}

/// Some bytes more or fewer.
fn damage(rng: &mut Rng, bytes: &mut Vec<u8>) {
    let more = if rng.chance(0.5) { rng.between(1, 23) } else { 8 * rng.between(1, 6) };
    if rng.chance(0.5) {
        bytes.truncate(bytes.len().saturating_sub(more));
    } else {
        bytes.extend((0..more).map(|_| rng.bits() as u8));
    }
}

fn too_many(rng: &mut Rng, sum: &mut Sum) {
    for _ in sum.observations.len() / 24..rng.pick(&[65, 66, 100]) {
        sum.observations.extend([0x3f; 24]);
        sum.replies.extend([0x3f; 8]);
    }
}

pub fn compare(count: u64, seed: u64) -> bool {
    let mut rng = Rng::new(seed ^ 0x5375_6d00);
    let kinds = ["finite", "infinite", "not-a-number", "refused 1", "refused 2", "refused 3"];
    let mut tally = Tally::new("truing_objective_sum", &kinds);
    for _ in 0..count {
        let mut sum = random(&mut rng);
        let mut length = rng.between(8, 40);
        if rng.chance(0.2) {
            for _ in 0..rng.between(1, 2) {
                match rng.below(4) {
                    0 => damage(&mut rng, &mut sum.observations),
                    1 => damage(&mut rng, &mut sum.replies),
                    2 => too_many(&mut rng, &mut sum),
                    _ => length = rng.below(8),
                }
            }
        }
        let due = sum.due(length);
        tally.note(match due {
            Ok(x) if x.is_finite() => "finite",
            Ok(x) if x.is_nan() => "not-a-number",
            Ok(_) => "infinite",
            Err(1) => "refused 1",
            Err(2) => "refused 2",
            Err(_) => "refused 3",
        });
        let mut out = Lent::new(&mut rng, length);
        let code = sum.call(&mut out);
        let equal = match due {
            Ok(x) => code == 0 && out.holds(&[x]),
            Err(refusal) => code == refusal && out.holds(&[]),
        };
        tally.count(equal, || {
            let Sum { point, observations, replies, priors, given } = &sum;
            format!("{point:?} {observations:02x?} {replies:02x?} {priors} {given:?} {length}: {code}, not {due:?}")
        });
    }
    tally.end()
}
