//! `truing_inverse` against the text's inverse, with the recipe (S8) for `hypot`.

use crate::rng::Rng;
use crate::tally::Tally;
use crate::{any_double, archive, Lent};
use estimator::Variant;

/// The inverse and its condition number, or the number of the refusal, as
/// include/truing.h has it.
pub fn due(entries: [f64; 3], out_length: usize) -> Result<[f64; 4], u32> {
    if out_length < 32 {
        return Err(3);
    }
    estimator::inverse(Variant::Recipes, entries).map_err(|code| match code.as_str() {
        "NonFiniteInformation" => 1,
        "RankDeficientInformation" => 2,
        other => panic!("a failure code of the inverse: {other}"),
    })
}

fn random(rng: &mut Rng) -> [f64; 3] {
    match rng.below(6) {
        0 => [any_double(rng), any_double(rng), any_double(rng)],
        // the ratio of the eigenvalues is near the limit, 1e-12
        1 => {
            let a01 = rng.scale(-7.0, -5.0);
            let ratio = 1e-12 * (1.0 + a01 * a01) * (1.0 + a01 * a01);
            [1.0, a01, a01 * a01 + ratio * (1.0 + rng.real(-8.0, 8.0) * f64::EPSILON)]
        }
        // large or small enough for a product to leave the doubles
        2 => {
            let scale = rng.pick(&[1e150, 1e154, 1e-154, 1e-160, 1e160]);
            [scale * rng.real(0.1, 10.0), scale * rng.real(-1.0, 1.0), scale * rng.real(0.1, 10.0)]
        }
        // singular, or nearly
        3 => {
            let [x, y] = [rng.real(-3.0, 3.0), rng.real(-3.0, 3.0)];
            [x * x, x * y, y * y * (1.0 + rng.pick(&[0.0, 1e-15, 1e-12, 1e-9]))]
        }
        // a sum of squares, as the information is
        _ => {
            let mut sum = [0.0; 3];
            for _ in 0..rng.between(2, 8) {
                let [x, y] = [rng.scale(-3.0, 3.0), rng.scale(-3.0, 3.0)];
                sum = [sum[0] + x * x, sum[1] + x * y, sum[2] + y * y];
            }
            sum
        }
    }
}

pub fn compare(count: u64, seed: u64) -> bool {
    let mut rng = Rng::new(seed ^ 0x496e_7600);
    let kinds = ["inverted", "refused 1", "refused 2", "refused 3"];
    let mut tally = Tally::new("truing_inverse", &kinds);
    for _ in 0..count {
        let entries = random(&mut rng);
        let length = if rng.chance(0.1) { rng.below(32) } else { rng.between(32, 64) };
        let due = due(entries, length);
        tally.note(match due {
            Ok(_) => "inverted",
            Err(1) => "refused 1",
            Err(2) => "refused 2",
            Err(_) => "refused 3",
        });
        let mut out = Lent::new(&mut rng, length);
        let [a00, a01, a11] = entries;
        // SAFETY: `out` has its length behind it.
        let code = unsafe { archive::truing_inverse(a00, a01, a11, out.at(), length) };
        let equal = match &due {
            Ok(found) => code == 0 && out.holds(found),
            Err(refusal) => code == *refusal && out.holds(&[]),
        };
        tally.count(equal, || {
            let bits = entries.map(|x| format!("{:016x}", x.to_bits()));
            format!("{bits:?} {length}: {code}, not {due:?}")
        });
    }
    tally.end()
}
