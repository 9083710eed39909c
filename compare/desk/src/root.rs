//! `truing_root` against the hardware's square root.

use crate::rng::Rng;
use crate::tally::Tally;
use crate::{archive, pattern};

const KINDS: [&str; 7] = [
    "any pattern",
    "any exponent",
    "subnormals",
    "exact squares and their neighbours",
    "rounded squares and their neighbours",
    "squares of midpoints and their neighbours",
    "not-a-number patterns, infinities, zeros and negatives",
];

/// A few units in the last place off.
fn near(rng: &mut Rng, x: f64) -> u64 {
    x.to_bits().wrapping_add(rng.below(7) as u64).wrapping_sub(3)
}

fn input(rng: &mut Rng, kind: usize, turn: u64) -> u64 {
    let low = rng.bits() & 0x000f_ffff_ffff_ffff;
    // a power of two whose square is a normal number
    let scale = 2f64.powi(rng.between(0, 900) as i32 - 450);
    match kind {
        0 => rng.bits(),
        1 => (turn % 0x7ff) << 52 | low,
        2 => low >> rng.below(52),
        3 => {
            let r = ((1u64 << 25) + (rng.bits() >> 39)) as f64 * scale;
            near(rng, r * r)
        }
        4 => {
            let r = f64::from_bits(0x3ff0_0000_0000_0000 | low) * scale;
            near(rng, r * r)
        }
        5 => {
            // (m + 1/2)², with m of 53 bits, by whole numbers
            let m = u128::from(1u64 << 52 | low);
            near(rng, (m * m + m) as f64 * scale * scale)
        }
        _ => match rng.below(4) {
            0 => 0x7ff0_0000_0000_0000 | low | rng.bits() & 1 << 63,
            1 => rng.bits() | 1 << 63,
            2 => rng.pick(&[0, 1 << 63]),
            _ => rng.pick(&[0x7ff0_0000_0000_0000, 0xfff0_0000_0000_0000, 0x7ff8_0000_0000_0000]),
        },
    }
}

pub fn compare(count: u64, seed: u64) -> bool {
    let mut rng = Rng::new(seed);
    let mut tally = Tally::new("truing_root", &KINDS);
    for turn in 0..count {
        let kind = (turn % KINDS.len() as u64) as usize;
        let x = f64::from_bits(input(&mut rng, kind, turn / KINDS.len() as u64));
        tally.note(KINDS[kind]);
        // SAFETY: a number goes in and a number comes out.
        let found = unsafe { archive::truing_root(x) };
        tally.count(pattern(found) == pattern(x.sqrt()), || {
            format!(
                "{:016x}: {:016x}, not {:016x}",
                x.to_bits(),
                found.to_bits(),
                x.sqrt().to_bits()
            )
        });
    }
    tally.end()
}
