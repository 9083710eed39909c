//! `desk [N [SEED]]`: the proved archive's three functions against the
//! hardware's square root and the Rust's own text, bit for bit: 10 N roots, N
//! objective sums and N inverses.  `desk expected` prints what examples/desk.c
//! must say.  See compare/README.md.

mod expected;
mod inverse;
#[path = "../../driver/src/rng.rs"]
#[allow(dead_code)]
mod rng;
mod root;
mod sum;
mod tally;

use std::process::ExitCode;

/// include/truing.h
pub mod archive {
    extern "C" {
        pub fn truing_root(x: f64) -> f64;
        #[allow(clippy::too_many_arguments)]
        pub fn truing_objective_sum(
            speed: f64,
            coefficient: f64,
            observations: *const u8,
            observations_length: usize,
            replies: *const u8,
            replies_length: usize,
            priors: u32,
            speed_mean: f64,
            speed_sigma: f64,
            coefficient_mean: f64,
            coefficient_sigma: f64,
            out: *mut u8,
            out_length: usize,
        ) -> u32;
        pub fn truing_inverse(a00: f64, a01: f64, a11: f64, out: *mut u8, out_length: usize)
            -> u32;
    }
}

/// The pattern, one and the same for every not-a-number.
pub fn pattern(x: f64) -> u64 {
    if x.is_nan() {
        0x7ff8_0000_0000_0000
    } else {
        x.to_bits()
    }
}

/// Bytes lent for an answer, in the middle of others that no call may touch.
pub struct Lent {
    bytes: Vec<u8>,
    before: Vec<u8>,
    from: usize,
    pub length: usize,
}

impl Lent {
    pub fn new(rng: &mut rng::Rng, length: usize) -> Lent {
        let from = rng.between(8, 23);
        let bytes: Vec<u8> = (0..from + length + 16).map(|_| rng.bits() as u8).collect();
        Lent { before: bytes.clone(), bytes, from, length }
    }

    pub fn at(&mut self) -> *mut u8 {
        self.bytes[self.from..].as_mut_ptr()
    }

    /// Whether these doubles stand at the start and every other byte is as it was.
    pub fn holds(&mut self, doubles: &[f64]) -> bool {
        for (i, x) in doubles.iter().enumerate() {
            let at = self.from + 8 * i;
            self.before[at..at + 8].copy_from_slice(&pattern(*x).to_le_bytes());
        }
        self.bytes == self.before
    }
}

/// A double of any kind: everyday, of any size, any pattern, or a special one.
pub fn any_double(rng: &mut rng::Rng) -> f64 {
    const SPECIAL: [u64; 12] = [
        0,
        1 << 63,
        1,
        0x000f_ffff_ffff_ffff,
        0x0010_0000_0000_0000,
        0x3ff0_0000_0000_0000,
        0x7fef_ffff_ffff_ffff,
        0x7ff0_0000_0000_0000,
        0xfff0_0000_0000_0000,
        0x7ff0_0000_0000_0001,
        0x7ff8_0000_0000_0000,
        0xffff_ffff_ffff_ffff,
    ];
    let sign = if rng.chance(0.3) { -1.0 } else { 1.0 };
    match rng.below(4) {
        0 => sign * rng.real(0.0, 3000.0),
        1 => sign * rng.scale(-300.0, 300.0),
        2 => f64::from_bits(rng.bits()),
        _ => f64::from_bits(rng.pick(&SPECIAL)),
    }
}

fn main() -> ExitCode {
    let words: Vec<String> = std::env::args().skip(1).collect();
    if words.first().is_some_and(|w| w == "expected") {
        print!("{}", expected::text());
        return ExitCode::SUCCESS;
    }
    let number =
        |i: usize, default| words.get(i).map_or(Some(default), |w: &String| w.parse().ok());
    let (Some(count), Some(seed)) = (number(0, 1_000_000), number(1, 1)) else {
        eprintln!("desk: expected, or a count and a seed");
        return ExitCode::from(2);
    };
    let equal =
        [root::compare(10 * count, seed), sum::compare(count, seed), inverse::compare(count, seed)];
    if equal.iter().all(|e| *e) {
        ExitCode::SUCCESS
    } else {
        ExitCode::FAILURE
    }
}
