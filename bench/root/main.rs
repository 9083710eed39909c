// The proved root beside the hardware's: nanoseconds a call over the same doubles in the same run, and whether they agree on random patterns.
use std::hint::black_box;
use std::time::Instant;

extern "C" {
    fn truing_root(x: f64) -> f64;
}

const VALUES: usize = 100_000;
const ROUNDS: usize = 10;
const PATTERNS: u64 = 4_000_000;

struct Random(u64);

impl Random {
    // splitmix64
    fn next(&mut self) -> u64 {
        self.0 = self.0.wrapping_add(0x9e37_79b9_7f4a_7c15);
        let mut z = self.0;
        z = (z ^ (z >> 30)).wrapping_mul(0xbf58_476d_1ce4_e5b9);
        z = (z ^ (z >> 27)).wrapping_mul(0x94d0_49bb_1331_11eb);
        z ^ (z >> 31)
    }
}

fn proved(x: f64) -> f64 {
    unsafe { truing_root(x) }
}

fn time(name: &str, values: &[f64], root: impl Fn(f64) -> f64) {
    let mut best = f64::MAX;
    for _ in 0..ROUNDS {
        let start = Instant::now();
        for &x in values {
            black_box(root(black_box(x)));
        }
        best = best.min(start.elapsed().as_nanos() as f64 / values.len() as f64);
    }
    println!("{name}: {best:.1} ns a call, the best of {ROUNDS} rounds over {} doubles", values.len());
}

fn main() {
    let mut random = Random(754);
    let all: Vec<f64> = (0..VALUES).map(|_| f64::from_bits(random.next() % 0x7ff0_0000_0000_0000).max(f64::from_bits(1))).collect();
    let usual: Vec<f64> = (0..VALUES).map(|_| random.next() as f64 / 1e13).collect();
    time("truing_root, any exponent", &all, proved);
    time("f64::sqrt,   any exponent", &all, f64::sqrt);
    time("truing_root, 0 to 2e6", &usual, proved);
    time("f64::sqrt,   0 to 2e6", &usual, f64::sqrt);
    let same = |x: f64| {
        let (a, b) = (proved(x), x.sqrt());
        a.to_bits() == b.to_bits() || (a.is_nan() && b.is_nan())
    };
    let mut wrong = 0;
    for i in 0..PATTERNS {
        let b = random.next();
        // every fourth one a subnormal, every other one a square or beside one
        let b = match i % 4 {
            0 => b >> 12 >> (b % 52),
            1 => {
                let r = f64::from_bits(0x1e70_0000_0000_0000 + b % 0x4100_0000_0000_0000);
                (r * r).to_bits().wrapping_add(random.next() % 3).wrapping_sub(1)
            }
            _ => b,
        };
        if !same(f64::from_bits(b)) {
            wrong += 1;
        }
    }
    println!("{PATTERNS} random patterns: {wrong} differ");
    if wrong > 0 {
        std::process::exit(1);
    }
}
