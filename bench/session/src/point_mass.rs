//! The crate `point_mass` in Rust: the same operations in the same order, so the same bits.
const STEP: f64 = 0.001953125;
const HALF_STEP: f64 = 0.0009765625;
const STEPS: usize = 4096;
const SLOWEST: f64 = 50.0;
const GRAVITY: f64 = 32.174;
const RETARDATION: f64 = 2.08551e-4;

#[derive(Clone, Copy)]
struct Flight {
    x: f64,
    y: f64,
    vx: f64,
    vy: f64,
}

/// A point that is not sane is refused.
pub fn is_sane(mv: f64, bc: f64) -> bool {
    (100.0..=6000.0).contains(&mv) && (0.01..=3.0).contains(&bc)
}

fn drag(speed: f64) -> f64 {
    if speed < 950.0 {
        0.2
    } else if speed < 1250.0 {
        0.2 + (speed - 950.0) * 0.0015
    } else {
        0.65 - (speed - 1250.0) * 0.00008
    }
}

fn step(k: f64, s: Flight) -> Flight {
    let speed = s.vx + s.vy * s.vy / (s.vx + s.vx);
    let rate = drag(speed) * k * speed;
    let vx = s.vx - rate * s.vx * STEP;
    let vy = s.vy + (GRAVITY - rate * s.vy) * STEP;
    Flight { x: s.x + (s.vx + vx) * HALF_STEP, y: s.y + (s.vy + vy) * HALF_STEP, vx, vy }
}

fn fly(k: f64, x: f64, start: Flight) -> Option<f64> {
    let mut s = start;
    for _ in 0..STEPS {
        if s.vx < SLOWEST {
            return None;
        }
        let t = step(k, s);
        if t.x >= x {
            return Some(s.y + (x - s.x) / (t.x - s.x) * (t.y - s.y));
        }
        s = t;
    }
    None
}

/// The drop in inches at a distance in yards, if the slug gets there.
pub fn drop_at(mv: f64, bc: f64, yards: f64) -> Option<f64> {
    if !is_sane(mv, bc) || yards <= 0.0 || yards.is_nan() {
        return None;
    }
    let start = Flight { x: 0.0, y: 0.0, vx: mv, vy: 0.0 };
    let y = fly(RETARDATION / bc, yards * 3.0, start)?;
    Some(y * 0.3048 / 0.0254)
}
