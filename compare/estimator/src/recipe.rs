//! The recipes of docs/SCOPE.md (S8) for the functions that have no fixed last bit in Rust.

pub(crate) fn hypot(x: f64, y: f64) -> f64 {
    if x.is_infinite() || y.is_infinite() {
        return f64::INFINITY;
    }
    if x.is_nan() || y.is_nan() {
        return f64::NAN;
    }
    if x == 0.0 && y == 0.0 {
        return 0.0;
    }
    let (x, y) = (x.abs(), y.abs());
    let (big, small) = if x < y { (y, x) } else { (x, y) };
    let q = small / big;
    big * (1.0 + q * q).sqrt()
}

/// The poll direction, as (sin, cos) like `f64::sin_cos`.
pub(crate) fn poll_sin_cos(x: f64, y: f64) -> (f64, f64) {
    let h = hypot(x, y);
    if !x.is_finite() || !y.is_finite() || !h.is_finite() || h == 0.0 {
        return (0.0, 1.0);
    }
    let cos = ((1.0 + x / h) / 2.0).sqrt();
    let sin = ((1.0 - x / h) / 2.0).sqrt();
    (if y < 0.0 { -sin } else { sin }, cos)
}
