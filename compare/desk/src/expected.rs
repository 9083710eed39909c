//! What examples/desk.c must say: its inputs, with the hardware's roots, the
//! text's sums and inverses, and this harness's judgement of the lengths.

use crate::inverse;
use crate::sum::Sum;

const SHOTS: [[f64; 3]; 3] = [[300.0, 1.2, 0.1], [600.0, 4.35, 0.1], [900.0, 9.1, 0.2]];
const PREDICTED: [f64; 3] = [1.25, 4.2, 9.3];

fn line(what: &str, x: f64) -> String {
    format!("{what} {x:.6} {:016x}\n", x.to_bits())
}

fn sum(what: &str, length: usize, priors: u32) -> String {
    let bytes = |doubles: &[f64]| doubles.iter().flat_map(|x| x.to_le_bytes()).collect::<Vec<u8>>();
    let mut observations = bytes(&SHOTS.concat());
    observations.truncate(length);
    let sum = Sum {
        point: [2750.0, 0.31],
        observations,
        replies: bytes(&PREDICTED),
        priors,
        given: [[2800.0, 25.0], [0.3, 0.02]],
    };
    match sum.due(8) {
        Ok(x) => line(what, x),
        Err(code) => format!("{what} refused {code}\n"),
    }
}

fn inverse(what: &str, entries: [f64; 3]) -> String {
    match inverse::due(entries, 32) {
        Ok([a00, a01, a11, condition]) => [
            format!("{what}\n"),
            line("  a00", a00),
            line("  a01", a01),
            line("  a11", a11),
            line("  condition", condition),
        ]
        .concat(),
        Err(code) => format!("{what} refused {code}\n"),
    }
}

pub fn text() -> String {
    [
        line("root of 2", 2f64.sqrt()),
        line("root of 0.1", 0.1f64.sqrt()),
        sum("sum", 72, 0),
        sum("sum with both priors", 72, 3),
        sum("sum of a torn record", 71, 0),
        sum("sum with a reply too many", 48, 0),
        inverse("inverse of 4 1 3", [4.0, 1.0, 3.0]),
        inverse("inverse of 1 1 1", [1.0, 1.0, 1.0]),
        inverse("inverse of 1e200 0 1e200", [1e200, 0.0, 1e200]),
    ]
    .concat()
}
