//! Checks the estimator's text and writes the variants that are compiled:
//! `untouched.rs`, the text as it stands; `recipes.rs`, in which the three
//! functions without a fixed last bit give way to the recipes (S8);
//! `unjudged.rs`, the recipes with an objective that gives a sum that is not
//! finite too; and `rows.rs`, the recipes with an interval by a row of a coverage
//! table (L2).  Each ends with `request.rs` and `wrapper.rs`,
//! which need the text's private items.

use std::{env, fs, path::Path};

const SHA256: &str = "b0f42ecfa743ac5372baa29a386ae9eccda0aa695966a13e1b1c5340410bc742";

include!("replacements.rs");

/// The objective's judgement of its sum, and one that lets every sum pass.
const JUDGED: [&str; 2] = [
    "    if objective.is_finite() {\n        Ok(objective)\n    } else {\n",
    "    if true {\n        Ok(objective)\n    } else {\n",
];

/// An interval's factor and level, and the row's, and the two names, which are then left
/// only where they are defined.
const ROWS: [(&str, &str, &str); 2] = [
    (
        "let half_width = NORMAL_95_TWO_SIDED_Z * standard_deviation;",
        "let half_width = crate::coverage::factor() * standard_deviation;",
        "NORMAL_95_TWO_SIDED_Z",
    ),
    (
        "probability: TRUING_UNCERTAINTY_INTERVAL_LEVEL_V1,",
        "probability: crate::coverage::level(),",
        "TRUING_UNCERTAINTY_INTERVAL_LEVEL_V1",
    ),
];

fn main() {
    let source = Path::new("../source/truing_uncertainty.rs");
    println!("cargo:rerun-if-changed=build.rs");
    for file in ["replacements.rs", "src/request.rs", "src/wrapper.rs"] {
        println!("cargo:rerun-if-changed={file}");
    }
    println!("cargo:rerun-if-changed={}", source.display());

    let text = fs::read_to_string(source).expect("the estimator's text");
    let found = sha256(text.as_bytes());
    assert_eq!(found, SHA256, "{} is not the text to compare with", source.display());

    let mut recipes = text.clone();
    for (from, to, times) in RECIPES {
        assert_eq!(recipes.matches(from).count(), times, "occurrences of {from}");
        recipes = recipes.replace(from, to);
    }
    for gone in [".hypot(", ".atan2(", ".sin_cos("] {
        assert!(!recipes.contains(gone), "{gone} is still there");
    }
    // A question's place is told by its line, so the lines must not move.
    assert_eq!(recipes.lines().count(), text.lines().count());

    assert_eq!(recipes.matches(JUDGED[0]).count(), 1, "occurrences of {}", JUDGED[0]);
    let unjudged = recipes.replace(JUDGED[0], JUDGED[1]);

    let mut rows = recipes.clone();
    for (from, to, name) in ROWS {
        assert_eq!(rows.matches(from).count(), 1, "occurrences of {from}");
        rows = rows.replace(from, to);
        assert_eq!(rows.matches(name).count(), 1, "occurrences of {name}");
        assert!(rows.contains(&format!("const {name}: f64 = ")), "{name} is defined");
    }
    assert_eq!(rows.lines().count(), text.lines().count());

    let read = |name: &str| fs::read_to_string(name).expect(name);
    let wrapper = read("src/request.rs") + &read("src/wrapper.rs");
    let out = env::var("OUT_DIR").expect("OUT_DIR");
    let write = |name: &str, what: String| fs::write(Path::new(&out).join(name), what).expect(name);
    write("untouched.rs", format!("{text}\n{wrapper}"));
    write("recipes.rs", format!("{recipes}\n{wrapper}"));
    write("unjudged.rs", format!("{unjudged}\n{wrapper}"));
    write("rows.rs", format!("{rows}\n{wrapper}"));
    write(
        "variants.rs",
        "#[path = \"untouched.rs\"]\n#[allow(dead_code, unreachable_code)]\nmod untouched;\n\
         #[path = \"recipes.rs\"]\n#[allow(dead_code, unreachable_code)]\nmod recipes;\n\
         #[path = \"unjudged.rs\"]\n#[allow(dead_code, unreachable_code)]\nmod unjudged;\n\
         #[path = \"rows.rs\"]\n#[allow(dead_code, unreachable_code)]\nmod rows;\n"
            .to_string(),
    );
}

/// SHA-256 (FIPS 180-4) in lower-case hexadecimal.
fn sha256(message: &[u8]) -> String {
    let primes: Vec<u32> = (2..312).filter(|n| (2..*n).all(|d| n % d != 0)).collect();
    let mut hash: Vec<u32> = primes[..8].iter().map(|p| root_fraction(*p, 2)).collect();
    let keys: Vec<u32> = primes[..64].iter().map(|p| root_fraction(*p, 3)).collect();

    let mut padded = message.to_vec();
    padded.push(0x80);
    while padded.len() % 64 != 56 {
        padded.push(0);
    }
    padded.extend((message.len() as u64 * 8).to_be_bytes());

    for block in padded.chunks(64) {
        let mut w: Vec<u32> =
            block.chunks(4).map(|c| u32::from_be_bytes([c[0], c[1], c[2], c[3]])).collect();
        for i in 16..64 {
            let (a, b) = (w[i - 15], w[i - 2]);
            let s0 = a.rotate_right(7) ^ a.rotate_right(18) ^ (a >> 3);
            let s1 = b.rotate_right(17) ^ b.rotate_right(19) ^ (b >> 10);
            w.push(w[i - 16].wrapping_add(s0).wrapping_add(w[i - 7]).wrapping_add(s1));
        }
        let mut v = hash.clone();
        for i in 0..64 {
            let s1 = v[4].rotate_right(6) ^ v[4].rotate_right(11) ^ v[4].rotate_right(25);
            let choice = (v[4] & v[5]) ^ (!v[4] & v[6]);
            let t1 =
                v[7].wrapping_add(s1).wrapping_add(choice).wrapping_add(keys[i]).wrapping_add(w[i]);
            let s0 = v[0].rotate_right(2) ^ v[0].rotate_right(13) ^ v[0].rotate_right(22);
            let majority = (v[0] & v[1]) ^ (v[0] & v[2]) ^ (v[1] & v[2]);
            v.rotate_right(1);
            v[4] = v[4].wrapping_add(t1);
            v[0] = t1.wrapping_add(s0).wrapping_add(majority);
        }
        for (sum, part) in hash.iter_mut().zip(v) {
            *sum = sum.wrapping_add(part);
        }
    }
    hash.iter().map(|word| format!("{word:08x}")).collect()
}

/// The first 32 bits of the fraction of the `degree`-th root of a small number.
fn root_fraction(number: u32, degree: u32) -> u32 {
    // The largest r with r^degree <= number * 2^(32 * degree), over whole numbers.
    let target = (number as u128) << (32 * degree);
    let (mut low, mut high) = (0u128, 1u128 << 41);
    while high - low > 1 {
        let middle = (low + high) / 2;
        if middle.checked_pow(degree).is_some_and(|power| power <= target) {
            low = middle;
        } else {
            high = middle;
        }
    }
    low as u32
}
