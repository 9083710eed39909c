//! Writes the estimator's text with S8's recipes, as compare/estimator/build.rs does (which also checks the text's SHA-256), and with the way in that is
//! measured, `src/wrapper.rs`. The driver holds its reports to those of the comparison's estimator.
use std::{env, fs, path::Path};

include!("../../compare/estimator/replacements.rs");

fn main() {
    let source = "../../compare/source/truing_uncertainty.rs";
    let request = "../../compare/estimator/src/request.rs";
    for file in ["build.rs", "../../compare/estimator/replacements.rs", request, "src/wrapper.rs", source] {
        println!("cargo:rerun-if-changed={file}");
    }
    let mut text = fs::read_to_string(source).expect("the estimator's text");
    for (from, to, times) in RECIPES {
        assert_eq!(text.matches(from).count(), times, "occurrences of {from}");
        text = text.replace(from, to);
    }
    for file in [request, "src/wrapper.rs"] {
        text += &fs::read_to_string(file).expect(file);
    }
    let out = env::var("OUT_DIR").expect("OUT_DIR");
    fs::write(Path::new(&out).join("text.rs"), text).expect("text.rs");
    let module = "#[path = \"text.rs\"]\n#[allow(dead_code, unreachable_code)]\nmod text;\n";
    fs::write(Path::new(&out).join("module.rs"), module).expect("module.rs");
}
