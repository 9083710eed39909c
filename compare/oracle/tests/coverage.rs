//! The vectors of the coverage table (L2): files, and conversations under two of them.

use std::fs;
use std::path::{Path, PathBuf};

use estimator::Variant;
use oracle::coverage::{answer, load};
use oracle::{answers, output, Text};

fn vectors() -> PathBuf {
    Path::new(env!("CARGO_MANIFEST_DIR")).join("../vectors")
}

fn read(name: &str) -> Vec<u8> {
    fs::read(vectors().join(name)).expect(name)
}

fn file(name: &str) -> Vec<u8> {
    read(&format!("l2-files/{name}"))
}

/// What a file gets, as the list program writes it.
fn due(expected: &str) -> String {
    let Some(rows) = expected.strip_prefix("table ") else { return expected.to_string() };
    let rows = rows.split(' ').map(|row| format!(" ({})", row.replace('/', " ")));
    format!("(coverage{})", rows.collect::<String>())
}

#[test]
fn files() {
    let expected = String::from_utf8(read("l2-files.expected")).expect("letters");
    let mut names: Vec<String> = Vec::new();
    for line in expected.lines() {
        let (name, expected) = line.split_once(' ').expect("a name and what it gets");
        assert_eq!(answer(&load(&file(name))), due(expected), "{name}");
        names.push(name.to_string());
    }
    let mut kept: Vec<String> = fs::read_dir(vectors().join("l2-files"))
        .expect("a directory")
        .map(|entry| entry.expect("a file").file_name().into_string().expect("letters"))
        .collect();
    names.sort();
    kept.sort();
    assert_eq!(names, kept);
}

#[test]
fn conversations() {
    for (name, table) in [("one-row", "single"), ("three-rows", "three-15")] {
        let input = read(&format!("l2-print/{name}.stdin"));
        let due = read(&format!("l2-print/{name}.stdout"));
        assert!(output(Some(&file(table)), &input) == due, "{name}");
        // The built-in row is that of the one with a single row.
        assert_eq!(output(None, &input) == due, name == "one-row");
    }
    // A page and an edit under three rows: the band that goes takes its intervals along.
    let input = [read("l2-print/three-rows.stdin"), b"(take-out 1)\n(page)\n".to_vec()].concat();
    let said = String::from_utf8(output(Some(&file("three-15")), &input)).expect("letters");
    let reports: Vec<&str> = said.lines().filter(|line| line.starts_with("(report ")).collect();
    let band = " ((405b800000000000 ";
    assert!(reports[0].contains(band) && !reports[1].contains(band));
    let level = |report: &str| report.matches("3fefae147ae147ae)").count();
    assert_eq!((level(reports[0]), level(reports[1])), (5, 3));
    assert!(said.ends_with(&format!("{:<64}\n", "LowEffectiveDegreesOfFre")));
}

#[test]
fn refused_tables() {
    for (name, due) in [("empty", "16 1"), ("level-1", "17 1"), ("falls", "18 2")] {
        for input in ["", "(asked)\n", "(entered"] {
            let said = output(Some(&file(name)), input.as_bytes());
            assert_eq!(said, format!("(declined {due})\n").into_bytes(), "{name}");
        }
    }
}

/// A file with the built-in row behaves as none.
#[test]
fn built_in_row() {
    let single = load(&file("single")).expect("a table");
    let kept = Path::new(env!("CARGO_MANIFEST_DIR")).join("../samples/stdin");
    let input = fs::read(kept).expect("the fixed list");
    assert!(
        answers(&input, Text::Under(&single)) == answers(&input, Text::Alone(Variant::Recipes))
    );
}
