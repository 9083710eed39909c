//! How often each refusal number, criterion, failure and warning code occurred.

use crate::facts::Facts;
use crate::player::Script;
use estimator::Row;

pub const CRITERIA: [&str; 3] = ["ScaledGradient", "ObjectiveMesh", "none"];
pub const FAILURES: [&str; 4] = [
    "OptimizerDidNotConverge",
    "MapAtParameterBound",
    "RankDeficientInformation",
    "NonFiniteInformation",
];
pub const WARNINGS: [&str; 10] = [
    "OptimizerDidNotConverge",
    "ObjectiveMeshConvergence",
    "WeakBcSensitivity",
    "IllConditionedData",
    "MvPriorDominated",
    "BcPriorDominated",
    "GaussianApproximationUnavailable",
    "IntervalCrossesFitBounds",
    "LowEffectiveDegreesOfFreedom",
    "PredictionOutsideObservedDomain",
];

/// A page's lines with numbers; the others are warnings.
const LABELS: [&str; 5] = ["speed", "coefficient", "chi-square", "shot", "distance"];
const NUMBERS: [&str; 4] = ["fixed", "fixed with a minus", "hyphen", "hashes"];

#[derive(Default)]
pub struct Tally {
    declined: [u64; 16],
    criteria: [u64; 3],
    failures: [u64; 4],
    warnings: [u64; 10],
    available: u64,
    reports: u64,
    questions: u64,
    malformed: u64,
    no_baseline: u64,
    lines: u64,
    most_questions: u64,
    pages: u64,
    empty_pages: u64,
    page_lines: u64,
    phrases: u64,
    numbers: [u64; NUMBERS.len()],
    facts: Facts,
}

impl Tally {
    /// Counts a conversation, its closing lines left out.
    pub fn add(&mut self, script: &Script) {
        let kept = script.lines.len() - script.closing;
        self.lines += kept as u64;
        let mut questions = 0;
        let mut before = "";
        for answer in script.answers[..kept].iter().flatten() {
            if let Some(rest) = answer.strip_prefix("(declined ") {
                let number: usize = rest.split(' ').next().unwrap().parse().unwrap();
                self.declined[number] += 1;
            } else if answer.starts_with("(report ") {
                self.report(answer);
            } else if answer.starts_with("(question ") {
                self.questions += 1;
                questions += !answer.starts_with("(question new") as u64;
            } else if answer.starts_with("(malformed ") {
                self.malformed += 1;
            } else if answer.starts_with("(page ") {
                self.page(answer);
                if before.starts_with("(report ") {
                    self.facts.page(before, answer);
                }
            }
            before = answer;
        }
        self.most_questions = self.most_questions.max(questions);
    }

    fn report(&mut self, line: &str) {
        self.facts.check(line);
        self.reports += 1;
        self.available += line.contains("(Available ") as u64;
        // The baseline stands between the observations and the diagnostics.
        self.no_baseline += line.contains(")) none (") as u64;
        let found = [line.contains(" ScaledGradient "), line.contains(" ObjectiveMesh ")];
        self.criteria[0] += found[0] as u64;
        self.criteria[1] += found[1] as u64;
        self.criteria[2] += (found == [false, false]) as u64;
        for (count, code) in self.failures.iter_mut().zip(FAILURES) {
            *count += line.contains(&format!("(Unavailable {code})")) as u64;
        }
        for (count, code) in self.warnings.iter_mut().zip(WARNINGS) {
            *count += line.contains(&format!("({code})")) as u64;
        }
    }

    fn page(&mut self, answer: &str) {
        let lines = answer.split('\n').skip(1);
        self.pages += 1;
        self.empty_pages += (lines.clone().next().is_none()) as u64;
        for line in lines {
            self.page_lines += 1;
            if !LABELS.contains(&line[..20].trim_end()) {
                self.phrases += 1;
                continue;
            }
            for number in [&line[20..34], &line[34..48], &line[48..62]] {
                let number = number.trim_start();
                let fixed = number.contains('.');
                let minus = fixed && number.starts_with('-');
                let kinds = [fixed, minus, number == "-", number.starts_with('#')];
                for (count, is) in self.numbers.iter_mut().zip(kinds) {
                    *count += is as u64;
                }
            }
        }
    }

    /// Whether a conversation has something that did not occur so far.
    pub fn would_show(&self, script: &Script) -> bool {
        let mut alone = Tally::default();
        alone.add(script);
        let new = |mine: &[u64], its: &[u64]| mine.iter().zip(its).any(|(m, i)| *m == 0 && *i > 0);
        new(&self.declined, &alone.declined)
            || new(&self.criteria, &alone.criteria)
            || new(&self.failures, &alone.failures)
            || new(&self.warnings, &alone.warnings)
            || new(&[self.available, self.no_baseline], &[alone.available, alone.no_baseline])
    }

    /// Prints the counts; says whether every one occurred and the scope's claims hold.
    pub fn print(&self) -> bool {
        println!(
            "{} lines, {} questions (at most {} in a run), {} malformed lines, {} reports ({} without a baseline)",
            self.lines, self.questions, self.most_questions, self.malformed, self.reports, self.no_baseline
        );
        let mut all = true;
        let mut row = |name: String, count: u64| {
            all &= count > 0;
            println!("{name:<52}{count:>10}{}", if count == 0 { "  never" } else { "" });
        };
        for number in 1..=15 {
            row(format!("refusal {number}"), self.declined[number]);
        }
        for (count, name) in self.criteria.iter().zip(CRITERIA) {
            row(format!("criterion {name}"), *count);
        }
        row("approximation Available".to_string(), self.available);
        for (count, name) in self.failures.iter().zip(FAILURES) {
            row(format!("failure {name}"), *count);
        }
        for (count, name) in self.warnings.iter().zip(WARNINGS) {
            row(format!("warning {name}"), *count);
        }
        row("page".to_string(), self.pages);
        row("page where no report stands".to_string(), self.empty_pages);
        row("page's lines".to_string(), self.page_lines);
        row("page's lines with a warning".to_string(), self.phrases);
        for (count, name) in self.numbers.iter().zip(NUMBERS) {
            row(format!("page's numbers: {name}"), *count);
        }
        all & self.facts.print()
    }

    /// Holds the intervals of a conversation's reports to the rows of its table (L2).
    pub fn rows(&mut self, script: &Script, table: &[Row]) {
        let reports = script.answers.iter().flatten().filter(|a| a.starts_with("(report "));
        reports.for_each(|report| self.facts.rows(report, table));
    }

    /// Whether all of the scope's claims held.
    pub fn held(&self) -> bool {
        self.facts.held()
    }
}
