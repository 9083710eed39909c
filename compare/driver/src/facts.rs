//! What docs/SCOPE.md says of every report, checked on each line; and how often the
//! rarer ways through the text were taken.

use crate::tally::WARNINGS;
use estimator::{hex, Row, Sheet};

#[derive(Clone)]
pub enum Tree {
    Word(String),
    List(Vec<Tree>),
}

impl Tree {
    pub fn read(line: &str) -> Tree {
        let mut open = vec![Vec::new()];
        for part in line.replace('(', " ( ").replace(')', " ) ").split_whitespace() {
            match part {
                "(" => open.push(Vec::new()),
                ")" => {
                    let list = Tree::List(open.pop().expect("brackets"));
                    open.last_mut().expect("brackets").push(list);
                }
                word => open.last_mut().expect("brackets").push(Tree::Word(word.to_string())),
            }
        }
        open.pop().and_then(|mut whole| whole.pop()).expect("brackets")
    }

    pub fn at(&self, index: usize) -> &Tree {
        match self {
            Tree::List(parts) => &parts[index],
            Tree::Word(_) => panic!("a word has no parts"),
        }
    }

    pub fn parts(&self) -> &[Tree] {
        match self {
            Tree::List(parts) => parts,
            Tree::Word(_) => &[],
        }
    }

    pub fn word(&self) -> &str {
        match self {
            Tree::Word(word) => word,
            Tree::List(_) => "",
        }
    }

    pub fn double(&self) -> f64 {
        f64::from_bits(u64::from_str_radix(self.word(), 16).expect("a double"))
    }

    /// An interval's records, one for each row of the coverage table (L2), none if it is
    /// absent.
    pub fn rows(&self) -> &[Tree] {
        match self.parts() {
            [Tree::Word(_), ..] => std::slice::from_ref(self),
            rows => rows,
        }
    }

    /// A value, and the ends of its interval by the last row, if there is one.
    fn with_ends(&self, interval: &Tree) -> [Option<f64>; 3] {
        let end = |i: usize| interval.rows().last().map(|row| row.at(i).double());
        [Some(self.double()), end(2), end(3)]
    }

    /// A report's intervals: the two of the parameters, if there are, and two for each band.
    pub fn intervals(&self) -> Vec<&Tree> {
        let approximation = self.at(10);
        let available = approximation.at(0).word() == "Available";
        let parameters = available.then(|| [approximation.at(2), approximation.at(3)]);
        let bands = self.at(11).parts().iter().flat_map(|band| [band.at(2), band.at(3)]);
        parameters.into_iter().flatten().chain(bands).collect()
    }

    /// What the page of this report shows.
    pub fn sheet(&self) -> Sheet {
        let approximation = self.at(10);
        let none = Tree::Word("none".to_string());
        let available = approximation.at(0).word() == "Available";
        let interval = |i: usize| if available { approximation.at(i) } else { &none };
        let each = |i: usize| self.at(i).parts().iter();
        Sheet {
            speed: self.at(2).with_ends(interval(2)),
            coefficient: self.at(3).with_ends(interval(3)),
            chi_square: self.at(9).at(0).double(),
            shots: each(7).map(|o| [0, 1, 3].map(|i| o.at(i).double())).collect(),
            distances: each(11).map(|b| b.at(1).with_ends(b.at(2))).collect(),
            warnings: each(12).map(|w| w.at(0).word().to_string()).collect(),
        }
    }
}

const WAYS: [&str; 10] = [
    "100 iterations",
    "poll of 1,024 evaluations, converged",
    "fit with a not-a-number",
    "data condition not a number",
    "effective count not a number",
    "effective count 2",
    "degrees of freedom without a reduced value",
    "covariance, but a band without latent interval",
    "latent interval of width 0",
    "sensitivity ratio not a number",
];

#[derive(Default)]
pub struct Facts {
    ways: [u64; WAYS.len()],
    broken: Vec<String>,
}

impl Facts {
    pub fn check(&mut self, line: &str) {
        let report = Tree::read(line);
        let (diagnostics, approximation) = (report.at(9), report.at(10));
        let converged = report.at(5).word() == "yes";
        let available = approximation.at(0).word() == "Available";
        let criterion = diagnostics.at(9).word();
        let evaluations = diagnostics.at(12).word();
        let warned: Vec<usize> = report
            .at(12)
            .parts()
            .iter()
            .map(|w| WARNINGS.iter().position(|c| *c == w.at(0).word()).expect("a known code"))
            .collect();
        let has = |code: usize| warned.contains(&code);

        let mut claim = |holds: bool, text: &str| {
            if !holds && self.broken.len() < 20 {
                self.broken.push(format!("{text}: {line}"));
            }
        };
        claim(
            warned.windows(2).all(|w| w[0] < w[1]),
            "warnings are in the source's order, once each",
        );
        claim(!(has(0) && has(1) || has(6) && has(7)), "exclusive warnings");
        claim(has(6) != available, "unavailable is warned");
        claim(!has(0) || has(6), "unconverged is unavailable");
        claim(available || ![4, 5, 7, 8].iter().any(|c| has(*c)), "these need a covariance");
        claim(converged == (criterion != "none"), "converged by a criterion");
        let radius = diagnostics.at(10).word();
        let least = if criterion == "ObjectiveMesh" { "3e7ad7f29abcaf48" } else { "none" };
        claim(radius == least, "the radius is the least or none");
        claim(evaluations.parse::<u64>().is_ok_and(|n| n <= 1024), "at most 1,024 evaluations");
        claim(report.at(4).word().parse::<u64>().is_ok_and(|n| n <= 100), "at most 100 iterations");
        let count = diagnostics.at(3);
        claim((count.word() != "none") == available, "an effective count with a covariance");
        if available {
            let n = count.double();
            claim(n.is_nan() || (0.0..=2.0).contains(&n), "effective count in 0..2");
            let correlation = approximation.at(4).double();
            claim((-1.0..=1.0).contains(&correlation), "correlation in -1..1");
        }

        let nan = |t: &Tree| t.word() != "none" && t.double().is_nan();
        let bands = report.at(11).parts();
        let taken = [
            report.at(4).word() == "100",
            converged && evaluations == "1024",
            nan(report.at(2)) || nan(report.at(3)),
            nan(diagnostics.at(7)),
            nan(count),
            count.word() == "4000000000000000",
            diagnostics.at(4).word() != "none" && diagnostics.at(5).word() == "none",
            available && bands.iter().any(|b| b.at(2).word() == "none"),
            bands.iter().any(|b| b.at(2).rows().iter().any(|row| row.at(1).double() == 0.0)),
            nan(diagnostics.at(6)),
        ];
        for (count, taken) in self.ways.iter_mut().zip(taken) {
            *count += taken as u64;
        }
    }

    /// Holds each interval of a report to the table's rows: the half width is the row's
    /// factor times the deviation, and the level comes last.
    pub fn rows(&mut self, line: &str, table: &[Row]) {
        let report = Tree::read(line);
        let right = |interval: &&Tree| {
            let rows = interval.rows();
            let one = |(row, due): (&Tree, &Row)| {
                let (estimate, deviation) = (row.at(0).double(), row.at(1).double());
                let half = due.factor * deviation;
                let due = [estimate, deviation, estimate - half, estimate + half, due.level];
                row.parts().iter().map(Tree::word).eq(due.map(hex).iter().map(String::as_str))
            };
            let same = rows
                .windows(2)
                .all(|pair| [0, 1].iter().all(|i| pair[0].at(*i).word() == pair[1].at(*i).word()));
            let whole = rows.len() == table.len() && same && rows.iter().zip(table).all(one);
            // A list stands only where there are several rows.
            let listed = matches!(interval.parts(), [Tree::List(_), ..]) == (table.len() > 1);
            interval.word() == "none" || whole && listed
        };
        if !report.intervals().iter().all(right) && self.broken.len() < 20 {
            self.broken.push(format!("intervals are by the table's rows {table:?}: {line}"));
        }
    }

    /// Holds an answer to `(page)` to the line of the report that it follows.
    pub fn page(&mut self, line: &str, answer: &str) {
        let due = oracle::page::answer(Some(&Tree::read(line).sheet()));
        if due != answer && self.broken.len() < 20 {
            self.broken.push(format!("a page is its report's: {line}\n{answer}"));
        }
    }

    /// Prints the rarer ways and the claims that failed; says whether none did.
    pub fn print(&self) -> bool {
        for (name, count) in WAYS.iter().zip(self.ways) {
            println!("way: {name:<47}{count:>10}");
        }
        for broken in &self.broken {
            println!("not so: {broken}");
        }
        self.held()
    }

    pub fn held(&self) -> bool {
        self.broken.is_empty()
    }
}

#[cfg(test)]
mod tests {
    use super::*;

    /// The vectors' pages are those of their reports.
    #[test]
    fn pages_of_the_vectors() {
        for (report, page) in [
            (
                include_str!("../../vectors/l1-page-1.report"),
                include_str!("../../vectors/l1-page-1.page"),
            ),
            (
                include_str!("../../vectors/l1-page-3.report"),
                include_str!("../../vectors/l1-page-3.page"),
            ),
        ] {
            let found = oracle::page::answer(Some(&Tree::read(report).sheet())) + "\n";
            let count = page.lines().count();
            assert_eq!(found, format!("(page {count})\n{page}"));
            assert!(page.lines().all(|line| line.len() == 64));
        }
    }

    type Wrong = (&'static str, fn(&Tree, &mut Sheet));

    /// Pages that show something else of a report, each in one place.
    const WRONG: [Wrong; 11] = [
        ("penalized chi-square", |report, sheet| sheet.chi_square = report.at(9).at(2).double()),
        ("reduced chi-square", |report, sheet| {
            let reduced = report.at(9).at(5);
            sheet.chi_square = if reduced.word() == "none" { f64::NAN } else { reduced.double() };
        }),
        ("baseline's chi-square", |report, sheet| {
            sheet.chi_square = report.at(8).parts().get(2).map_or(f64::NAN, Tree::double);
        }),
        ("baseline's shots", |report, sheet| {
            for (shot, o) in sheet.shots.iter_mut().zip(report.at(8).at(3).parts()) {
                shot[2] = o.at(3).double();
            }
        }),
        ("residuals", |report, sheet| {
            for (shot, o) in sheet.shots.iter_mut().zip(report.at(7).parts()) {
                shot[2] = o.at(4).double();
            }
        }),
        ("sigmas", |report, sheet| {
            for (shot, o) in sheet.shots.iter_mut().zip(report.at(7).parts()) {
                shot[1] = o.at(2).double();
            }
        }),
        ("entered point", |report, sheet| {
            sheet.speed[0] = Some(report.at(8).at(0).double());
            sheet.coefficient[0] = Some(report.at(8).at(1).double());
        }),
        ("future intervals", |report, sheet| {
            for (numbers, band) in sheet.distances.iter_mut().zip(report.at(11).parts()) {
                *numbers = band.at(1).with_ends(band.at(3));
            }
        }),
        ("distances of the bands", |report, sheet| {
            for (numbers, band) in sheet.distances.iter_mut().zip(report.at(11).parts()) {
                numbers[0] = Some(band.at(0).double());
            }
        }),
        ("ends exchanged", |_, sheet| {
            sheet.speed.swap(1, 2);
            sheet.coefficient.swap(1, 2);
        }),
        ("warnings turned round", |_, sheet| sheet.warnings.reverse()),
    ];

    /// Each of them differs on reports of the fixed list that have a page there.
    #[test]
    fn wrong_pages() {
        use crate::{player, sample};
        let cases = [sample::named(), sample::long(), sample::pages()].concat();
        let mut differ = [0; WRONG.len()];
        for (_, case) in cases {
            let script = player::play(&case, &mut 0);
            let report = script.answers.iter().flatten().find(|a| a.starts_with("(report "));
            let Some(report) = report.map(|line| Tree::read(line)) else { continue };
            // Without a baseline there is none to be taken for the fit.
            if report.at(8).word() == "none" {
                continue;
            }
            let right = oracle::page::answer(Some(&report.sheet()));
            for (count, (_, spoil)) in differ.iter_mut().zip(WRONG) {
                let mut sheet = report.sheet();
                spoil(&report, &mut sheet);
                *count += (oracle::page::answer(Some(&sheet)) != right) as u64;
            }
        }
        for (count, (name, _)) in differ.iter().zip(WRONG) {
            assert!(*count > 0, "{name}");
        }
    }
}
