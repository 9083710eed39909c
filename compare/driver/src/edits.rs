//! Lists of calls with edits after a run, checked against fresh runs of the
//! text: the book of S3 (docs/SCOPE.md), kept here from its words.

use std::collections::VecDeque;

use crate::case::{self, answering, Case};
use crate::player::{Script, PLAIN};
use crate::rng::Rng;
use crate::write;
use estimator::{Opening, Requested, LIMIT};
use oracle::form::Edit;
use oracle::{page, Host, Text};

/// What a session opened with this list ends in: its line and its page.
pub fn fresh(case: &Case, list: &[Requested]) -> (String, String) {
    fresh_by(PLAIN, case, list)
}

fn fresh_by(text: Text<'_>, case: &Case, list: &[Requested]) -> (String, String) {
    let opening = Opening { distances: list.to_vec(), ..case.opening.clone() };
    let declined = |refusal| (oracle::declined(refusal), page::answer(None));
    if let Some(refusal) = estimator::opening_refusal(&opening) {
        return declined(refusal);
    }
    let mut answer = answering(&opening, &case.solver);
    match text.run(&opening, &mut answer) {
        Ok(report) => (report.line, page::answer(Some(&report.sheet))),
        Err(refusal) => declined(refusal),
    }
}

#[derive(Clone)]
enum Phase {
    /// A question of the run or of an edit is open, with its number of entries.
    Run(usize),
    Edit(usize, Edit, Vec<Requested>),
    Idle,
}

struct Bookkeeper<'a> {
    text: Text<'a>,
    case: &'a Case,
    rng: Rng,
    queue: VecDeque<Vec<u8>>,
    calls_left: usize,
    phase: Phase,
    book: Vec<Requested>,
    standing: bool,
    /// The page of the report that the book's list gives.
    page: String,
    pages: Rng,
    /// The open question's list and point.
    open: Option<(String, f64, f64)>,
    /// The last call, judged when its answer comes.
    call: Call,
    script: Script,
    faults: Vec<String>,
    ended: u64,
    closed: bool,
}

#[derive(Clone)]
enum Call {
    Other,
    /// A reply that is taken.
    Reply,
    /// A call that must get this answer and change nothing.
    Declined(u32),
    Edit(Edit, Vec<Requested>),
    Page,
}

/// Plays one case; gives the conversation, what was wrong, and how many edits ended.
pub fn play(text: Text<'_>, case: &Case, line: &mut u64) -> (Script, Vec<String>, u64) {
    let mut keeper = Bookkeeper {
        text,
        case,
        rng: Rng::new(case.seed ^ 0xb00c),
        queue: write::request(&case.opening).into_iter().map(String::into_bytes).collect(),
        calls_left: 0,
        phase: Phase::Idle,
        book: case.opening.distances.clone(),
        standing: false,
        page: page::answer(None),
        pages: Rng::new(case.seed ^ 0x9a6e),
        open: None,
        call: Call::Other,
        script: Script::default(),
        faults: Vec::new(),
        ended: 0,
        closed: false,
    };
    keeper.calls_left = keeper.rng.between(1, 8);
    oracle::serve(&mut keeper, text, line);
    (keeper.script, keeper.faults, keeper.ended)
}

impl Host for Bookkeeper<'_> {
    fn line(&mut self) -> Option<Vec<u8>> {
        let line = self.next_line()?;
        Some(self.script.put(line))
    }

    fn answer(&mut self, text: &str) {
        self.script.answered(text);
        if self.closed {
            return;
        }
        let words: Vec<&str> = text.trim_matches(|c| c == '(' || c == ')').split(' ').collect();
        // What the book is fed: whether a question came, and with how many distances.
        let mut question = None;
        if words[0] == "question" {
            let double = |w: &str| f64::from_bits(u64::from_str_radix(w, 16).expect("hex"));
            question = Some(match words[1] {
                "shots" => self.case.opening.shots.len(),
                "distances" => self.case.opening.distances.len(),
                _ => 1,
            });
            self.open = Some((words[1].to_string(), double(words[2]), double(words[3])));
        }
        match (std::mem::replace(&mut self.call, Call::Other), self.phase.clone(), question) {
            (Call::Declined(number), ..) => self.check(&format!("(declined {number} 0)"), text),
            (Call::Page, phase, _) => {
                let stands = self.standing && matches!(phase, Phase::Idle);
                let due = if stands { self.page.clone() } else { page::answer(None) };
                self.check(&due, text);
            }
            // The opening or a taken reply of the run.
            (Call::Other | Call::Reply, Phase::Idle | Phase::Run(_), Some(wanted)) => {
                self.phase = Phase::Run(wanted)
            }
            (Call::Other | Call::Reply, Phase::Idle | Phase::Run(_), None) => {
                let (due, page) = fresh_by(self.text, self.case, &self.book);
                self.check(&due, text);
                self.standing = due.starts_with("(report");
                self.page = page;
                self.phase = Phase::Idle;
            }
            (Call::Edit(edit, list), _, Some(wanted)) => {
                self.phase = Phase::Edit(wanted, edit, list)
            }
            (Call::Reply, Phase::Edit(_, edit, list), Some(wanted)) => {
                self.phase = Phase::Edit(wanted, edit, list)
            }
            (Call::Edit(_, list), _, None) | (Call::Reply, Phase::Edit(_, _, list), None) => {
                let (due, page) = fresh_by(self.text, self.case, &list);
                self.check(&due, text);
                if due.starts_with("(report") {
                    self.book = list;
                    self.page = page;
                }
                self.phase = Phase::Idle;
                self.ended += 1;
            }
            (Call::Other, Phase::Edit(..), _) => unreachable!("every call in an edit is judged"),
        }
        if question.is_none() && matches!(self.phase, Phase::Idle) {
            self.open = None;
        }
    }
}

impl Bookkeeper<'_> {
    fn check(&mut self, due: &str, found: &str) {
        if due != found {
            self.faults.push(format!("  due   {due}\n  found {found}"));
        }
    }

    fn next_line(&mut self) -> Option<Vec<u8>> {
        let often = match self.phase {
            _ if self.closed => 0.0,
            Phase::Run(_) => 0.003,
            Phase::Edit(..) => 0.1,
            Phase::Idle if self.queue.is_empty() => 0.5,
            Phase::Idle => 0.02,
        };
        if self.pages.chance(often) {
            self.call = Call::Page;
            return Some(b"(page)".to_vec());
        }
        if let Some(line) = self.queue.pop_front() {
            return Some(line);
        }
        if self.closed {
            return None;
        }
        let wanted = match self.phase {
            Phase::Run(n) | Phase::Edit(n, ..) => Some(n),
            Phase::Idle => None,
        };
        let aside = if matches!(self.phase, Phase::Run(_)) { 0.002 } else { 0.1 };
        if let (true, Some(n)) = (self.rng.chance(aside), wanted) {
            if self.rng.chance(0.5) {
                self.call = Call::Declined(9);
                let count = if self.rng.chance(0.5) { n + 1 } else { n - 1 };
                return Some(write::reply(&Some(vec![Some(1.0); count])).into_bytes());
            }
            self.call = Call::Declined(14);
            let edit = self.random_edit();
            return Some(write::edit(edit).into_bytes());
        }
        if let (Some(_), Some((list, mv, bc))) = (wanted, &self.open) {
            let distances: Vec<f64> = match (list.as_str(), &self.phase) {
                ("shots", _) => self.case.opening.shots.iter().map(|s| s[0]).collect(),
                ("distances", _) => {
                    self.case.opening.distances.iter().map(|d| d.distance).collect()
                }
                (_, Phase::Edit(_, edit, _)) => vec![edit.entry().expect("an entry").distance],
                _ => panic!("a question about a new distance without an edit"),
            };
            self.call = Call::Reply;
            return Some(
                write::reply(&self.case.solver.reply(0, *mv, *bc, &distances)).into_bytes(),
            );
        }
        if self.calls_left > 0 {
            self.calls_left -= 1;
            if self.rng.chance(0.1) {
                self.call = Call::Declined(8);
                let reply = if self.rng.chance(0.5) { None } else { Some(vec![Some(1.0)]) };
                return Some(write::reply(&reply).into_bytes());
            }
            let edit = self.random_edit();
            self.call = match (self.standing, made(edit, &self.book)) {
                (false, _) => Call::Declined(14),
                (_, None) => Call::Declined(15),
                (_, Some(list)) => Call::Edit(edit, list),
            };
            return Some(write::edit(edit).into_bytes());
        }
        self.closed = true;
        self.queue.push_back(write::entered([0.0, 0.0]).into_bytes());
        self.queue.push_back(b"(page)".to_vec());
        self.queue.push_back(b"(open plain)".to_vec());
        self.script.closing = 3;
        self.next_line()
    }

    fn random_edit(&mut self) -> Edit {
        let rng = &mut self.rng;
        let entry = match rng.below(12) {
            0 => case::faulty_entry(rng),
            1 if !self.book.is_empty() => self.book[rng.below(self.book.len())],
            _ => case::requested(rng, &self.case.opening),
        };
        let kind = rng.below(3);
        let last = self.book.len() + (kind == 0) as usize;
        let place = if rng.chance(0.1) {
            rng.pick(&[0, last as u64 + 1, u64::MAX])
        } else {
            rng.between(1, last.max(1)) as u64
        };
        match kind {
            0 => Edit::PutIn(place, entry.distance, entry.sigma),
            1 => Edit::TakeOut(place),
            _ => Edit::Exchange(place, entry.distance, entry.sigma),
        }
    }
}

/// The list that an edit makes, or nothing if its place is outside.
pub fn made(edit: Edit, list: &[Requested]) -> Option<Vec<Requested>> {
    let last = list.len() as u64 + matches!(edit, Edit::PutIn(..)) as u64;
    if edit.place() < 1 || edit.place() > last {
        return None;
    }
    let (mut list, index) = (list.to_vec(), edit.place() as usize - 1);
    match (edit, edit.entry()) {
        (Edit::PutIn(..), Some(entry)) => list.insert(index, entry),
        (_, Some(entry)) => list[index] = entry,
        (_, None) => drop(list.remove(index)),
    }
    Some(list)
}

/// A case whose solver gives equal replies to equal questions; often its list is
/// almost full.
pub fn consistent(seed: u64) -> Case {
    let mut seed = seed;
    loop {
        let mut case = Case::random(seed);
        if case.solver.consistent() && estimator::opening_refusal(&case.opening).is_none() {
            let mut rng = Rng::new(seed);
            if rng.chance(0.1) {
                let count = LIMIT - rng.below(3);
                let entry = Requested { distance: 400.0, sigma: None };
                case.opening.distances.resize(count, entry);
            }
            return case;
        }
        seed = crate::rng::mix(seed);
    }
}
