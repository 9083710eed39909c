//! The program `truing`'s line protocol, answered by running the Rust's text.
//!
//! The text calls its solver, so a question is put from inside the call: the
//! desk reads the host's lines there until a reply is taken.

pub mod coverage;
pub mod form;
pub mod page;

use estimator::{
    hex, Opening, Place, Refusal, Reply, Report, Requested, Row, Sheet, Variant, LIMIT,
};
use form::{Edit, Form};

/// The other end of the conversation.
pub trait Host {
    /// The next line with its line feed, if it has one; nothing at the end.
    fn line(&mut self) -> Option<Vec<u8>>;
    /// An answer without its last line feed; a page is one answer of several lines.
    fn answer(&mut self, text: &str);
}

/// What is run: a variant of the text as it stands, or the recipes under a coverage table.
#[derive(Debug, Clone, Copy)]
pub enum Text<'t> {
    Alone(Variant),
    Under(&'t [Row]),
}

impl Text<'_> {
    pub fn run(
        self,
        opening: &Opening,
        solver: &mut dyn FnMut(Place, f64, f64, usize) -> Reply,
    ) -> Result<Report, Refusal> {
        match self {
            Text::Alone(variant) => estimator::run(variant, opening, solver),
            Text::Under(table) => estimator::run_under(table, opening, solver),
        }
    }
}

/// A refusal's line.
pub fn declined((number, position): Refusal) -> String {
    format!("(declined {number} {position})")
}

/// Serves a host until its end.  `line` is the number of the last line read.
pub fn serve(host: &mut dyn Host, text: Text<'_>, line: &mut u64) {
    let mut desk = Desk {
        host,
        text,
        line,
        request: Opening::default(),
        due: Due::Nothing,
        asked: 0,
        standing: None,
        next: None,
    };
    loop {
        let call = desk.next.take().unwrap_or_else(|| desk.call());
        match call {
            Call::End => return,
            Call::Open => desk.open(),
            Call::Reply(_) => desk.declined((8, 0)),
            Call::Edit(edit) => desk.edit(edit),
        }
    }
}

/// The whole standard output for a whole standard input and, if one is named, a whole
/// coverage file: nothing is read where that is refused.
pub fn output(file: Option<&[u8]>, input: &[u8]) -> Vec<u8> {
    match file.map(coverage::load) {
        None => answers(input, Text::Alone(Variant::Recipes)),
        Some(Ok(table)) => answers(input, Text::Under(&table)),
        Some(Err(refusal)) => (declined(refusal) + "\n").into_bytes(),
    }
}

/// The whole standard output for a whole standard input.
pub fn answers(input: &[u8], text: Text<'_>) -> Vec<u8> {
    struct Whole<'i> {
        rest: &'i [u8],
        output: Vec<u8>,
    }
    impl Host for Whole<'_> {
        fn line(&mut self) -> Option<Vec<u8>> {
            let feed = self.rest.iter().position(|byte| *byte == b'\n');
            let (line, rest) = self.rest.split_at(feed.map_or(self.rest.len(), |at| at + 1));
            self.rest = rest;
            (!line.is_empty()).then(|| line.to_vec())
        }
        fn answer(&mut self, text: &str) {
            self.output.extend_from_slice(text.as_bytes());
            self.output.push(b'\n');
        }
    }
    let mut whole = Whole { rest: input, output: Vec::new() };
    serve(&mut whole, text, &mut 0);
    whole.output
}

/// A line that is for the session.
enum Call {
    Open,
    Reply(Reply),
    Edit(Edit),
    End,
}

/// What the request still takes, in rising order.
#[derive(Clone, Copy, PartialEq, PartialOrd)]
enum Due {
    Nothing,
    Shots,
    CoefficientPrior,
    Distances,
}

struct Desk<'h> {
    host: &'h mut dyn Host,
    text: Text<'h>,
    line: &'h mut u64,
    request: Opening,
    due: Due,
    asked: u64,
    standing: Option<Standing>,
    /// The call that broke off a session with an open question.
    next: Option<Call>,
}

/// A finished run: what its report can be made from again.
struct Standing {
    opening: Opening,
    /// The replies about the observations, in order.
    shots: Vec<Reply>,
    /// For each requested distance its five drops.
    rows: Vec<[f64; 5]>,
    fit: (f64, f64),
    /// What its page shows.
    sheet: Sheet,
}

impl Desk<'_> {
    fn say(&mut self, text: &str) {
        self.host.answer(text);
    }

    fn declined(&mut self, refusal: Refusal) {
        self.say(&declined(refusal));
    }

    /// The next call; request lines, counts, pages and malformed lines are met here.
    fn call(&mut self) -> Call {
        loop {
            let Some(line) = self.host.line() else {
                return Call::End;
            };
            *self.line += 1;
            let form = line.strip_suffix(b"\n").and_then(form::read);
            match form {
                Some(Form::Drops(entries)) => return Call::Reply(Some(entries)),
                Some(Form::Refused) => return Call::Reply(None),
                Some(Form::Edit(edit)) => return Call::Edit(edit),
                Some(Form::Asked) => self.say(&format!("(asked {})", self.asked)),
                Some(Form::Page) => {
                    // While a run or an edit asks, none stands: it is taken out meanwhile.
                    let page = page::answer(self.standing.as_ref().map(|s| &s.sheet));
                    self.say(&page);
                }
                Some(Form::Open) if self.due > Due::Nothing => {
                    self.due = Due::Nothing;
                    return Call::Open;
                }
                Some(form) if self.request_line(&form) => {}
                _ => self.say(&format!("(malformed {})", self.line)),
            }
        }
    }

    /// Takes a line of the request, if this is its place.
    fn request_line(&mut self, form: &Form) -> bool {
        let due = self.due;
        let request = &mut self.request;
        match *form {
            Form::Entered(entered) => {
                *request = Opening { entered, ..Opening::default() };
                self.due = Due::Shots;
            }
            Form::Shot(shot) if due == Due::Shots => request.shots.push(shot),
            Form::SpeedPrior(prior) if due == Due::Shots => {
                request.speed_prior = Some(prior);
                self.due = Due::CoefficientPrior;
            }
            Form::CoefficientPrior(prior) if due == Due::Shots || due == Due::CoefficientPrior => {
                request.coefficient_prior = Some(prior);
                self.due = Due::Distances;
            }
            Form::Distance(distance, sigma) if due >= Due::Shots => {
                request.distances.push(Requested { distance, sigma });
                self.due = Due::Distances;
            }
            _ => return false,
        }
        true
    }

    /// Puts a question and reads on until a reply is taken.  Nothing is also
    /// given where the session is broken off; then `next` says by what.
    fn ask(&mut self, list: &str, mv: f64, bc: f64, wanted: usize) -> Reply {
        if self.next.is_some() {
            return None;
        }
        self.say(&format!("(question {list} {} {})", hex(mv), hex(bc)));
        loop {
            match self.call() {
                Call::Reply(Some(entries)) if entries.len() != wanted => self.declined((9, 0)),
                Call::Reply(reply) => return reply,
                Call::Edit(_) => self.declined((14, 0)),
                call => {
                    self.next = Some(call);
                    return None;
                }
            }
        }
    }

    fn open(&mut self) {
        self.standing = None;
        self.asked = 0;
        let opening = std::mem::take(&mut self.request);
        if let Some(refusal) = estimator::opening_refusal(&opening) {
            return self.declined(refusal);
        }
        let mut shots = Vec::new();
        let mut rows = vec![[0.0; 5]; opening.distances.len()];
        let mut column = 0;
        let text = self.text;
        let outcome = text.run(&opening, &mut |place, mv, bc, wanted| {
            self.asked += 1;
            let list = if place == Place::Bands { "distances" } else { "shots" };
            let reply = self.ask(list, mv, bc, wanted);
            if place != Place::Bands {
                shots.push(reply.clone());
            } else if let Some(entries) = &reply {
                for (row, entry) in rows.iter_mut().zip(entries) {
                    // A gap ends the run, so its row is never used.
                    row[column] = entry.unwrap_or(f64::NAN);
                }
                column += 1;
            }
            reply
        });
        if self.next.is_some() {
            return;
        }
        match outcome {
            Ok(report) => {
                self.say(&report.line);
                let Report { fit, sheet, .. } = report;
                self.standing = Some(Standing { opening, shots, rows, fit, sheet });
            }
            Err(refusal) => self.declined(refusal),
        }
    }

    fn edit(&mut self, edit: Edit) {
        let Some(mut standing) = self.standing.take() else {
            return self.declined((14, 0));
        };
        let outcome = self.edited(&standing, edit);
        if self.next.is_some() {
            return;
        }
        match outcome {
            Ok((distances, rows)) => {
                standing.opening.distances = distances;
                standing.rows = rows;
                let report = standing.again(self.text);
                self.say(&report.line);
                standing.sheet = report.sheet;
            }
            Err(refusal) => self.declined(refusal),
        }
        self.standing = Some(standing);
    }

    /// The edited list and its rows, or the refusal.
    fn edited(
        &mut self,
        standing: &Standing,
        edit: Edit,
    ) -> Result<(Vec<Requested>, Vec<[f64; 5]>), Refusal> {
        let mut distances = standing.opening.distances.clone();
        let mut rows = standing.rows.clone();
        let length = distances.len();
        let last = if matches!(edit, Edit::PutIn(..)) { length + 1 } else { length };
        if edit.place() < 1 || edit.place() > last as u64 {
            return Err((15, 0));
        }
        let place = edit.place() as usize;
        if matches!(edit, Edit::PutIn(..)) && length == LIMIT {
            return Err((6, 0));
        }
        let Some(entry) = edit.entry() else {
            distances.remove(place - 1);
            rows.remove(place - 1);
            return Ok((distances, rows));
        };
        if estimator::requested_fault(entry) {
            return Err((7, place));
        }
        let row = estimator::new_row(standing.fit, entry.distance, place, &mut |mv, bc| {
            self.ask("new", mv, bc, 1)
        })?;
        if matches!(edit, Edit::PutIn(..)) {
            distances.insert(place - 1, entry);
            rows.insert(place - 1, row);
        } else {
            distances[place - 1] = entry;
            rows[place - 1] = row;
        }
        Ok((distances, rows))
    }
}

impl Standing {
    /// A fresh run of the text with the recorded replies.
    fn again(&self, text: Text<'_>) -> Report {
        let mut shots = self.shots.iter();
        let mut column = 0;
        let outcome = text.run(&self.opening, &mut |place, _, _, _| {
            if place != Place::Bands {
                return shots.next().expect("the fit's questions are the same").clone();
            }
            column += 1;
            Some(self.rows.iter().map(|row| Some(row[column - 1])).collect())
        });
        assert!(shots.next().is_none());
        outcome.expect("a report was given on the same replies")
    }
}
