//! Plays one case's host against the oracle and keeps the conversation.

use std::collections::VecDeque;

use crate::case::{self, Case};
use crate::rng::Rng;
use crate::write;
use estimator::{hex, Requested, Variant};
use oracle::form::Edit;
use oracle::{Host, Text};

/// What the cases are played to where no coverage table is named.
pub const PLAIN: Text<'static> = Text::Alone(Variant::Recipes);

/// A conversation: the host's lines, and the answer to each that has one.  A page's
/// answer has several lines.
#[derive(Default)]
pub struct Script {
    pub lines: Vec<Vec<u8>>,
    pub answers: Vec<Option<String>>,
    /// Lines that only clear the desk for the next case.
    pub closing: usize,
}

impl Script {
    /// Notes a line and gives it back as the desk reads it.
    pub fn put(&mut self, mut line: Vec<u8>) -> Vec<u8> {
        self.lines.push(line.clone());
        self.answers.push(None);
        line.push(b'\n');
        line
    }

    pub fn answered(&mut self, text: &str) {
        let slot = self.answers.last_mut().expect("a line came before");
        assert!(slot.is_none(), "two answers to one line");
        *slot = Some(text.to_string());
    }
}

struct Question {
    list: String,
    mv: f64,
    bc: f64,
}

struct Player {
    case: Case,
    rng: Rng,
    queue: VecDeque<Vec<u8>>,
    question: Option<Question>,
    number: u64,
    /// The requested list as the host knows it, and as the open edit makes it.
    book: Vec<Requested>,
    edit: Option<(Edit, Vec<Requested>)>,
    plan: VecDeque<Edit>,
    edits_left: usize,
    closed: bool,
    /// For `(page)` alone, so that a case has the same other lines without it.
    pages: Rng,
    /// Whether the last answer ended a run, an opening or an edit.
    ended: bool,
    script: Script,
}

/// Plays a case; `line` goes on counting the lines.
pub fn play(case: &Case, line: &mut u64) -> Script {
    play_to(PLAIN, case, line)
}

pub fn play_to(text: Text<'_>, case: &Case, line: &mut u64) -> Script {
    let mut player = Player {
        rng: Rng::new(case.seed ^ 0x5eed),
        queue: VecDeque::new(),
        question: None,
        number: 0,
        book: case.opening.distances.clone(),
        edit: None,
        plan: case.plan.iter().copied().collect(),
        edits_left: case.edits,
        closed: false,
        pages: Rng::new(case.seed ^ 0x9a6e),
        ended: false,
        script: Script::default(),
        case: case.clone(),
    };
    let lines = write::request(&case.opening);
    for text in lines {
        if player.rng.chance(case.noise) {
            let extra = player.out_of_place();
            player.queue.push_back(extra);
        }
        player.queue.push_back(text.into_bytes());
    }
    oracle::serve(&mut player, text, line);
    player.script
}

/// The recipes' answers to lines that are given beforehand.
pub fn recite(lines: &[Vec<u8>], line: &mut u64) -> Vec<Option<String>> {
    recite_to(PLAIN, lines, line)
}

pub fn recite_to(text: Text<'_>, lines: &[Vec<u8>], line: &mut u64) -> Vec<Option<String>> {
    struct Reciter<'a> {
        lines: std::slice::Iter<'a, Vec<u8>>,
        answers: Vec<Option<String>>,
    }
    impl Host for Reciter<'_> {
        fn line(&mut self) -> Option<Vec<u8>> {
            let line = self.lines.next()?;
            self.answers.push(None);
            Some([line.as_slice(), b"\n"].concat())
        }
        fn answer(&mut self, text: &str) {
            *self.answers.last_mut().expect("a line came before") = Some(text.to_string());
        }
    }
    let mut reciter = Reciter { lines: lines.iter(), answers: Vec::new() };
    oracle::serve(&mut reciter, text, line);
    reciter.answers
}

/// A line that is almost `(page)`, and malformed.
pub fn spoilt_page(rng: &mut Rng) -> Vec<u8> {
    let lines = [
        "(page )",
        "( page)",
        " (page)",
        "(page) ",
        "(page 0)",
        "(page 1)",
        "(page 11)",
        "(page page)",
        "(Page)",
        "(PAGE)",
        "(pages)",
        "(pag)",
        "(page",
        "page)",
        "page",
        "((page))",
        "(page)(page)",
        "(page)\r",
        "(page\0)",
        "(page\t)",
    ];
    rng.pick(&lines).as_bytes().to_vec()
}

impl Host for Player {
    fn line(&mut self) -> Option<Vec<u8>> {
        let line = self.next_line()?;
        Some(self.script.put(line))
    }

    fn answer(&mut self, text: &str) {
        self.script.answered(text);
        let words: Vec<&str> = text.trim_matches(|c| c == '(' || c == ')').split(' ').collect();
        match words[0] {
            "question" => {
                let double = |w: &str| f64::from_bits(u64::from_str_radix(w, 16).expect("hex"));
                let (mv, bc) = (double(words[2]), double(words[3]));
                self.question = Some(Question { list: words[1].to_string(), mv, bc });
            }
            "report" => {
                self.question = None;
                self.ended = true;
                if let Some((_, list)) = self.edit.take() {
                    self.book = list;
                }
            }
            // These change nothing.
            "declined" if matches!(words[1], "8" | "9" | "14") => {}
            "declined" => {
                self.question = None;
                self.ended = true;
                self.edit = None;
            }
            _ => {}
        }
    }
}

impl Player {
    fn next_line(&mut self) -> Option<Vec<u8>> {
        if let Some(line) = self.page_line() {
            return Some(line);
        }
        if let Some(line) = self.queue.pop_front() {
            return Some(line);
        }
        if self.closed {
            return None;
        }
        if self.rng.chance(self.case.noise) {
            return Some(self.between());
        }
        if let Some(question) = &self.question {
            let (mv, bc) = (question.mv, question.bc);
            let list: Vec<f64> = match (question.list.as_str(), &self.edit) {
                ("shots", _) => self.case.opening.shots.iter().map(|s| s[0]).collect(),
                ("distances", _) => {
                    self.case.opening.distances.iter().map(|d| d.distance).collect()
                }
                (_, Some((edit, _))) => vec![edit.entry().expect("an entry").distance],
                _ => panic!("a question about a new distance without an edit"),
            };
            self.number += 1;
            let mut reply = self.case.solver.reply(self.number, mv, bc, &list);
            // Now and then the solver of an edit that is not planned fails.
            let planned = !self.case.plan.is_empty();
            if question.list == "new" && !planned && self.rng.chance(0.03) {
                reply = if self.rng.chance(0.5) { None } else { Some(vec![None]) };
            }
            return Some(write::reply(&reply).into_bytes());
        }
        if let Some(edit) = self.plan.pop_front() {
            return Some(self.edit_line(edit));
        }
        if self.edits_left > 0 {
            self.edits_left -= 1;
            let edit = self.random_edit();
            return Some(self.edit_line(edit));
        }
        // Sometimes a line more, then a declined opening: no session is left.
        self.closed = true;
        if self.rng.chance(0.2) {
            let line = self.between();
            self.queue.push_back(line);
        }
        // Its request leaves what stands as it is, and the page too.
        let page = self.case.pages > 0.0 && self.pages.chance(0.3);
        self.queue.push_back(write::entered([0.0, 0.0]).into_bytes());
        self.queue.extend(page.then(|| b"(page)".to_vec()));
        self.queue.push_back(b"(open plain)".to_vec());
        self.script.closing = 2 + page as usize;
        self.next_line()
    }

    /// `(page)`, or now and then a line like it, where one comes before the due line.
    fn page_line(&mut self) -> Option<Vec<u8>> {
        let ended = std::mem::take(&mut self.ended);
        let often = match &self.question {
            _ if self.closed || self.case.pages == 0.0 => return None,
            _ if ended => self.case.pages,
            _ if !self.queue.is_empty() => 0.02,
            Some(question) if question.list == "new" => 0.1,
            Some(_) => 0.003,
            None => 0.1,
        };
        if !self.pages.chance(often) {
            return None;
        }
        let spoilt = self.pages.chance(0.1);
        Some(if spoilt { spoilt_page(&mut self.pages) } else { b"(page)".to_vec() })
    }

    fn edit_line(&mut self, edit: Edit) -> Vec<u8> {
        // A run may have ended in a refusal: then this is only a line.
        let mut list = self.book.clone();
        let place = edit.place() as usize;
        match (edit, edit.entry()) {
            (Edit::PutIn(..), Some(entry)) if (1..=list.len() + 1).contains(&place) => {
                list.insert(place - 1, entry)
            }
            (Edit::Exchange(..), Some(entry)) if (1..=list.len()).contains(&place) => {
                list[place - 1] = entry
            }
            (Edit::TakeOut(_), _) if (1..=list.len()).contains(&place) => {
                list.remove(place - 1);
            }
            _ => {}
        }
        self.edit = Some((edit, list));
        write::edit(edit).into_bytes()
    }

    fn random_edit(&mut self) -> Edit {
        let rng = &mut self.rng;
        let length = self.book.len();
        let entry = if rng.chance(0.1) {
            case::faulty_entry(rng)
        } else {
            case::requested(rng, &self.case.opening)
        };
        let kind = rng.below(3);
        let last = if kind == 0 { length + 1 } else { length };
        let place = if last == 0 || rng.chance(0.15) {
            rng.pick(&[0, last as u64 + 1, last as u64 + 2, 65, 66, u64::MAX])
        } else {
            rng.between(1, last) as u64
        };
        match kind {
            0 => Edit::PutIn(place, entry.distance, entry.sigma),
            1 => Edit::TakeOut(place),
            _ => Edit::Exchange(place, entry.distance, entry.sigma),
        }
    }

    /// A line that may come at any time and takes nothing on its way.
    fn between(&mut self) -> Vec<u8> {
        let wanted = self.question.as_ref().map(|q| match q.list.as_str() {
            "shots" => self.case.opening.shots.len(),
            "distances" => self.case.opening.distances.len(),
            _ => 1,
        });
        match self.rng.below(8) {
            0..=1 => b"(asked)".to_vec(),
            2..=3 => {
                // A wrong number of entries; without a question any number is wrong.
                let mut count = match self.rng.below(6) {
                    0 => 0,
                    1 => 65,
                    2 => self.rng.between(66, 300),
                    _ => wanted.unwrap_or(1) + 1 - 2 * self.rng.below(2),
                };
                if Some(count) == wanted {
                    count += 1;
                }
                let entries = (0..count)
                    .map(|_| {
                        if self.rng.chance(0.9) {
                            Some(f64::from_bits(self.rng.bits()))
                        } else {
                            None
                        }
                    })
                    .collect();
                write::reply(&Some(entries)).into_bytes()
            }
            4 if wanted.is_none() => b"(refused)".to_vec(),
            // While a question is open an edit gets 14; afterwards they are planned.
            5 if wanted.is_some() => write::edit(self.random_edit()).into_bytes(),
            6 if self.rng.chance(0.1) => {
                // A new request in the middle: the session stays until it is opened.
                let point = write::entered([2000.0, 0.3]);
                if self.rng.chance(0.5) {
                    self.queue.push_back(b"(open plain)".to_vec());
                } else {
                    self.queue.push_back(b"(asked)".to_vec());
                }
                point.into_bytes()
            }
            _ => self.malformed(),
        }
    }

    /// A line inside a request: malformed, or of another kind.
    fn out_of_place(&mut self) -> Vec<u8> {
        match self.rng.below(6) {
            0 => b"(asked)".to_vec(),
            1 => b"(drops)".to_vec(),
            2 => b"(refused)".to_vec(),
            3 => b"(take-out 1)".to_vec(),
            _ => self.malformed(),
        }
    }

    fn malformed(&mut self) -> Vec<u8> {
        let rng = &mut self.rng;
        let h = hex(f64::from_bits(rng.bits()));
        let text = match rng.below(30) {
            0 => String::new(),
            1 => "(".to_string(),
            2 => "()".to_string(),
            3 => "(drops )".to_string(),
            4 => format!("(drops  {h})"),
            5 => format!("(drops {h} )"),
            6 => format!("(drops {h}) "),
            7 => format!(" (drops {h})"),
            8 => format!("(drops {h})\r"),
            9 => format!("(drops {})", &h[1..]),
            10 => format!("(drops 0{h})"),
            11 => "(drops ABCDEF0123456789)".to_string(),
            12 => "(drops Missing)".to_string(),
            13 => "(drops none)".to_string(),
            14 => "(Refused)".to_string(),
            15 => "(refused 1)".to_string(),
            16 => "(open strict)".to_string(),
            17 => "(take-out 01)".to_string(),
            18 => "(take-out -1)".to_string(),
            19 => "(take-out 18446744073709551616)".to_string(),
            20 => format!("(put-in 1 {h})"),
            21 => format!("(exchange 1 {h} missing)"),
            22 => format!("(prior drop {h} {h})"),
            23 => format!("(entered {h})"),
            24 => "(asked )".to_string(),
            25 => "(report)".to_string(),
            26 => format!("(question shots {h} {h})"),
            27 => "x".repeat(rng.between(1, 20_000)),
            28 => {
                let long = " ".repeat(rng.between(1, 3000));
                format!("(drops{long})")
            }
            _ => {
                let count = rng.between(1, 60);
                let any =
                    |rng: &mut Rng| Some(rng.bits() as u8).filter(|b| *b != b'\n').unwrap_or(0);
                return (0..count).map(|_| any(rng)).collect();
            }
        };
        text.into_bytes()
    }
}

#[cfg(test)]
mod tests {
    use super::*;
    use crate::rng::mix;

    /// Without `(page)` and what is like it the conversation is the same, line for line.
    #[test]
    fn pages_change_nothing() {
        let mut pages = 0;
        for seed in 0..300 {
            let case = Case::random(mix(seed));
            let with = play(&case, &mut 0);
            let without = play(&Case { pages: 0.0, ..case }, &mut 0);
            // The number of a malformed line counts the others.
            let unnumbered = |answer: &Option<String>| match answer {
                Some(text) if text.starts_with("(malformed ") => Some("(malformed)".to_string()),
                other => other.clone(),
            };
            let pairs = |script: &Script| -> Vec<(Vec<u8>, Option<String>)> {
                let answers = script.answers.iter().map(unnumbered);
                script.lines.iter().cloned().zip(answers).collect()
            };
            let about_a_page = |line: &[u8]| {
                let text = line.to_ascii_lowercase();
                text.len() < 20 && text.windows(3).any(|part| part == b"pag")
            };
            let mut left = pairs(&with);
            let all = left.len();
            left.retain(|(line, _)| !about_a_page(line));
            pages += all - left.len();
            assert!(left == pairs(&without), "seed {seed}");
        }
        assert!(pages > 300, "{pages}");
    }

    #[test]
    fn spoilt_pages() {
        let rng = &mut Rng::new(1);
        for _ in 0..200 {
            let line = spoilt_page(rng);
            assert_eq!(oracle::form::read(&line), None, "{}", line.escape_ascii());
        }
    }
}
