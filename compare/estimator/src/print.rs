//! A report as docs/PROTOCOL.md writes it, with each leaf's name kept beside it so
//! that two reports can be compared field by field.

use crate::{Report, Sheet};

/// The 16 hexadecimal digits of a double; every not-a-number has the same.
pub fn hex(value: f64) -> String {
    if value.is_nan() {
        "7ff8000000000000".to_string()
    } else {
        format!("{:016x}", value.to_bits())
    }
}

pub(crate) struct Printer {
    line: String,
    leaves: Vec<(&'static str, String)>,
}

impl Printer {
    pub(crate) fn new() -> Self {
        Printer { line: "(report".to_string(), leaves: Vec::new() }
    }

    fn blank(&mut self) {
        if !self.line.ends_with('(') {
            self.line.push(' ');
        }
    }

    /// A field that is one word: a count, a truth, a code or `none`.
    pub(crate) fn word(&mut self, name: &'static str, text: impl ToString) {
        self.blank();
        let text = text.to_string();
        self.line.push_str(&text);
        self.leaves.push((name, text));
    }

    pub(crate) fn double(&mut self, name: &'static str, value: f64) {
        self.word(name, hex(value));
    }

    pub(crate) fn truth(&mut self, name: &'static str, value: bool) {
        self.word(name, if value { "yes" } else { "no" });
    }

    pub(crate) fn optional(&mut self, name: &'static str, value: Option<f64>) {
        self.word(name, value.map_or("none".to_string(), hex));
    }

    /// A code is its name in the source, which is what `Debug` derives.
    pub(crate) fn code(&mut self, name: &'static str, value: impl std::fmt::Debug) {
        self.word(name, format!("{value:?}"));
    }

    /// A record or list in brackets.
    pub(crate) fn group(&mut self, inside: impl FnOnce(&mut Self)) {
        self.blank();
        self.line.push('(');
        inside(self);
        self.line.push(')');
    }

    /// A record that may be absent.
    pub(crate) fn present<T>(
        &mut self,
        name: &'static str,
        value: Option<T>,
        inside: impl FnOnce(&mut Self, T),
    ) {
        match value {
            Some(value) => self.group(|out| inside(out, value)),
            None => self.word(name, "none"),
        }
    }

    pub(crate) fn finish(mut self, fit: (f64, f64), sheet: Sheet) -> Report {
        self.line.push(')');
        Report { line: self.line, leaves: self.leaves, fit, sheet }
    }
}
