//! How often each kind occurred, and the first inputs on which a function differs.

pub struct Tally {
    what: &'static str,
    kinds: Vec<(&'static str, u64)>,
    equal: u64,
    differ: u64,
}

impl Tally {
    /// The kinds that have to occur.
    pub fn new(what: &'static str, kinds: &[&'static str]) -> Tally {
        Tally { what, kinds: kinds.iter().map(|k| (*k, 0)).collect(), equal: 0, differ: 0 }
    }

    pub fn note(&mut self, kind: &'static str) {
        self.kinds.iter_mut().find(|(k, _)| *k == kind).expect("a kind of the list").1 += 1;
    }

    pub fn count(&mut self, equal: bool, input: impl FnOnce() -> String) {
        if equal {
            self.equal += 1;
            return;
        }
        self.differ += 1;
        if self.differ <= 5 {
            println!("{} differs: {}", self.what, input());
        }
    }

    /// Prints the counts; whether nothing differs and every kind occurred.
    pub fn end(self) -> bool {
        for (kind, times) in &self.kinds {
            println!("  {kind}: {times}");
        }
        println!("{}: {} equal, {} differ", self.what, self.equal, self.differ);
        self.differ == 0 && self.kinds.iter().all(|(_, times)| *times > 0)
    }
}
