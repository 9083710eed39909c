//! The host's lines, read exactly as PROTOCOL.md has them.

use estimator::Requested;

#[derive(Debug, Clone, PartialEq)]
pub enum Form {
    Entered([f64; 2]),
    Shot([f64; 3]),
    SpeedPrior([f64; 2]),
    CoefficientPrior([f64; 2]),
    Distance(f64, Option<f64>),
    Open,
    Drops(Vec<Option<f64>>),
    Refused,
    Edit(Edit),
    Asked,
    Page,
}

#[derive(Debug, Clone, Copy, PartialEq)]
pub enum Edit {
    PutIn(u64, f64, Option<f64>),
    TakeOut(u64),
    Exchange(u64, f64, Option<f64>),
}

impl Edit {
    pub fn place(&self) -> u64 {
        match *self {
            Edit::PutIn(place, ..) | Edit::TakeOut(place) | Edit::Exchange(place, ..) => place,
        }
    }

    /// The entry it brings, if any.
    pub fn entry(&self) -> Option<Requested> {
        match *self {
            Edit::PutIn(_, distance, sigma) | Edit::Exchange(_, distance, sigma) => {
                Some(Requested { distance, sigma })
            }
            Edit::TakeOut(_) => None,
        }
    }
}

/// Reads one line, its line feed taken off.
pub fn read(line: &[u8]) -> Option<Form> {
    let inside = line.strip_prefix(b"(")?.strip_suffix(b")")?;
    let words: Vec<&[u8]> = inside.split(|byte| *byte == b' ').collect();
    let (first, rest) = words.split_first()?;
    match (*first, rest) {
        (b"entered", [a, b]) => Some(Form::Entered([double(a)?, double(b)?])),
        (b"shot", [a, b, c]) => Some(Form::Shot([double(a)?, double(b)?, double(c)?])),
        (b"prior", [b"speed", a, b]) => Some(Form::SpeedPrior([double(a)?, double(b)?])),
        (b"prior", [b"coefficient", a, b]) => {
            Some(Form::CoefficientPrior([double(a)?, double(b)?]))
        }
        (b"distance", [a, b]) => Some(Form::Distance(double(a)?, optional(b, b"none")?)),
        (b"open", [b"plain"]) => Some(Form::Open),
        (b"drops", entries) => {
            let entries: Option<Vec<_>> = entries.iter().map(|e| optional(e, b"missing")).collect();
            entries.map(Form::Drops)
        }
        (b"refused", []) => Some(Form::Refused),
        (b"put-in", [p, a, b]) => {
            Some(Form::Edit(Edit::PutIn(count(p)?, double(a)?, optional(b, b"none")?)))
        }
        (b"take-out", [p]) => Some(Form::Edit(Edit::TakeOut(count(p)?))),
        (b"exchange", [p, a, b]) => {
            Some(Form::Edit(Edit::Exchange(count(p)?, double(a)?, optional(b, b"none")?)))
        }
        (b"asked", []) => Some(Form::Asked),
        (b"page", []) => Some(Form::Page),
        _ => None,
    }
}

/// 16 lower-case hexadecimal digits; any not-a-number is read as one.
pub fn double(word: &[u8]) -> Option<f64> {
    if word.len() != 16 {
        return None;
    }
    let mut bits = 0u64;
    for byte in word {
        let digit = match byte {
            b'0'..=b'9' => byte - b'0',
            b'a'..=b'f' => byte - b'a' + 10,
            _ => return None,
        };
        bits = bits << 4 | u64::from(digit);
    }
    let value = f64::from_bits(bits);
    Some(if value.is_nan() { f64::NAN } else { value })
}

fn optional(word: &[u8], absent: &[u8]) -> Option<Option<f64>> {
    if word == absent {
        Some(None)
    } else {
        double(word).map(Some)
    }
}

/// Decimal digits without sign or leading zero, fitting 64 bits.
fn count(word: &[u8]) -> Option<u64> {
    let digits = !word.is_empty() && word.iter().all(u8::is_ascii_digit);
    if !digits || (word.len() > 1 && word[0] == b'0') {
        return None;
    }
    std::str::from_utf8(word).ok()?.parse().ok()
}
