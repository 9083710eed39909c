//! A coverage file (L2), from its bytes to its table or its refusal.

use estimator::{hex, Refusal, Row};

/// The most rows that a table has.
pub const ROWS: usize = 8;

/// The most digits behind a written number's point.
pub const PLACES: usize = 15;

/// The digits of a written number make a whole number below this.
pub const WHOLE: u64 = 1 << 53;

/// The table of a whole file, or 16, 17 or 18 with its line or row.  Each is tried over
/// the whole file before the next.
pub fn load(file: &[u8]) -> Result<Vec<Row>, Refusal> {
    let rows = rows(file).map_err(|line| (16, line))?;
    let outside = |row: &Row| {
        let level = row.level > 0.0 && row.level < 1.0;
        !(level && row.factor > 0.0)
    };
    if let Some(index) = rows.iter().position(outside) {
        return Err((17, index + 1));
    }
    let rises = |pair: &[Row]| pair[1].level > pair[0].level && pair[1].factor > pair[0].factor;
    if let Some(index) = rows.windows(2).position(|pair| !rises(pair)) {
        return Err((18, index + 2));
    }
    Ok(rows)
}

/// The rows of a file that has the form, or the number of the line where it shows that it
/// has not: the first that is another than the due one, is not ended or is not there.
fn rows(file: &[u8]) -> Result<Vec<Row>, usize> {
    let mut lines = file.split_inclusive(|byte| *byte == b'\n');
    let mut ended = || lines.next().and_then(|line| line.strip_suffix(b"\n"));
    if ended() != Some(b"(coverage") {
        return Err(1);
    }
    let mut rows = Vec::new();
    loop {
        // The first line and the rows stand before it.
        let number = rows.len() + 2;
        match ended() {
            Some(b")") if !rows.is_empty() => {
                return if lines.next().is_none() { Ok(rows) } else { Err(number + 1) };
            }
            Some(line) if rows.len() < ROWS => rows.push(row(line).ok_or(number)?),
            _ => return Err(number),
        }
    }
}

/// The row of a line that has a row's form.
pub fn row(line: &[u8]) -> Option<Row> {
    let numbers = line.strip_prefix(b"(level ")?.strip_suffix(b")")?;
    let blank = numbers.iter().position(|byte| *byte == b' ')?;
    Some(Row { level: number(&numbers[..blank])?, factor: number(&numbers[blank + 1..])? })
}

/// The double that a written number means.
pub fn number(word: &[u8]) -> Option<f64> {
    let point = word.iter().position(|byte| *byte == b'.');
    let (before, behind) = match point {
        Some(at) => (&word[..at], &word[at + 1..]),
        None => (word, &[][..]),
    };
    let places = if point.is_some() { 1..=PLACES } else { 0..=0 };
    if before.is_empty() || !places.contains(&behind.len()) {
        return None;
    }
    // Any number of zeros may come first.
    let mut whole = 0u64;
    for byte in before.iter().chain(behind) {
        let digit = byte.is_ascii_digit().then(|| u64::from(byte - b'0'))?;
        whole = whole * 10 + digit;
        if whole >= WHOLE {
            return None;
        }
    }
    // Rust's reading of a decimal gives the nearest double.
    std::str::from_utf8(word).ok()?.parse().ok()
}

/// A file's bytes as the list program reads them: two lower-case hexadecimal digits each.
pub fn bytes(line: &[u8]) -> Option<Vec<u8>> {
    let digit = |byte: u8| match byte {
        b'0'..=b'9' => Some(byte - b'0'),
        b'a'..=b'f' => Some(byte - b'a' + 10),
        _ => None,
    };
    let (pairs, rest) = line.as_chunks::<2>();
    if !rest.is_empty() {
        return None;
    }
    pairs.iter().map(|pair| Some(digit(pair[0])? << 4 | digit(pair[1])?)).collect()
}

/// The list program's line about a file.
pub fn answer(loaded: &Result<Vec<Row>, Refusal>) -> String {
    match loaded {
        Ok(table) => {
            let row = |row: &Row| format!(" ({} {})", hex(row.level), hex(row.factor));
            format!("(coverage{})", table.iter().map(row).collect::<String>())
        }
        Err(refusal) => crate::declined(*refusal),
    }
}

#[cfg(test)]
mod tests {
    use super::*;

    /// The double nearest to `whole` / 10^`places`, a tie to the even one, in whole numbers.
    fn nearest(whole: u64, places: u32) -> f64 {
        if whole == 0 {
            return 0.0;
        }
        let power = 10u128.pow(places);
        // Scaled so that the quotient has more bits than a double.
        let shift = u128::from(whole).leading_zeros();
        let scaled = u128::from(whole) << shift;
        let (mut quotient, rest) = (scaled / power, scaled % power);
        let mut exponent = -(shift as i32);
        let mut sticky = rest > 0;
        while quotient >= 1 << 54 {
            sticky |= quotient & 1 == 1;
            quotient >>= 1;
            exponent += 1;
        }
        assert!(quotient >= 1 << 53, "{whole} {places}");
        let (half, mut digits) = (quotient & 1 == 1, quotient >> 1);
        digits += u128::from(half && (sticky || digits & 1 == 1));
        digits as f64 * 2f64.powi(exponent + 1)
    }

    #[test]
    fn numbers_are_nearest() {
        let mut state = 1u64;
        let mut random = || {
            state = state.wrapping_mul(6364136223846793005).wrapping_add(1442695040888963407);
            state ^ state >> 29
        };
        for _ in 0..200_000 {
            let bits = random() % 54;
            let whole = (random() >> 11) >> (53 - bits);
            let places = (random() % 16) as u32;
            let digits = format!("{:0>1$}", whole, places as usize + 1);
            let (before, behind) = digits.split_at(digits.len() - places as usize);
            let point = if places > 0 { "." } else { "" };
            let text = format!("{before}{point}{behind}");
            let found = number(text.as_bytes()).expect(&text);
            assert_eq!(found.to_bits(), nearest(whole, places).to_bits(), "{text}");
            // Both are doubles, so that one rounded division is the same.
            assert_eq!(found, whole as f64 / 10f64.powi(places as i32), "{text}");
            let zeros = format!("{}{text}", "0".repeat((random() % 40) as usize));
            assert_eq!(number(zeros.as_bytes()), Some(found), "{zeros}");
        }
    }

    #[test]
    fn numbers_that_are_none() {
        for text in [
            "",
            ".",
            ".5",
            "5.",
            "5..5",
            "5.5.",
            "1.2.3",
            "-1",
            "+1",
            "1e0",
            "1E0",
            "0x1",
            "1,5",
            " 1",
            "1 ",
            "1_0",
            "inf",
            "nan",
            "NaN",
            "infinity",
            "1\r",
            "1\0",
            "\u{661}",
            "9007199254740992",
            "9.007199254740992",
            "10.000000000000000",
            "0.0000000000000000",
            "0.1234567890123456",
            "99999999999999999999",
            "18446744073709551617",
            "184467440737095516160",
            "1.",
        ] {
            assert_eq!(number(text.as_bytes()), None, "{text:?}");
        }
        for (text, bits) in [
            ("1.959963984540054", 0x3fff5c0331eeff84u64),
            ("0.95", 0x3fee666666666666),
            ("1.644853626951473", 0x3ffa515209676abf),
            ("9.007199254740991", 0x402203af9ee75615),
            ("0.000000000000001", 0x3cd203af9ee75616),
            ("9007199254740991", 0x433fffffffffffff),
            ("0", 0),
            ("00.000", 0),
        ] {
            assert_eq!(number(text.as_bytes()).map(f64::to_bits), Some(bits), "{text}");
        }
    }

    #[test]
    fn bytes_of_a_line() {
        assert_eq!(bytes(b""), Some(vec![]));
        assert_eq!(bytes(b"00ff28"), Some(vec![0, 255, b'(']));
        for line in ["0", "000", "0g", "0F", " 0", "0x"] {
            assert_eq!(bytes(line.as_bytes()), None, "{line}");
        }
    }
}
