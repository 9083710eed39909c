//! The counter's page of a report: lines of 64 columns.  Its numbers are made from a
//! double's bits in whole numbers, so that nothing is rounded but once.

use estimator::Sheet;

/// The columns of a label, of a number, and the letters of a warning that are shown.
const LABEL: usize = 20;
const NUMBER: usize = 14;
const PHRASE: usize = 24;
const LINE: usize = 64;

/// The digits of a double's pattern.
const DIGITS: u32 = 52;

/// The answer to `(page)`, without its last line feed.
pub fn answer(sheet: Option<&Sheet>) -> String {
    let lines = sheet.map_or(Vec::new(), lines);
    let mut text = format!("(page {})", lines.len());
    for line in lines {
        text.push('\n');
        text.push_str(&line);
    }
    text
}

/// The page's lines without their line feeds.
pub fn lines(sheet: &Sheet) -> Vec<String> {
    let mut lines = vec![
        line("speed", &sheet.speed),
        line("coefficient", &sheet.coefficient),
        line("chi-square", &[Some(sheet.chi_square)]),
    ];
    lines.extend(sheet.shots.iter().map(|shot| line("shot", &shot.map(Some))));
    lines.extend(sheet.distances.iter().map(|numbers| line("distance", numbers)));
    lines.extend(sheet.warnings.iter().map(|name| {
        let phrase: String = name.chars().take(PHRASE).collect();
        format!("{phrase:<LINE$}")
    }));
    lines
}

fn line(label: &str, numbers: &[Option<f64>]) -> String {
    let mut text = format!("{label:<LABEL$}");
    for number in numbers {
        text.push_str(&field(*number));
    }
    format!("{text:<LINE$}")
}

/// The 14 columns of a number.
pub fn field(number: Option<f64>) -> String {
    let Some((negative, thousandths)) = number.and_then(rounded) else {
        return format!("{:>NUMBER$}", "-");
    };
    // The digits that are shown decide on the minus, and the whole text on the width.
    let minus = if negative && thousandths > 0 { "-" } else { "" };
    let text = format!("{minus}{}.{:03}", thousandths / 1000, thousandths % 1000);
    if text.len() > NUMBER {
        "#".repeat(NUMBER)
    } else {
        format!("{text:>NUMBER$}")
    }
}

/// Whether it is below zero by its sign, and its thousandths, nearest to the exact
/// value and a tie to the even one; nothing if it is not finite.  A number far too
/// wide has thousandths that are too wide as well.
fn rounded(number: f64) -> Option<(bool, u128)> {
    if !number.is_finite() {
        return None;
    }
    let bits = number.to_bits();
    let digits = u128::from(bits & ((1 << DIGITS) - 1));
    let exponent = (bits >> DIGITS & 0x7ff) as i32;
    // The value is `whole` times two to the power of `power`; a subnormal has no leading one.
    let (whole, power) =
        if exponent == 0 { (digits, -1074) } else { (digits | 1 << DIGITS, exponent - 1075) };
    let scaled = whole * 1000;
    let thousandths = match power {
        // At least two to the power of 52, which has 16 digits before the point.
        0.. => scaled,
        // Less than half of the unit: `scaled` has 63 bits at most.
        ..-64 => 0,
        _ => {
            let unit = 1u128 << -power;
            let (floor, rest) = (scaled / unit, scaled % unit);
            let up = match (2 * rest).cmp(&unit) {
                std::cmp::Ordering::Less => false,
                std::cmp::Ordering::Equal => floor % 2 == 1,
                std::cmp::Ordering::Greater => true,
            };
            floor + u128::from(up)
        }
    };
    Some((number.is_sign_negative(), thousandths))
}
