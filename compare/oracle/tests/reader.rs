//! The oracle's reading of PROTOCOL.md: bytes, lines of any length, line numbers, and
//! what is answered where no session is.

use estimator::Variant;
use oracle::form::{read, Edit, Form};
use oracle::{answers, Text};

const H: &str = "4059000000000000";

fn due(input: &[u8]) -> String {
    String::from_utf8(answers(input, Text::Alone(Variant::Recipes))).expect("answers are letters")
}

/// The answer to one line at the beginning, its line feed added.
fn alone(line: &[u8]) -> String {
    due(&[line, b"\n"].concat())
}

const ENTERED: &str = "(entered 409f400000000000 3fd3333333333333)\n";
const SHOTS: &str = "(shot 4059000000000000 4024000000000000 3ff0000000000000)\n\
                     (shot 4069000000000000 4026000000000000 3ff0000000000000)\n";
const QUESTION: &str = "(question shots 409f400000000000 3fd3333333333333)\n";

/// The bench's request, up to its first question.
fn opened() -> String {
    format!("{ENTERED}{SHOTS}(open plain)\n")
}

fn is_form(line: &[u8]) -> bool {
    read(line).is_some()
}

#[test]
fn the_table() {
    let form = |line: String| read(line.as_bytes()).unwrap_or_else(|| panic!("{line}"));
    assert_eq!(form(format!("(entered {H} {H})")), Form::Entered([100.0; 2]));
    assert_eq!(form(format!("(shot {H} {H} {H})")), Form::Shot([100.0; 3]));
    assert_eq!(form(format!("(prior speed {H} {H})")), Form::SpeedPrior([100.0; 2]));
    assert_eq!(form(format!("(prior coefficient {H} {H})")), Form::CoefficientPrior([100.0; 2]));
    assert_eq!(form(format!("(distance {H} {H})")), Form::Distance(100.0, Some(100.0)));
    assert_eq!(form(format!("(distance {H} none)")), Form::Distance(100.0, None));
    assert_eq!(form("(open plain)".to_string()), Form::Open);
    assert_eq!(form("(drops)".to_string()), Form::Drops(vec![]));
    assert_eq!(form(format!("(drops missing {H})")), Form::Drops(vec![None, Some(100.0)]));
    assert_eq!(form("(refused)".to_string()), Form::Refused);
    let put_in = Form::Edit(Edit::PutIn(1, 100.0, None));
    assert_eq!(form(format!("(put-in 1 {H} none)")), put_in);
    assert_eq!(form("(take-out 0)".to_string()), Form::Edit(Edit::TakeOut(0)));
    let exchange = Form::Edit(Edit::Exchange(7, 100.0, Some(100.0)));
    assert_eq!(form(format!("(exchange 7 {H} {H})")), exchange);
    assert_eq!(form("(asked)".to_string()), Form::Asked);
    assert_eq!(form("(page)".to_string()), Form::Page);
}

#[test]
fn lines_that_are_none() {
    let drops = format!("(drops {H})");
    let spoilt = [
        "".to_string(),
        " ".to_string(),
        "(".to_string(),
        ")".to_string(),
        "()".to_string(),
        "( )".to_string(),
        "(())".to_string(),
        ")(".to_string(),
        "asked".to_string(),
        "(asked".to_string(),
        "asked)".to_string(),
        "((asked))".to_string(),
        "(asked)(asked)".to_string(),
        "(asked )".to_string(),
        "( asked)".to_string(),
        "(asked 0)".to_string(),
        "(ask)".to_string(),
        "(askedd)".to_string(),
        "(Asked)".to_string(),
        "(ASKED)".to_string(),
        "(asked)\r".to_string(),
        "\r(asked)".to_string(),
        "(asked\r)".to_string(),
        "\r".to_string(),
        "(asked)\0".to_string(),
        "(as\0ked)".to_string(),
        "\0".to_string(),
        "\u{feff}(asked)".to_string(),
        "(asked\u{a0})".to_string(),
        "(asked\t)".to_string(),
        "(asked\u{b})".to_string(),
        format!("{drops} "),
        format!(" {drops}"),
        format!("{drops}\r"),
        format!("(drops  {H})"),
        format!("(drops {H} )"),
        format!("(drops\t{H})"),
        format!("(drops {H} {H}\0)"),
        "(drops )".to_string(),
        "(drops  )".to_string(),
        "(drops none)".to_string(),
        "(drops Missing)".to_string(),
        "(drops missin)".to_string(),
        "(drops missingg)".to_string(),
        "(drops 405900000000000)".to_string(),
        "(drops 40590000000000000)".to_string(),
        "(drops 405900000000000G)".to_string(),
        "(drops 7FF8000000000000)".to_string(),
        "(drops +405900000000000)".to_string(),
        "(drops 0x59000000000000)".to_string(),
        "(refused missing)".to_string(),
        "(open)".to_string(),
        "(open  plain)".to_string(),
        "(open Plain)".to_string(),
        "(open plain plain)".to_string(),
        "(prior)".to_string(),
        format!("(prior {H} {H})"),
        format!("(prior Speed {H} {H})"),
        format!("(prior speed {H})"),
        format!("(prior speed {H} none)"),
        format!("(entered {H})"),
        format!("(entered {H} {H} {H})"),
        format!("(entered none {H})"),
        format!("(shot {H} {H})"),
        format!("(shot {H} {H} none)"),
        format!("(shot {H} missing {H})"),
        format!("(distance {H})"),
        format!("(distance {H} missing)"),
        format!("(distance none {H})"),
        format!("(put-in 1 {H})"),
        format!("(put-in 1 {H} missing)"),
        format!("(put-in none {H} none)"),
        format!("(put_in 1 {H} none)"),
        format!("(exchange 1 {H} none none)"),
        "(take-out)".to_string(),
        "(take-out )".to_string(),
        "(take-out 1 1)".to_string(),
        "(take-out none)".to_string(),
        format!("(question shots {H} {H})"),
        "(declined 8 0)".to_string(),
        "(malformed 1)".to_string(),
        "(report)".to_string(),
        "page".to_string(),
        "(page".to_string(),
        "page)".to_string(),
        "(page )".to_string(),
        "( page)".to_string(),
        "(page) ".to_string(),
        " (page)".to_string(),
        "(page 0)".to_string(),
        "(page 1)".to_string(),
        format!("(page {H})"),
        "(pages)".to_string(),
        "(pag)".to_string(),
        "(Page)".to_string(),
        "(PAGE)".to_string(),
        "((page))".to_string(),
        "(page)(page)".to_string(),
        "(page)\r".to_string(),
        "(page\0)".to_string(),
        "(page\t)".to_string(),
    ];
    for line in spoilt {
        assert!(!is_form(line.as_bytes()), "{line:?}");
        assert_eq!(alone(line.as_bytes()), "(malformed 1)\n", "{line:?}");
    }
    // In a line one byte may be another only where it is a digit, and only another digit.
    let hexadecimal = |b: u8| b.is_ascii_digit() || (b'a'..=b'f').contains(&b);
    for good in
        [format!("(put-in 12 {H} none)"), format!("(drops {H} missing)"), "(page)".to_string()]
    {
        for at in 0..good.len() {
            let place = good.starts_with("(put-in 12") && (at == 8 || at == 9);
            let double = !place && good.as_bytes()[at].is_ascii_digit();
            for byte in (0..=255u8).filter(|b| *b != b'\n' && *b != good.as_bytes()[at]) {
                let mut line = good.clone().into_bytes();
                line[at] = byte;
                let leading = at == 8 && byte == b'0';
                let fits =
                    place && byte.is_ascii_digit() && !leading || double && hexadecimal(byte);
                assert_eq!(is_form(&line), fits, "{:?}", String::from_utf8_lossy(&line));
            }
        }
    }
}

#[test]
fn counts() {
    for place in ["0", "1", "9", "10", "65", "18446744073709551615"] {
        assert!(is_form(format!("(take-out {place})").as_bytes()), "{place}");
        assert_eq!(alone(format!("(take-out {place})").as_bytes()), "(declined 14 0)\n");
    }
    let long = "1".repeat(1 << 20);
    let none = [
        "00",
        "01",
        "+1",
        "-1",
        "-0",
        "1.0",
        "1e1",
        "0x1",
        "a",
        "1 ",
        "１",
        "18446744073709551616",
        "18446744073709551617",
        "18446744073709551625",
        "36893488147419103233",
        "99999999999999999999",
        "018446744073709551615",
        "340282366920938463463374607431768211457",
        &long,
    ];
    for place in none {
        assert_eq!(alone(format!("(take-out {place})").as_bytes()), "(malformed 1)\n");
        assert_eq!(alone(format!("(put-in {place} {H} none)").as_bytes()), "(malformed 1)\n");
    }
}

#[test]
fn not_a_number_is_one() {
    for bits in ["7ff0000000000001", "fff8000000000000", "ffffffffffffffff", "7ff8000000000000"] {
        let Some(Form::Entered([speed, other])) = read(format!("(entered {bits} {H})").as_bytes())
        else {
            panic!("{bits}")
        };
        assert_eq!((speed.to_bits(), other), (f64::NAN.to_bits(), 100.0));
    }
}

#[test]
fn the_end_of_the_input() {
    assert_eq!(due(b""), "");
    assert_eq!(due(b"\n"), "(malformed 1)\n");
    assert_eq!(due(b"(asked)"), "(malformed 1)\n");
    assert_eq!(due(b"(asked)\n"), "(asked 0)\n");
    assert_eq!(due(b"(asked)\n("), "(asked 0)\n(malformed 2)\n");
    assert_eq!(due(b"(asked)\n\n"), "(asked 0)\n(malformed 2)\n");
    assert_eq!(due(b"\0"), "(malformed 1)\n");
    // Nothing is opened by a line that is not ended.
    assert_eq!(due(format!("{ENTERED}{SHOTS}(open plain)").as_bytes()), "(malformed 4)\n");
    assert_eq!(due(opened().as_bytes()), QUESTION);
}

#[test]
fn any_bytes() {
    for byte in (0..=255u8).filter(|b| *b != b'\n') {
        assert_eq!(alone(&[byte]), "(malformed 1)\n");
        assert_eq!(alone(&[b'(', byte, b')']), "(malformed 1)\n");
        assert_eq!(due(&[b'\n', byte]), "(malformed 1)\n(malformed 2)\n");
    }
    let bytes: Vec<u8> = (0..=255u8).rev().cycle().take(1 << 16).collect();
    let lines = bytes.split(|b| *b == b'\n').count();
    let all: String = (1..=lines).map(|n| format!("(malformed {n})\n")).collect();
    assert_eq!(due(&bytes), all);
}

#[test]
fn line_numbers() {
    // Every line is counted, whether it is answered or not.
    let input = format!("{ENTERED}{SHOTS}x\n(asked)\n(take-out 01)\n(open plain)\ny\n");
    assert_eq!(
        due(input.as_bytes()),
        format!("(malformed 4)\n(asked 0)\n(malformed 6)\n{QUESTION}(malformed 8)\n")
    );
    let many = "\n".repeat(70_000);
    let all: String = (1..=70_000).map(|n| format!("(malformed {n})\n")).collect();
    assert_eq!(due(many.as_bytes()), all);
    // 70,000 shots have no answer; the line after them is the 70,002nd.
    let shots = format!("(shot {H} {H} {H})\n").repeat(70_000);
    let input = format!("{ENTERED}{shots}?\n(open plain)\n(asked)\n");
    assert_eq!(due(input.as_bytes()), "(malformed 70002)\n(declined 3 0)\n(asked 0)\n");
}

#[test]
fn long_lines() {
    for length in [4095, 4096, 65_535, 65_536, 1 << 20] {
        let blanks = " ".repeat(length);
        let letters = "x".repeat(length);
        let digits = "0".repeat(length);
        for line in [
            blanks.clone(),
            letters.clone(),
            format!("(drops{blanks})"),
            format!("(drops {digits})"),
            format!("(asked){blanks}"),
            format!("({letters})"),
            "(".repeat(length),
        ] {
            assert_eq!(due(format!("{line}\n(asked)\n").as_bytes()), "(malformed 1)\n(asked 0)\n");
            assert_eq!(due(format!("(asked)\n{line}").as_bytes()), "(asked 0)\n(malformed 2)\n");
        }
    }
}

#[test]
fn many_entries() {
    let entries = |n: usize| format!("(drops{})\n", format!(" {H}").repeat(n));
    let input = format!("{}{}{}(asked)\n", opened(), entries(50_000), entries(1));
    let nine = "(declined 9 0)\n";
    assert_eq!(due(input.as_bytes()), format!("{QUESTION}{nine}{nine}(asked 1)\n"));
    assert_eq!(due(entries(50_000).as_bytes()), "(declined 8 0)\n");
    let spoilt = format!("{}x)\n", entries(50_000).trim_end().trim_end_matches(')'));
    assert_eq!(due(spoilt.as_bytes()), "(malformed 1)\n");
    // More than 64 are well formed; the opening refuses them.
    let distances = format!("(distance {H} none)\n").repeat(5000);
    let input =
        format!("{ENTERED}{SHOTS}{distances}(open plain)\n(drops)\n(take-out 1)\n(asked)\n");
    let no_session = "(declined 8 0)\n(declined 14 0)\n(asked 0)\n";
    assert_eq!(due(input.as_bytes()), format!("(declined 6 0)\n{no_session}"));
    let shots = SHOTS.repeat(2500);
    let input = format!("{ENTERED}{shots}(open plain)\n(drops)\n(take-out 1)\n(asked)\n");
    assert_eq!(due(input.as_bytes()), format!("(declined 3 0)\n{no_session}"));
}

#[test]
fn no_session() {
    let tries = "(drops)\n(refused)\n(take-out 1)\n(put-in 1 4059000000000000 none)\n(asked)\n\
                 (page)\n";
    let none = "(declined 8 0)\n(declined 8 0)\n(declined 14 0)\n(declined 14 0)\n(asked 0)\n\
                (page 0)\n";
    assert_eq!(due(tries.as_bytes()), none);
    // A request that is being made is no session, and its lines go on afterwards.
    let input = format!("{ENTERED}{tries}{SHOTS}{tries}(open plain)\n");
    assert_eq!(due(input.as_bytes()), format!("{none}{none}{QUESTION}"));
    // After a declined opening there is none, whatever stood before.
    let input = format!("{}{ENTERED}(open plain)\n{tries}", opened());
    assert_eq!(due(input.as_bytes()), format!("{QUESTION}(declined 2 0)\n{none}"));
    // A malformed opening is no opening: the question stays open.
    let input = format!("{}(open plain)\n(asked)\n(drops)\n", opened());
    assert_eq!(
        due(input.as_bytes()),
        format!("{QUESTION}(malformed 5)\n(asked 1)\n(declined 9 0)\n")
    );
}

#[test]
fn lines_of_a_request_in_their_place() {
    let shot = format!("(shot {H} {H} {H})\n");
    let speed = "(prior speed 409f400000000000 3ff0000000000000)\n";
    let coefficient = "(prior coefficient 3fd3333333333333 3ff0000000000000)\n";
    let distance = format!("(distance {H} none)\n");
    let lines = [shot.as_str(), speed, coefficient, distance.as_str()];
    let taken = |sequence: &[&str]| {
        let input: String = sequence.concat();
        let answered = due(input.as_bytes());
        let refused = answered.lines().filter(|l| l.starts_with("(malformed")).count();
        sequence.len() - refused
    };
    // Before the first line of a request none has its place.
    for line in lines.iter().chain(&["(open plain)\n"]) {
        assert_eq!(taken(&[line]), 0, "{line}");
    }
    for (i, first) in lines.iter().enumerate() {
        for (j, second) in lines.iter().enumerate() {
            let repeats = i == 0 || i == 3;
            let both = j > i || (i == j && repeats);
            assert_eq!(taken(&[ENTERED, first, second]), 2 + both as usize, "{first}{second}");
            // A new beginning clears what stood before.
            assert_eq!(taken(&[ENTERED, first, ENTERED, second]), 4, "{first}{second}");
        }
        // An opening uses the request up.
        assert_eq!(taken(&[ENTERED, "(open plain)\n", first]), 2, "{first}");
    }
    assert_eq!(taken(&[ENTERED, "(open plain)\n", "(open plain)\n"]), 2);
}

const FIRST: &str = "(question distances 409f400000000000 3fd3333333333333)";

/// A page of the bench with these numbers of one distance's line, or without it.
fn page(distance: Option<&str>) -> String {
    let mut lines = vec![
        "speed                     2000.000             -             -  ".to_string(),
        "coefficient                  0.300             -             -  ".to_string(),
        "chi-square                   1.000                              ".to_string(),
        "shot                       100.000        10.000        10.000  ".to_string(),
        "shot                       200.000        11.000        10.000  ".to_string(),
    ];
    lines.extend(
        distance.map(|drop| format!("distance      {drop:>20}             -             -  ")),
    );
    for phrase in ["WeakBcSensitivity", "IllConditionedData", "GaussianApproximationUna"] {
        lines.push(format!("{phrase:<64}"));
    }
    format!("(page {})\n{}\n", lines.len(), lines.join("\n"))
}

/// Where a page is asked for: nowhere does it change anything, and it is that of the
/// report that stands.
#[test]
fn pages() {
    let ten = "4024000000000000";
    let reply = format!("(drops {ten} {ten})\n");
    let one = format!("(drops {ten})\n");
    let distance = "(distance 4062c00000000000 none)\n";
    let request = format!("{ENTERED}(page)\n{SHOTS}(page)\n{distance}(page)\n(open plain)\n");
    // The fit's questions, the distance's five and the baseline's.
    let run = format!("{}(page)\n{}(page)\n{reply}", reply.repeat(11), one.repeat(5));
    let said = due(format!("{request}(page)\n{run}(page)\n(page)\n").as_bytes());
    let empty = "(page 0)\n";
    let shown = page(Some("10.000"));
    let parts: Vec<&str> = said.split(empty).collect();
    assert_eq!(parts.len(), 7, "{said}");
    assert_eq!(parts[..4], ["", "", "", QUESTION]);
    assert!(parts[4].ends_with(&format!("{FIRST}\n")) && parts[4].lines().count() == 11);
    assert!(parts[5].ends_with(QUESTION) && parts[5].lines().count() == 5);
    let report = parts[6].lines().next().expect("a report");
    assert!(report.starts_with("(report 1 "));
    assert_eq!(parts[6], format!("{report}\n{shown}{shown}"));

    let (request, run) = (request.replace("(page)\n", ""), run.replace("(page)\n", ""));
    let before = due(format!("{request}{run}").as_bytes());
    let then = |lines: &str| {
        let said = due(format!("{request}{run}{lines}").as_bytes());
        said.strip_prefix(&before).expect("the same run").to_string()
    };
    // A new request leaves it, until its opening; a declined one takes it away.
    assert_eq!(then(&format!("{ENTERED}(page)\n")), shown);
    assert_eq!(then(&format!("{ENTERED}{SHOTS}(page)\n(asked)\n")), format!("{shown}(asked 17)\n"));
    let refused = "(declined 2 0)\n";
    assert_eq!(then(&format!("{ENTERED}(open plain)\n(page)\n")), format!("{refused}{empty}"));
    let again = format!("{ENTERED}{SHOTS}(open plain)\n(page)\n(refused)\n(page)\n");
    assert_eq!(then(&again), format!("{QUESTION}{empty}(declined 10 0)\n{empty}"));
    // So do replies and edits that are refused.
    let tries = "(drops)\n(page)\n(take-out 2)\n(page)\n(put-in 1 0000000000000000 none)\n(page)\n";
    let declined = ["(declined 8 0)\n", "(declined 15 0)\n", "(declined 7 1)\n"];
    assert_eq!(then(tries), declined.map(|d| format!("{d}{shown}")).concat());
    // While an edit asks none stands; refused it leaves the old one, ended it brings its own.
    let edit = "(exchange 1 4064000000000000 none)\n";
    let question = "(question new 409f400000000000 3fd3333333333333)\n";
    let lines = format!("{edit}(page)\n(refused)\n(page)\n");
    assert_eq!(then(&lines), format!("{question}{empty}(declined 10 0)\n{shown}"));
    let odd = "(drops 7ff0000000000000)\n";
    let said = then(&format!("{edit}{odd}{}(page)\n{odd}(page)\n", one.repeat(3)));
    assert_eq!(said.matches(empty).count(), 1);
    assert!(said.ends_with(&page(Some("-"))), "{said}");
    let said = then("(take-out 1)\n(page)\n");
    assert!(said.ends_with(&page(None)), "{said}");
}
