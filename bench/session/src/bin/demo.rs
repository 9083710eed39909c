//! Holds a conversation that the program `demo` shows to the Rust's text: with the request that stands there, over the same solver in Rust, the text must put the
//! same questions, get the same drops and make the same report, bit for bit.
use estimator::{hex, Opening, Place, Requested, Variant};
use session_bench::point_mass;

fn double(word: &str) -> f64 {
    f64::from_bits(u64::from_str_radix(word, 16).expect("16 hexadecimal digits"))
}

fn main() {
    let path = std::env::args().nth(1).expect("usage: demo FILE");
    let text = std::fs::read_to_string(&path).expect("what the program wrote");
    let mut forms = text.lines().filter_map(|line| Some((line, line.strip_prefix('(')?.strip_suffix(')')?)));

    let mut opening = Opening::default();
    for (_, form) in forms.by_ref() {
        let words: Vec<&str> = form.split(' ').collect();
        match words[..] {
            ["entered", mv, bc] => opening.entered = [double(mv), double(bc)],
            ["shot", range, drop, sigma] => opening.shots.push([double(range), double(drop), double(sigma)]),
            ["prior", "speed", mean, sigma] => opening.speed_prior = Some([double(mean), double(sigma)]),
            ["prior", "coefficient", mean, sigma] => opening.coefficient_prior = Some([double(mean), double(sigma)]),
            ["distance", range, sigma] => {
                let sigma = (sigma != "none").then(|| double(sigma));
                opening.distances.push(Requested { distance: double(range), sigma });
            }
            ["open", "plain"] => break,
            _ => panic!("{form} is no line of a request"),
        }
    }

    let mut said = Vec::new();
    let shots: Vec<f64> = opening.shots.iter().map(|shot| shot[0]).collect();
    let distances: Vec<f64> = opening.distances.iter().map(|wanted| wanted.distance).collect();
    let report = estimator::run(Variant::Recipes, &opening, &mut |place, mv, bc, _| {
        let (list, name) = if place == Place::Bands { (&distances, "distances") } else { (&shots, "shots") };
        said.push(format!("(question {name} {} {})", hex(mv), hex(bc)));
        if !point_mass::is_sane(mv, bc) {
            said.push("(refused)".to_string());
            return None;
        }
        let drops: Vec<Option<f64>> = list.iter().map(|&range| point_mass::drop_at(mv, bc, range)).collect();
        let entries: Vec<String> = drops.iter().map(|drop| drop.map_or("missing".to_string(), hex)).collect();
        said.push(format!("(drops {})", entries.join(" ")));
        Some(drops)
    });
    let questions = said.len() / 2;
    let answer = match report {
        Ok(report) => report.line,
        Err((number, position)) => format!("(declined {number} {position})"),
    };

    let shown: Vec<&str> = forms.map(|(line, _)| line).collect();
    let (last, conversation) = shown.split_last().expect("an answer");
    assert!(!conversation.is_empty() && conversation.len() <= said.len(), "{} lines of a conversation", conversation.len());
    for (shown, said) in conversation.iter().zip(&said) {
        assert_eq!(shown, said, "a line of the conversation");
    }
    assert_eq!(*last, answer, "the answer");
    assert!(text.contains(&format!("{questions} questions in all")), "the Rust puts {questions} questions");
    println!("{path}: {} lines of the conversation, {questions} questions in all and the answer of {} bytes are the Rust's", conversation.len(), answer.len());
}
