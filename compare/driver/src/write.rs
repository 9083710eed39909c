//! The host's lines, each without its line feed.

use estimator::{hex, Opening, Reply, Requested};
use oracle::form::Edit;

fn sigma(value: Option<f64>) -> String {
    value.map_or("none".to_string(), hex)
}

pub fn entered(point: [f64; 2]) -> String {
    format!("(entered {} {})", hex(point[0]), hex(point[1]))
}

pub fn shot(shot: [f64; 3]) -> String {
    format!("(shot {} {} {})", hex(shot[0]), hex(shot[1]), hex(shot[2]))
}

pub fn prior(which: &str, prior: [f64; 2]) -> String {
    format!("(prior {which} {} {})", hex(prior[0]), hex(prior[1]))
}

pub fn distance(entry: Requested) -> String {
    format!("(distance {} {})", hex(entry.distance), sigma(entry.sigma))
}

pub fn request(opening: &Opening) -> Vec<String> {
    let mut lines = vec![entered(opening.entered)];
    lines.extend(opening.shots.iter().map(|s| shot(*s)));
    lines.extend(opening.speed_prior.map(|p| prior("speed", p)));
    lines.extend(opening.coefficient_prior.map(|p| prior("coefficient", p)));
    lines.extend(opening.distances.iter().map(|d| distance(*d)));
    lines.push("(open plain)".to_string());
    lines
}

pub fn reply(reply: &Reply) -> String {
    let Some(entries) = reply else {
        return "(refused)".to_string();
    };
    let mut line = "(drops".to_string();
    for entry in entries {
        line.push(' ');
        line.push_str(&entry.map_or("missing".to_string(), hex));
    }
    line + ")"
}

pub fn edit(edit: Edit) -> String {
    match edit {
        Edit::PutIn(place, d, s) => format!("(put-in {place} {} {})", hex(d), sigma(s)),
        Edit::TakeOut(place) => format!("(take-out {place})"),
        Edit::Exchange(place, d, s) => format!("(exchange {place} {} {})", hex(d), sigma(s)),
    }
}
