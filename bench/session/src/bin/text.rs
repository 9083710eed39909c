//! The program `session_bench` with the Rust's text in the session's place: the same line in, the same line out.
use std::hint::black_box;

use session_bench::{opening, run, Solver};

fn main() {
    let mut input = String::new();
    std::io::stdin().read_line(&mut input).expect("a line");
    let mut counts = input.split_whitespace().map(|word| word.parse::<u64>().unwrap_or(0));
    let mut count = || counts.next().unwrap_or(0);
    let (runs, observations, distances) = (count(), count().min(64), count().min(64));
    let (solver, report) = (Solver::numbered(count()), count());
    let opening = opening(solver, observations as usize, distances as usize);
    let mut line = Vec::with_capacity(32768);
    let (mut questions, mut bytes) = (0, 0);
    for _ in 0..runs {
        line.clear();
        questions += run(black_box(&opening), solver, (report != 2).then_some(&mut line)).expect("a report");
        bytes += line.len();
    }
    println!("{questions} {bytes}");
    if report == 1 {
        println!("{}", String::from_utf8(line).expect("a line of text"));
    }
}
