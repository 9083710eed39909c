//! `compare N [SEED]`: random cases against a program that speaks PROTOCOL.md.
//! See compare/README.md.

mod bytes;
mod case;
mod coverage;
mod edits;
mod facts;
mod inputs;
mod numbers;
mod player;
mod program;
mod rng;
mod sample;
mod solver;
mod stream;
mod tables;
mod tally;
mod untouched;
mod write;

use std::path::{Path, PathBuf};
use std::process::{Command, ExitCode};

use case::Case;
use program::{Difference, Program};
use tally::Tally;

struct Arguments {
    words: Vec<String>,
    program: Option<PathBuf>,
    untouched: bool,
}

fn arguments() -> Result<Arguments, String> {
    let mut found = Arguments { words: Vec::new(), program: None, untouched: false };
    let mut rest = std::env::args().skip(1);
    while let Some(argument) = rest.next() {
        match argument.as_str() {
            "--program" => {
                let path = rest.next().ok_or("--program wants a path")?;
                found.program = Some(PathBuf::from(path));
            }
            "--untouched" => found.untouched = true,
            option if option.starts_with('-') => return Err(format!("unknown option {option}")),
            _ => found.words.push(argument),
        }
    }
    Ok(found)
}

/// The program under test; without one, the oracle compared with itself.
fn path(arguments: &Arguments) -> PathBuf {
    arguments.program.clone().unwrap_or_else(|| {
        let own = std::env::current_exe().expect("the path of this program");
        own.with_file_name("oracle")
    })
}

fn program(arguments: &Arguments) -> Program {
    Program::new(path(arguments), Vec::new())
}

/// The program that writes a line for each line; with this word it is the oracle.
fn lines(arguments: &Arguments, word: &str) -> Command {
    let mut command = Command::new(path(arguments));
    if arguments.program.is_none() {
        command.arg(word);
    }
    command
}

fn number(word: Option<&String>, default: u64) -> Result<u64, String> {
    word.map_or(Ok(default), |w| w.parse().map_err(|_| format!("not a number: {w}")))
}

fn main() -> ExitCode {
    let outcome = arguments().and_then(|arguments| {
        let words = &arguments.words;
        let named = words.first().is_some_and(|w| w.parse::<u64>().is_err()) as usize;
        let count = || number(words.get(named), 1000);
        let seed = || number(words.get(named + 1), 1);
        match words.first().filter(|_| named == 1).map(String::as_str) {
            Some("sample") => {
                let directory = words.get(1).ok_or("sample wants a directory")?;
                let written = sample::write(Path::new(directory));
                written.map(|()| true).map_err(|e| format!("{directory}: {e}"))
            }
            Some("show") => {
                let index = number(words.get(1), 0)?;
                show(index, number(words.get(2), 1)?);
                Ok(true)
            }
            Some("bytes") => {
                let first = number(words.get(3), 0)?;
                Ok(bytes::compare(&path(&arguments), count()?, seed()?, first))
            }
            Some("edits") => Ok(edited(&arguments, count()?, seed()?)),
            Some(mode @ ("numbers" | "coverage" | "tables"))
                if words.get(1).is_some_and(|w| w == "list") =>
            {
                let directory = words.get(2).ok_or(format!("{mode} list wants a directory"))?;
                let write = match mode {
                    "numbers" => numbers::write,
                    "coverage" => coverage::write,
                    _ => tables::write,
                };
                let written = write(Path::new(directory));
                written.map(|()| true).map_err(|e| format!("{directory}: {e}"))
            }
            Some("numbers") => {
                Ok(numbers::compare(lines(&arguments, "--numbers"), count()?, seed()?))
            }
            Some("coverage") => {
                Ok(coverage::compare(lines(&arguments, "--coverage-list"), count()?, seed()?))
            }
            Some("tables") => Ok(tables::compare(&path(&arguments), count()?, seed()?)),
            Some(other) => Err(format!("unknown mode {other}")),
            None if arguments.untouched => {
                untouched::table(count()?, seed()?);
                untouched::inverses(100 * count()?, seed()?);
                Ok(true)
            }
            None => Ok(random(&arguments, count()?, seed()?)),
        }
    });
    match outcome {
        Ok(true) => ExitCode::SUCCESS,
        Ok(false) => ExitCode::FAILURE,
        Err(message) => {
            eprintln!("compare: {message}");
            ExitCode::from(2)
        }
    }
}

/// Plays the end of standard input.
fn end(program: &mut Program, line: u64) -> bool {
    let line = if program.is_fresh() { 0 } else { line };
    let equal = program.end(line);
    println!("end of input: {}", if equal { "equal" } else { "differs" });
    equal
}

fn case_seed(seed: u64, index: u64) -> u64 {
    rng::mix(rng::mix(seed) ^ index)
}

/// Prints one random case's conversation.
fn show(index: u64, seed: u64) {
    let case = Case::random(case_seed(seed, index));
    println!("{:?}", case.solver);
    let script = player::play(&case, &mut 0);
    for (line, answer) in script.lines.iter().zip(&script.answers) {
        println!("> {}", String::from_utf8_lossy(line));
        answer.iter().flat_map(|answer| answer.split('\n')).for_each(|line| println!("< {line}"));
    }
}

/// A program that is silent this often is given up.
const SILENCES: u64 = 3;

fn random(arguments: &Arguments, count: u64, seed: u64) -> bool {
    let mut program = program(arguments);
    let mut tally = Tally::default();
    let (mut differ, mut silent, mut line) = (0, 0, 0);
    for index in 0..count {
        if program.is_fresh() {
            line = 0;
        }
        let case = Case::random(case_seed(seed, index));
        let script = player::play(&case, &mut line);
        tally.add(&script);
        // One case in eight is a conversation, the others are written ahead.
        if let Err(difference) = program.play(&script, index % 8 == 0) {
            differ += 1;
            if differ <= 10 {
                println!("case {index} of seed {seed} differs at the line {}", difference.line);
                println!("  due   {}\n  found {}", difference.due, difference.found);
            }
            silent += (difference.found == program::SILENCE) as u64;
            if silent == SILENCES {
                println!("the program is silent: given up");
                differ = count - (index + 1 - differ);
                break;
            }
        }
    }
    let ended = end(&mut program, line);
    let all = tally.print();
    println!("{} equal, {differ} differ", count - differ);
    all && ended && differ == 0
}

/// Edits after a run, against fresh runs, and against the program under test.
fn edited(arguments: &Arguments, count: u64, seed: u64) -> bool {
    let mut program = program(arguments);
    let (mut differ, mut ended, mut line) = (0, 0, 0);
    let mut tally = Tally::default();
    for index in 0..count {
        if program.is_fresh() {
            line = 0;
        }
        let case = edits::consistent(case_seed(seed, index));
        let (script, mut faults, edits) = edits::play(player::PLAIN, &case, &mut line);
        ended += edits;
        tally.add(&script);
        if let Err(difference) = program.play(&script, index % 8 == 0) {
            let Difference { line, due, found } = difference;
            faults.push(format!("  line  {line}\n  due   {due}\n  found {found}"));
        }
        if !faults.is_empty() {
            differ += 1;
            if differ <= 10 {
                println!("case {index} of seed {seed} differs\n{}", faults.join("\n"));
            }
        }
    }
    let finished = end(&mut program, line);
    tally.print();
    println!("{ended} edits ended, each compared with a fresh run");
    println!("{} equal, {differ} differ", count - differ);
    finished && differ == 0
}
