//! `oracle [--untouched]`: PROTOCOL.md's lines on standard input, the answers on
//! standard output; `oracle [--coverage] FILE`: the same under a coverage table (L2).
//! `oracle --numbers`: for each line of a double's digits its 14 columns of a page.
//! `oracle --coverage-list`: for each line of a coverage file's bytes its table or refusal.

use std::ffi::{OsStr, OsString};
use std::io::{self, BufRead, BufReader, BufWriter, Write};

use estimator::Variant;
use oracle::{coverage, declined, form, page, serve, Host, Text};

struct Pipes {
    input: BufReader<io::Stdin>,
    output: BufWriter<io::Stdout>,
}

impl Host for Pipes {
    fn line(&mut self) -> Option<Vec<u8>> {
        // All answers go out before a read that may wait.
        if !self.input.buffer().contains(&b'\n') {
            self.output.flush().ok()?;
        }
        let mut line = Vec::new();
        match self.input.read_until(b'\n', &mut line) {
            Ok(read) if read > 0 => Some(line),
            _ => None,
        }
    }

    fn answer(&mut self, text: &str) {
        // A host that has gone away is met at the next read.
        let _ = writeln!(self.output, "{text}");
    }
}

fn numbers(pipes: &mut Pipes) {
    while let Some(line) = pipes.line() {
        let Some(number) = line.strip_suffix(b"\n").and_then(form::double) else {
            eprintln!("oracle: not a double's digits: {}", line.escape_ascii());
            std::process::exit(2);
        };
        pipes.answer(&page::field(Some(number)));
    }
}

fn files(pipes: &mut Pipes) {
    while let Some(line) = pipes.line() {
        let Some(file) = line.strip_suffix(b"\n").and_then(coverage::bytes) else {
            eprintln!("oracle: not a file's bytes: {}", line.escape_ascii());
            std::process::exit(2);
        };
        pipes.answer(&coverage::answer(&coverage::load(&file)));
    }
}

/// The lines under a coverage file.  One that cannot be opened or read is an empty one.
fn under(name: &OsStr, pipes: &mut Pipes) {
    match coverage::load(&std::fs::read(name).unwrap_or_default()) {
        Ok(table) => serve(pipes, Text::Under(&table), &mut 0),
        Err(refusal) => pipes.answer(&declined(refusal)),
    }
}

const USAGE: &str = "usage: oracle [--untouched | --numbers | --coverage-list | [--coverage] FILE]";

fn main() {
    let arguments: Vec<OsString> = std::env::args_os().skip(1).collect();
    let words: Vec<&str> =
        arguments.iter().map(|argument| argument.to_str().unwrap_or_default()).collect();
    let mut pipes =
        Pipes { input: BufReader::new(io::stdin()), output: BufWriter::new(io::stdout()) };
    match words.as_slice() {
        [] => serve(&mut pipes, Text::Alone(Variant::Recipes), &mut 0),
        ["--untouched"] => serve(&mut pipes, Text::Alone(Variant::Untouched), &mut 0),
        ["--numbers"] => numbers(&mut pipes),
        ["--coverage-list"] => files(&mut pipes),
        ["--coverage", _] => under(&arguments[1], &mut pipes),
        [name] if !name.starts_with("--") => under(&arguments[0], &mut pipes),
        _ => {
            eprintln!("{USAGE}");
            std::process::exit(2);
        }
    }
    let _ = pipes.output.flush();
}
