//! A program that writes one line for each that it reads: written to on one thread, read
//! on another, and judged as its lines come, so that nothing is kept.

use std::io::{self, BufWriter, Read, Write};
use std::process::{Child, Command, Stdio};
use std::sync::mpsc::{self, Receiver, RecvTimeoutError};
use std::time::{Duration, Instant};

/// How long the next line, and the end, may take.
const PATIENCE: Duration = Duration::from_secs(20);

/// A line that has not ended after so many bytes is given up.
const LONGEST: usize = 4096;

/// A program's output, line by line.
pub struct Lines {
    chunks: Receiver<Vec<u8>>,
    held: Vec<u8>,
    at: usize,
}

pub const END: &str = "the end";

impl Lines {
    pub fn new(chunks: Receiver<Vec<u8>>) -> Self {
        Lines { chunks, held: Vec::new(), at: 0 }
    }

    /// The next line without its line feed, or what came in its place.
    pub fn next(&mut self) -> Result<&[u8], &'static str> {
        let feed = loop {
            let rest = &self.held[self.at..];
            if let Some(feed) = rest.iter().position(|b| *b == b'\n') {
                break self.at + feed;
            }
            if rest.len() > LONGEST {
                return Err("a line without an end");
            }
            match self.chunks.recv_timeout(PATIENCE) {
                Ok(chunk) => {
                    self.held.drain(..self.at);
                    self.at = 0;
                    self.held.extend(chunk);
                }
                Err(RecvTimeoutError::Disconnected) if rest.is_empty() => return Err(END),
                Err(RecvTimeoutError::Disconnected) => return Err("an unended last line"),
                Err(RecvTimeoutError::Timeout) => return Err("nothing"),
            }
        };
        let first = std::mem::replace(&mut self.at, feed + 1);
        Ok(&self.held[first..feed])
    }

    /// Judges so many lines; gives how many differ.  `made` makes the next thing and the
    /// line that is due for it, `named` names it.
    pub fn judge<T>(
        &mut self,
        count: u64,
        mut made: impl FnMut() -> (T, String),
        named: impl Fn(u64, &T) -> String,
    ) -> u64 {
        let mut differ = 0;
        for index in 0..count {
            let (thing, due) = made();
            match self.next() {
                Ok(found) if found == due.as_bytes() => {}
                Ok(found) => {
                    differ += 1;
                    if differ <= 10 {
                        println!("{}, differs", named(index, &thing));
                        println!("  due   |{due}|\n  found |{}|", found.escape_ascii());
                    }
                }
                Err(instead) => {
                    println!("{}: {instead} in its place", named(index, &thing));
                    return differ + count - index;
                }
            }
        }
        differ
    }
}

/// Waits for a process that has nothing more to say; says whether its status is 0.
fn ends_well(child: &mut Child) -> bool {
    let deadline = Instant::now() + PATIENCE;
    loop {
        match child.try_wait() {
            Ok(Some(status)) => return status.success(),
            Ok(None) if Instant::now() < deadline => std::thread::sleep(Duration::from_millis(1)),
            _ => return false,
        }
    }
}

/// Plays as `play` does; gives what the judge counted, too.
pub fn play_counted<C: Default>(
    command: Command,
    write: impl FnOnce(&mut dyn Write) -> io::Result<()> + Send + 'static,
    judge: impl FnOnce(&mut Lines) -> (C, u64),
) -> (C, u64, bool) {
    let mut counts = C::default();
    let judged = |lines: &mut Lines| {
        let differ;
        (counts, differ) = judge(lines);
        differ
    };
    let (differ, ended) = play(command, write, judged);
    (counts, differ, ended)
}

/// Runs a program; gives how many lines differ, and whether it then ended well.
pub fn play(
    mut command: Command,
    write: impl FnOnce(&mut dyn Write) -> io::Result<()> + Send + 'static,
    judge: impl FnOnce(&mut Lines) -> u64,
) -> (u64, bool) {
    let mut child = command
        .stdin(Stdio::piped())
        .stdout(Stdio::piped())
        .spawn()
        .unwrap_or_else(|e| panic!("{command:?}: {e}"));
    let mut pipe = BufWriter::with_capacity(1 << 16, child.stdin.take().expect("a pipe"));
    let writer = std::thread::spawn(move || {
        // A process that reads no more is met in its output.
        write(&mut pipe)?;
        pipe.flush()
    });
    let mut reader = child.stdout.take().expect("a pipe");
    let (sender, chunks) = mpsc::sync_channel(16);
    std::thread::spawn(move || {
        let mut chunk = vec![0; 1 << 16];
        while let Ok(read @ 1..) = reader.read(&mut chunk) {
            if sender.send(chunk[..read].to_vec()).is_err() {
                return;
            }
        }
    });
    let mut lines = Lines::new(chunks);
    let differ = judge(&mut lines);
    let silent = differ > 0 || lines.next() == Err(END);
    let ended = silent && differ == 0 && ends_well(&mut child);
    if !ended {
        let _ = child.kill();
    }
    let _ = child.wait();
    let _: Result<io::Result<()>, _> = writer.join();
    (differ, ended)
}

/// Prints the end of a comparison; says whether nothing differs.
pub fn conclude(count: u64, differ: u64, ended: bool) -> bool {
    if differ == 0 {
        println!("end of input: {}", if ended { "equal" } else { "differs" });
    }
    println!("{} equal, {differ} differ", count - differ);
    ended && differ == 0
}
