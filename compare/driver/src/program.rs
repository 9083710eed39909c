//! A program under test: one long-lived process over two pipes.

use std::ffi::OsString;
use std::io::{BufRead, BufReader, Write};
use std::path::PathBuf;
use std::process::{Child, ChildStdin, Command, Stdio};
use std::sync::mpsc::{self, Receiver, RecvTimeoutError};
use std::time::Duration;

use crate::player::Script;

pub struct Program {
    path: PathBuf,
    arguments: Vec<OsString>,
    running: Option<Running>,
    pub patience: Duration,
}

struct Running {
    child: Child,
    input: ChildStdin,
    output: Receiver<Vec<u8>>,
}

/// Stands for an answer that did not come.
pub const SILENCE: &str = "(no answer)";

/// The first line that was answered otherwise.
pub struct Difference {
    pub line: String,
    pub due: String,
    pub found: String,
}

impl Program {
    pub fn new(path: PathBuf, arguments: Vec<OsString>) -> Self {
        Program { path, arguments, running: None, patience: Duration::from_secs(20) }
    }

    /// Whether the next line is the first that the process reads.
    pub fn is_fresh(&self) -> bool {
        self.running.is_none()
    }

    fn start(&mut self) -> &mut Running {
        self.running.get_or_insert_with(|| {
            let mut child = Command::new(&self.path)
                .args(&self.arguments)
                .stdin(Stdio::piped())
                .stdout(Stdio::piped())
                .spawn()
                .unwrap_or_else(|e| panic!("{}: {e}", self.path.display()));
            let input = child.stdin.take().expect("a pipe");
            let mut reader = BufReader::new(child.stdout.take().expect("a pipe"));
            let (sender, output) = mpsc::channel();
            std::thread::spawn(move || loop {
                let mut line = Vec::new();
                match reader.read_until(b'\n', &mut line) {
                    Ok(read) if read > 0 && sender.send(line).is_ok() => {}
                    _ => return,
                }
            });
            Running { child, input, output }
        })
    }

    /// Plays a script; with `wait` each answer is awaited before the next line
    /// is written.  After a difference the process is started anew.
    pub fn play(&mut self, script: &Script, wait: bool) -> Result<(), Difference> {
        let patience = self.patience;
        let Running { input, output, .. } = self.start();
        let outcome = std::thread::scope(|scope| {
            let mut input = Some(input);
            if !wait {
                let mut whole: Vec<u8> = Vec::new();
                for line in &script.lines {
                    whole.extend_from_slice(line);
                    whole.push(b'\n');
                }
                let pipe = input.take().expect("a pipe");
                // A write that fails shows as a missing answer.
                scope.spawn(move || pipe.write_all(&whole).and_then(|()| pipe.flush()));
            }
            for (line, due) in script.lines.iter().zip(&script.answers) {
                if let Some(pipe) = &mut input {
                    let _ = pipe.write_all(&[line.as_slice(), b"\n"].concat());
                    let _ = pipe.flush();
                }
                let Some(due) = due else { continue };
                // A page's answer has several lines.
                for due in due.split('\n') {
                    let found = match output.recv_timeout(patience) {
                        Ok(line) => line,
                        Err(_) => SILENCE.as_bytes().to_vec(),
                    };
                    if found.strip_suffix(b"\n") != Some(due.as_bytes()) {
                        let found = String::from_utf8_lossy(&found);
                        return Err(Difference {
                            line: String::from_utf8_lossy(line).into_owned(),
                            due: due.to_string(),
                            found: found.strip_suffix('\n').unwrap_or(&found).to_string(),
                        });
                    }
                }
            }
            Ok(())
        });
        if outcome.is_err() {
            self.stop();
        }
        outcome
    }

    /// Ends standard input with an unended line, which is malformed; says
    /// whether that is answered and the program then ends.
    pub fn end(&mut self, line: u64) -> bool {
        let patience = self.patience;
        self.start();
        let Some(mut running) = self.running.take() else { return false };
        let _ = running.input.write_all(b"(asked)");
        drop(running.input);
        let answer = running.output.recv_timeout(patience);
        let due = format!("(malformed {})\n", line + 1);
        let silent = running.output.recv_timeout(patience) == Err(RecvTimeoutError::Disconnected);
        if !silent {
            let _ = running.child.kill();
        }
        let _ = running.child.wait();
        silent && answer.is_ok_and(|found| found == due.as_bytes())
    }

    fn stop(&mut self) {
        if let Some(mut running) = self.running.take() {
            drop(running.input);
            let _ = running.child.kill();
            let _ = running.child.wait();
        }
    }
}
