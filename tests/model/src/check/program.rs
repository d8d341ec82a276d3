//! A program under test, run on a script or left at work.

use std::io::{self, Write};
use std::process::{Child, Command, Output, Stdio};
use std::thread;

/// A program and its arguments.
pub struct Program {
    words: Vec<String>,
}

impl Program {
    /// The words of a command line, parted by blanks.
    pub fn new(command: &str) -> Option<Program> {
        let words: Vec<String> = command.split_whitespace().map(str::to_string).collect();
        (!words.is_empty()).then_some(Program { words })
    }

    /// What the program prints for these bytes, handed over in pieces of a
    /// length, or how it ended badly.
    pub fn transcript(&self, bytes: &[u8], piece: usize) -> Result<String, String> {
        let output = self.run(bytes, piece).map_err(|error| format!("{}: {}", self.words[0], error))?;
        if !output.status.success() {
            let said = String::from_utf8_lossy(&output.stderr).into_owned();
            return Err(format!("it ended with {} {}", output.status, said.trim_end()));
        }
        Ok(String::from_utf8_lossy(&output.stdout).into_owned())
    }

    fn run(&self, bytes: &[u8], piece: usize) -> io::Result<Output> {
        let mut child = self.start()?;
        let pipe = child.stdin.take();
        thread::scope(|scope| {
            scope.spawn(move || {
                if let Some(mut pipe) = pipe {
                    // A bad script may not be read to its end: then this ends too.
                    let _ = bytes.chunks(piece).try_for_each(|piece| pipe.write_all(piece));
                }
            });
            child.wait_with_output()
        })
    }

    /// The program at work, its three streams piped.
    pub fn start(&self) -> io::Result<Child> {
        let mut command = Command::new(&self.words[0]);
        command.args(&self.words[1..]).stdin(Stdio::piped()).stdout(Stdio::piped()).stderr(Stdio::piped());
        command.spawn()
    }
}
