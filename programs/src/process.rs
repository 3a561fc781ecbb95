//! A program that is run as a process.

use std::path::{Display, Path, PathBuf};
use std::process::{Child, Command, Stdio};

use crate::feed::Feed;

pub struct Process {
    program: PathBuf,
    arguments: Vec<String>,
}

impl Process {
    pub fn new(program: &Path, arguments: &[&str]) -> Self {
        Process {
            program: program.to_path_buf(),
            arguments: arguments.iter().map(|word| word.to_string()).collect(),
        }
    }

    /// What it writes for this input. It has to end by itself and to say nothing on standard error.
    pub fn run(&self, input: &[u8], feed: Feed) -> Result<Vec<u8>, String> {
        let mut child = self.start(Stdio::piped())?;
        self.give(&mut child, input, feed)?;
        self.end(child)
    }

    /// What the next program writes for what this one writes, the one's output being the other's input.
    pub fn run_into(&self, next: &Process, input: &[u8], feed: Feed) -> Result<Vec<u8>, String> {
        let mut first = self.start(Stdio::piped())?;
        let between = first.stdout.take().expect("its output is a pipe");
        let last = next.start(Stdio::from(between))?;
        self.give(&mut first, input, feed)?;
        let output = next.end(last)?;
        self.end(first)?;
        Ok(output)
    }

    fn start(&self, input: Stdio) -> Result<Child, String> {
        Command::new(&self.program)
            .args(&self.arguments)
            .stdin(input)
            .stdout(Stdio::piped())
            .stderr(Stdio::piped())
            .spawn()
            .map_err(|error| format!("{} does not start: {error}", self.name()))
    }

    /// Both programs read all that they take before they write: nothing waits for the other side.
    fn give(&self, child: &mut Child, input: &[u8], feed: Feed) -> Result<(), String> {
        let pipe = child.stdin.take().expect("its input is a pipe");
        feed.write(pipe, input)
            .map_err(|error| format!("{} takes no input: {error}", self.name()))
    }

    fn end(&self, child: Child) -> Result<Vec<u8>, String> {
        let name = self.name();
        let output = child
            .wait_with_output()
            .map_err(|error| format!("{name} is lost: {error}"))?;
        if !output.status.success() || !output.stderr.is_empty() {
            let said = String::from_utf8_lossy(&output.stderr);
            return Err(format!("{name} ended with {}: {said}", output.status));
        }
        Ok(output.stdout)
    }

    fn name(&self) -> Display<'_> {
        self.program.display()
    }
}
