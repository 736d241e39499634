//! A server that runs as a process of its own, written to and read from through
//! pipes. Numbers have 8 bytes, low byte first.

use std::io::{self, Read, Write};
use std::process::{Child, ChildStdin, ChildStdout, Command, Stdio};

pub struct Process {
    child: Child,
    input: ChildStdin,
    output: ChildStdout,
}

impl Process {
    /// Starts the program that the words name, the first of them, with the
    /// others as its arguments.
    pub fn start(words: &[String]) -> Result<Self, String> {
        let mut child = Command::new(&words[0])
            .args(&words[1..])
            .stdin(Stdio::piped())
            .stdout(Stdio::piped())
            .spawn()
            .map_err(|error| format!("{}: {error}", words[0]))?;
        let (input, output) = (child.stdin.take(), child.stdout.take());
        Ok(Process {
            child,
            input: input.expect("it was piped"),
            output: output.expect("it was piped"),
        })
    }

    pub fn send(&mut self, message: &[u8]) -> io::Result<()> {
        self.input.write_all(message)
    }

    pub fn receive(&mut self, length: usize) -> io::Result<Vec<u8>> {
        let mut bytes = vec![0; length];
        self.output.read_exact(&mut bytes)?;
        Ok(bytes)
    }

    pub fn receive_number(&mut self) -> io::Result<usize> {
        let mut bytes = [0; 8];
        self.output.read_exact(&mut bytes)?;
        Ok(u64::from_le_bytes(bytes) as usize)
    }

    /// Ends the input; the process, and a memory checker around it, must end
    /// content.
    pub fn finish(mut self) -> Result<(), String> {
        drop(self.input);
        match self.child.wait() {
            Ok(status) if status.success() => Ok(()),
            Ok(status) => Err(format!("the server ended: {status}")),
            Err(error) => Err(format!("the server: {error}")),
        }
    }
}

/// The number as a server reads it.
pub fn number_bytes(number: usize) -> [u8; 8] {
    (number as u64).to_le_bytes()
}
