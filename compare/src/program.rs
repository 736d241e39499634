//! Runs of the program through `c/forks.c`, which is loaded into it.

use std::io;

use crate::process::{Process, number_bytes};

/// How a run ended. A status of 0 is an exit with 0.
pub struct Ended {
    pub status: usize,
    pub printed: String,
    pub errors: String,
}

pub fn run(forks: &mut Process, input: &[u8]) -> io::Result<Ended> {
    let mut message = number_bytes(input.len()).to_vec();
    message.extend(input);
    forks.send(&message)?;
    Ok(Ended {
        status: forks.receive_number()?,
        printed: receive_text(forks)?,
        errors: receive_text(forks)?,
    })
}

fn receive_text(forks: &mut Process) -> io::Result<String> {
    let length = forks.receive_number()?;
    let bytes = forks.receive(length)?;
    Ok(String::from_utf8_lossy(&bytes).into_owned())
}
