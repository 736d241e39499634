//! Calls of the library through `c/server.c`, which links it. Only that process
//! is of the library's kind of machine, or under a memory checker.

use std::io;

use crate::process::{Process, number_bytes};

/// The library's functions, by the numbers that the server knows them by.
#[derive(Clone, Copy)]
pub enum Function {
    Plan = 0,
    CheckRoutes = 1,
    CheckMeetings = 2,
    Read = 3,
}

/// Memory lent for a call, as bytes. Entries of more than one byte have their
/// low byte first.
#[derive(Clone)]
pub struct Piece {
    pub name: &'static str,
    pub entry_size: usize,
    pub bytes: Vec<u8>,
}

impl Piece {
    pub fn entries(&self) -> usize {
        self.bytes.len() / self.entry_size
    }
}

/// A call: the function's numbers and its pieces, each in the order of its
/// arguments.
pub struct Call {
    pub function: Function,
    pub numbers: Vec<usize>,
    pub pieces: Vec<Piece>,
    /// Whether the start of each piece, and not its end, lies at a page without
    /// access.
    pub at_start: bool,
}

/// What a call leaves: the number given back and each piece.
pub struct Reply {
    pub number: usize,
    pub pieces: Vec<Piece>,
}

const NUMBERS: usize = 4;
const PIECES: usize = 7;

pub fn call(server: &mut Process, call: Call) -> io::Result<Reply> {
    server.send(&message(&call))?;
    let number = server.receive_number()?;
    let mut pieces = call.pieces;
    for piece in &mut pieces {
        piece.bytes = server.receive(piece.bytes.len())?;
    }
    Ok(Reply { number, pieces })
}

/// The server's `struct call`, then the bytes of each piece.
fn message(call: &Call) -> Vec<u8> {
    let mut words = vec![call.function as usize, usize::from(call.at_start)];
    words.extend(&call.numbers);
    words.resize(2 + NUMBERS, 0);
    words.extend(call.pieces.iter().map(Piece::entries));
    words.resize(2 + NUMBERS + PIECES, 0);
    let mut message: Vec<u8> = words.into_iter().flat_map(number_bytes).collect();
    for piece in &call.pieces {
        message.extend(&piece.bytes);
    }
    message
}
