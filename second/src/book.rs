//! The book of a job: "Contents first, then bodies."

use crate::job::{Carrier, Job};

/// "Bodies follow without gaps from byte 16 to the end."
pub const FIRST_BODY: usize = 16;
/// "Byte 0 is 3": the number of entries.
pub const ENTRIES: usize = 3;
/// "Three entries of 5 bytes follow".
pub const ENTRY: usize = 5;

/// What the reader refuses, "lowest first".
#[derive(Clone, Copy, Debug, PartialEq, Eq)]
pub enum BookRefusal {
    /// 11: "book shorter than 16 bytes or byte 0 not 3".
    Contents = 11,
    /// 12: "kinds wrong".
    Kinds = 12,
    /// 13: "bodies don't follow one another exactly to the end".
    Bodies = 13,
    /// 14: "hall body under 2 bytes"; and, as it "reads the new lengths" of P3,
    /// a carriers body that hasn't "3 bytes for each carrier", or a limits body
    /// that isn't 1 byte, "only H".
    Lengths = 14,
    /// 15: "a kind other than 1 to 3", "after 11 to 14".
    NoSuchKind = 15,
}

impl BookRefusal {
    /// The number given back.
    pub fn number(self) -> u8 {
        self as u8
    }
}

/// "The carriers body has 3 bytes for each carrier" (P3).
pub const CARRIER: usize = 3;

/// A book that was found in order: its three bodies, parts of the lent bytes.
#[derive(Clone, Copy, Debug, PartialEq, Eq)]
pub struct Book<'a> {
    hall: &'a [u8],
    carriers: &'a [u8],
    limits: &'a [u8],
}

/// One entry of the contents: "kind, offset, length, the last two 16-bit, low
/// byte first".
struct Entry {
    kind: u8,
    offset: usize,
    length: usize,
}

impl Entry {
    fn read(bytes: &[u8]) -> Self {
        let word = |at: usize| usize::from(u16::from_le_bytes([bytes[at], bytes[at + 1]]));
        Entry {
            kind: bytes[0],
            offset: word(1),
            length: word(3),
        }
    }
}

impl<'a> Book<'a> {
    /// Reads a book, answers 11 to 14 "lowest first".
    pub fn read(bytes: &'a [u8]) -> Result<Self, BookRefusal> {
        if bytes.len() < FIRST_BODY || usize::from(bytes[0]) != ENTRIES {
            return Err(BookRefusal::Contents);
        }
        let (contents, bodies) = bytes.split_at(FIRST_BODY);
        let entries: Vec<Entry> = contents[1..].chunks(ENTRY).map(Entry::read).collect();
        if entries.iter().map(|entry| entry.kind).ne([1, 2, 3]) {
            return Err(BookRefusal::Kinds);
        }
        let [hall, carriers, limits] = cut(bodies, &entries).ok_or(BookRefusal::Bodies)?;
        if hall.len() < 2 || !carriers.len().is_multiple_of(CARRIER) || limits.len() != 1 {
            return Err(BookRefusal::Lengths);
        }
        Ok(Book {
            hall,
            carriers,
            limits,
        })
    }

    /// "Asked for one kind, the reader hands back that body as a part of the
    /// lent book".
    pub fn body(&self, kind: u8) -> Result<&'a [u8], BookRefusal> {
        match kind {
            1 => Ok(self.hall),
            2 => Ok(self.carriers),
            3 => Ok(self.limits),
            _ => Err(BookRefusal::NoSuchKind),
        }
    }

    /// "Kind 1: width, height, hall bytes. Kind 2: start and goal for each
    /// carrier", and behind them its slip; kind 3: "only H" (P3).
    pub fn job(&self) -> Job {
        Job {
            width: usize::from(self.hall[0]),
            height: usize::from(self.hall[1]),
            hall: self.hall[2..].to_vec(),
            carriers: self.carriers.chunks(CARRIER).map(carrier).collect(),
            horizon: usize::from(self.limits[0]),
        }
    }
}

/// The three bodies, if each begins where the one before ended, the first right
/// behind the contents, and the last ends with the book.
fn cut<'a>(bodies: &'a [u8], entries: &[Entry]) -> Option<[&'a [u8]; ENTRIES]> {
    let mut parts: [&[u8]; ENTRIES] = [&[]; ENTRIES];
    let mut rest = bodies;
    let mut reached = FIRST_BODY;
    for (part, entry) in parts.iter_mut().zip(entries) {
        if entry.offset != reached {
            return None;
        }
        (*part, rest) = rest.split_at_checked(entry.length)?;
        reached += entry.length;
    }
    rest.is_empty().then_some(parts)
}

fn carrier(record: &[u8]) -> Carrier {
    Carrier {
        start: record[0],
        goal: record[1],
        slip: record[2],
    }
}

/// The three bodies of a book to be written.
#[derive(Clone, Debug, PartialEq, Eq)]
pub struct Bodies {
    pub hall: Vec<u8>,
    pub carriers: Vec<u8>,
    pub limits: Vec<u8>,
}

impl Bodies {
    /// The bodies that tell this job. Its numbers must fit their bytes.
    pub fn of(job: &Job) -> Self {
        let byte = |number: usize| u8::try_from(number).expect("a number of a book is a byte");
        let mut hall = vec![byte(job.width), byte(job.height)];
        hall.extend(&job.hall);
        let records = job.carriers.iter().flat_map(|c| [c.start, c.goal, c.slip]);
        Bodies {
            hall,
            carriers: records.collect(),
            limits: vec![byte(job.horizon)],
        }
    }

    /// The book with these bodies, whatever they hold.
    pub fn bind(&self) -> Vec<u8> {
        let word = |number: usize| {
            let short = u16::try_from(number).expect("a book is short");
            short.to_le_bytes()
        };
        let mut book = vec![3];
        let mut offset = FIRST_BODY;
        for (kind, body) in (1..).zip([&self.hall, &self.carriers, &self.limits]) {
            book.push(kind);
            book.extend(word(offset));
            book.extend(word(body.len()));
            offset += body.len();
        }
        for body in [&self.hall, &self.carriers, &self.limits] {
            book.extend(body);
        }
        book
    }
}

#[cfg(test)]
mod tests {
    use super::*;

    /// "the book printed in document 01 is rewritten to match" (P3).
    fn printed() -> Vec<u8> {
        let mut book = vec![3, 1, 16, 0, 11, 0, 2, 27, 0, 6, 0, 3, 33, 0, 1, 0];
        book.extend([3, 3, 46, 46, 46, 46, 46, 46, 46, 46, 46]);
        book.extend([3, 5, 0, 1, 7, 0, 4]);
        book
    }

    fn changed(at: usize, byte: u8) -> Vec<u8> {
        let mut book = printed();
        book[at] = byte;
        book
    }

    fn refused(book: &[u8]) -> Option<u8> {
        Book::read(book).err().map(BookRefusal::number)
    }

    #[test]
    fn the_printed_book_is_in_order() {
        let bytes = printed();
        let book = Book::read(&bytes).expect("in order");
        assert_eq!(book.body(1), Ok(&bytes[16..27]));
        assert_eq!(book.body(2), Ok(&bytes[27..33]));
        assert_eq!(book.body(3), Ok(&bytes[33..34]));
        assert_eq!(book.body(0), Err(BookRefusal::NoSuchKind));
        assert_eq!(book.body(4), Err(BookRefusal::NoSuchKind));
        assert_eq!(Bodies::of(&book.job()).bind(), bytes);
    }

    #[test]
    fn start_goal_and_slip_in_that_order() {
        let mut bytes = printed();
        bytes[27..33].copy_from_slice(&[3, 5, 4, 1, 7, 200]);
        let job = Book::read(&bytes).expect("in order").job();
        let carrier = |start, goal, slip| Carrier { start, goal, slip };
        assert_eq!(job.carriers, [carrier(3, 5, 4), carrier(1, 7, 200)]);
        assert_eq!(job.horizon, 4);
        assert_eq!(Bodies::of(&job).bind(), bytes);
    }

    #[test]
    fn contents_kinds_and_bodies() {
        assert_eq!(refused(&[]), Some(11));
        assert_eq!(refused(&printed()[..15]), Some(11));
        assert_eq!(refused(&changed(0, 2)), Some(11));
        for at in [1, 6, 11] {
            assert_eq!(refused(&changed(at, 9)), Some(12));
        }
        for at in [2, 3, 4, 5, 7, 8, 9, 10, 12, 13, 14, 15] {
            assert_eq!(refused(&changed(at, 77)), Some(13), "byte {at}");
        }
        assert_eq!(refused(&printed()[..16]), Some(13));
        assert_eq!(refused(&printed()[..33]), Some(13));
        let mut longer = printed();
        longer.push(0);
        assert_eq!(refused(&longer), Some(13));
    }

    #[test]
    fn lengths() {
        let lawful = Bodies {
            hall: vec![1, 1, 46],
            carriers: vec![0, 0, 0],
            limits: vec![0],
        };
        assert_eq!(refused(&lawful.bind()), None);
        for hall in [vec![], vec![1]] {
            let bodies = Bodies {
                hall,
                ..lawful.clone()
            };
            assert_eq!(refused(&bodies.bind()), Some(14));
        }
        for length in 0..13 {
            let bodies = Bodies {
                carriers: vec![0; length],
                ..lawful.clone()
            };
            let wanted = (length % 3 > 0).then_some(14);
            assert_eq!(refused(&bodies.bind()), wanted, "{length}");
        }
        for limits in [vec![], vec![0, 0], vec![0, 0, 0]] {
            let bodies = Bodies {
                limits,
                ..lawful.clone()
            };
            assert_eq!(refused(&bodies.bind()), Some(14));
        }
    }
}
