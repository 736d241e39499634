//! One call of a library function, compared with the second program: the number
//! given back and every byte that was lent, what is only read included.

use std::fmt::Debug;

use second::book::{Book, BookRefusal, FIRST_BODY};
use second::check::{self, CheckAnswer};
use second::job::Job;
use second::planner::{self, PlanAnswer};
use second::random::Random;

use crate::counts::Counts;
use crate::lent::{Tables, lent_bytes, lent_job, telling, told};
use crate::library::{self, Call, Function, Piece, Reply};
use crate::process::Process;

/// What differs, in words.
pub type Trial<T> = Result<T, String>;

/// What all trials share: the numbers still to be drawn, the library, and what
/// it gave back so far.
pub struct Comparer {
    pub random: Random,
    pub server: Process,
    pub counts: Counts,
}

impl Comparer {
    /// The planner with these tables.
    pub fn plan(&mut self, job: &Job, n: usize, tables: Tables) -> Trial<PlanAnswer> {
        let answer = planner::plan_lent(job, n, tables.lengths());
        let values = answer.told();
        let numbers = vec![job.width, job.height, job.horizon, n];
        let mut call = self.drawn_call(Function::Plan, numbers, Some(job));
        let mut pieces = call.pieces.clone();
        pieces.extend(tables.after(&answer, job, n));
        call.pieces.extend(tables.pieces());
        let number = self.compare(call, pieces, &values, values[0])?;
        self.counts.plan.add(number);
        Ok(answer)
    }

    /// Both checks of a plan.
    pub fn checks(&mut self, job: &Job, plan: &[u8]) -> Trial<()> {
        let wanted = check::route_check(job, plan);
        let number = self.check(Function::CheckRoutes, job, plan, wanted);
        let number = number.map_err(|why| format!("route check: {why}"))?;
        self.counts.routes.add(number);
        let wanted = check::meeting_check(job, plan);
        let number = self.check(Function::CheckMeetings, job, plan, wanted);
        let number = number.map_err(|why| format!("meeting check: {why}"))?;
        self.counts.meetings.add(number);
        Ok(())
    }

    fn check(
        &mut self,
        function: Function,
        job: &Job,
        plan: &[u8],
        answer: CheckAnswer,
    ) -> Trial<usize> {
        let values = answer.told();
        let numbers = vec![job.width, job.height, job.horizon];
        let mut call = self.drawn_call(function, numbers, Some(job));
        call.pieces.push(lent_bytes("plan", plan));
        let pieces = call.pieces.clone();
        self.compare(call, pieces, &values, values[0])
    }

    /// The reader, asked for one kind of body.
    pub fn read(&mut self, book: &[u8], kind: u8) -> Trial<()> {
        let (number, values) = match place(book, kind) {
            Ok(place) => (0, place),
            Err(refusal) => (usize::from(refusal.number()), [0, 0]),
        };
        let mut call = self.drawn_call(Function::Read, vec![usize::from(kind)], None);
        call.pieces.push(lent_bytes("book", book));
        let pieces = call.pieces.clone();
        let number = self.compare(call, pieces, &values, number)?;
        self.counts.read.add(number);
        Ok(())
    }

    /// A call of the function that is lent the job's bytes, if it takes a job.
    fn drawn_call(&mut self, function: Function, numbers: Vec<usize>, job: Option<&Job>) -> Call {
        Call {
            function,
            numbers,
            pieces: job.map_or_else(Vec::new, lent_job),
            at_start: self.random.chance(50),
        }
    }

    /// Makes the call with an array for what is told behind its pieces. They
    /// must then be as wanted, the values told, and the number given back.
    fn compare(
        &mut self,
        mut call: Call,
        mut wanted: Vec<Piece>,
        values: &[usize],
        number: usize,
    ) -> Trial<usize> {
        let told = told(&mut self.random, values.len());
        wanted.push(telling(&told, values));
        call.pieces.push(told);
        let reply = library::call(&mut self.server, call);
        let reply = reply.map_err(|error| format!("the library's server: {error}"))?;
        same_reply(&reply, number, &wanted)?;
        Ok(reply.number)
    }
}

/// Offset and length of the body: "Bodies follow without gaps from byte 16".
fn place(bytes: &[u8], kind: u8) -> Result<[usize; 2], BookRefusal> {
    let book = Book::read(bytes)?;
    let length = book.body(kind)?.len();
    let before = (1..kind).map(|kind| book.body(kind).map_or(0, <[u8]>::len));
    Ok([FIRST_BODY + before.sum::<usize>(), length])
}

fn same_reply(reply: &Reply, number: usize, wanted: &[Piece]) -> Trial<()> {
    same("number", reply.number, number)?;
    for (piece, wanted) in reply.pieces.iter().zip(wanted) {
        same_entries(piece, wanted)?;
    }
    Ok(())
}

/// Tables are long: only the first entry that differs is told.
fn same_entries(library: &Piece, second: &Piece) -> Trial<()> {
    let library_entries = library.bytes.chunks(library.entry_size);
    let second_entries = second.bytes.chunks(second.entry_size);
    let mut both = library_entries.zip(second_entries).enumerate();
    match both.find(|(_, (library, second))| library != second) {
        None => Ok(()),
        Some((at, (one, two))) => same(&format!("{}, entry {at}", library.name), one, two),
    }
}

fn same<T: PartialEq + Debug>(what: &str, library: T, second: T) -> Trial<()> {
    if library == second {
        return Ok(());
    }
    Err(format!("{what}: library {library:?}, second {second:?}"))
}
