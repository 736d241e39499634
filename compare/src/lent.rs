//! What is lent to the library, full of anything where it is written, and what
//! document 01 says that it holds afterwards.

use second::damage;
use second::job::Job;
use second::planner::PlanAnswer;
use second::random::Random;
use second::tables::{Lengths, least_lengths};

use crate::library::Piece;
use crate::process::number_bytes;

/// How many bytes a carrier's record and an entry of the record columns and of
/// a told array have.
const CARRIER: usize = 3;
const COLUMN: usize = 2;
const TOLD: usize = 8;

pub fn any_bytes(random: &mut Random, length: usize) -> Vec<u8> {
    (0..length).map(|_| random.byte()).collect()
}

/// Bytes that the library reads.
pub fn lent_bytes(name: &'static str, bytes: &[u8]) -> Piece {
    Piece {
        name,
        entry_size: 1,
        bytes: bytes.to_vec(),
    }
}

/// The hall, and a record of start, goal and slip for each carrier.
pub fn lent_job(job: &Job) -> Vec<Piece> {
    let records = job.carriers.iter().flat_map(|c| [c.start, c.goal, c.slip]);
    let carriers = Piece {
        name: "carriers",
        entry_size: CARRIER,
        bytes: records.collect(),
    };
    vec![lent_bytes("hall", &job.hall), carriers]
}

/// An array for told values, with up to three entries too many or, now and
/// then, with too few.
pub fn told(random: &mut Random, values: usize) -> Piece {
    let entries = if random.chance(15) {
        random.below(values)
    } else {
        values + random.below(4)
    };
    Piece {
        name: "told",
        entry_size: TOLD,
        bytes: any_bytes(random, TOLD * entries),
    }
}

/// The array afterwards: "its first ... entries become ...; with fewer it is left
/// as it was".
pub fn telling(told: &Piece, values: &[usize]) -> Piece {
    let mut after = told.clone();
    let bytes: Vec<u8> = values.iter().copied().flat_map(number_bytes).collect();
    if let Some(first) = after.bytes.get_mut(..bytes.len()) {
        first.copy_from_slice(&bytes);
    }
    after
}

/// The four tables that the planner is lent.
pub struct Tables([Piece; 4]);

impl Tables {
    fn new(random: &mut Random, lengths: Lengths) -> Self {
        let [columns, plans, layers, output] = lengths;
        let mut table = |name, entry_size, entries| Piece {
            name,
            entry_size,
            bytes: any_bytes(random, entry_size * entries),
        };
        Tables([
            table("columns", COLUMN, columns),
            table("plans", 1, plans),
            table("layers", 1, layers),
            table("output", 1, output),
        ])
    }

    /// Tables that suffice, with or without entries behind the least lengths.
    /// For a job that is refused they are any: their lengths decide nothing.
    pub fn enough(random: &mut Random, job: &Job, n: usize) -> Self {
        let lengths = lengths_for(random, job, n);
        Tables::new(random, lengths)
    }

    /// Tables of which, now and then, one is too short, or two or three are.
    pub fn now_and_then_short(random: &mut Random, job: &Job, n: usize) -> Self {
        let mut lengths = lengths_for(random, job, n);
        if random.chance(12) && job.refusal(Some(n)).is_none() {
            damage::shorten(random, &mut lengths, least_lengths(job, n));
        }
        Tables::new(random, lengths)
    }

    /// How many entries each has.
    pub fn lengths(&self) -> Lengths {
        self.0.each_ref().map(Piece::entries)
    }

    /// "After 1 to 7", and so after 16, "no lent entry has changed. After 0, 8
    /// and 9 the named least lengths of the first three tables", of the layers the
    /// one that P2 names, "are all zero and the rest unchanged. Output changes only
    /// for 0: carrier by carrier, its cells for steps 0 to H, the rest unchanged."
    pub fn after(&self, answer: &PlanAnswer, job: &Job, n: usize) -> Vec<Piece> {
        let mut tables = self.0.clone();
        if [0, 8, 9].contains(&answer.number) {
            for (table, least) in tables.iter_mut().zip(least_lengths(job, n)).take(3) {
                table.bytes[..table.entry_size * least].fill(0);
            }
        }
        let plan = answer.plan_bytes();
        tables[3].bytes[..plan.len()].copy_from_slice(&plan);
        tables.into()
    }

    pub fn pieces(self) -> [Piece; 4] {
        self.0
    }
}

/// A table's length for a job that is refused lies below this.
const ANY_LENGTH: usize = 64;

fn lengths_for(random: &mut Random, job: &Job, n: usize) -> Lengths {
    let least = match job.refusal(Some(n)) {
        None => least_lengths(job, n),
        Some(_) => [(); 4].map(|()| random.below(ANY_LENGTH)),
    };
    least.map(|least| least + random.pick(&[0, 0, 1, 2, 17]))
}

#[cfg(test)]
mod tests {
    use super::*;
    use second::generate;
    use second::tables::first_short;

    #[test]
    fn one_two_or_three_tables_are_short_and_each_may_be_the_first() {
        let mut random = Random::new(20);
        let (mut short, mut first) = ([0; 5], [0; 4]);
        for _ in 0..2000 {
            let job = generate::small(&mut random);
            let tables = Tables::now_and_then_short(&mut random, &job, 3);
            let (lengths, least) = (tables.lengths(), least_lengths(&job, 3));
            let both = lengths.into_iter().zip(least);
            short[both.filter(|(has, least)| has < least).count()] += 1;
            if let Some(told) = first_short(lengths, least) {
                first[told.table] += 1;
            }
        }
        assert!(short[..4].iter().all(|count| *count > 30), "{short:?}");
        assert!(first.iter().all(|count| *count > 10), "{first:?}");
    }

    /// P2: "The layers table needs twice its length."
    #[test]
    fn all_of_the_twofold_length_of_the_layers_becomes_zero() {
        let job = generate::small(&mut Random::new(23));
        let least = least_lengths(&job, 3);
        assert_eq!(least[2], 2 * (job.horizon + 1) * job.width * job.height);
        let mut tables = Tables::new(&mut Random::new(24), least.map(|least| least + 2));
        tables.0.iter_mut().for_each(|table| table.bytes.fill(7));
        let used_up = PlanAnswer {
            number: 8,
            ..PlanAnswer::default()
        };
        let layers = &tables.after(&used_up, &job, 3)[2].bytes;
        let (named, behind) = layers.split_at(least[2]);
        assert!(named.iter().all(|byte| *byte == 0));
        assert_eq!(behind, [7, 7]);
    }

    #[test]
    fn a_carrier_is_an_entry_of_start_goal_and_slip() {
        let job = generate::small(&mut Random::new(25));
        let carriers = &lent_job(&job)[1];
        assert_eq!(carriers.entries(), job.carriers.len());
        let first = job.carriers[0];
        assert_eq!(carriers.bytes[..3], [first.start, first.goal, first.slip]);
    }

    #[test]
    fn the_columns_are_counted_in_entries_of_two_bytes() {
        let job = generate::small(&mut Random::new(21));
        let mut tables = Tables::new(&mut Random::new(22), least_lengths(&job, 3));
        assert_eq!(tables.lengths(), least_lengths(&job, 3));
        tables.0[0].bytes.truncate(8 * 3);
        assert_eq!(tables.lengths()[0], 4 * 3);
    }
}
