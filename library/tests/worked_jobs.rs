//! Document 01's jobs worked by hand, two for document 02's P2 and four for its P3, refusals, and the printed book, through the linked
//! library.

use adfulmise::{
    Carrier, Fault, Job, Kind, Table, Tables, Told, body, check_meetings, check_routes, plan,
};

const OPEN: [u8; 256] = [46; 256];

/// Carriers with these starts and goals, all of one slip.
fn carriers(ends: &[(u8, u8)], slip: u8) -> Vec<Carrier> {
    ends.iter()
        .map(|&(start, goal)| Carrier { start, goal, slip })
        .collect()
}

/// Carriers with these starts, goals and slips.
fn own_slips(records: &[(u8, u8, u8)]) -> Vec<Carrier> {
    records
        .iter()
        .map(|&(start, goal, slip)| Carrier { start, goal, slip })
        .collect()
}

fn job<'a>(width: usize, height: usize, carriers: &'a [Carrier], h: usize) -> Job<'a> {
    Job {
        hall: &OPEN[..width * height],
        width,
        height,
        carriers,
        h,
    }
}

fn counted(number: usize, sum: usize, records: usize) -> Told {
    Told {
        number,
        sum,
        records,
        ..Told::default()
    }
}

/// Plans with N records, and sees that a plan passes both checks and that the tables are left zero.
fn planned(job: &Job, n: usize) -> (Told, Vec<u8>) {
    let mut tables = Tables::for_records(n);
    let told = plan(job, n, &mut tables);
    let output = tables.output[..job.plan_len()].to_vec();
    if told.number == 0 {
        assert_eq!(check_routes(job, &output), Fault::default());
        assert_eq!(check_meetings(job, &output), Fault::default());
    }
    assert!(tables.columns.iter().all(|&entry| entry == 0));
    assert!(tables.plans.iter().all(|&byte| byte == 0));
    assert!(tables.layers.iter().all(|&byte| byte == 0));
    (told, output)
}

#[test]
fn crossing_in_three_by_three() {
    let ends = [(3, 5), (1, 7)];
    let prompt = carriers(&ends, 0);
    let crossing = job(3, 3, &prompt, 4);
    assert_eq!(
        planned(&crossing, 3),
        (counted(0, 5, 3), vec![3, 3, 4, 5, 5, 1, 4, 7, 7, 7])
    );
    assert_eq!(planned(&crossing, 2).0, counted(9, 0, 2));
    assert_eq!(
        planned(&job(3, 3, &carriers(&ends, 1), 4), 3),
        (counted(0, 6, 3), vec![3, 3, 3, 4, 5, 1, 4, 7, 7, 7])
    );
}

/// A carrier that must lose steps stands rather than wanders.
#[test]
fn standing() {
    let late = carriers(&[(4, 7), (1, 13)], 2);
    let first = [4, 4, 4, 4, 5, 6, 7, 7, 7, 7, 7];
    let second = [1, 5, 9, 13, 13, 13, 13, 13, 13, 13, 13];
    assert_eq!(
        planned(&job(4, 4, &late, 10), 128),
        (counted(0, 9, 9), [first, second].concat())
    );
    let late = carriers(&[(5, 9), (2, 12)], 2);
    let first = [5, 5, 5, 6, 7, 8, 9, 9, 9, 9, 9];
    let second = [2, 7, 12, 12, 12, 12, 12, 12, 12, 12, 12];
    assert_eq!(
        planned(&job(5, 3, &late, 10), 128),
        (counted(0, 8, 5), [first, second].concat())
    );
}

/// Two against each other in a hall of 4 by 2, of which the one that slips keeps its way; and the same two in a row.
#[test]
fn one_slips() {
    let second_slips = own_slips(&[(0, 3, 0), (3, 0, 1)]);
    let first = [0, 1, 5, 6, 2, 3, 3, 3, 3];
    let second = [3, 2, 1, 0, 0, 0, 0, 0, 0];
    assert_eq!(
        planned(&job(4, 2, &second_slips, 8), 128),
        (counted(0, 8, 9), [first, second].concat())
    );
    let first_slips = own_slips(&[(0, 3, 1), (3, 0, 0)]);
    let first = [0, 1, 2, 3, 3, 3, 3, 3, 3];
    let second = [3, 2, 6, 5, 1, 0, 0, 0, 0];
    assert_eq!(
        planned(&job(4, 2, &first_slips, 8), 128),
        (counted(0, 8, 11), [first, second].concat())
    );
    let in_a_row = own_slips(&[(0, 2, 0), (2, 0, 1)]);
    assert_eq!(planned(&job(3, 1, &in_a_row, 6), 128).0, counted(8, 0, 38));
}

#[test]
fn three_slips() {
    let three = own_slips(&[(3, 5, 2), (1, 7, 0), (8, 0, 1)]);
    let first = [3, 3, 4, 5, 5, 5, 5, 5, 5, 5, 5];
    let second = [1, 4, 7, 7, 7, 7, 7, 7, 7, 7, 7];
    let third = [8, 5, 2, 1, 0, 0, 0, 0, 0, 0, 0];
    assert_eq!(
        planned(&job(3, 3, &three, 10), 128),
        (counted(0, 9, 3), [first, second, third].concat())
    );
}

#[test]
fn one_carrier_in_a_row() {
    let one = carriers(&[(0, 2)], 0);
    assert_eq!(
        planned(&job(3, 1, &one, 2), 128),
        (counted(0, 2, 1), vec![0, 1, 2])
    );
    assert_eq!(planned(&job(3, 1, &one, 1), 128).0, counted(8, 0, 0));
}

#[test]
fn two_that_cannot_pass() {
    assert_eq!(
        planned(&job(3, 1, &carriers(&[(0, 2), (2, 0)], 0), 2), 128).0,
        counted(8, 0, 1)
    );
    assert_eq!(
        planned(&job(2, 1, &carriers(&[(0, 1), (1, 0)], 0), 1), 128).0,
        counted(8, 0, 1)
    );
}

#[test]
fn one_cell() {
    assert_eq!(
        planned(&job(1, 1, &carriers(&[(0, 0)], 0), 0), 128),
        (counted(0, 0, 1), vec![0])
    );
}

#[test]
fn one_behind_the_other() {
    let ends = [(0, 1), (1, 2)];
    assert_eq!(
        planned(&job(3, 1, &carriers(&ends, 0), 1), 128),
        (counted(0, 2, 1), vec![0, 1, 1, 2])
    );
    let late = carriers(&ends, 1);
    assert_eq!(planned(&job(3, 1, &late, 1), 128).0, counted(8, 0, 1));
    assert_eq!(
        planned(&job(3, 1, &late, 2), 128),
        (counted(0, 3, 2), vec![0, 0, 1, 1, 2, 2])
    );
}

#[test]
fn a_goal_that_is_crossed_later() {
    assert_eq!(
        planned(&job(4, 2, &carriers(&[(6, 2), (0, 3)], 0), 3), 128)
            .0
            .sum,
        6
    );
}

#[test]
fn refusals() {
    let two = carriers(&[(0, 1), (1, 2)], 0);
    let good = job(3, 1, &two, 2);
    let number = |job: &Job, n: usize| planned(job, n).0;
    assert_eq!(number(&Job { width: 17, ..good }, 8), counted(1, 0, 0));
    assert_eq!(
        number(
            &Job {
                hall: &OPEN[..2],
                ..good
            },
            8
        ),
        counted(2, 0, 0)
    );
    assert_eq!(number(&Job { h: 64, ..good }, 8), counted(3, 0, 0));
    assert_eq!(number(&good, 1025), counted(3, 0, 0));
    assert_eq!(
        number(
            &Job {
                carriers: &[],
                ..good
            },
            8
        ),
        counted(4, 0, 0)
    );
    let nine = carriers(&[(0, 1); 9], 5);
    assert_eq!(
        number(
            &Job {
                carriers: &nine,
                ..good
            },
            8
        ),
        counted(4, 0, 0)
    );
}

/// The first carrier of which the start, the goal or the slip is wrong, as the planner and both checks tell it.
#[test]
fn a_wrong_carrier() {
    let see = |records: &[(u8, u8, u8)], carrier| {
        let carriers = own_slips(records);
        let row = job(3, 1, &carriers, 2);
        let told = Told {
            number: 5,
            carrier,
            ..Told::default()
        };
        let fault = Fault {
            number: 5,
            carrier,
            ..Fault::default()
        };
        assert_eq!(planned(&row, 8).0, told);
        assert_eq!(check_routes(&row, &[]), fault);
        assert_eq!(check_meetings(&row, &[]), fault);
    };
    see(&[(0, 1, 0), (1, 3, 0)], 1);
    see(&[(0, 1, 5), (1, 2, 0)], 0);
    see(&[(0, 1, 4), (1, 2, 5)], 1);
    see(&[(0, 1, 4), (1, 2, 255)], 1);
    see(&[(0, 1, 5), (3, 2, 0)], 0);
    see(&[(0, 1, 0), (1, 3, 0), (2, 0, 5)], 1);
    see(&[(0, 1, 0), (0, 1, 5)], 1);
}

/// Tables of these lengths, full of sevens: columns, plans, layers, output.
fn lent([columns, plans, layers, output]: [usize; 4]) -> Tables {
    Tables {
        columns: vec![7; columns],
        plans: vec![7; plans],
        layers: vec![7; layers],
        output: vec![7; output],
    }
}

/// Sees that the planner and both checks tell this number and this pair of carriers in a row of sixteen cells, though the tables and
/// the plan are empty.
fn see_shared(ends: &[(u8, u8)], (number, carrier, other): (usize, usize, usize)) {
    let carriers = carriers(ends, 0);
    let row = job(16, 1, &carriers, 15);
    let told = Told {
        number,
        carrier,
        other,
        ..Told::default()
    };
    let fault = Fault {
        number,
        carrier,
        other,
        ..Fault::default()
    };
    assert_eq!(plan(&row, 128, &mut lent([0; 4])), told);
    assert_eq!(check_routes(&row, &[]), fault);
    assert_eq!(check_meetings(&row, &[]), fault);
}

#[test]
fn a_shared_start() {
    see_shared(&[(0, 1), (0, 2)], (6, 0, 1));
    see_shared(&[(0, 1), (1, 2), (2, 3), (1, 4)], (6, 1, 3));
    let three = [(0, 1), (1, 2), (2, 3), (2, 4), (1, 5), (1, 6)];
    see_shared(&three, (6, 1, 4));
}

#[test]
fn a_shared_goal() {
    see_shared(&[(0, 1), (2, 1)], (16, 0, 1));
    see_shared(&[(0, 1), (1, 2), (2, 3), (4, 2)], (16, 1, 3));
    let three = [(0, 1), (1, 2), (2, 3), (4, 3), (5, 2), (6, 2)];
    see_shared(&three, (16, 1, 4));
}

/// The start decides, whichever pair comes first.
#[test]
fn a_shared_start_beside_a_shared_goal() {
    see_shared(&[(0, 1), (0, 1)], (6, 0, 1));
    see_shared(&[(0, 1), (2, 1), (0, 3)], (6, 0, 2));
    let starts = [0, 1, 2, 3, 4, 5, 6, 6];
    let goals = [8, 8, 9, 10, 11, 12, 13, 14];
    let eight: Vec<(u8, u8)> = starts.into_iter().zip(goals).collect();
    see_shared(&eight, (6, 6, 7));
}

#[test]
fn a_goal_that_is_anothers_start() {
    let two = carriers(&[(0, 1), (1, 2)], 0);
    assert_eq!(
        planned(&job(3, 1, &two, 2), 8),
        (counted(0, 2, 1), vec![0, 1, 1, 1, 2, 2])
    );
}

/// Every choice of tables that lack one entry, from one alone to all four.
#[test]
fn short_tables() {
    let two = carriers(&[(0, 1), (1, 2)], 0);
    let row = job(3, 1, &two, 2);
    let needed = [64, 48, 18, 6];
    let names = [Table::Columns, Table::Plans, Table::Layers, Table::Output];
    let enough = plan(&row, 8, &mut lent(needed));
    assert_eq!(enough, counted(0, 2, 1));
    assert_eq!(enough.short_table(), None);
    for short in 1..16_usize {
        let first = short.trailing_zeros() as usize;
        let before = lent([0, 1, 2, 3].map(|table| needed[table] - (short >> table & 1)));
        let mut tables = before.clone();
        let told = plan(&row, 8, &mut tables);
        let wanted = Told {
            number: 7,
            table: first,
            needed: needed[first],
            ..Told::default()
        };
        assert_eq!(told, wanted);
        assert_eq!(told.short_table(), Some(names[first]));
        assert_eq!(tables, before);
    }
}

/// As many carriers as a job may have, each one cell to the right: their records read one after the other are the plan.
#[test]
fn eight_records() {
    let ends: Vec<(u8, u8)> = (0..8).map(|i| (2 * i, 2 * i + 1)).collect();
    let told = planned(&job(16, 1, &carriers(&ends, 4), 1), 8);
    assert_eq!(told.0, counted(0, 8, 1));
    let wanted: Vec<u8> = (0..16).collect();
    assert_eq!(told.1, wanted);
}

#[test]
fn faults_of_a_plan() {
    let late = carriers(&[(0, 1), (1, 2)], 1);
    let row = job(3, 1, &late, 2);
    let wrong = Fault {
        number: 21,
        carrier: 1,
        step: 2,
        ..Fault::default()
    };
    assert_eq!(check_routes(&row, &[0, 0, 1, 1, 1, 1]), wrong);
    let meeting = Fault {
        number: 22,
        carrier: 1,
        other: 0,
        distance: 1,
        ..Fault::default()
    };
    assert_eq!(check_meetings(&row, &[0, 1, 1, 1, 2, 2]), meeting);
    let swap = Fault {
        number: 22,
        other: 1,
        is_swap: true,
        ..Fault::default()
    };
    let across = carriers(&[(0, 1), (1, 0)], 0);
    assert_eq!(check_meetings(&job(2, 1, &across, 1), &[0, 1, 1, 0]), swap);
}

/// The meeting check on these bytes, for carriers that have these slips in a row of sixteen cells.
fn met(slips: &[u8], plan: &[u8]) -> Fault {
    let records: Vec<(u8, u8, u8)> = (0..).zip(slips).map(|(i, &slip)| (i, i, slip)).collect();
    let h = plan.len() / slips.len() - 1;
    check_meetings(&job(16, 1, &own_slips(&records), h), plan)
}

/// A meeting of these two, at this step and distance.
fn meeting([carrier, other, step, distance]: [usize; 4]) -> Fault {
    Fault {
        number: 22,
        carrier,
        other,
        step,
        distance,
        ..Fault::default()
    }
}

/// Two are apart as far as the earlier of them slips, whatever the other's slip and a third one's.
#[test]
fn the_earlier_slips() {
    let behind = [0, 1, 1, 2];
    assert_eq!(met(&[1, 0], &behind), Fault::default());
    assert_eq!(met(&[0, 1], &behind), meeting([1, 0, 0, 1]));
    let ahead = [1, 2, 0, 1];
    assert_eq!(met(&[0, 1], &ahead), Fault::default());
    assert_eq!(met(&[1, 0], &ahead), meeting([0, 1, 0, 1]));

    let late = [[0, 1, 2, 3, 4], [9, 8, 7, 6, 0], [11, 12, 13, 14, 15]].concat();
    assert_eq!(met(&[4, 0, 0], &late), meeting([0, 1, 0, 4]));
    assert_eq!(met(&[3, 4, 4], &late), Fault::default());
    let late = [[11, 12, 13, 14, 15], [9, 8, 7, 6, 0], [0, 1, 2, 3, 4]].concat();
    assert_eq!(met(&[0, 0, 4], &late), meeting([2, 1, 0, 4]));
    assert_eq!(met(&[4, 4, 3], &late), Fault::default());
}

/// An exchange is a swap only where neither slips; otherwise one that slips is met where it was.
#[test]
fn an_exchange() {
    let across = [0, 1, 1, 0];
    let swap = Fault {
        is_swap: true,
        ..meeting([0, 1, 0, 0])
    };
    assert_eq!(met(&[0, 0], &across), swap);
    assert_eq!(met(&[1, 0], &across), meeting([0, 1, 0, 1]));
    assert_eq!(met(&[0, 1], &across), meeting([1, 0, 0, 1]));
    assert_eq!(met(&[1, 1], &across), meeting([0, 1, 0, 1]));
}

/// Least step, then least distance, then the earlier carrier's number, then the other's; a swap behind the meetings at its step.
#[test]
fn the_meeting_chosen() {
    let earlier_number = [0, 4, 8, 9, 4, 5, 12, 8];
    assert_eq!(met(&[0, 1, 1, 0], &earlier_number), meeting([1, 3, 0, 1]));
    let other_number = [8, 9, 0, 4, 1, 8, 2, 8];
    assert_eq!(met(&[1, 0, 0, 0], &other_number), meeting([0, 2, 0, 1]));
    let step_before_distance = [[0, 5, 6], [5, 4, 0], [9, 10, 6]].concat();
    let early = meeting([0, 1, 0, 2]);
    assert_eq!(met(&[2, 0, 0], &step_before_distance), early);
    let distance_before_number = [[0, 1, 2], [5, 6, 0], [9, 10, 11], [12, 9, 13]].concat();
    let near = meeting([2, 3, 0, 1]);
    assert_eq!(met(&[2, 0, 1, 0], &distance_before_number), near);
    let swap_and_meeting = [0, 1, 1, 0, 5, 6, 7, 5];
    assert_eq!(met(&[0, 0, 1, 0], &swap_and_meeting), meeting([2, 3, 0, 1]));
    let swap_before_meeting = [[0, 1, 2], [1, 0, 3], [5, 6, 7], [8, 9, 6]].concat();
    let swap = Fault {
        is_swap: true,
        ..meeting([0, 1, 0, 0])
    };
    assert_eq!(met(&[0, 0, 1, 0], &swap_before_meeting), swap);
}

#[test]
fn a_plan_cut_short() {
    let late = carriers(&[(0, 1), (1, 2)], 1);
    let row = job(3, 1, &late, 2);
    let whole = [0, 0, 1, 1, 2, 2];
    let short = Fault {
        number: 7,
        needed: 6,
        ..Fault::default()
    };
    for check in [check_routes, check_meetings] {
        assert_eq!(check(&row, &whole), Fault::default());
        for length in 0..whole.len() {
            assert_eq!(check(&row, &whole[..length]), short);
        }
    }
}

#[test]
fn the_printed_book() {
    let mut book = vec![3, 1, 16, 0, 11, 0, 2, 27, 0, 6, 0, 3, 33, 0, 1, 0, 3, 3];
    book.extend([46; 9]);
    book.extend([3, 5, 0, 1, 7, 0, 4]);
    assert_eq!(body(&book, Kind::Hall), Ok(16..27));
    assert_eq!(body(&book, Kind::Carriers), Ok(27..33));
    assert_eq!(body(&book, Kind::Limits), Ok(33..34));
    assert_eq!(body(&book[..33], Kind::Limits), Err(13));
    assert_eq!(body(&[], Kind::Hall), Err(11));
}
