//! The record columns and the bars that bind a node: "in that node's record or
//! in the record of one of its ancestors".

use std::iter;

use crate::task::COLUMNS;

/// "the capacity N (1 to 1,024 records)".
pub const MOST_RECORDS: usize = 1024;

const PARENT: usize = 0;
const KIND: usize = 1;
const CARRIER: usize = 2;
const NUMBERS: [usize; 3] = [3, 4, 5];

const STAY: u16 = 1;
const CROSSING: u16 = 2;

/// "may not be on a cell from step a to step b, or may not go from one cell to
/// another between t and t + 1".
#[derive(Clone, Copy, Debug)]
pub enum Bar {
    Stay {
        cell: usize,
        first: usize,
        last: usize,
    },
    Crossing {
        from: usize,
        to: usize,
        step: usize,
    },
}

/// Writes what a node's record says of its parent and its bar.
pub fn write_record(
    columns: &mut [u16],
    capacity: usize,
    node: usize,
    parent: usize,
    carrier: usize,
    bar: Bar,
) {
    let (kind, numbers) = match bar {
        Bar::Stay { cell, first, last } => (STAY, [cell, first, last]),
        Bar::Crossing { from, to, step } => (CROSSING, [from, to, step]),
    };
    columns[PARENT * capacity + node] = parent as u16;
    columns[KIND * capacity + node] = kind;
    columns[CARRIER * capacity + node] = carrier as u16;
    for (column, number) in NUMBERS.into_iter().zip(numbers) {
        columns[column * capacity + node] = number as u16;
    }
}

/// The root's record: no bar, and no parent.
pub fn write_root(columns: &mut [u16], capacity: usize) {
    columns[PARENT * capacity] = 0;
    columns[KIND * capacity] = 0;
}

/// The bars that bind a carrier at a node, its own first, the root's last.
pub fn bars_of(
    columns: &[u16],
    capacity: usize,
    node: usize,
    carrier: usize,
) -> impl Iterator<Item = Bar> {
    chain_of(columns, capacity, node)
        .filter(move |&node| usize::from(columns[CARRIER * capacity + node]) == carrier)
        .filter_map(move |node| bar_at(columns, capacity, node))
}

/// A node and its ancestors.
pub fn chain_of(columns: &[u16], capacity: usize, node: usize) -> impl Iterator<Item = usize> {
    let parent = move |&node: &usize| usize::from(columns[PARENT * capacity + node]);
    iter::successors(Some(node), move |node| (*node != 0).then(|| parent(node)))
}

/// Do the columns hold the node, with parents of smaller numbers up to the root?
pub fn chain_falls(columns: &[u16], capacity: usize, node: usize) -> bool {
    let held = capacity <= MOST_RECORDS && COLUMNS * capacity <= columns.len() && node < capacity;
    held && chain_of(columns, capacity, node)
        .take_while(|&node| node != 0)
        .all(|node| usize::from(columns[PARENT * capacity + node]) < node)
}

#[inline]
fn bar_at(columns: &[u16], capacity: usize, node: usize) -> Option<Bar> {
    let [one, two, three] = NUMBERS.map(|column| usize::from(columns[column * capacity + node]));
    match columns[KIND * capacity + node] {
        STAY => Some(Bar::Stay {
            cell: one,
            first: two,
            last: three,
        }),
        CROSSING => Some(Bar::Crossing {
            from: one,
            to: two,
            step: three,
        }),
        _ => None,
    }
}
