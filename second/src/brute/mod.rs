//! Slow answers for small jobs, by trying everything. Nothing here uses the
//! floor, route, meeting, tree or check modules: only the job and the words of a
//! bar.

pub mod holds;
pub mod least_sum;
pub mod loops;
pub mod refusals;
pub mod slips;
pub mod tree_by_words;
pub mod walks;
pub mod wrong_slips;
pub mod wrong_turns;
