//! Rule 5 as P3 has it, by its words: loops over the smaller step and the distance,
//! left at the first meeting or swap. The distance runs as far as the routes do:
//! only the sentence about u − t says who meets.

use crate::brute::slips::{P3, SlipRules};

/// (earlier carrier, other, e, distance, whether it is a swap).
pub type Told = (usize, usize, usize, usize, bool);

/// The first meeting or swap in P3's order, of carriers with these slips.
pub fn first_meeting(routes: &[&[u8]], slips: &[usize]) -> Option<Told> {
    first_meeting_by(&P3, routes, slips)
}

/// The same by these rules, whatever they are.
pub fn first_meeting_by(rules: &SlipRules, routes: &[&[u8]], slips: &[usize]) -> Option<Told> {
    let steps = routes[0].len();
    for e in 0..steps {
        for distance in 0..steps - e {
            if let Some((earlier, other)) = pair_at(rules, routes, slips, e, distance) {
                return Some((earlier, other, e, distance, false));
            }
        }
        if let Some((i, j)) = swap_at(rules, routes, slips, e) {
            return Some((i, j, e, 0, true));
        }
    }
    None
}

/// The first earlier and other that meet with this smaller step and this distance.
fn pair_at(
    rules: &SlipRules,
    routes: &[&[u8]],
    slips: &[usize],
    e: usize,
    distance: usize,
) -> Option<(usize, usize)> {
    let mut pairs = Vec::new();
    for i in 0..routes.len() {
        for j in i + 1..routes.len() {
            for (t, u) in [(e, e + distance), (e + distance, e)] {
                if routes[i][t] == routes[j][u] && (rules.meet)(slips, (i, t), (j, u)) {
                    pairs.push(if t <= u { (i, j) } else { (j, i) });
                }
            }
        }
    }
    let first = |pair: &(usize, usize)| (rules.rank)(pair.0, pair.1);
    pairs.into_iter().min_by_key(first)
}

/// "among swaps least i, then least j, with i < j".
fn swap_at(
    rules: &SlipRules,
    routes: &[&[u8]],
    slips: &[usize],
    t: usize,
) -> Option<(usize, usize)> {
    for i in 0..routes.len() {
        for j in i + 1..routes.len() {
            let (one, two) = (routes[i].get(t..t + 2)?, routes[j].get(t..t + 2)?);
            if [one[0], one[1]] == [two[1], two[0]] && (rules.swap)(slips, i, j) {
                return Some((i, j));
            }
        }
    }
    None
}
