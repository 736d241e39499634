//! P3's sentences about two carriers and their slips. They stand together, so that
//! the loops and the tree by words can also be run with wrong ones.

/// A carrier's number and a step of its route.
pub type At = (usize, usize);

/// What is said of two carriers. `slips` are those of all carriers.
pub struct SlipRules {
    pub name: &'static str,
    /// Whether the two, both being on one cell, meet.
    pub meet: fn(slips: &[usize], At, At) -> bool,
    /// Whether an exchange of their cells counts.
    pub swap: fn(slips: &[usize], usize, usize) -> bool,
    /// Of the earlier and the other: among meetings of one step and one distance
    /// the least comes first.
    pub rank: fn(usize, usize) -> (usize, usize),
    /// Of the earlier and the other: who is barred in child one and in child two,
    /// each with the one it meets.
    pub children: fn(usize, usize) -> [(usize, usize); 2],
    /// How many steps behind e the bar ends, for the barred one and the one it
    /// meets.
    pub bar_length: fn(slips: &[usize], usize, usize) -> usize,
}

/// P3 by its words.
pub const P3: SlipRules = SlipRules {
    name: "P3",
    // "i at t and j at u are on one cell and u − t lies from −(slip of j) to slip
    // of i".
    meet: |slips, (i, t), (j, u)| lies(slips[j], slips[i], t, u),
    // "Swaps count only between two carriers of slip 0."
    swap: |slips, i, j| (slips[i], slips[j]) == (0, 0),
    // "then the earlier carrier's number, then the other's".
    rank: |earlier, other| (earlier, other),
    // "the earlier carrier in child one".
    children: |earlier, other| [(earlier, other), (other, earlier)],
    // "i is barred from e to e + slip of j, j from e to e + slip of i".
    bar_length: |slips, _, met| slips[met],
};

/// Whether u − t lies from −below to above.
pub fn lies(below: usize, above: usize, t: usize, u: usize) -> bool {
    let [below, above, t, u] = [below, above, t, u].map(|number| number as isize);
    (-below..=above).contains(&(u - t))
}
