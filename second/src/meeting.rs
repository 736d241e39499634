//! Meetings and swaps, and the choice of one among them (rule 5 as P3 has it). All
//! are gathered and the least taken; the order is the one derived on [`Meeting`].

/// Which of the two it is. "A swap at t comes after all meetings at t and
/// before those at t + 1": a meeting is at its smaller step e.
#[derive(Clone, Copy, Debug, PartialEq, Eq, PartialOrd, Ord)]
pub enum Kind {
    Meeting,
    Swap,
}

/// A meeting of the earlier carrier, at `step`, with the other, `distance` steps
/// later, or a swap of the two at `step` (the distance is then 0). The order of the
/// fields is P3's: "least e, then least distance of the two steps, then the earlier
/// carrier's number, then the other's", with swaps behind the meetings of the same
/// step.
#[derive(Clone, Copy, Debug, PartialEq, Eq, PartialOrd, Ord)]
pub struct Meeting {
    pub step: usize,
    pub kind: Kind,
    pub distance: usize,
    pub earlier: usize,
    pub other: usize,
}

/// The meeting or swap chosen by rule 5 among routes of equal length, of carriers
/// with these slips.
pub fn chosen<R: AsRef<[u8]>>(routes: &[R], slips: &[usize]) -> Option<Meeting> {
    let routes: Vec<&[u8]> = routes.iter().map(AsRef::as_ref).collect();
    let meetings = pairs(routes.len())
        .flat_map(|(i, j)| meetings_of(i, j, routes[i], routes[j], slips[i]))
        .min();
    let swaps = pairs(routes.len())
        .filter(|&(i, j)| i < j && slips[i] == 0 && slips[j] == 0)
        .flat_map(|(i, j)| swaps_of(i, j, routes[i], routes[j]))
        .min();
    meetings.into_iter().chain(swaps).min()
}

/// Every (i, j) with "i not j": each pair twice, each of the two once the earlier.
fn pairs(carriers: usize) -> impl Iterator<Item = (usize, usize)> {
    (0..carriers)
        .flat_map(move |i| (0..carriers).map(move |j| (i, j)))
        .filter(|(i, j)| i != j)
}

/// "i at t and j at u are on one cell and u − t lies from −(slip of j) to slip of
/// i", i being the earlier: then u − t is their distance and at most the slip of i.
/// "at equal steps the smaller number counts as earlier". Both steps are at most H.
fn meetings_of(
    i: usize,
    j: usize,
    route_i: &[u8],
    route_j: &[u8],
    slip_i: usize,
) -> impl Iterator<Item = Meeting> {
    let distances = (0..=slip_i).filter(move |&distance| distance > 0 || i < j);
    distances.flat_map(move |distance| {
        let both = route_i.iter().zip(route_j.iter().skip(distance));
        both.enumerate()
            .filter(|(_, (cell_i, cell_j))| cell_i == cell_j)
            .map(move |(step, _)| Meeting {
                step,
                kind: Kind::Meeting,
                distance,
                earlier: i,
                other: j,
            })
    })
}

/// "between t and t + 1 the two exchange neighbouring cells"; for any bytes
/// "an exchange is a swap whether the two are neighbouring or not". "Swaps count
/// only between two carriers of slip 0" (P3).
fn swaps_of(i: usize, j: usize, route_i: &[u8], route_j: &[u8]) -> impl Iterator<Item = Meeting> {
    let both = route_i.windows(2).zip(route_j.windows(2));
    both.enumerate()
        .filter(|(_, (of_i, of_j))| of_i[0] == of_j[1] && of_i[1] == of_j[0])
        .map(move |(step, _)| Meeting {
            step,
            kind: Kind::Swap,
            distance: 0,
            earlier: i,
            other: j,
        })
}

#[cfg(test)]
mod tests {
    use super::*;

    fn told(routes: &[&[u8]], slips: &[usize]) -> Option<(usize, usize, usize, usize, Kind)> {
        chosen(routes, slips).map(|m| (m.earlier, m.other, m.step, m.distance, m.kind))
    }

    #[test]
    fn the_higher_number_may_be_the_earlier_one() {
        let routes: [&[u8]; 2] = [&[0, 1], &[1, 2]];
        assert_eq!(told(&routes, &[0, 0]), None);
        let meeting = Some((1, 0, 0, 1, Kind::Meeting));
        assert_eq!(told(&routes, &[1, 1]), meeting);
        assert_eq!(told(&routes, &[0, 1]), meeting);
    }

    /// Who follows closely may slip as far as it likes.
    #[test]
    fn the_slip_of_the_earlier_one_counts() {
        let routes: [&[u8]; 2] = [&[0, 0, 1], &[1, 2, 2]];
        for slip in 0..=4 {
            assert_eq!(told(&routes, &[slip, 1]), None);
            let meeting = Some((1, 0, 0, 2, Kind::Meeting));
            assert_eq!(told(&routes, &[slip, 2]), meeting);
        }
    }

    #[test]
    fn least_distance_before_least_carrier() {
        let routes: [&[u8]; 3] = [&[9, 5], &[5, 4], &[5, 3]];
        let meeting = Some((1, 2, 0, 0, Kind::Meeting));
        assert_eq!(told(&routes, &[1, 1, 1]), meeting);
    }

    /// Of two at one step and distance it is not the lesser of both numbers.
    #[test]
    fn the_earlier_number_before_the_other() {
        let routes: [&[u8]; 4] = [&[9, 8], &[7, 3], &[8, 5], &[6, 7]];
        let slips = [0, 1, 1, 0];
        assert_eq!(told(&routes, &slips), Some((1, 3, 0, 1, Kind::Meeting)));
        let slips = [0, 0, 1, 0];
        assert_eq!(told(&routes, &slips), Some((2, 0, 0, 1, Kind::Meeting)));
    }

    #[test]
    fn a_swap_comes_after_the_meetings_of_its_step() {
        let none = [0; 4];
        let swap_first: [&[u8]; 4] = [&[0, 1, 1], &[1, 0, 0], &[7, 8, 9], &[6, 6, 9]];
        assert_eq!(told(&swap_first, &none), Some((0, 1, 0, 0, Kind::Swap)));
        let meeting_first: [&[u8]; 4] = [&[0, 1, 1], &[1, 0, 0], &[7, 8, 9], &[7, 6, 9]];
        let meeting = Some((2, 3, 0, 0, Kind::Meeting));
        assert_eq!(told(&meeting_first, &none), meeting);
        let later_meeting: [&[u8]; 4] = [&[0, 1, 1], &[1, 0, 0], &[7, 8, 9], &[5, 8, 9]];
        assert_eq!(told(&later_meeting, &none), Some((0, 1, 0, 0, Kind::Swap)));
    }

    /// Meetings at any distance, if e is the step of the swap, and none of a later e.
    #[test]
    fn a_swap_comes_after_meetings_at_a_distance_with_its_step() {
        let slips = [0, 0, 2, 0];
        let far: [&[u8]; 4] = [&[0, 1, 1], &[1, 0, 0], &[7, 8, 8], &[5, 6, 7]];
        assert_eq!(told(&far, &slips), Some((2, 3, 0, 2, Kind::Meeting)));
        let later: [&[u8]; 4] = [&[0, 1, 1], &[1, 0, 0], &[7, 8, 8], &[5, 6, 8]];
        assert_eq!(told(&later, &slips), Some((0, 1, 0, 0, Kind::Swap)));
    }

    #[test]
    fn a_swap_with_a_carrier_that_slips_is_a_meeting() {
        let routes: [&[u8]; 2] = [&[0, 1], &[1, 0]];
        assert_eq!(told(&routes, &[0, 0]), Some((0, 1, 0, 0, Kind::Swap)));
        let first = Some((0, 1, 0, 1, Kind::Meeting));
        assert_eq!(told(&routes, &[1, 1]), first);
        assert_eq!(told(&routes, &[1, 0]), first);
        assert_eq!(told(&routes, &[0, 1]), Some((1, 0, 0, 1, Kind::Meeting)));
    }

    #[test]
    fn two_without_slip_swap_whatever_the_others_slip() {
        let routes: [&[u8]; 3] = [&[9, 9], &[0, 1], &[1, 0]];
        assert_eq!(told(&routes, &[4, 0, 0]), Some((1, 2, 0, 0, Kind::Swap)));
    }

    #[test]
    fn an_exchange_of_far_cells_is_a_swap() {
        let routes: [&[u8]; 2] = [&[0, 200], &[200, 0]];
        assert_eq!(told(&routes, &[0, 0]), Some((0, 1, 0, 0, Kind::Swap)));
    }

    #[test]
    fn both_steps_are_at_most_the_horizon() {
        let routes: [&[u8]; 2] = [&[3], &[4]];
        assert_eq!(told(&routes, &[4, 4]), None);
        let routes: [&[u8]; 2] = [&[3, 5, 6], &[4, 4, 3]];
        assert_eq!(told(&routes, &[1, 1]), None);
        let meeting = Some((0, 1, 0, 2, Kind::Meeting));
        assert_eq!(told(&routes, &[2, 2]), meeting);
    }
}
