//! Brute force (b): every pattern of holds. "at each real step a carrier either
//! does its next listed move or stay, or is held. A pattern says who is held
//! when"; each carrier is held at most its own slip in all (P3: "Demands 2 and 3
//! read each carrier's own slip").

/// Whether some pattern of holds brings a collision: "two carriers on one cell
/// at one real moment, or exchanging neighbouring cells in one real step". Any
/// exchange counts; in lawful routes all exchanged cells are neighbouring.
pub fn some_pattern_collides(routes: &[&[u8]], slips: &[usize]) -> bool {
    let real_steps = real_steps(routes, slips);
    let carriers = routes.iter().zip(slips);
    let lines: Vec<Vec<Vec<u8>>> = carriers
        .map(|(route, slip)| time_lines(route, *slip, real_steps))
        .collect();
    let mut pairs = (0..lines.len()).flat_map(|j| (0..j).map(move |i| (i, j)));
    pairs.any(|(i, j)| {
        let against_all = |a: &Vec<u8>| lines[j].iter().any(|b| collide(a, b));
        lines[i].iter().any(against_all)
    })
}

/// H, the two greatest slips, and two more: every carrier has long come to its end.
fn real_steps(routes: &[&[u8]], slips: &[usize]) -> usize {
    let mut slips = slips.to_vec();
    slips.sort_unstable();
    let greatest: usize = slips.iter().rev().take(2).sum();
    routes[0].len() - 1 + greatest + 2
}

/// What a carrier's real time line may be, for every way to be held at most so
/// often in so many real steps.
fn time_lines(route: &[u8], slip: usize, real_steps: usize) -> Vec<Vec<u8>> {
    let mut lines = Vec::new();
    let mut line = vec![route[0]];
    hold_or_go(route, 0, slip, real_steps, &mut line, &mut lines);
    lines.sort_unstable();
    lines.dedup();
    lines
}

/// The carrier has done `done` of its listed moves and may be held `holds_left`
/// times more. "After H the carrier stands on its goal for ever."
fn hold_or_go(
    route: &[u8],
    done: usize,
    holds_left: usize,
    real_steps_left: usize,
    line: &mut Vec<u8>,
    lines: &mut Vec<Vec<u8>>,
) {
    if real_steps_left == 0 {
        lines.push(line.clone());
        return;
    }
    let listed = (done + 1).min(route.len() - 1);
    line.push(route[listed]);
    hold_or_go(route, listed, holds_left, real_steps_left - 1, line, lines);
    line.pop();
    if holds_left > 0 {
        line.push(route[done]);
        hold_or_go(
            route,
            done,
            holds_left - 1,
            real_steps_left - 1,
            line,
            lines,
        );
        line.pop();
    }
}

fn collide(a: &[u8], b: &[u8]) -> bool {
    let one_cell = a.iter().zip(b).any(|(x, y)| x == y);
    let exchange = |(x, y): (&[u8], &[u8])| x[0] == y[1] && x[1] == y[0];
    one_cell || a.windows(2).zip(b.windows(2)).any(exchange)
}

#[cfg(test)]
mod tests {
    use super::*;

    #[test]
    fn following_closely_collides_only_under_a_hold() {
        let routes: [&[u8]; 2] = [&[0, 1, 1], &[1, 2, 2]];
        assert!(!some_pattern_collides(&routes, &[0, 0]));
        assert!(some_pattern_collides(&routes, &[1, 1]));
        let apart: [&[u8]; 2] = [&[0, 0, 1], &[1, 2, 2]];
        assert!(!some_pattern_collides(&apart, &[1, 1]));
        assert!(some_pattern_collides(&apart, &[2, 2]));
    }

    #[test]
    fn only_the_one_in_front_brings_the_two_together() {
        let routes: [&[u8]; 2] = [&[0, 1, 1], &[1, 2, 2]];
        assert!(!some_pattern_collides(&routes, &[4, 0]));
        assert!(some_pattern_collides(&routes, &[0, 1]));
    }

    #[test]
    fn a_line_has_every_way_to_be_held() {
        assert_eq!(time_lines(&[0, 1], 0, 3), [[0, 1, 1, 1]]);
        let once = [[0, 0, 1, 1, 1, 1], [0, 1, 1, 1, 1, 1]];
        assert_eq!(time_lines(&[0, 1], 1, 5), once);
    }
}
