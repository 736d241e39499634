//! Meetings and swaps, and the one that rule 5 chooses, with document 02's P3.

use super::job::MOST_CARRIERS;
use crate::task::Carrier;

/// A meeting on a cell or a swap: its smaller step, and the earlier carrier first.
#[derive(Clone, Copy, Debug)]
pub struct Clash {
    pub kind: Kind,
    pub step: usize,
    pub carriers: [usize; 2],
}

#[derive(Clone, Copy, Debug)]
pub enum Kind {
    Meeting { cell: u8 },
    Swap,
}

/// A carrier's cells and its slip.
#[derive(Clone, Copy, Default)]
struct Route<'a> {
    cells: &'a [u8],
    slip: usize,
}

/// The meeting or swap chosen among the routes of a stretch: "least e, then least
/// distance of the two steps, then the earlier carrier's number, then the other's".
pub fn chosen(stretch: &[u8], carriers: &[Carrier]) -> Option<Clash> {
    let steps = stretch.len() / carriers.len();
    let mut routes = [Route::default(); MOST_CARRIERS];
    let routes = &mut routes[..carriers.len()];
    let own = stretch.chunks_exact(steps).zip(carriers);
    for (route, (cells, carrier)) in routes.iter_mut().zip(own) {
        let slip = usize::from(carrier.slip);
        *route = Route { cells, slip };
    }
    let farthest = routes.iter().map(|route| route.slip).max().unwrap_or(0);
    let swaps = prompt(routes, 0).count() > 1;
    (0..steps).find_map(|step| {
        let mut distances = 0..=farthest.min(steps - 1 - step);
        let meeting = distances.find_map(|distance| meeting_at(routes, step, distance));
        let swaps = swaps && step + 1 < steps;
        meeting.or_else(|| if swaps { swap_at(routes, step) } else { None })
    })
}

/// Of the two steps the earlier carrier's is the smaller, so that the distance is at
/// most its slip; "at equal steps the smaller number counts as earlier".
fn meeting_at(routes: &[Route], step: usize, distance: usize) -> Option<Clash> {
    for (i, route) in routes.iter().enumerate() {
        if distance > route.slip {
            continue;
        }
        let cell = route.cells[step];
        let from = if distance == 0 { i + 1 } else { 0 };
        for (j, other) in routes.iter().enumerate().skip(from) {
            if other.cells[step + distance] == cell && j != i {
                return Some(Clash {
                    kind: Kind::Meeting { cell },
                    step,
                    carriers: [i, j],
                });
            }
        }
    }
    None
}

/// "between t and t + 1 the two exchange neighbouring cells", "only between two
/// carriers of slip 0".
fn swap_at(routes: &[Route], step: usize) -> Option<Clash> {
    for (i, Route { cells, .. }) in prompt(routes, 0) {
        for (j, Route { cells: others, .. }) in prompt(routes, i + 1) {
            if cells[step] == others[step + 1] && cells[step + 1] == others[step] {
                return Some(Clash {
                    kind: Kind::Swap,
                    step,
                    carriers: [i, j],
                });
            }
        }
    }
    None
}

/// The carriers of slip 0, from a number on.
fn prompt<'a>(
    routes: &'a [Route<'a>],
    from: usize,
) -> impl Iterator<Item = (usize, &'a Route<'a>)> {
    let numbered = routes.iter().enumerate().skip(from);
    numbered.filter(|(_, route)| route.slip == 0)
}
