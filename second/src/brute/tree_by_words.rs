//! Rules 1 to 7 once more, word by word and slowly: each carrier's routes are
//! listed in the order of rule 2 and P2 once, the bars that bind a node are found by going
//! up its ancestors, and the open node to be taken by looking at all nodes.

use crate::bar::Bar;
use crate::brute::slips::{P3, SlipRules};
use crate::brute::{loops, walks};
use crate::job::Job;

/// The answer's number, sum, records and routes (0 and none where untold).
pub type Told = (u8, usize, usize, Vec<Vec<u8>>);

struct Node {
    parent: Option<usize>,
    bar: Option<(usize, Bar)>,
    routes: Vec<Vec<u8>>,
    open: bool,
}

/// All routes of each carrier, the better one first.
pub type Ranked = Vec<Vec<Vec<u8>>>;

/// The tree of a job that passed checks 1 to 6 and 16, with N from 1.
pub fn search(job: &Job, capacity: usize) -> Told {
    search_by(job, capacity, &ranked(job), &P3)
}

/// The job's routes in the order of rule 2 and P2.
pub fn ranked(job: &Job) -> Ranked {
    let carriers = job.carriers.iter();
    carriers.map(|c| walks::ranked_routes(job, *c)).collect()
}

/// The same tree with the routes in this order and with these rules about slips,
/// whatever they are.
pub fn search_by(job: &Job, capacity: usize, ranked: &Ranked, rules: &SlipRules) -> Told {
    if ranked.iter().any(Vec::is_empty) {
        return (8, 0, 0, vec![]);
    }
    let mut nodes = vec![Node {
        parent: None,
        bar: None,
        routes: ranked.iter().map(|routes| routes[0].clone()).collect(),
        open: true,
    }];
    while let Some(number) = taken(job, &nodes) {
        nodes[number].open = false;
        let Some(bars) = bars_for(job, &nodes[number].routes, rules) else {
            let routes = nodes[number].routes.clone();
            return (0, sum(job, &nodes[number]), nodes.len(), routes);
        };
        for bar in bars {
            let Some(child) = child(&nodes, number, bar, ranked) else {
                continue;
            };
            if nodes.len() == capacity {
                return (9, 0, capacity, vec![]);
            }
            nodes.push(child);
        }
    }
    (8, 0, nodes.len(), vec![])
}

/// Rules 5 and 6: the bars of child one and child two, each with its carrier.
fn bars_for(job: &Job, routes: &[Vec<u8>], rules: &SlipRules) -> Option<[(usize, Bar); 2]> {
    let lent: Vec<&[u8]> = routes.iter().map(Vec::as_slice).collect();
    let slips = job.slips();
    let (earlier, other, e, _, swap) = loops::first_meeting_by(rules, &lent, &slips)?;
    let crossing = |carrier: usize| Bar::Crossing {
        from: routes[carrier][e],
        to: routes[carrier][e + 1],
        step: e,
    };
    let standing = |carrier: usize, met: usize| Bar::Standing {
        cell: routes[earlier][e],
        first: e,
        last: e + (rules.bar_length)(&slips, carrier, met),
    };
    let children = (rules.children)(earlier, other);
    Some(children.map(|(carrier, met)| {
        let bar = if swap {
            crossing(carrier)
        } else {
            standing(carrier, met)
        };
        (carrier, bar)
    }))
}

/// Rule 7: the child with this bar, if the barred carrier has a route.
fn child(
    nodes: &[Node],
    parent: usize,
    (carrier, bar): (usize, Bar),
    ranked: &Ranked,
) -> Option<Node> {
    let mut bars = binding(nodes, parent, carrier);
    bars.push(bar);
    let mut routes = nodes[parent].routes.clone();
    routes[carrier] = walks::first_kept(&ranked[carrier], &bars)?.clone();
    Some(Node {
        parent: Some(parent),
        bar: Some((carrier, bar)),
        routes,
        open: true,
    })
}

/// Rule 4: "the open node of least sum, then of least number".
fn taken(job: &Job, nodes: &[Node]) -> Option<usize> {
    (0..nodes.len())
        .filter(|&number| nodes[number].open)
        .min_by_key(|&number| (sum(job, &nodes[number]), number))
}

fn sum(job: &Job, node: &Node) -> usize {
    let routes = node.routes.iter().zip(&job.carriers);
    routes
        .map(|(route, carrier)| walks::cost(route, carrier.goal))
        .sum()
}

/// Rule 1: the carrier's bars in "that node's record or in the record of one of
/// its ancestors".
fn binding(nodes: &[Node], number: usize, carrier: usize) -> Vec<Bar> {
    let node = &nodes[number];
    let mut bars = match node.parent {
        Some(parent) => binding(nodes, parent, carrier),
        None => vec![],
    };
    bars.extend(node.bar.filter(|own| own.0 == carrier).map(|own| own.1));
    bars
}
