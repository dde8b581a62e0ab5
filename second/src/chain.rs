//! The planner, the chain checker, and the kept edges found by going back.

use crate::lines::Lines;
use crate::network::{read_accepted, Method};
use crate::refusal::{
    Refusal, BAD_DROP, NOT_ADMISSIBLE, NOT_GIVEN, NOT_PARTNERS, NOT_RESERVED_END, X_CHEAPER,
};
use crate::texts::{read_ending, read_step, write_chain, write_kept, Chain, Kept, Network, Step};
use crate::working::{as_number, Working};

/// What the planner writes.
#[derive(Clone, Debug, PartialEq, Eq)]
pub struct Plan {
    /// The chain text.
    pub chain: Vec<u8>,
    /// The kept text.
    pub kept: Vec<u8>,
}

/// Plans the network of a text.
pub fn plan_by(text: &[u8], method: Method) -> Result<Plan, Refusal> {
    plan_texts(&read_accepted(text, method)?, method)
}

/// Plans an accepted network, and writes the texts.
pub(crate) fn plan_texts(network: &Network, method: Method) -> Result<Plan, Refusal> {
    let (chain, kept) = plan_network(network, method);
    Ok(Plan {
        chain: write_chain(network.vertices, &chain)?,
        kept: write_kept(&kept),
    })
}

/// Plans an accepted network.
pub fn plan_network(network: &Network, method: Method) -> (Chain, Kept) {
    let mut working = Working::new(network);
    let mut steps = Vec::new();
    while working.vertices_left() > 2 {
        let ends = working.reserved_ends();
        let v = ends.0.max(ends.1);
        let mut admissible = working
            .partners(v)
            .into_iter()
            .filter(|&partner| working.admissible(v, partner, method));
        let (Some(lower), Some(higher)) = (admissible.next(), admissible.next()) else {
            panic!("Lemma 8: two of three partners are admissible");
        };
        let (x, y) = if working.cost(lower) >= working.cost(higher) {
            (lower, higher)
        } else {
            (higher, lower)
        };
        let step = working.step(v, x, y);
        working.split(step);
        steps.push(step);
    }
    let last_three = working.partners(working.reserved_ends().0);
    let dropped = *last_three
        .iter()
        .max_by_key(|&&edge| (working.cost(edge), edge))
        .expect("three edges are left");
    let kept = go_back(network, &last_three, dropped, &steps);
    let chain = Chain {
        steps,
        dropped: as_number(dropped),
    };
    (chain, kept)
}

/// Checks a chain over the network of a text and gives its kept text.
pub fn check_chain_by(
    network_text: &[u8],
    chain_text: &[u8],
    method: Method,
) -> Result<Vec<u8>, Refusal> {
    let passed = read_passing(network_text, chain_text, method)?;
    let Chain { steps, dropped } = &passed.chain;
    let dropped = usize::from(*dropped);
    let kept = go_back(&passed.network, &passed.last_three, dropped, steps);
    Ok(write_kept(&kept))
}

/// A chain that passes.
pub(crate) struct Passed {
    /// The network that it is a chain of.
    pub network: Network,
    /// The chain.
    pub chain: Chain,
    /// The edges of which the ending drops one.
    last_three: Vec<usize>,
}

/// Reads a network text and a chain text, and gives both if the chain passes.
pub(crate) fn read_passing(
    network_text: &[u8],
    chain_text: &[u8],
    method: Method,
) -> Result<Passed, Refusal> {
    let network = read_accepted(network_text, method)?;
    let mut working = Working::new(&network);
    let mut lines = Lines::new(chain_text);
    let mut steps = Vec::new();
    while working.vertices_left() > 2 {
        let step = read_step(&mut lines)?;
        check_step(&working, step, method)?;
        working.split(step);
        steps.push(step);
    }
    let dropped = usize::from(read_ending(&mut lines)?);
    let last_three = working.partners(working.reserved_ends().0);
    let dearest = last_three.iter().map(|&edge| working.cost(edge)).max();
    if !last_three.contains(&dropped) || Some(working.cost(dropped)) < dearest {
        return Err(BAD_DROP);
    }
    lines.finish()?;
    let chain = Chain {
        steps,
        dropped: as_number(dropped),
    };
    Ok(Passed {
        network,
        chain,
        last_three,
    })
}

/// Whether a step keeps the rules: refusals 8 to 11 in their order, then 17.
pub fn check_step(working: &Working, step: Step, method: Method) -> Result<(), Refusal> {
    let v = usize::from(step.v);
    let (x, y) = (usize::from(step.x), usize::from(step.y));
    let ends = working.reserved_ends();
    if v != ends.0 && v != ends.1 {
        return Err(NOT_RESERVED_END);
    }
    let partners = working.partners(v);
    if !partners.contains(&x) || !partners.contains(&y) || x == y {
        return Err(NOT_PARTNERS);
    }
    if !working.admissible(v, x, method) || !working.admissible(v, y, method) {
        return Err(NOT_ADMISSIBLE);
    }
    if working.cost(x) < working.cost(y) {
        return Err(X_CHEAPER);
    }
    if step != working.step(v, x, y) {
        return Err(NOT_GIVEN);
    }
    Ok(())
}

/// The kept edges of a chain by rule, with their cost and the total.
fn go_back(network: &Network, last_three: &[usize], dropped: usize, steps: &[Step]) -> Kept {
    let mut is_kept = vec![false; network.edges.len()];
    for &edge in last_three {
        is_kept[edge] = edge != dropped;
    }
    for step in steps.iter().rev() {
        is_kept[usize::from(step.y)] = true;
        is_kept[usize::from(step.x)] = !is_kept[usize::from(step.z)];
    }
    let kept_numbers = (0..is_kept.len()).filter(|&edge| is_kept[edge]);
    let reserved_cost = network.edges[network.reserved].cost;
    Kept {
        cost: kept_numbers.clone().map(|k| network.edges[k].cost).sum(),
        edges: kept_numbers.map(as_number).collect(),
        total: network.edges.iter().map(|edge| edge.cost).sum::<i64>() - reserved_cost,
    }
}
