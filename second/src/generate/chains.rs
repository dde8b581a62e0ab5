//! Chains by rule with random choices, and chains with a fault that is aimed at.

use super::damage::break_line;
use super::{damage, CostAim, Rng};
use crate::network::Method;
use crate::refusal::{
    Refusal, BAD_DROP, BROKEN_TEXT, NOT_ADMISSIBLE, NOT_PARTNERS, NOT_RESERVED_END, X_CHEAPER,
};
use crate::texts::{write_chain, write_ending, write_step, Chain, Network, Step};
use crate::working::{as_number, Working};

/// A chain by rule over an accepted network: either end, any two admissible partners,
/// any dearest drop.
pub fn chain_by_rule(rng: &mut Rng, network: &Network) -> Chain {
    let mut working = Working::new(network);
    let mut steps = Vec::new();
    while working.vertices_left() > 2 {
        let step = step_by_rule(rng, &working);
        working.split(step);
        steps.push(step);
    }
    let dropped = as_number(rng.pick(&dearest(&working)));
    Chain { steps, dropped }
}

/// A text near that of a chain by rule: damaged, or with some numbers changed.
pub fn changed_chain(rng: &mut Rng, network: &Network) -> Vec<u8> {
    let mut chain = chain_by_rule(rng, network);
    if rng.once_in(3) {
        let text = chain_text(network, &chain);
        return damage(rng, &text);
    }
    for _ in 0..rng.between(1, 2) {
        let change = any_number(rng, network);
        let place = rng.between(0, chain.steps.len());
        match chain.steps.get_mut(place) {
            None => chain.dropped = change,
            Some(step) => match rng.below(7) {
                0 => step.v = change,
                1 => step.x = change,
                2 => step.y = change,
                3 => step.z = change,
                4 => step.cost = rng.pick(&CostAim::ALL).cost(rng),
                5 => std::mem::swap(&mut step.x, &mut step.y),
                _ => chain.steps.swap(0, place),
            },
        }
    }
    chain_text(network, &chain)
}

/// A fault of a chain to aim at, or a choice that only looks like one.
#[derive(Clone, Copy, Debug, PartialEq, Eq)]
pub enum Aim {
    /// v is left, but no end of the reserved edge.
    OtherVertex,
    /// v has left the network.
    DepartedVertex,
    /// There never was such a v.
    NoSuchVertex,
    /// x or y is the reserved edge.
    ReservedPartner,
    /// x or y has retired.
    RetiredPartner,
    /// x or y doesn't end at v.
    DistantPartner,
    /// There never was such an x or y.
    NoSuchPartner,
    /// x and y are the same admissible partner.
    SamePartner,
    /// x isn't admissible, y is.
    InadmissibleX,
    /// x is admissible, y isn't.
    InadmissibleY,
    /// Both are admissible and x costs less.
    CheaperX,
    /// Both are admissible and cost the same: no fault, in either order.
    EqualCosts,
    /// The reserved edge is dropped.
    DropReserved,
    /// A retired edge is dropped.
    DropRetired,
    /// An edge that never was is dropped.
    DropNoSuch,
    /// An edge is dropped that is cheaper than another one.
    DropCheaper,
    /// A line is broken after steps by rule.
    BrokenLine,
    /// Bytes follow a chain by rule.
    LeftOver,
}

impl Aim {
    /// Every aim.
    pub const ALL: [Aim; 18] = [
        Aim::OtherVertex,
        Aim::DepartedVertex,
        Aim::NoSuchVertex,
        Aim::ReservedPartner,
        Aim::RetiredPartner,
        Aim::DistantPartner,
        Aim::NoSuchPartner,
        Aim::SamePartner,
        Aim::InadmissibleX,
        Aim::InadmissibleY,
        Aim::CheaperX,
        Aim::EqualCosts,
        Aim::DropReserved,
        Aim::DropRetired,
        Aim::DropNoSuch,
        Aim::DropCheaper,
        Aim::BrokenLine,
        Aim::LeftOver,
    ];

    /// The refusal that is due, if any.
    pub fn refusal(self) -> Option<Refusal> {
        match self {
            Aim::OtherVertex | Aim::DepartedVertex | Aim::NoSuchVertex => Some(NOT_RESERVED_END),
            Aim::ReservedPartner
            | Aim::RetiredPartner
            | Aim::DistantPartner
            | Aim::NoSuchPartner
            | Aim::SamePartner => Some(NOT_PARTNERS),
            Aim::InadmissibleX | Aim::InadmissibleY => Some(NOT_ADMISSIBLE),
            Aim::CheaperX => Some(X_CHEAPER),
            Aim::EqualCosts => None,
            Aim::DropReserved | Aim::DropRetired | Aim::DropNoSuch | Aim::DropCheaper => {
                Some(BAD_DROP)
            }
            Aim::BrokenLine | Aim::LeftOver => Some(BROKEN_TEXT),
        }
    }
}

/// A chain text and the refusal due over the network it was made for, if any.
#[derive(Clone, Debug, PartialEq, Eq)]
pub struct Aimed {
    /// The chain text.
    pub chain: Vec<u8>,
    /// The refusal, or nothing where the chain keeps the rules.
    pub refusal: Option<Refusal>,
}

/// A chain with the given fault at one of its frames, by rule before it. What follows the
/// faulty frame may be anything. Gives nothing if the fault can't be had on the way taken.
pub fn aimed_chain(rng: &mut Rng, network: &Network, aim: Aim) -> Option<Aimed> {
    let chain = match aim {
        Aim::DropReserved | Aim::DropRetired | Aim::DropNoSuch | Aim::DropCheaper => {
            wrong_drop(rng, network, aim)?
        }
        Aim::BrokenLine | Aim::LeftOver => broken_form(rng, network, aim),
        Aim::EqualCosts => equal_costs(rng, network)?,
        _ => wrong_step(rng, network, aim)?,
    };
    let refusal = aim.refusal();
    Some(Aimed { chain, refusal })
}

/// Walks down by rule, and puts a faulty step at one of the places where there is one.
fn wrong_step(rng: &mut Rng, network: &Network, aim: Aim) -> Option<Vec<u8>> {
    let mut working = Working::new(network);
    let mut before = Vec::new();
    let mut chosen = None;
    let mut places = 0;
    while working.vertices_left() > 2 {
        if let Some(faulty) = faulty_step(rng, network, &working, aim) {
            places += 1;
            if rng.once_in(places) {
                chosen = Some((before.len(), faulty));
            }
        }
        let step = step_by_rule(rng, &working);
        working.split(step);
        before.push(step);
    }
    let (place, faulty) = chosen?;
    let mut text = Vec::new();
    for &step in &before[..place] {
        write_step(step, &mut text);
    }
    write_step(faulty, &mut text);
    let mut rest = Vec::new();
    for &step in &before[place + 1..] {
        write_step(step, &mut rest);
    }
    write_ending(any_number(rng, network), &mut rest);
    text.extend(if rng.once_in(2) {
        damage(rng, &rest)
    } else {
        rest
    });
    Some(text)
}

/// A step with the given fault and none that is looked at earlier. Its z and its cost are right
/// if its partners are.
pub(super) fn faulty_step(
    rng: &mut Rng,
    network: &Network,
    working: &Working,
    aim: Aim,
) -> Option<Step> {
    let good = step_by_rule(rng, working);
    let v = usize::from(good.v);
    let ends = working.reserved_ends();
    let vertices = 0..network.vertices;
    match aim {
        Aim::OtherVertex => {
            let others: Vec<usize> = vertices
                .filter(|&w| working.has_vertex(w) && w != ends.0 && w != ends.1)
                .collect();
            let v = as_number(rng.pick_any(&others)?);
            Some(Step { v, ..good })
        }
        Aim::DepartedVertex => {
            let gone: Vec<usize> = vertices.filter(|&w| !working.has_vertex(w)).collect();
            let v = as_number(rng.pick_any(&gone)?);
            Some(Step { v, ..good })
        }
        Aim::NoSuchVertex => {
            let v = rng.pick(&[as_number(network.vertices), 256, 65_535]);
            Some(Step { v, ..good })
        }
        Aim::ReservedPartner => Some(with_partner(rng, good, working.reserved())),
        Aim::RetiredPartner => {
            let partner = rng.pick_any(&retired(network, working))?;
            Some(with_partner(rng, good, partner))
        }
        Aim::DistantPartner => {
            let partner = rng.pick_any(&distant(network, working, v))?;
            Some(with_partner(rng, good, partner))
        }
        Aim::NoSuchPartner => {
            let partner = rng.pick(&[network.edges.len(), 512, 65_535]);
            Some(with_partner(rng, good, partner))
        }
        Aim::SamePartner => Some(Step { y: good.x, ..good }),
        Aim::InadmissibleX | Aim::InadmissibleY => {
            let bad = working
                .partners(v)
                .into_iter()
                .find(|&partner| !working.admissible(v, partner, Method::Mixed))?;
            // One of the two admissible ones, at any cost: 10 comes before 11.
            let fine = usize::from(rng.pick(&[good.x, good.y]));
            Some(if aim == Aim::InadmissibleX {
                working.step(v, bad, fine)
            } else {
                working.step(v, fine, bad)
            })
        }
        Aim::CheaperX => {
            let (x, y) = (usize::from(good.x), usize::from(good.y));
            let differ = working.cost(x) != working.cost(y);
            differ.then(|| working.step(v, y, x))
        }
        _ => unreachable!("not a fault of a step"),
    }
}

/// Walks down by rule, exchanging x and y wherever they cost the same.
fn equal_costs(rng: &mut Rng, network: &Network) -> Option<Vec<u8>> {
    let mut working = Working::new(network);
    let mut steps = Vec::new();
    let mut met = false;
    while working.vertices_left() > 2 {
        let mut step = step_by_rule(rng, &working);
        if working.cost(step.x.into()) == working.cost(step.y.into()) {
            met = true;
            // Against the planner's order, mostly.
            if (step.x < step.y) != rng.once_in(4) {
                std::mem::swap(&mut step.x, &mut step.y);
            }
        }
        working.split(step);
        steps.push(step);
    }
    let last = dearest(&working);
    let dropped = as_number(last[0]);
    (met || last.len() > 1).then(|| chain_text(network, &Chain { steps, dropped }))
}

/// A chain by rule down to its ending, which is wrong.
fn wrong_drop(rng: &mut Rng, network: &Network, aim: Aim) -> Option<Vec<u8>> {
    let mut chain = chain_by_rule(rng, network);
    let mut working = Working::new(network);
    for &step in &chain.steps {
        working.split(step);
    }
    let dearest = dearest(&working);
    let candidates: Vec<usize> = match aim {
        Aim::DropReserved => vec![working.reserved()],
        Aim::DropRetired => retired(network, &working),
        Aim::DropNoSuch => vec![network.edges.len(), 512, 65_535],
        _ => last_three(&working)
            .into_iter()
            .filter(|edge| !dearest.contains(edge))
            .collect(),
    };
    chain.dropped = as_number(rng.pick_any(&candidates)?);
    let mut text = chain_text(network, &chain);
    if rng.once_in(3) {
        text.extend_from_slice(b"040000\n");
    }
    Some(text)
}

/// Bytes that follow a whole chain.
pub(super) const LEFT_OVER: [&[u8]; 6] = [b"\n", b"0", b"\r\n", b"040000\n", b"050000\n", b"\0"];

/// A chain by rule with one broken line, or with bytes behind it.
fn broken_form(rng: &mut Rng, network: &Network, aim: Aim) -> Vec<u8> {
    let chain = chain_by_rule(rng, network);
    let mut text = chain_text(network, &chain);
    if aim == Aim::LeftOver {
        text.extend_from_slice(rng.pick(&LEFT_OVER));
        return text;
    }
    break_line(rng, &mut text);
    text
}

/// A step by rule with random choices.
fn step_by_rule(rng: &mut Rng, working: &Working) -> Step {
    let ends = working.reserved_ends();
    let v = rng.pick(&[ends.0, ends.1]);
    let mut admissible: Vec<usize> = working
        .partners(v)
        .into_iter()
        .filter(|&partner| working.admissible(v, partner, Method::Mixed))
        .collect();
    rng.shuffle(&mut admissible);
    let (x, y) = (admissible[0], admissible[1]);
    if working.cost(x) < working.cost(y) {
        working.step(v, y, x)
    } else {
        working.step(v, x, y)
    }
}

/// The edges that have retired.
pub(super) fn retired(network: &Network, working: &Working) -> Vec<usize> {
    let edges = 0..network.edges.len();
    edges.filter(|&edge| !working.has_edge(edge)).collect()
}

/// The edges that haven't retired and don't end at a vertex, the reserved one apart.
pub(super) fn distant(network: &Network, working: &Working, v: usize) -> Vec<usize> {
    let partners = working.partners(v);
    (0..network.edges.len())
        .filter(|&edge| working.has_edge(edge) && edge != working.reserved())
        .filter(|edge| !partners.contains(edge))
        .collect()
}

/// The step with its x or its y replaced.
fn with_partner(rng: &mut Rng, step: Step, partner: usize) -> Step {
    let partner = as_number(partner);
    if rng.once_in(2) {
        Step { x: partner, ..step }
    } else {
        Step { y: partner, ..step }
    }
}

fn last_three(working: &Working) -> Vec<usize> {
    working.partners(working.reserved_ends().0)
}

fn dearest(working: &Working) -> Vec<usize> {
    let three = last_three(working);
    let most = three.iter().map(|&edge| working.cost(edge)).max();
    three
        .into_iter()
        .filter(|&edge| Some(working.cost(edge)) == most)
        .collect()
}

pub(super) fn chain_text(network: &Network, chain: &Chain) -> Vec<u8> {
    write_chain(network.vertices, chain).expect("the chain has all its steps")
}

/// A number that might be meant for a vertex or an edge.
fn any_number(rng: &mut Rng, network: &Network) -> u16 {
    match rng.below(8) {
        0 => rng.pick(&[255, 256, 511, 512, 65_535]),
        1 => as_number(network.vertices),
        2 => as_number(network.edges.len()),
        _ => as_number(rng.below(network.edges.len())),
    }
}
