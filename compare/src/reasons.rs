//! Reasons: what put each edge in or out by a chain that passes, and what is refused of others.

use std::iter;

use second::generate::{
    self, aimed_chain, chain_by_rule, changed_chain, Aim, NetworkAim, Rng, StepFault, StepPlace,
};
use second::lengths::reasons_text;
use second::properties::judge_reasons;
use second::refusal::{
    BAD_DROP, BROKEN_TEXT, NOT_ADMISSIBLE, NOT_GIVEN, NOT_PARTNERS, NOT_RESERVED_END, X_CHEAPER,
};
use second::texts::FEWEST_VERTICES;
use second::{Method, Network, Refusal};
use thinning::raw;

use crate::buffers::{four, one_text};
use crate::chains::chain_text;
use crate::costs::some_vertices;
use crate::difference::{Compared, Difference, Given, Text};
use crate::networks::MANY_VERTICES;

const SERVICE: &str = "reasons";

/// A splitting is judged by one flow, which takes little time. Whether chains pass is compared by
/// other methods too, and here with the core's own check.
const METHOD: Method = Method::ContractedFlow;

/// Networks of more vertices take long where there are many.
const FEW_VERTICES: usize = 8;

/// What the check of a chain over an accepted network refuses.
const CHAIN_REFUSALS: [Refusal; 7] = [
    BROKEN_TEXT,
    NOT_RESERVED_END,
    NOT_PARTNERS,
    NOT_ADMISSIBLE,
    X_CHEAPER,
    BAD_DROP,
    NOT_GIVEN,
];

/// Chains that pass: the planner's and ones by rule.
pub fn chains(rng: &mut Rng) -> Compared {
    for (network, chains) in passing(rng) {
        let text = generate::text(&network);
        for chain in &chains {
            write(rng, &text, chain, network.vertices)?;
        }
    }
    Ok(())
}

/// A small network with the planner's chain and two by rule, one that may be larger with a chain by
/// rule, and one that may be larger still with the planner's.
pub fn passing(rng: &mut Rng) -> [(Network, Vec<Vec<u8>>); 3] {
    let vertices = rng.between(FEWEST_VERTICES, FEW_VERTICES);
    let small = generate::network(rng, vertices);
    let of_small = vec![planned(&small), by_rule(rng, &small), by_rule(rng, &small)];
    let vertices = some_vertices(rng);
    let larger = generate::network(rng, vertices);
    let of_larger = vec![by_rule(rng, &larger)];
    let vertices = generate::size(rng).min(MANY_VERTICES);
    let largest = generate::network(rng, vertices);
    let of_largest = vec![planned(&largest)];
    [
        (small, of_small),
        (larger, of_larger),
        (largest, of_largest),
    ]
}

/// The planner's chain.
fn planned(network: &Network) -> Vec<u8> {
    let plan = second::plan_by(&generate::text(network), METHOD);
    plan.expect("it is accepted").chain
}

fn by_rule(rng: &mut Rng, network: &Network) -> Vec<u8> {
    let chain = chain_by_rule(rng, network);
    chain_text(network.vertices, &chain)
}

/// A network and a chain with the refusals that they have: the network's in its check, and the
/// chain's over the accepted network that it was made for.
pub struct Case {
    /// The fault of the chain, or of the network if that has one.
    pub fault: String,
    pub of_network: Option<Refusal>,
    pub of_chain: Option<Refusal>,
    pub vertices: usize,
    pub network: Vec<u8>,
    pub chain: Vec<u8>,
}

/// Chains with every refusal, every fault of a network with chains of both sorts, and a chain near
/// one by rule.
pub fn refusals(rng: &mut Rng) -> Compared {
    for case in every_refusal(rng) {
        meets(&case)?;
        write(rng, &case.network, &case.chain, case.vertices)?;
    }
    let network = small_network(rng);
    let (text, chain) = (generate::text(&network), changed_chain(rng, &network));
    write(rng, &text, &chain, network.vertices)
}

/// A chain for each refusal over an accepted network, and each fault of a network with a chain that
/// passes over an accepted one and with one that doesn't.
pub fn every_refusal(rng: &mut Rng) -> Vec<Case> {
    let mut cases: Vec<Case> = CHAIN_REFUSALS
        .iter()
        .map(|&refusal| refused_chain(rng, refusal))
        .collect();
    let network = small_network(rng);
    let vertices = network.vertices;
    let right = by_rule(rng, &network);
    let refusal = rng.pick(&CHAIN_REFUSALS);
    let wrong = refused_chain(rng, refusal);
    for (fault, text, refusal) in refused_networks(rng, vertices) {
        for (chain, of_chain) in [(&right, None), (&wrong.chain, wrong.of_chain)] {
            cases.push(Case {
                fault: fault.clone(),
                of_network: Some(refusal),
                of_chain,
                vertices,
                network: text.clone(),
                chain: chain.clone(),
            });
        }
    }
    cases
}

/// The names of a network's faults, a broken line or bytes left over among them, with a text of so
/// many vertices and its refusal for each.
fn refused_networks(rng: &mut Rng, vertices: usize) -> Vec<(String, Vec<u8>, Refusal)> {
    let (text, refusal) = generate::broken_network(rng, vertices);
    let mut all = vec![("Broken".to_owned(), text, refusal)];
    for aim in NetworkAim::ALL {
        let (text, refusal) = generate::aimed_network(rng, aim, vertices);
        all.push((format!("{aim:?}"), text, refusal));
    }
    all
}

/// A network whose chains have a step at every place.
pub fn small_network(rng: &mut Rng) -> Network {
    let vertices = rng.between(StepPlace::FEWEST_VERTICES, FEW_VERTICES);
    generate::network(rng, vertices)
}

/// A chain with this refusal: network and chain are drawn anew until there is a fault for it.
fn refused_chain(rng: &mut Rng, refusal: Refusal) -> Case {
    let drawn = iter::repeat_with(|| {
        let network = small_network(rng);
        let (fault, chain) = if refusal == NOT_GIVEN {
            not_given(rng, &network)?
        } else {
            aimed(rng, &network, refusal)?
        };
        Some(Case {
            fault,
            of_network: None,
            of_chain: Some(refusal),
            vertices: network.vertices,
            network: generate::text(&network),
            chain,
        })
    });
    let mut drawn = drawn.flatten();
    drawn.next().expect("there is no end of them")
}

/// A chain with any fault of this refusal that is aimed at, if it can be had.
fn aimed(rng: &mut Rng, network: &Network, refusal: Refusal) -> Option<(String, Vec<u8>)> {
    let mut aims = Aim::ALL.to_vec();
    aims.retain(|aim| aim.refusal() == Some(refusal));
    let aim = rng.pick(&aims);
    let aimed = aimed_chain(rng, network, aim)?;
    Some((format!("{aim:?}"), aimed.chain))
}

/// A chain by rule but for a z or a cost that a step doesn't give, if it can be had.
fn not_given(rng: &mut Rng, network: &Network) -> Option<(String, Vec<u8>)> {
    let mut faults = StepFault::ALL.to_vec();
    faults.retain(|fault| fault.refusal() == NOT_GIVEN);
    let (fault, place) = (rng.pick(&faults), rng.pick(&StepPlace::ALL));
    let chain = chain_by_rule(rng, network);
    let faulty = generate::faulty_chain(rng, network, &chain, fault, place)?;
    Some((format!("{fault:?}"), faulty))
}

/// The second program finds the refusal that comes first.
fn meets(case: &Case) -> Compared {
    let due = case.of_network.or(case.of_chain);
    let answer = due_reasons(&case.network, &case.chain).err();
    if answer == due {
        return Ok(());
    }
    let given: &Given = &[
        ("network", &Text(&case.network)),
        ("chain", &Text(&case.chain)),
    ];
    let fault = format!("the second program itself misses {}", case.fault);
    Err(Difference::new(SERVICE, fault, given, &due, &answer))
}

/// The reasons that are due, or the refusal.
pub fn due_reasons(network: &[u8], chain: &[u8]) -> Result<Vec<u8>, Refusal> {
    second::reasons_by(network, chain, METHOD)
}

/// The reasons of any chain with buffers of every length around those for so many vertices, held to
/// the core's own check of the chain too.
fn write(rng: &mut Rng, network: &[u8], chain: &[u8], vertices: usize) -> Compared {
    let due = due_reasons(network, chain);
    for length in four(rng, reasons_text(vertices)) {
        write_into(rng, network, chain, &due, length)?;
    }
    same_as_check(network, chain, &due)
}

/// The reasons of any chain with a buffer for so many vertices.
pub fn write_exact(rng: &mut Rng, network: &[u8], chain: &[u8], vertices: usize) -> Compared {
    let due = due_reasons(network, chain);
    write_into(rng, network, chain, &due, reasons_text(vertices))
}

/// The reasons with a buffer of this length, where this text or this refusal is due.
pub fn write_into(
    rng: &mut Rng,
    network: &[u8],
    chain: &[u8],
    due: &Result<Vec<u8>, Refusal>,
    length: usize,
) -> Compared {
    let given: &Given = &[("network", &Text(network)), ("chain", &Text(chain))];
    one_text(SERVICE, rng, given, due, length, |reasons, written| {
        raw::reasons(network, chain, reasons, written)
    })
    .map(|_| ())
}

/// The core's own check of the chain gives the same refusal, or keeps the edges that the reasons do,
/// which the core has written as they were due.
pub fn same_as_check(network: &[u8], chain: &[u8], reasons: &Result<Vec<u8>, Refusal>) -> Compared {
    let kept = thinning::check_chain(network, chain).map_err(thinning::Refusal::number);
    let judged = match (&kept, reasons) {
        (Ok(kept), Ok(reasons)) => judge_reasons(network, chain, kept, reasons),
        (Err(of_check), Err(refusal)) if *of_check == u32::from(*refusal) => Ok(()),
        _ => Err("the core's check of the chain answers otherwise".to_owned()),
    };
    judged.map_err(|fault| {
        let given: &Given = &[("network", &Text(network)), ("chain", &Text(chain))];
        let (due, answered) = (kept.map(Text), reasons.as_ref().map(Text));
        Difference::new(SERVICE, fault, given, &due, &answered)
    })
}
