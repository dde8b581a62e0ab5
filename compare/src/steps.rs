//! Steps with a wrong z, a wrong cost or another form, at the first place of a chain, in its middle
//! and at its last place, alone and together with other faults.

use std::iter;

use second::generate::{self, CostStyle, Family, Rng, StepFault, StepPlace};
use second::Network;

use crate::buffers::{due_length, four};
use crate::chains::{chain_text, check_into, meets};
use crate::difference::{Compared, Words};

/// Larger networks take long, since there is one for each fault and place.
const MOST_VERTICES: usize = 6;

/// A chain by rule over an accepted network, and the same one with a fault.
pub struct Case {
    pub fault: StepFault,
    pub place: StepPlace,
    pub family: Family,
    pub network: Network,
    pub by_rule: Vec<u8>,
    pub faulty: Vec<u8>,
}

/// The chain check on chains by rule, and on the same ones with every fault at every place, with
/// buffers of every length for what the chain by rule keeps.
pub fn faults(rng: &mut Rng) -> Compared {
    for case in every_fault(rng) {
        let text = generate::text(&case.network);
        let refusal = case.fault.refusal();
        meets(&text, &Words("that nothing is wrong"), &case.by_rule, None)?;
        let aim = (case.fault, case.place, case.family);
        meets(&text, &aim, &case.faulty, Some(refusal))?;
        let kept = second::check_chain(&text, &case.by_rule);
        let exact = due_length(rng, kept.as_deref().ok());
        check_into(rng, &text, &case.by_rule, &kept, exact)?;
        for length in four(rng, exact) {
            check_into(rng, &text, &case.faulty, &Err(refusal), length)?;
        }
    }
    Ok(())
}

/// Every fault at every place where a chain can have it, each over a network of its own. The
/// families take turns, and any of them begins.
pub fn every_fault(rng: &mut Rng) -> Vec<Case> {
    let first = rng.below(Family::ALL.len());
    let mut families = Family::ALL.into_iter().cycle().skip(first);
    let at_every_place = |fault| StepPlace::ALL.map(|place| (fault, place));
    let all = StepFault::ALL.into_iter().flat_map(at_every_place);
    all.filter(|(fault, place)| fault.can_be_at(*place))
        .map(|(fault, place)| {
            let family = families.next().expect("they begin anew");
            case(rng, fault, place, family)
        })
        .collect()
}

/// A case of this family: network and chain are drawn anew until the fault can be had.
fn case(rng: &mut Rng, fault: StepFault, place: StepPlace, family: Family) -> Case {
    let drawn = iter::repeat_with(|| {
        let vertices = rng.between(StepPlace::FEWEST_VERTICES, MOST_VERTICES);
        let style = rng.pick(&CostStyle::ALL);
        let network = generate::network_of(rng, family, vertices, style);
        let chain = generate::chain_by_rule(rng, &network);
        let faulty = generate::faulty_chain(rng, &network, &chain, fault, place)?;
        Some(Case {
            fault,
            place,
            family,
            by_rule: chain_text(vertices, &chain),
            network,
            faulty,
        })
    });
    let mut drawn = drawn.flatten();
    drawn.next().expect("there is no end of them")
}

/// Any fault at any place of a chain by rule over a network, if it can be had.
pub fn any_fault(rng: &mut Rng, network: &Network) -> Option<(StepFault, Vec<u8>)> {
    let (fault, place) = (rng.pick(&StepFault::ALL), rng.pick(&StepPlace::ALL));
    let chain = generate::chain_by_rule(rng, network);
    let faulty = generate::faulty_chain(rng, network, &chain, fault, place)?;
    Some((fault, faulty))
}
