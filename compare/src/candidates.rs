//! Candidates: the plans of one network with several edges reserved in turn, and what is refused
//! before any of them is made.

use std::collections::BTreeMap;

use second::generate::{self, CandidateStyle, NetworkAim, Rng, WrongPlace};
use second::lengths::candidates_text;
use second::properties::judge_candidates;
use second::texts::FEWEST_VERTICES;
use second::{Network, Refusal};
use thinning::raw;

use crate::buffers::one_text;
use crate::costs::some_vertices;
use crate::difference::{Compared, Difference, Given, Text, Words};
use crate::networks::MANY_VERTICES;

const SERVICE: &str = "candidates";

/// With every edge reserved in turn, networks of more vertices take long.
const FEW_VERTICES: usize = 8;

/// Lists of candidates over accepted networks, held to single plans as well.
pub fn lists(rng: &mut Rng) -> Compared {
    for (network, lists) in tried(rng) {
        let text = generate::text(&network);
        let mut singles = Singles::new(network);
        for reserved in &lists {
            let due = second::plan_candidates(&text, reserved);
            plan_due(rng, &text, reserved, &due)?;
            singles.compare(reserved, &due)?;
        }
    }
    Ok(())
}

/// A small network with a list of every style, all edges among them, and a network that may be
/// larger with a few candidates.
pub fn tried(rng: &mut Rng) -> [(Network, Vec<Vec<u16>>); 2] {
    let vertices = rng.between(FEWEST_VERTICES, FEW_VERTICES);
    let small = generate::network(rng, vertices);
    let every_style = CandidateStyle::ALL.map(|style| generate::candidates_of(rng, &small, style));
    let vertices = generate::size(rng).min(MANY_VERTICES);
    let larger = generate::network(rng, vertices);
    let few = generate::candidates_of(rng, &larger, CandidateStyle::Few);
    [(small, every_style.into()), (larger, vec![few])]
}

/// The frames 06 of the core's own plans of a network, each with one edge in the head.
pub struct Singles {
    network: Network,
    frames: BTreeMap<u16, Result<Vec<u8>, thinning::Refusal>>,
}

impl Singles {
    /// None of the plans is made yet.
    pub fn new(network: Network) -> Self {
        let frames = BTreeMap::new();
        Singles { network, frames }
    }

    /// The last frame of the core's plan with this edge reserved, which is made once.
    fn frame(&mut self, edge: u16) -> Result<Vec<u8>, thinning::Refusal> {
        let network = &mut self.network;
        let frame = self.frames.entry(edge).or_insert_with(|| {
            network.reserved = edge.into();
            let kept = thinning::plan(&generate::text(network))?.kept;
            Ok(kept[kept.len() - candidates_text(1)..].to_vec())
        });
        frame.clone()
    }

    /// The frames of a list, which the core has written as they were due, are those of its single
    /// plans.
    pub fn compare(&mut self, reserved: &[u16], frames: &Result<Vec<u8>, Refusal>) -> Compared {
        let singly: Result<Vec<_>, _> = reserved.iter().map(|&edge| self.frame(edge)).collect();
        let singly = singly.map(|frames| frames.concat());
        let singly = singly.map_err(thinning::Refusal::number);
        let frames = frames.as_ref().map_err(|&refusal| u32::from(refusal));
        if frames == singly.as_ref().map_err(|&refusal| refusal) {
            return Ok(());
        }
        let text = generate::text(&self.network);
        let given: &Given = &[("network", &Text(&text)), ("reserved", &reserved)];
        let fault = "the core's single plans give other frames";
        let (due, answered) = (singly.map(Text), frames.map(Text));
        Err(Difference::new(SERVICE, fault, given, &due, &answered))
    }
}

/// A network and a list with the refusals that they have: the network's in its check, and the
/// list's over an accepted network.
pub struct Case {
    pub of_network: Option<Refusal>,
    pub of_list: Option<Refusal>,
    pub network: Vec<u8>,
    pub reserved: Vec<u16>,
}

/// Every fault of a network with every fault of a list, and a network that is damaged in any way.
pub fn refusals(rng: &mut Rng) -> Compared {
    for case in every_fault(rng) {
        meets(&case)?;
        plan(rng, &case.network, &case.reserved)?;
    }
    let vertices = some_vertices(rng);
    let network = generate::network(rng, vertices);
    let damaged = generate::damage(rng, &generate::text(&network));
    let few = generate::candidates_of(rng, &network, CandidateStyle::Few);
    plan(rng, &damaged, &few)?;
    let place = rng.pick(&WrongPlace::ALL);
    let (wrong, _) = generate::aimed_candidates(rng, &network, place);
    plan(rng, &damaged, &wrong)
}

/// Each of these networks with each of these lists: an empty one, one of a few edges, and one with
/// a wrong number at each place. The networks are an accepted one, which comes first, one with a
/// broken line or bytes left over, and one for each wrong number and each fault of degrees and
/// cuts.
pub fn every_fault(rng: &mut Rng) -> Vec<Case> {
    // A network with a small cut has four vertices at least.
    let vertices = some_vertices(rng).max(4);
    let network = generate::network(rng, vertices);
    let right = [CandidateStyle::Empty, CandidateStyle::Few];
    let right = right.map(|style| (generate::candidates_of(rng, &network, style), None));
    let wrong = WrongPlace::ALL.map(|place| generate::aimed_candidates(rng, &network, place));
    let lists: Vec<_> = right.into_iter().chain(wrong.map(refused)).collect();
    let broken = generate::broken_network(rng, vertices);
    let aimed = NetworkAim::ALL.map(|aim| generate::aimed_network(rng, aim, vertices));
    let faulty = [broken].into_iter().chain(aimed).map(refused);
    let networks = [(generate::text(&network), None)].into_iter().chain(faulty);
    let mut cases = Vec::new();
    for (network, of_network) in networks {
        for (reserved, of_list) in &lists {
            cases.push(Case {
                of_network,
                of_list: *of_list,
                network: network.clone(),
                reserved: reserved.clone(),
            });
        }
    }
    cases
}

fn refused<T>((faulty, refusal): (T, Refusal)) -> (T, Option<Refusal>) {
    (faulty, Some(refusal))
}

/// The second program finds the refusal that comes first.
fn meets(case: &Case) -> Compared {
    let Case {
        network, reserved, ..
    } = case;
    let due = case.of_network.or(case.of_list);
    let answer = second::plan_candidates(network, reserved).err();
    if answer == due {
        return Ok(());
    }
    let given: &Given = &[("network", &Text(network)), ("reserved", reserved)];
    let fault = "the second program itself misses a fault that was aimed at";
    Err(Difference::new(SERVICE, fault, given, &due, &answer))
}

/// The frames of candidates over a network, whatever both are, with buffers of every length.
pub fn plan(rng: &mut Rng, network: &[u8], reserved: &[u16]) -> Compared {
    let due = second::plan_candidates(network, reserved);
    plan_due(rng, network, reserved, &due)
}

/// The same, where these frames or this refusal is due.
fn plan_due(
    rng: &mut Rng,
    network: &[u8],
    reserved: &[u16],
    due: &Result<Vec<u8>, Refusal>,
) -> Compared {
    for length in frame_lengths(rng, reserved) {
        plan_into(rng, network, reserved, due, length)?;
    }
    Ok(())
}

/// Lengths to lend the buffer of a list's frames with: exact, a byte short, without the last frame,
/// empty, anything shorter and a little longer. Nothing is shorter than what an empty list gets.
pub fn frame_lengths(rng: &mut Rng, reserved: &[u16]) -> [usize; 6] {
    let (due, frame) = (candidates_text(reserved.len()), candidates_text(1));
    [
        due,
        due.saturating_sub(1),
        due.saturating_sub(frame),
        0,
        rng.below(due),
        due + rng.between(1, frame),
    ]
}

/// The frames with a buffer of this length, where these frames or this refusal is due.
pub fn plan_into(
    rng: &mut Rng,
    network: &[u8],
    reserved: &[u16],
    due: &Result<Vec<u8>, Refusal>,
    length: usize,
) -> Compared {
    let given: &Given = &[("network", &Text(network)), ("reserved", &reserved)];
    let frames = one_text(SERVICE, rng, given, due, length, |costs, written| {
        raw::plan_candidates(network, reserved, costs, written)
    })?;
    frames.map_or(Ok(()), |frames| judge(network, reserved, &frames))
}

/// What is promised of the frames of every list, judged without a plan.
fn judge(network: &[u8], reserved: &[u16], frames: &[u8]) -> Compared {
    judge_candidates(network, reserved, frames).map_err(|fault| {
        let given: &Given = &[("network", &Text(network)), ("reserved", &reserved)];
        let due = Words("frames that keep what is promised of them");
        Difference::new(SERVICE, fault, given, &due, &Text(frames))
    })
}
