//! The reason beside each edge of a chain that passes: what put it in or out, and at which step.

use crate::chain::{read_passing, Passed};
use crate::lengths::reasons_text;
use crate::lines::{Lines, REASON};
use crate::network::Method;
use crate::refusal::{Refusal, BROKEN_TEXT};
use crate::texts::{as_number, Chain, Network};

/// What puts an edge in or out. It is the way in which the edge leaves the network; that it was a
/// step's z earlier doesn't count.
#[derive(Clone, Copy, Debug, PartialEq, Eq, PartialOrd, Ord)]
pub enum Rule {
    /// It is the reserved edge.
    Reserved,
    /// It retires as a step's y, and is kept.
    KeptAsY,
    /// It retires as a step's x, and is kept.
    KeptAsX,
    /// It retires as a step's x, and is out.
    OutAsX,
    /// It is one of the last three, and is kept.
    KeptAtEnding,
    /// It is one of the last three, and is dropped.
    DroppedAtEnding,
}

impl Rule {
    /// Every rule, by its number.
    pub const ALL: [Rule; 6] = [
        Rule::Reserved,
        Rule::KeptAsY,
        Rule::KeptAsX,
        Rule::OutAsX,
        Rule::KeptAtEnding,
        Rule::DroppedAtEnding,
    ];

    /// Its number in a frame.
    pub fn number(self) -> u8 {
        self as u8
    }

    /// Whether an edge of this rule is kept.
    pub fn keeps(self) -> bool {
        matches!(self, Rule::KeptAsY | Rule::KeptAsX | Rule::KeptAtEnding)
    }
}

/// The meaning of a frame 0a.
#[derive(Clone, Copy, Debug, PartialEq, Eq)]
pub struct Reason {
    /// The edge.
    pub edge: u16,
    /// What puts it in or out.
    pub rule: Rule,
    /// The step at which it retires, the first one being 1; 0 if it retires at none.
    pub step: u16,
}

/// Checks a chain over the network of a text, and gives a frame 0a for each edge in edge order.
pub fn reasons_by(
    network_text: &[u8],
    chain_text: &[u8],
    method: Method,
) -> Result<Vec<u8>, Refusal> {
    let Passed { network, chain, .. } = read_passing(network_text, chain_text, method)?;
    let mut text = Vec::with_capacity(reasons_text(network.vertices));
    for reason in reasons_of(&network, &chain) {
        write_reason(reason, &mut text);
    }
    Ok(text)
}

/// The reasons of a chain that passes over a network, in edge order.
pub fn reasons_of(network: &Network, chain: &Chain) -> Vec<Reason> {
    let leavings = leavings(network, chain);
    let reason = |edge: u16| {
        let (rule, step) = (rule(&leavings, edge), leavings[usize::from(edge)].step());
        Reason { edge, rule, step }
    };
    (0..).take(leavings.len()).map(reason).collect()
}

/// How an edge leaves the network.
#[derive(Clone, Copy)]
enum Leaving {
    /// It never does, being reserved.
    Reserved,
    /// As y of this step.
    AsY { step: u16 },
    /// As x of this step, whose third partner is z.
    AsX { step: u16, z: u16 },
    /// Not before the ending, which keeps it.
    Last,
    /// Not before the ending, which drops it.
    Dropped,
}

impl Leaving {
    fn step(self) -> u16 {
        match self {
            Leaving::AsY { step } | Leaving::AsX { step, .. } => step,
            Leaving::Reserved | Leaving::Last | Leaving::Dropped => 0,
        }
    }
}

/// How every edge leaves: each step retires two, and the ending finds those that are left.
fn leavings(network: &Network, chain: &Chain) -> Vec<Leaving> {
    let mut all = vec![Leaving::Last; network.edges.len()];
    all[network.reserved] = Leaving::Reserved;
    all[usize::from(chain.dropped)] = Leaving::Dropped;
    for (number, step) in (1..).zip(&chain.steps) {
        all[usize::from(step.x)] = Leaving::AsX {
            step: number,
            z: step.z,
        };
        all[usize::from(step.y)] = Leaving::AsY { step: number };
    }
    all
}

/// The rule of an edge. An x is kept exactly if its z isn't, which is seen where z leaves in its
/// turn: at a later step or at the ending.
fn rule(leavings: &[Leaving], edge: u16) -> Rule {
    match leavings[usize::from(edge)] {
        Leaving::Reserved => Rule::Reserved,
        Leaving::AsY { .. } => Rule::KeptAsY,
        Leaving::AsX { z, .. } if rule(leavings, z).keeps() => Rule::OutAsX,
        Leaving::AsX { .. } => Rule::KeptAsX,
        Leaving::Last => Rule::KeptAtEnding,
        Leaving::Dropped => Rule::DroppedAtEnding,
    }
}

/// Appends one frame 0a, whatever its numbers.
pub fn write_reason(reason: Reason, text: &mut Vec<u8>) {
    let Reason { edge, rule, step } = reason;
    REASON.write([edge.into(), rule.number().into(), step.into()], text);
}

/// Reads the form of reasons, in which a number that is no rule is broken too; whether they are
/// right isn't looked at.
pub fn read_reasons(text: &[u8]) -> Result<Vec<Reason>, Refusal> {
    let mut lines = Lines::new(text);
    let mut reasons = Vec::new();
    while !lines.at_end() {
        let [edge, rule, step] = REASON.read(&mut lines)?.map(as_number);
        let rule = *Rule::ALL.get(usize::from(rule)).ok_or(BROKEN_TEXT)?;
        reasons.push(Reason { edge, rule, step });
    }
    Ok(reasons)
}
