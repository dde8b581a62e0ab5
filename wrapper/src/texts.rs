//! The services that take and give texts.

use crate::meanings::written;
use crate::{raw, Refusal, CHAIN_TEXT, KEPT_TEXT, PAGE_TEXT};

/// What the planner writes.
#[derive(Clone, Debug, PartialEq, Eq)]
pub struct Plan {
    /// The chain text.
    pub chain: Vec<u8>,
    /// The kept text.
    pub kept: Vec<u8>,
}

/// What the audit of a list answers.
#[derive(Clone, Copy, Debug, PartialEq, Eq)]
pub struct Audit {
    /// Whether the listed edges join all vertices.
    pub connected: bool,
    /// How many vertices they join to vertex 0, itself included.
    pub reached: usize,
    /// How many of them are critical. One is if its ends are joined by the list and not by the list without it: it is a
    /// bridge of the listed graph, whether that is in one piece or has islands.
    pub critical: usize,
}

/// Checks a network text: refusals 1 to 7.
pub fn check_network(network: &[u8]) -> Result<(), Refusal> {
    Refusal::judge(raw::check_network(network))
}

/// Plans a network text: refusals 1 to 7.
pub fn plan(network: &[u8]) -> Result<Plan, Refusal> {
    planned(|chain, kept, chain_written, kept_written| {
        raw::plan(network, chain, kept, chain_written, kept_written)
    })
}

/// What a planner puts into buffers that take every plan.
pub(crate) fn planned(
    plan: impl FnOnce(&mut [u8], &mut [u8], &mut usize, &mut usize) -> u32,
) -> Result<Plan, Refusal> {
    let (mut chain, mut kept) = (vec![0; CHAIN_TEXT], vec![0; KEPT_TEXT]);
    let (mut chain_written, mut kept_written) = (0, 0);
    Refusal::judge(plan(
        &mut chain,
        &mut kept,
        &mut chain_written,
        &mut kept_written,
    ))?;
    chain.truncate(chain_written);
    kept.truncate(kept_written);
    Ok(Plan { chain, kept })
}

/// Checks any bytes as a chain over a network text and gives the kept text: refusals 1 to 12 and 17.
pub fn check_chain(network: &[u8], chain: &[u8]) -> Result<Vec<u8>, Refusal> {
    let mut kept = vec![0; KEPT_TEXT];
    let mut written = 0;
    Refusal::judge(raw::check_chain(network, chain, &mut kept, &mut written))?;
    kept.truncate(written);
    Ok(kept)
}

/// Audits a list over a network text, which need not be accepted: refusals 1 to 5 and 14.
pub fn audit(network: &[u8], list: &[u8]) -> Result<Audit, Refusal> {
    let mut answer = Audit {
        connected: false,
        reached: 0,
        critical: 0,
    };
    Refusal::judge(raw::audit(
        network,
        list,
        &mut answer.connected,
        &mut answer.reached,
        &mut answer.critical,
    ))?;
    Ok(answer)
}

/// Prints a list over a network text, which need not be accepted: refusals 1 to 5 and 14.
///
/// A line has the edge in 6 characters, its lower end in 6, its higher end in 6 and its cost in 18, the last line 18
/// spaces and the sum of the listed costs in 18; numbers are right-aligned, in base ten.
pub fn print_page(network: &[u8], list: &[u8]) -> Result<Vec<u8>, Refusal> {
    written(PAGE_TEXT, |page, length| {
        raw::print_page(network, list, page, length)
    })
}
