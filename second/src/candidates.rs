//! The plans of one network with several edges reserved in turn: of each plan its sums.

use crate::chain::plan_network;
use crate::lengths::candidates_text;
use crate::lines::{Lines, SUMS};
use crate::network::{read_accepted, Method};
use crate::refusal::Refusal;
use crate::texts::{check_reserved, write_sums};

/// Plans the network of a text with each listed edge reserved in place of the head's, and gives
/// the frames 06 of these plans in list order.
pub fn plan_candidates_by(
    network_text: &[u8],
    reserved: &[u16],
    method: Method,
) -> Result<Vec<u8>, Refusal> {
    let mut network = read_accepted(network_text, method)?;
    for &edge in reserved {
        check_reserved(network.vertices, edge.into())?;
    }
    let mut text = Vec::with_capacity(candidates_text(reserved.len()));
    for &edge in reserved {
        network.reserved = edge.into();
        let (_, kept) = plan_network(&network, method);
        write_sums(&kept, &mut text);
    }
    Ok(text)
}

/// The meaning of a frame 06.
#[derive(Clone, Copy, Debug, PartialEq, Eq)]
pub struct Sums {
    /// Sum of the kept edges' costs.
    pub cost: i64,
    /// Sum of the costs of all edges but the reserved one.
    pub total: i64,
}

/// Reads the form of candidates' frames; whether their numbers are right isn't looked at.
pub fn read_candidates(text: &[u8]) -> Result<Vec<Sums>, Refusal> {
    let mut lines = Lines::new(text);
    let mut sums = Vec::new();
    while !lines.at_end() {
        let [cost, total] = SUMS.read(&mut lines)?;
        sums.push(Sums { cost, total });
    }
    Ok(sums)
}
