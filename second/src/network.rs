//! The check of a network: four edges at every vertex, four across every cut.

use crate::cuts::{Multigraph, MOST_ENUMERATED};
use crate::refusal::{Refusal, NOT_FOUR_REGULAR, SMALL_CUT};
use crate::texts::{read_network, Network};

/// How cuts are judged. All methods give the same answers.
#[derive(Clone, Copy, Debug, PartialEq, Eq)]
pub enum Method {
    /// Count across every cut up to [`Method::MOST_COUNTED`] vertices; above, up to [`Method::MOST_BY_EVERY_FLOW`], as
    /// [`Method::EveryFlow`], which rests on no lemma about splittings; above that, as [`Method::ContractedFlow`].
    Mixed,
    /// Count across every cut, up to [`MOST_ENUMERATED`] vertices; above, by flows.
    Enumeration,
    /// Flows from one vertex to every other one, in the whole network in question.
    EveryFlow,
    /// A splitting is judged by one flow between contracted pairs (Lemma 9), a whole
    /// network by flows from one vertex to every other one.
    ContractedFlow,
}

/// A method that has been settled for a certain count of vertices.
#[derive(Clone, Copy, Debug, PartialEq, Eq)]
pub(crate) enum Settled {
    Enumeration,
    EveryFlow,
    ContractedFlow,
}

impl Method {
    /// Every method; all of them give the same answers.
    pub const ALL: [Method; 4] = [
        Method::Mixed,
        Method::Enumeration,
        Method::EveryFlow,
        Method::ContractedFlow,
    ];
    /// The most vertices for which [`Method::Mixed`] counts across every cut.
    pub const MOST_COUNTED: usize = 10;
    /// The most vertices for which [`Method::Mixed`] takes flows to every vertex.
    pub const MOST_BY_EVERY_FLOW: usize = 64;

    /// What is done for a network of so many vertices.
    pub(crate) fn settle(self, vertices: usize) -> Settled {
        match self {
            Method::Mixed if vertices <= Self::MOST_COUNTED => Settled::Enumeration,
            Method::Mixed if vertices <= Self::MOST_BY_EVERY_FLOW => Settled::EveryFlow,
            Method::Enumeration if vertices <= MOST_ENUMERATED => Settled::Enumeration,
            Method::Enumeration | Method::EveryFlow => Settled::EveryFlow,
            Method::Mixed | Method::ContractedFlow => Settled::ContractedFlow,
        }
    }
}

/// Whether every cut of a whole network is crossed by at least four edges.
pub(crate) fn every_cut_has_four(graph: &Multigraph, method: Method) -> bool {
    match method.settle(graph.vertices) {
        Settled::Enumeration => graph.every_cut_counted(4),
        Settled::EveryFlow | Settled::ContractedFlow => graph.every_cut_by_flows(4),
    }
}

impl Network {
    /// The network without its costs and numbers.
    pub fn multigraph(&self) -> Multigraph {
        Multigraph {
            vertices: self.vertices,
            edges: self
                .edges
                .iter()
                .map(|edge| (edge.low.into(), edge.high.into()))
                .collect(),
        }
    }

    /// Whether a network that reads is accepted: refusal 6, then 7.
    pub fn accept(&self, method: Method) -> Result<(), Refusal> {
        let graph = self.multigraph();
        if graph.degrees().iter().any(|&degree| degree != 4) {
            return Err(NOT_FOUR_REGULAR);
        }
        if !every_cut_has_four(&graph, method) {
            return Err(SMALL_CUT);
        }
        Ok(())
    }
}

/// Reads a network text and gives the network if it is accepted.
pub fn read_accepted(text: &[u8], method: Method) -> Result<Network, Refusal> {
    let network = read_network(text)?;
    network.accept(method)?;
    Ok(network)
}
