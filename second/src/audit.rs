//! The audit of a list of edges: connected, reached, critical.

use crate::refusal::Refusal;
use crate::texts::{read_list, read_network, Network};

/// What the audit answers.
#[derive(Clone, Copy, Debug, PartialEq, Eq)]
pub struct Audit {
    /// Whether the listed edges connect all vertices.
    pub connected: bool,
    /// How many vertices the listed edges connect to vertex 0, itself included.
    pub reached: usize,
    /// How many listed edges are critical: the list connects the ends of such an edge, and
    /// the list without it doesn't. It is a bridge of the listed graph, in whichever part of
    /// it.
    pub critical: usize,
}

/// Audits a list over the network of a text, which need not be accepted.
pub fn audit(network_text: &[u8], list_text: &[u8]) -> Result<Audit, Refusal> {
    let network = read_network(network_text)?;
    let list = read_list(network.vertices, list_text)?;
    Ok(audit_list(&network, &list))
}

/// Audits a list of edges, rising and below the network's count, by one search for bridges.
pub fn audit_list(network: &Network, list: &[u16]) -> Audit {
    let ports = Ports::new(network, list);
    let mut search = BridgeSearch::new(&ports, network.vertices);
    search.enter(0, None);
    let reached = search.count;
    for vertex in 1..network.vertices {
        if search.entered[vertex] == 0 {
            search.enter(vertex, None);
        }
    }
    Audit {
        connected: reached == network.vertices,
        reached,
        critical: search.bridges,
    }
}

/// The same answers from their definition: each listed edge is looked at by itself.
pub fn audit_list_by_definition(network: &Network, list: &[u16]) -> Audit {
    let from_first = connected_to(network, list, 0);
    let reached = from_first.iter().filter(|&&connected| connected).count();
    let critical = list
        .iter()
        .filter(|&&number| is_critical(network, list, number))
        .count();
    Audit {
        connected: reached == network.vertices,
        reached,
        critical,
    }
}

/// Whether the list connects the ends of a listed edge, and the list without it doesn't.
fn is_critical(network: &Network, list: &[u16], number: u16) -> bool {
    let (a, b) = ends(network, number);
    let others = list.iter().copied().filter(|&other| other != number);
    let others: Vec<u16> = others.collect();
    connected_to(network, list, a)[b] && !connected_to(network, &others, a)[b]
}

fn ends(network: &Network, number: u16) -> (usize, usize) {
    let edge = network.edges[usize::from(number)];
    (edge.low.into(), edge.high.into())
}

/// For each vertex, whether the list connects it to the start vertex; that one is.
fn connected_to(network: &Network, list: &[u16], start: usize) -> Vec<bool> {
    let mut connected = vec![false; network.vertices];
    connected[start] = true;
    let mut growing = true;
    while growing {
        growing = false;
        for &number in list {
            let (a, b) = ends(network, number);
            if connected[a] != connected[b] {
                connected[a] = true;
                connected[b] = true;
                growing = true;
            }
        }
    }
    connected
}

/// The listed edges at each vertex, sorted into one row by counting.
struct Ports {
    /// Where the ports of each vertex start in the row; one entry more is its end.
    starts: Vec<usize>,
    /// Pairs of edge number and far end.
    row: Vec<(u16, u16)>,
}

impl Ports {
    fn new(network: &Network, list: &[u16]) -> Self {
        let mut starts = vec![0; network.vertices + 1];
        for &number in list {
            let edge = network.edges[usize::from(number)];
            starts[usize::from(edge.low)] += 1;
            starts[usize::from(edge.high)] += 1;
        }
        // Where the ports of each vertex end; each port that is put in moves it down.
        let mut end = 0;
        for start in &mut starts {
            end += *start;
            *start = end;
        }
        let mut row = vec![(0, 0); end];
        for &number in list {
            let edge = network.edges[usize::from(number)];
            for (near, far) in [(edge.low, edge.high), (edge.high, edge.low)] {
                let start = &mut starts[usize::from(near)];
                *start -= 1;
                row[*start] = (number, far);
            }
        }
        Ports { starts, row }
    }

    fn at(&self, vertex: usize) -> &[(u16, u16)] {
        &self.row[self.starts[vertex]..self.starts[vertex + 1]]
    }
}

/// A depth-first search that counts vertices and bridges.
struct BridgeSearch<'ports> {
    ports: &'ports Ports,
    /// When each vertex was entered, counted from 1; zero before.
    entered: Vec<usize>,
    /// How many vertices were entered.
    count: usize,
    bridges: usize,
}

impl<'ports> BridgeSearch<'ports> {
    fn new(ports: &'ports Ports, vertices: usize) -> Self {
        BridgeSearch {
            ports,
            entered: vec![0; vertices],
            count: 0,
            bridges: 0,
        }
    }

    /// Enters a vertex by an edge and searches on from there. Gives its low point: when the
    /// earliest vertex was entered that is met from here on by any other edge. The edge ahead
    /// of a low point that is later than the vertex itself is a bridge. The depth is at most
    /// the count of vertices.
    fn enter(&mut self, vertex: usize, by: Option<u16>) -> usize {
        self.count += 1;
        let own = self.count;
        self.entered[vertex] = own;
        let mut earliest = own;
        for &(number, ahead) in self.ports.at(vertex) {
            if Some(number) == by {
                continue;
            }
            let ahead = usize::from(ahead);
            let mut met = self.entered[ahead];
            if met == 0 {
                met = self.enter(ahead, Some(number));
                if met > own {
                    self.bridges += 1;
                }
            }
            earliest = earliest.min(met);
        }
        earliest
    }
}
