//! The working network, which loses one vertex with every step.

use crate::cuts::Multigraph;
use crate::flow::Flow;
use crate::network::{every_cut_has_four, Method, Settled};
use crate::texts::{Network, Step};

/// A network on the way down to two vertices.
///
/// It keeps four edges at every vertex that is left and four across every cut, as long as
/// it is split with admissible partners.
#[derive(Clone, Debug)]
pub struct Working {
    reserved: usize,
    /// The edges by number; a retired one is gone.
    edges: Vec<Option<WorkingEdge>>,
    /// The numbers of the edges at each vertex; none once the vertex has left.
    ports: Vec<Vec<usize>>,
    vertices_left: usize,
}

/// An edge as it runs at the moment.
#[derive(Clone, Copy, Debug)]
struct WorkingEdge {
    ends: (usize, usize),
    cost: i64,
}

impl WorkingEdge {
    fn far_end(&self, near: usize) -> usize {
        if self.ends.0 == near {
            self.ends.1
        } else {
            self.ends.0
        }
    }
}

impl Working {
    /// The working network before the first step, for an accepted network.
    pub fn new(network: &Network) -> Self {
        let mut ports = vec![Vec::with_capacity(4); network.vertices];
        let mut edges = Vec::with_capacity(network.edges.len());
        for (number, edge) in network.edges.iter().enumerate() {
            let ends = (usize::from(edge.low), usize::from(edge.high));
            ports[ends.0].push(number);
            ports[ends.1].push(number);
            let cost = edge.cost;
            edges.push(Some(WorkingEdge { ends, cost }));
        }
        Working {
            reserved: network.reserved,
            edges,
            ports,
            vertices_left: network.vertices,
        }
    }

    /// How many vertices are left.
    pub fn vertices_left(&self) -> usize {
        self.vertices_left
    }

    /// Number of the reserved edge.
    pub fn reserved(&self) -> usize {
        self.reserved
    }

    /// The ends of the reserved edge.
    pub fn reserved_ends(&self) -> (usize, usize) {
        self.edge(self.reserved).ends
    }

    /// Whether the vertex is among those that are left.
    pub fn has_vertex(&self, vertex: usize) -> bool {
        self.ports
            .get(vertex)
            .is_some_and(|ports| !ports.is_empty())
    }

    /// Whether an edge of that number is there and hasn't retired.
    pub fn has_edge(&self, number: usize) -> bool {
        self.edges.get(number).is_some_and(|edge| edge.is_some())
    }

    /// The edges at a vertex other than the reserved one, in rising order.
    pub fn partners(&self, v: usize) -> Vec<usize> {
        let mut partners: Vec<usize> = self.ports[v]
            .iter()
            .copied()
            .filter(|&number| number != self.reserved)
            .collect();
        partners.sort_unstable();
        partners
    }

    /// The working cost of an edge that hasn't retired.
    pub fn cost(&self, number: usize) -> i64 {
        self.edge(number).cost
    }

    fn edge(&self, number: usize) -> WorkingEdge {
        self.edges[number].expect("the edge hasn't retired")
    }

    /// Where the splitting of `v` with partner `x` leads.
    fn pairs(&self, v: usize, x: usize) -> Pairs {
        let others: Vec<usize> = self.partners(v).into_iter().filter(|&p| p != x).collect();
        Pairs {
            u: self.edge(self.reserved).far_end(v),
            x: self.edge(x).far_end(v),
            y: self.edge(others[0]).far_end(v),
            z: self.edge(others[1]).far_end(v),
        }
    }

    /// The edges that don't end at `v`, by their ends.
    fn without(&self, v: usize) -> impl Iterator<Item = (usize, usize)> + '_ {
        self.edges
            .iter()
            .flatten()
            .map(|edge| edge.ends)
            .filter(move |ends| ends.0 != v && ends.1 != v)
    }

    /// Whether partner `x` at the reserved edge's end `v` is admissible: after splitting
    /// with it, every cut of the remaining vertices is crossed by at least four edges.
    pub fn admissible(&self, v: usize, x: usize, method: Method) -> bool {
        match method.settle(self.vertices_left - 1) {
            Settled::Enumeration | Settled::EveryFlow => {
                every_cut_has_four(&self.split_multigraph(v, x), method)
            }
            Settled::ContractedFlow => self.contracted_flow_has_four(v, x),
        }
    }

    /// The network after splitting `v` with partner `x`, its vertices numbered afresh.
    fn split_multigraph(&self, v: usize, x: usize) -> Multigraph {
        let mut fresh = vec![usize::MAX; self.ports.len()];
        let remaining = (0..self.ports.len()).filter(|&w| w != v && self.has_vertex(w));
        for (number, vertex) in remaining.enumerate() {
            fresh[vertex] = number;
        }
        let pairs = self.pairs(v, x);
        let edges = self
            .without(v)
            .chain([(pairs.u, pairs.x), (pairs.y, pairs.z)])
            .map(|(a, b)| (fresh[a], fresh[b]))
            .collect();
        Multigraph {
            vertices: self.vertices_left - 1,
            edges,
        }
    }

    /// The test of Lemma 9: four edge-disjoint paths between the pair {u, far end of x}
    /// and the pair of the two other far ends, each contracted to one vertex.
    ///
    /// In a network whose cuts all have four edges it settles the matter. Only a cut with
    /// one pair on either side loses edges by the splitting; any other one is crossed as
    /// often as it was with v on the better side. Pairs with a vertex in common aren't
    /// separated by any cut.
    fn contracted_flow_has_four(&self, v: usize, x: usize) -> bool {
        let pairs = self.pairs(v, x);
        let (source, sink) = (pairs.u, pairs.y);
        if [pairs.u, pairs.x].contains(&pairs.y) || [pairs.u, pairs.x].contains(&pairs.z) {
            return true;
        }
        let contracted = |vertex: usize| match vertex {
            w if w == pairs.x => source,
            w if w == pairs.z => sink,
            w => w,
        };
        let edges: Vec<(usize, usize)> = self
            .without(v)
            .map(|(a, b)| (contracted(a), contracted(b)))
            .collect();
        Flow::new(self.ports.len(), &edges).disjoint_paths(source, sink, 4) == 4
    }

    /// The whole step that splits `v` with its partner `x`, `y` being another one: with the
    /// third partner, and with its cost after the step.
    pub fn step(&self, v: usize, x: usize, y: usize) -> Step {
        let z = self
            .partners(v)
            .into_iter()
            .find(|&partner| partner != x && partner != y)
            .expect("there are three partners");
        let cost = self.cost(z) - self.cost(x);
        let [v, x, y, z] = [v, x, y, z].map(as_number);
        Step { v, x, y, z, cost }
    }

    /// Takes a step as [`Working::step`] gives it, with admissible partners.
    pub fn split(&mut self, step: Step) {
        let [v, x, y, z] = [step.v, step.x, step.y, step.z].map(usize::from);
        let u = self.edge(self.reserved).far_end(v);
        let x_end = self.edge(x).far_end(v);
        let y_end = self.edge(y).far_end(v);
        let z_end = self.edge(z).far_end(v);

        self.edges[self.reserved] = Some(WorkingEdge {
            ends: (u, x_end),
            cost: self.cost(self.reserved),
        });
        self.edges[z] = Some(WorkingEdge {
            ends: (y_end, z_end),
            cost: step.cost,
        });
        self.edges[x] = None;
        self.edges[y] = None;

        self.ports[v].clear();
        self.replug(x_end, x, self.reserved);
        self.replug(y_end, y, z);
        self.vertices_left -= 1;
    }

    /// Puts edge `new` at a vertex in the place of edge `old`.
    fn replug(&mut self, vertex: usize, old: usize, new: usize) {
        let port = self.ports[vertex].iter_mut().find(|port| **port == old);
        *port.expect("the edge ends at the vertex") = new;
    }
}

/// A vertex or an edge as the number in a frame.
pub(crate) fn as_number(place: usize) -> u16 {
    u16::try_from(place).expect("numbers of vertices and edges have two bytes")
}

/// The four far ends at a vertex to be split: u and x are joined, and y and z.
struct Pairs {
    u: usize,
    x: usize,
    y: usize,
    z: usize,
}
