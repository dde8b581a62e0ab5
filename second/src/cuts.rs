//! Whether every cut of a multigraph is crossed by enough edges, judged in two ways.

use crate::flow::Flow;

/// The most vertices for which cuts are enumerated one by one.
pub const MOST_ENUMERATED: usize = 20;

/// A multigraph on vertices numbered from 0; a loop crosses no cut.
#[derive(Clone, Debug, PartialEq, Eq)]
pub struct Multigraph {
    /// Count of vertices.
    pub vertices: usize,
    /// The two ends of each edge.
    pub edges: Vec<(usize, usize)>,
}

impl Multigraph {
    /// Edges at each vertex, a loop counted twice.
    pub fn degrees(&self) -> Vec<usize> {
        let mut degrees = vec![0; self.vertices];
        for &(a, b) in &self.edges {
            degrees[a] += 1;
            degrees[b] += 1;
        }
        degrees
    }

    /// The least number of edges that cross a cut, found by counting across each cut.
    ///
    /// Gives nothing for fewer than two vertices, which no cut divides.
    pub fn smallest_cut(&self) -> Option<usize> {
        assert!(self.vertices <= MOST_ENUMERATED, "too many cuts to count");
        // The last vertex stays outside: each cut is met once, as the side without it.
        let sides = 1..1_u32 << self.vertices.saturating_sub(1);
        sides.map(|side| self.crossing(side)).min()
    }

    /// Edges between the vertices whose bits are set in `side` and the others.
    fn crossing(&self, side: u32) -> usize {
        self.edges
            .iter()
            .filter(|(a, b)| ((side >> a) ^ (side >> b)) & 1 == 1)
            .count()
    }

    /// Whether every cut is crossed by `least` edges, by counting across each cut.
    pub fn every_cut_counted(&self, least: usize) -> bool {
        self.smallest_cut().is_none_or(|smallest| smallest >= least)
    }

    /// Whether every cut is crossed by `least` edges, by flows.
    ///
    /// Each cut separates vertex 0 from some other vertex, so flows from vertex 0 to each
    /// of the others meet every cut.
    pub fn every_cut_by_flows(&self, least: usize) -> bool {
        let mut flow = Flow::new(self.vertices, &self.edges);
        (1..self.vertices).all(|sink| flow.disjoint_paths(0, sink, least) == least)
    }
}

#[cfg(test)]
mod tests {
    use super::*;
    use crate::generate::Rng;

    #[test]
    fn loops_cross_nothing() {
        let graph = Multigraph {
            vertices: 2,
            edges: vec![(0, 0), (0, 1), (0, 1), (1, 1)],
        };
        assert_eq!(graph.smallest_cut(), Some(2));
        assert!(graph.every_cut_by_flows(2));
        assert!(!graph.every_cut_by_flows(3));
    }

    #[test]
    fn a_single_vertex_has_no_cut() {
        let graph = Multigraph {
            vertices: 1,
            edges: vec![(0, 0)],
        };
        assert_eq!(graph.smallest_cut(), None);
        assert!(graph.every_cut_counted(4));
        assert!(graph.every_cut_by_flows(4));
    }

    #[test]
    fn counting_and_flows_agree() {
        let mut rng = Rng::new(1);
        for _ in 0..2_000 {
            let vertices = rng.between(2, 9);
            let edges = (0..rng.below(5 * vertices))
                .map(|_| (rng.below(vertices), rng.below(vertices)))
                .collect();
            let graph = Multigraph { vertices, edges };
            for least in 0..6 {
                assert_eq!(
                    graph.every_cut_counted(least),
                    graph.every_cut_by_flows(least),
                    "{least} across each cut of {graph:?}"
                );
            }
        }
    }
}
