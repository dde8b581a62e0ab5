//! Edge-disjoint paths between two vertices: a maximum flow over edges of capacity one.
//!
//! Shortest augmenting paths are searched breadth first on adjacency lists. An edge may
//! carry one unit in either direction, so its two arcs both start with a residual of one
//! and a unit sent along one of them adds to the other.

/// No arc: the vertex hasn't been reached by the search.
const UNREACHED: usize = usize::MAX;
/// No arc: the search started at the vertex.
const START: usize = usize::MAX - 1;

/// A multigraph prepared for counting edge-disjoint paths.
///
/// Arc `2k` runs along the `k`-th edge and arc `2k + 1` against it.
#[derive(Clone, Debug)]
pub struct Flow {
    /// The arcs that leave vertex `w` are `leaving[first[w]..first[w + 1]]`.
    first: Vec<usize>,
    leaving: Vec<usize>,
    /// The vertex that an arc leads to.
    head: Vec<usize>,
    residual: Vec<u8>,
    /// The arc by which the search reached a vertex.
    reached_by: Vec<usize>,
    queue: Vec<usize>,
}

impl Flow {
    /// Prepares the multigraph with the given edges; loops are left out.
    pub fn new(vertices: usize, edges: &[(usize, usize)]) -> Self {
        let head: Vec<usize> = edges
            .iter()
            .filter(|(a, b)| a != b)
            .flat_map(|&(a, b)| [b, a])
            .collect();
        let mut first = vec![0; vertices + 1];
        for arc in 0..head.len() {
            first[head[arc ^ 1] + 1] += 1;
        }
        for vertex in 0..vertices {
            first[vertex + 1] += first[vertex];
        }
        let mut next = first.clone();
        let mut leaving = vec![0; head.len()];
        for arc in 0..head.len() {
            let slot = &mut next[head[arc ^ 1]];
            leaving[*slot] = arc;
            *slot += 1;
        }
        Flow {
            first,
            leaving,
            residual: vec![1; head.len()],
            head,
            reached_by: vec![UNREACHED; vertices],
            queue: Vec::with_capacity(vertices),
        }
    }

    /// Counts edge-disjoint paths from `source` to `sink`, but no more than `limit`.
    pub fn disjoint_paths(&mut self, source: usize, sink: usize, limit: usize) -> usize {
        assert_ne!(source, sink, "no cut separates a vertex from itself");
        self.residual.fill(1);
        let mut paths = 0;
        while paths < limit && self.search(source, sink) {
            self.send(sink);
            paths += 1;
        }
        paths
    }

    /// Looks for an augmenting path and leaves it in `reached_by`.
    fn search(&mut self, source: usize, sink: usize) -> bool {
        self.reached_by.fill(UNREACHED);
        self.reached_by[source] = START;
        self.queue.clear();
        self.queue.push(source);
        let mut taken = 0;
        while taken < self.queue.len() {
            let vertex = self.queue[taken];
            taken += 1;
            for &arc in &self.leaving[self.first[vertex]..self.first[vertex + 1]] {
                let ahead = self.head[arc];
                if self.residual[arc] > 0 && self.reached_by[ahead] == UNREACHED {
                    self.reached_by[ahead] = arc;
                    if ahead == sink {
                        return true;
                    }
                    self.queue.push(ahead);
                }
            }
        }
        false
    }

    /// Sends one unit along the path that the search found.
    fn send(&mut self, sink: usize) {
        let mut vertex = sink;
        while self.reached_by[vertex] != START {
            let arc = self.reached_by[vertex];
            self.residual[arc] -= 1;
            self.residual[arc ^ 1] += 1;
            vertex = self.head[arc ^ 1];
        }
    }
}

#[cfg(test)]
mod tests {
    use super::*;

    #[test]
    fn parallel_edges_count_each() {
        let mut flow = Flow::new(2, &[(0, 1), (1, 0), (0, 1), (0, 0), (0, 1)]);
        assert_eq!(flow.disjoint_paths(0, 1, 9), 4);
        assert_eq!(flow.disjoint_paths(1, 0, 3), 3);
    }

    #[test]
    fn a_unit_is_sent_back() {
        // The shortest path 0-1-4-5 has to give up its middle edge for a second path.
        let edges = [
            (0, 1),
            (1, 4),
            (4, 5),
            (1, 2),
            (2, 3),
            (3, 5),
            (0, 6),
            (6, 4),
        ];
        let mut flow = Flow::new(7, &edges);
        assert_eq!(flow.disjoint_paths(0, 5, 9), 2);
        assert_eq!(flow.disjoint_paths(5, 0, 9), 2);
        assert_eq!(flow.disjoint_paths(2, 6, 9), 2);
    }

    #[test]
    fn nothing_between_islands() {
        let mut flow = Flow::new(4, &[(0, 1), (2, 3)]);
        assert_eq!(flow.disjoint_paths(0, 3, 4), 0);
        assert_eq!(flow.disjoint_paths(0, 1, 4), 1);
    }
}
