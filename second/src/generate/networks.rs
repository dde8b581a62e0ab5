//! Families of networks: accepted ones, and ones that the check refuses.

use super::costs::beyond_limits;
use super::damage::break_line;
use super::shapes::{EDGE_AS_SPAN, NARROW_EDGE};
use super::{damage, CostStyle, Rng};
use crate::cuts::Multigraph;
use crate::lines::{Shape, EDGE, HEAD};
use crate::refusal::{
    Refusal, BAD_COST, BAD_EDGE, BAD_RESERVED, BAD_VERTEX_COUNT, BROKEN_TEXT, NOT_FOUR_REGULAR,
    SMALL_CUT,
};
use crate::tables::LEAST_WEIGHT;
use crate::texts::{as_field, write_network, Edge, Network, COST_LIMIT, MOST_VERTICES};

/// A count of vertices: mostly small, now and then up to the limit.
pub fn size(rng: &mut Rng) -> usize {
    let most = match rng.below(100) {
        0..60 => 10,
        60..85 => 24,
        85..97 => 64,
        _ => MOST_VERTICES,
    };
    rng.between(2, most)
}

/// A family of accepted networks.
#[derive(Clone, Copy, Debug, PartialEq, Eq)]
pub enum Family {
    /// The union of two Hamiltonian cycles.
    TwoCycles,
    /// Pinching from the two-vertex network, two edges at a time. Reaches every accepted
    /// network.
    Pinched,
    /// Pinching edges that were made lately: many tight cuts and parallel edges.
    PinchedNear,
    /// Each vertex is joined to those at two fixed distances around a circle.
    Circulant,
    /// Smaller networks glued along cuts of four edges.
    Glued,
    /// A cycle with each edge doubled: every cut of two places is crossed by four.
    DoubledCycle,
    /// Pairs of vertices in a circle: two edges within each pair, two to the next one.
    Ladder,
    /// Rows and columns, each a cycle; a single row is taken twice.
    Torus,
    /// Four edges at each vertex, otherwise any, drawn until every cut is crossed by four.
    Drawn,
}

impl Family {
    /// Every family.
    pub const ALL: [Family; 9] = [
        Family::TwoCycles,
        Family::Pinched,
        Family::PinchedNear,
        Family::Circulant,
        Family::Glued,
        Family::DoubledCycle,
        Family::Ladder,
        Family::Torus,
        Family::Drawn,
    ];

    /// A member of the family with at least two vertices.
    pub fn multigraph(self, rng: &mut Rng, vertices: usize) -> Multigraph {
        let edges = match self {
            Family::TwoCycles => two_cycles(rng, vertices),
            Family::Pinched => pinched(rng, vertices, usize::MAX),
            Family::PinchedNear => {
                let newest = rng.between(2, 9);
                pinched(rng, vertices, newest)
            }
            Family::Circulant => circulant(rng, vertices),
            Family::Glued => glued(rng, vertices),
            Family::DoubledCycle => torus(1, vertices),
            Family::Ladder => ladder(vertices),
            Family::Torus => torus(rows_of(vertices), vertices),
            Family::Drawn => drawn(rng, vertices),
        };
        Multigraph { vertices, edges }
    }
}

pub(super) type Ends = Vec<(usize, usize)>;

fn two_cycles(rng: &mut Rng, vertices: usize) -> Ends {
    let mut edges = Ends::new();
    for _ in 0..2 {
        let round = rng.permutation(vertices);
        edges.extend((0..vertices).map(|place| (round[place], round[(place + 1) % vertices])));
    }
    edges
}

/// Pinches two of the `newest` edges to make each vertex from the third on.
fn pinched(rng: &mut Rng, vertices: usize, newest: usize) -> Ends {
    let mut edges = vec![(0, 1); 4];
    for vertex in 2..vertices {
        for _ in 0..2 {
            // Halves are put behind the choice, so that the second edge isn't one of them.
            let whole = edges.len() - if edges.len() % 2 == 1 { 2 } else { 0 };
            let oldest = whole.saturating_sub(newest);
            let (a, b) = edges.remove(rng.between(oldest, whole - 1));
            edges.extend([(a, vertex), (b, vertex)]);
        }
    }
    edges
}

fn circulant(rng: &mut Rng, vertices: usize) -> Ends {
    let (near, far) = loop {
        let (near, far) = (rng.between(1, vertices - 1), rng.between(1, vertices - 1));
        if common_divisor(common_divisor(near, far), vertices) == 1 {
            break (near, far);
        }
    };
    (0..vertices)
        .flat_map(|w| [(w, (w + near) % vertices), (w, (w + far) % vertices)])
        .collect()
}

fn common_divisor(a: usize, b: usize) -> usize {
    if b == 0 {
        a
    } else {
        common_divisor(b, a % b)
    }
}

/// Glues two networks of three or more vertices, each perhaps glued itself.
fn glued(rng: &mut Rng, vertices: usize) -> Ends {
    if vertices < 4 {
        return pinched(rng, vertices, usize::MAX);
    }
    let left_size = rng.between(3, vertices - 1);
    let left = piece(rng, left_size);
    let right = piece(rng, vertices + 2 - left_size);
    glue(rng, &left, &right)
}

fn piece(rng: &mut Rng, vertices: usize) -> Multigraph {
    let family = rng.pick(&[
        Family::Glued,
        Family::Glued,
        Family::TwoCycles,
        Family::Pinched,
        Family::Circulant,
    ]);
    family.multigraph(rng, vertices)
}

/// Takes the last vertex out of both networks and joins the loose ends in any order.
fn glue(rng: &mut Rng, left: &Multigraph, right: &Multigraph) -> Ends {
    let (mut edges, left_ends) = open(left, 0);
    let (more, mut right_ends) = open(right, left.vertices - 1);
    edges.extend(more);
    rng.shuffle(&mut right_ends);
    edges.extend(left_ends.into_iter().zip(right_ends));
    edges
}

/// The edges without the last vertex and the loose ends there, counted from `start`.
fn open(graph: &Multigraph, start: usize) -> (Ends, Vec<usize>) {
    let last = graph.vertices - 1;
    let mut edges = Ends::new();
    let mut loose = Vec::new();
    for &(a, b) in &graph.edges {
        match (a == last, b == last) {
            (false, false) => edges.push((start + a, start + b)),
            (true, _) => loose.push(start + b),
            (_, true) => loose.push(start + a),
        }
    }
    (edges, loose)
}

/// Pairs with two edges within; a vertex that is left over stands between the last pair and the first.
fn ladder(vertices: usize) -> Ends {
    if vertices < 4 {
        return torus(1, vertices);
    }
    let pairs = (0..vertices / 2).map(|pair| (2 * pair, 2 * pair + 1));
    let left_over = (vertices % 2 == 1).then_some((vertices - 1, vertices - 1));
    let places: Vec<(usize, usize)> = pairs.chain(left_over).collect();
    let mut edges = Ends::new();
    for (place, &(a, b)) in places.iter().enumerate() {
        let (c, d) = places[(place + 1) % places.len()];
        edges.extend([(a, c), (b, d)]);
        if a != b {
            edges.extend([(a, b), (a, b)]);
        }
    }
    edges
}

/// So many rows, which divide the vertices: each vertex is joined to the next one in its row and
/// in its column.
fn torus(rows: usize, vertices: usize) -> Ends {
    let columns = vertices / rows;
    (0..vertices)
        .flat_map(|w| {
            let (row, column) = (w / columns, w % columns);
            let beside = row * columns + (column + 1) % columns;
            let below = (w + columns) % vertices;
            [(w, beside), (w, if rows == 1 { beside } else { below })]
        })
        .collect()
}

/// The most rows that aren't more than the columns.
fn rows_of(vertices: usize) -> usize {
    (1..=vertices)
        .take_while(|rows| rows * rows <= vertices)
        .filter(|rows| vertices.is_multiple_of(*rows))
        .last()
        .expect("one row divides all")
}

fn drawn(rng: &mut Rng, vertices: usize) -> Ends {
    loop {
        let edges = four_each(rng, vertices);
        let graph = Multigraph { vertices, edges };
        if graph.every_cut_by_flows(4) {
            return graph.edges;
        }
    }
}

/// A way to make a network that reads, but that the check mostly refuses.
#[derive(Clone, Copy, Debug, PartialEq, Eq)]
pub enum Shapeless {
    /// An accepted network with one end moved: refusal 6.
    MovedEnd,
    /// Two accepted networks with two edges across: refusal 7.
    TwoAcross,
    /// Accepted networks side by side: refusal 7.
    Islands,
    /// Four edges at each vertex, otherwise any: accepted, or refusal 7.
    FourEach,
    /// Any ends at all, perhaps within few vertices.
    AnyEnds,
    /// All edges at one vertex.
    Star,
    /// All edges between two vertices, with islands beside them.
    Bundle,
}

impl Shapeless {
    /// Every way.
    pub const ALL: [Shapeless; 7] = [
        Shapeless::MovedEnd,
        Shapeless::TwoAcross,
        Shapeless::Islands,
        Shapeless::FourEach,
        Shapeless::AnyEnds,
        Shapeless::Star,
        Shapeless::Bundle,
    ];

    /// The fewest vertices for which the way is open.
    pub fn fewest_vertices(self) -> usize {
        match self {
            Shapeless::MovedEnd => 3,
            Shapeless::TwoAcross | Shapeless::Islands => 4,
            _ => 2,
        }
    }

    /// A network made this way, with as many vertices or the fewest that will do.
    pub fn multigraph(self, rng: &mut Rng, vertices: usize) -> Multigraph {
        let vertices = vertices.max(self.fewest_vertices());
        let count = 2 * vertices;
        let edges = match self {
            Shapeless::MovedEnd => moved_end(rng, vertices),
            Shapeless::TwoAcross => {
                let (mut edges, middle) = side_by_side(rng, vertices);
                let (near, far) = (rng.below(2 * middle), rng.between(2 * middle, count - 1));
                let ((a, b), (c, d)) = (edges[near], edges[far]);
                edges[near] = (a, c);
                edges[far] = (b, d);
                edges
            }
            Shapeless::Islands => side_by_side(rng, vertices).0,
            Shapeless::FourEach => four_each(rng, vertices),
            Shapeless::AnyEnds => {
                let within = rng.between(2, vertices);
                (0..count).map(|_| two_below(rng, within)).collect()
            }
            Shapeless::Star => (0..count)
                .map(|_| (0, rng.between(1, vertices - 1)))
                .collect(),
            Shapeless::Bundle => vec![two_below(rng, vertices); count],
        };
        Multigraph { vertices, edges }
    }
}

/// Two different numbers below the bound, which is at least two.
pub(super) fn two_below(rng: &mut Rng, bound: usize) -> (usize, usize) {
    let a = rng.below(bound);
    (a, (a + rng.between(1, bound - 1)) % bound)
}

fn moved_end(rng: &mut Rng, vertices: usize) -> Ends {
    let mut edges = rng.pick(&Family::ALL).multigraph(rng, vertices).edges;
    let place = rng.below(edges.len());
    let (a, b) = edges[place];
    let free: Vec<usize> = (0..vertices).filter(|&w| w != a && w != b).collect();
    edges[place].1 = rng.pick(&free);
    edges
}

/// Two accepted networks side by side, and how many vertices the first one has.
fn side_by_side(rng: &mut Rng, vertices: usize) -> (Ends, usize) {
    let middle = rng.between(2, vertices - 2);
    let mut edges = rng.pick(&Family::ALL).multigraph(rng, middle).edges;
    let beside = rng
        .pick(&Family::ALL)
        .multigraph(rng, vertices - middle)
        .edges;
    edges.extend(beside.into_iter().map(|(a, b)| (middle + a, middle + b)));
    (edges, middle)
}

/// Joins four loose ends of each vertex at random; loops are undone by switching.
fn four_each(rng: &mut Rng, vertices: usize) -> Ends {
    let mut loose: Vec<usize> = (0..4 * vertices).map(|end| end / 4).collect();
    rng.shuffle(&mut loose);
    let mut edges: Ends = loose.chunks(2).map(|pair| (pair[0], pair[1])).collect();
    while let Some(place) = edges.iter().position(|(a, b)| a == b) {
        let other = rng.below(edges.len());
        let ((a, b), (c, d)) = (edges[place], edges[other]);
        if c != a && d != a {
            edges[place] = (a, c);
            edges[other] = (b, d);
        }
    }
    edges
}

/// Makes a network of a multigraph: costs, a reserved edge, and mostly new numbers for
/// vertices and edges.
pub fn dress(rng: &mut Rng, graph: &Multigraph, style: CostStyle) -> Network {
    let count = graph.edges.len();
    let costs = style.costs(rng, count);
    let (names, order) = if rng.once_in(4) {
        ((0..graph.vertices).collect(), (0..count).collect())
    } else {
        (rng.permutation(graph.vertices), rng.permutation(count))
    };
    let edges = order.iter().zip(costs).map(|(&place, cost)| {
        let (a, b) = graph.edges[place];
        edge_between((names[a], names[b]), cost)
    });
    Network {
        vertices: graph.vertices,
        reserved: rng.below(count),
        edges: edges.collect(),
    }
}

/// An edge between two vertices, given in any order.
pub(super) fn edge_between((a, b): (usize, usize), cost: i64) -> Edge {
    let number = |w: usize| u16::try_from(w).expect("there are few vertices");
    Edge {
        low: number(a.min(b)),
        high: number(a.max(b)),
        cost,
    }
}

/// An accepted network of the given family, size and style of costs.
pub fn network_of(rng: &mut Rng, family: Family, vertices: usize, style: CostStyle) -> Network {
    let graph = family.multigraph(rng, vertices);
    dress(rng, &graph, style)
}

/// An accepted network of any family and style of costs.
pub fn network(rng: &mut Rng, vertices: usize) -> Network {
    let (family, style) = (rng.pick(&Family::ALL), rng.pick(&CostStyle::ALL));
    network_of(rng, family, vertices, style)
}

/// A network that reads, but that the check mostly refuses, made in any way.
pub fn loose_network(rng: &mut Rng, vertices: usize) -> Network {
    let graph = rng.pick(&Shapeless::ALL).multigraph(rng, vertices);
    let style = rng.pick(&CostStyle::ALL);
    dress(rng, &graph, style)
}

/// The text of a generated network.
pub fn text(network: &Network) -> Vec<u8> {
    write_network(network).expect("generated networks keep the limits")
}

/// The frames of a network, whatever its numbers.
pub fn frames(network: &Network) -> Vec<u8> {
    frames_of(network, EDGE)
}

/// The frames of a network with edges of this shape, which has the low bytes of their numbers.
fn frames_of(network: &Network, shape: Shape<4>) -> Vec<u8> {
    let mut text = Vec::new();
    HEAD.write(head_fields(network), &mut text);
    for place in 0..network.edges.len() {
        shape.write(edge_fields(network, place), &mut text);
    }
    text
}

/// A fault of a network's numbers, or of the fields of its frames, to aim at.
#[derive(Clone, Copy, Debug, PartialEq, Eq)]
pub enum NetworkAim {
    /// Too few or too many vertices.
    VertexCount,
    /// A reserved edge that isn't there.
    Reserved,
    /// An edge out of its place.
    EdgeNumber,
    /// An end that isn't there.
    End,
    /// Ends that are equal or falling.
    EndOrder,
    /// A cost beyond a limit.
    Cost,
    /// The cost of one edge in four bytes, of the others in eight.
    NarrowCost,
    /// The costs of all edges in four bytes.
    NarrowCosts,
    /// An edge with the fields of a span.
    SpanFields,
    /// A vertex without four edges.
    Degree,
    /// A cut with too few edges.
    Cut,
}

impl NetworkAim {
    /// Every aim.
    pub const ALL: [NetworkAim; 11] = [
        NetworkAim::VertexCount,
        NetworkAim::Reserved,
        NetworkAim::EdgeNumber,
        NetworkAim::End,
        NetworkAim::EndOrder,
        NetworkAim::Cost,
        NetworkAim::NarrowCost,
        NetworkAim::NarrowCosts,
        NetworkAim::SpanFields,
        NetworkAim::Degree,
        NetworkAim::Cut,
    ];

    fn refusal(self) -> Refusal {
        match self {
            NetworkAim::VertexCount => BAD_VERTEX_COUNT,
            NetworkAim::Reserved => BAD_RESERVED,
            NetworkAim::EdgeNumber | NetworkAim::End | NetworkAim::EndOrder => BAD_EDGE,
            NetworkAim::Cost => BAD_COST,
            NetworkAim::NarrowCost | NetworkAim::NarrowCosts | NetworkAim::SpanFields => {
                BROKEN_TEXT
            }
            NetworkAim::Degree => NOT_FOUR_REGULAR,
            NetworkAim::Cut => SMALL_CUT,
        }
    }
}

/// A network text with the given fault, and the refusal that is due. What follows a single
/// faulty frame may be damaged as well.
pub fn aimed_network(rng: &mut Rng, aim: NetworkAim, vertices: usize) -> (Vec<u8>, Refusal) {
    let text = match aim {
        NetworkAim::Degree => shapeless(rng, Shapeless::MovedEnd, vertices),
        NetworkAim::Cut => {
            let shape = rng.pick(&[Shapeless::TwoAcross, Shapeless::Islands]);
            shapeless(rng, shape, vertices)
        }
        NetworkAim::NarrowCosts => frames_of(&network(rng, vertices), NARROW_EDGE),
        _ => {
            let network = network(rng, vertices);
            faulty_frame(rng, aim, &network)
        }
    };
    (text, aim.refusal())
}

/// The text of a network that is refused for its shape.
fn shapeless(rng: &mut Rng, shape: Shapeless, vertices: usize) -> Vec<u8> {
    let graph = shape.multigraph(rng, vertices);
    let style = rng.pick(&CostStyle::ALL);
    text(&dress(rng, &graph, style))
}

/// The text of a network with a fault in its head or in any edge's frame.
fn faulty_frame(rng: &mut Rng, aim: NetworkAim, network: &Network) -> Vec<u8> {
    let vertices = network.vertices;
    let place = rng.below(network.edges.len());
    let mut head = head_fields(network);
    let mut shape = EDGE;
    let mut fields = edge_fields(network, place);
    match aim {
        NetworkAim::VertexCount => head[0] = rng.pick(&[0, 1, 257, 258, 512, 65_535]),
        NetworkAim::Reserved => {
            head[1] = rng.pick(&[as_field(2 * vertices), as_field(2 * vertices + 1), 65_535]);
        }
        NetworkAim::EdgeNumber => {
            let other = rng.between(1, 65_535);
            fields[0] = rng.pick(&[fields[0] + 1, (fields[0] + as_field(other)) % 65_536]);
        }
        NetworkAim::End => fields[2] = rng.pick(&[as_field(vertices), 256, 65_535]),
        NetworkAim::EndOrder if rng.once_in(2) => fields[1] = fields[2],
        NetworkAim::EndOrder => fields.swap(1, 2),
        NetworkAim::Cost => fields[3] = beyond_limits(rng),
        NetworkAim::NarrowCost => shape = NARROW_EDGE,
        NetworkAim::SpanFields => {
            let [_, low, high, cost] = fields;
            shape = EDGE_AS_SPAN;
            fields = [low, high, LEAST_WEIGHT.into(), cost];
        }
        NetworkAim::NarrowCosts | NetworkAim::Degree | NetworkAim::Cut => {
            unreachable!("no single frame is at fault")
        }
    }
    if matches!(aim, NetworkAim::EdgeNumber | NetworkAim::End) && rng.once_in(3) {
        fields[3] = COST_LIMIT + 1;
    }

    let whole = text(network);
    let mut faulty = Vec::new();
    HEAD.write(head, &mut faulty);
    let in_head = matches!(aim, NetworkAim::VertexCount | NetworkAim::Reserved);
    let behind = if in_head {
        HEAD.line_length()
    } else {
        let before = HEAD.line_length() + place * EDGE.line_length();
        faulty.extend_from_slice(&whole[HEAD.line_length()..before]);
        shape.write(fields, &mut faulty);
        before + EDGE.line_length()
    };
    let rest = &whole[behind..];
    faulty.extend(if rng.once_in(2) {
        damage(rng, rest)
    } else {
        rest.to_vec()
    });
    faulty
}

fn head_fields(network: &Network) -> [i64; 2] {
    [network.vertices, network.reserved].map(as_field)
}

pub(super) fn edge_fields(network: &Network, place: usize) -> [i64; 4] {
    let Edge { low, high, cost } = network.edges[place];
    [as_field(place), low.into(), high.into(), cost]
}

/// A network text with a broken line or bytes left over, and the refusal that is due.
pub fn broken_network(rng: &mut Rng, vertices: usize) -> (Vec<u8>, Refusal) {
    let mut text = text(&network(rng, vertices));
    if rng.once_in(4) {
        text.push(rng.pick(b"0f\n\r\0"));
    } else {
        break_line(rng, &mut text);
    }
    (text, BROKEN_TEXT)
}
