//! Crowded networks: the first frames already give a vertex more than four edges, and a fault
//! of the text may stand far behind them.
//!
//! Degrees are judged once the whole text has been read, so each fault is refused before the
//! crowd is.

use super::costs::beyond_limits;
use super::damage::IN_NO_LINE;
use super::networks::{edge_between, edge_fields, text, two_below, Ends};
use super::shapes::{EDGE_AS_SPAN, NARROW_EDGE};
use super::{damage, CostStyle, Damage, Rng};
use crate::lengths::edge_column;
use crate::lines::{EDGE, HEAD};
use crate::refusal::{Refusal, BAD_COST, BAD_EDGE, BROKEN_TEXT, NOT_FOUR_REGULAR};
use crate::tables::LEAST_WEIGHT;
use crate::texts::{as_field, Network};

/// The fewest edges at a vertex that are too many.
pub const FEWEST_CROWDING: usize = 5;
/// The fewest vertices with a crowd: two vertices have four edges in all.
const FEWEST_VERTICES: usize = 3;
/// The highest number that a field of two bytes has.
const HIGHEST_NUMBER: i64 = 65_535;

/// Which vertex is crowded, and by which edges.
#[derive(Clone, Copy, Debug, PartialEq, Eq)]
pub enum Crowd {
    /// Vertex 0, by the first five edges or more.
    VertexZero,
    /// Any vertex, by the first five edges or more.
    AnyVertex,
    /// The two lowest vertices, between which all edges run.
    LowestPair,
    /// The two highest vertices, between which all edges run.
    HighestPair,
}

impl Crowd {
    /// Every crowd.
    pub const ALL: [Crowd; 4] = [
        Crowd::VertexZero,
        Crowd::AnyVertex,
        Crowd::LowestPair,
        Crowd::HighestPair,
    ];
}

/// A network with a crowd. It has as many vertices or the fewest that will do.
pub fn crowded_network(rng: &mut Rng, crowd: Crowd, vertices: usize) -> Network {
    let vertices = vertices.max(FEWEST_VERTICES);
    let count = edge_column(vertices);
    let ends = match crowd {
        Crowd::VertexZero => crowd_at(rng, 0, vertices),
        Crowd::AnyVertex => {
            let vertex = rng.below(vertices);
            crowd_at(rng, vertex, vertices)
        }
        Crowd::LowestPair => vec![(0, 1); count],
        Crowd::HighestPair => vec![(vertices - 2, vertices - 1); count],
    };
    let costs = rng.pick(&CostStyle::ALL).costs(rng, count);
    let edges = ends.into_iter().zip(costs);
    Network {
        vertices,
        reserved: rng.below(count),
        edges: edges.map(|(ends, cost)| edge_between(ends, cost)).collect(),
    }
}

/// First the edges that crowd a vertex, just enough or any number, then edges between any two.
fn crowd_at(rng: &mut Rng, vertex: usize, vertices: usize) -> Ends {
    let count = edge_column(vertices);
    let any = rng.between(FEWEST_CROWDING, count);
    let crowding = rng.pick(&[FEWEST_CROWDING, any]);
    let mut ends = Ends::new();
    for _ in 0..crowding {
        ends.push((vertex, (vertex + rng.between(1, vertices - 1)) % vertices));
    }
    for _ in crowding..count {
        ends.push(two_below(rng, vertices));
    }
    ends
}

/// A fault of one edge's frame, or of what follows the last one.
#[derive(Clone, Copy, Debug, PartialEq, Eq)]
pub enum FrameFault {
    /// An edge number other than its place.
    EdgeNumber,
    /// Both ends are the same vertex.
    Loop,
    /// The higher end stands first.
    ExchangedEnds,
    /// An end, or both, that aren't there.
    MissingEnd,
    /// A cost beyond a limit.
    Cost,
    /// A byte that is neither a digit nor a line feed.
    WrongDigit,
    /// The kind of another frame.
    WrongKind,
    /// One digit more or less.
    OddDigits,
    /// One byte of the frame more or less.
    WrongLength,
    /// The cost in four bytes.
    NarrowCost,
    /// The fields of a span.
    SpanFields,
    /// The text ends within the line.
    CutLine,
    /// The text ends before the line.
    MissingFrame,
    /// Bytes follow the last line.
    LeftOver,
    /// Nothing is wrong but the crowd.
    CrowdAlone,
}

impl FrameFault {
    /// Every fault.
    pub const ALL: [FrameFault; 15] = [
        FrameFault::EdgeNumber,
        FrameFault::Loop,
        FrameFault::ExchangedEnds,
        FrameFault::MissingEnd,
        FrameFault::Cost,
        FrameFault::WrongDigit,
        FrameFault::WrongKind,
        FrameFault::OddDigits,
        FrameFault::WrongLength,
        FrameFault::NarrowCost,
        FrameFault::SpanFields,
        FrameFault::CutLine,
        FrameFault::MissingFrame,
        FrameFault::LeftOver,
        FrameFault::CrowdAlone,
    ];

    /// The refusal of a crowded network's text with this fault.
    pub fn refusal(self) -> Refusal {
        match self {
            FrameFault::EdgeNumber
            | FrameFault::Loop
            | FrameFault::ExchangedEnds
            | FrameFault::MissingEnd => BAD_EDGE,
            FrameFault::Cost => BAD_COST,
            FrameFault::WrongDigit
            | FrameFault::WrongKind
            | FrameFault::OddDigits
            | FrameFault::WrongLength
            | FrameFault::NarrowCost
            | FrameFault::SpanFields
            | FrameFault::CutLine
            | FrameFault::MissingFrame
            | FrameFault::LeftOver => BROKEN_TEXT,
            FrameFault::CrowdAlone => NOT_FOUR_REGULAR,
        }
    }
}

/// The text of a network with a fault in the frame of the edge at a place. What follows wrong
/// numbers or wrong fields may be damaged as well.
pub fn faulty_text(rng: &mut Rng, network: &Network, fault: FrameFault, place: usize) -> Vec<u8> {
    let whole = text(network);
    let start = HEAD.line_length() + place * EDGE.line_length();
    let (front, rest) = whole.split_at(start);
    let (line, behind) = rest.split_at(EDGE.line_length());
    match fault {
        FrameFault::CrowdAlone => whole,
        FrameFault::LeftOver => [&whole[..], &left_over(rng, network)].concat(),
        FrameFault::MissingFrame => front.to_vec(),
        FrameFault::CutLine => [front, &Damage::CutAnywhere.apply(rng, line)].concat(),
        FrameFault::WrongDigit
        | FrameFault::WrongKind
        | FrameFault::OddDigits
        | FrameFault::WrongLength => [front, &broken_line(rng, fault, line), behind].concat(),
        FrameFault::EdgeNumber
        | FrameFault::Loop
        | FrameFault::ExchangedEnds
        | FrameFault::MissingEnd
        | FrameFault::Cost
        | FrameFault::NarrowCost
        | FrameFault::SpanFields => {
            let line = wrong_frame(rng, fault, network, place);
            let damaged = rng.once_in(2).then(|| damage(rng, behind));
            [front, &line, damaged.as_deref().unwrap_or(behind)].concat()
        }
    }
}

/// Bytes that follow a whole text; among them an edge more.
fn left_over(rng: &mut Rng, network: &Network) -> Vec<u8> {
    let mut one_more = Vec::new();
    EDGE.write([as_field(network.edges.len()), 0, 1, 0], &mut one_more);
    let sorts = [&b"\n"[..], b"0", b"\r\n", b"\0", b"0100020000\n", &one_more];
    rng.pick(&sorts).to_vec()
}

/// The line with a fault of its form.
fn broken_line(rng: &mut Rng, fault: FrameFault, line: &[u8]) -> Vec<u8> {
    let mut broken = line.to_vec();
    match fault {
        FrameFault::OddDigits => return Damage::OddDigits.apply(rng, line),
        FrameFault::WrongLength => return Damage::WrongLength.apply(rng, line),
        FrameFault::WrongKind => {
            let kind = rng.pick(&[b"00", b"01", b"03", b"05", b"08", b"09", b"0f", b"12"]);
            broken[..kind.len()].copy_from_slice(kind);
        }
        _ => broken[rng.below(line.len())] = rng.pick(IN_NO_LINE),
    }
    broken
}

/// The frame of the edge at a place with a wrong number or with other fields, perhaps with a wrong
/// cost beside that.
fn wrong_frame(rng: &mut Rng, fault: FrameFault, network: &Network, place: usize) -> Vec<u8> {
    let mut fields = edge_fields(network, place);
    let [number, low, high, cost] = &mut fields;
    let vertices = as_field(network.vertices);
    match fault {
        FrameFault::EdgeNumber => {
            let more = rng.signed(1, HIGHEST_NUMBER);
            // One more, one less or any other.
            *number += rng.pick(&[1, HIGHEST_NUMBER, more]);
            *number %= HIGHEST_NUMBER + 1;
        }
        FrameFault::Loop if rng.once_in(2) => *low = *high,
        FrameFault::Loop => *high = *low,
        FrameFault::ExchangedEnds => std::mem::swap(low, high),
        FrameFault::MissingEnd => {
            (*low, *high) = rng.pick(&[
                (*low, vertices),
                (*low, HIGHEST_NUMBER),
                (vertices, vertices + 1),
                (HIGHEST_NUMBER - 1, HIGHEST_NUMBER),
            ]);
        }
        _ => {}
    }
    if fault == FrameFault::Cost || rng.once_in(3) {
        *cost = beyond_limits(rng);
    }
    let mut line = Vec::new();
    match fault {
        FrameFault::NarrowCost => NARROW_EDGE.write(fields, &mut line),
        FrameFault::SpanFields => {
            let [_, low, high, cost] = fields;
            EDGE_AS_SPAN.write([low, high, LEAST_WEIGHT.into(), cost], &mut line);
        }
        _ => EDGE.write(fields, &mut line),
    }
    line
}
