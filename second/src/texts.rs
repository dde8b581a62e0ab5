//! Network texts, chain texts, audit lists and kept texts, and what they mean.

use crate::lines::{Lines, EDGE, ENDING, HEAD, LISTED, REFUSED, STEP, SUMS};
use crate::refusal::{
    Refusal, BAD_COST, BAD_EDGE, BAD_LIST, BAD_RESERVED, BAD_VERTEX_COUNT, BROKEN_TEXT,
};

/// The fewest vertices of a network.
pub const FEWEST_VERTICES: usize = 2;
/// The most vertices of a network.
pub const MOST_VERTICES: usize = 256;
/// A cost lies between this number and its negative.
pub const COST_LIMIT: i64 = 1_000_000_000_000;

/// One edge of a network; its number is its place.
#[derive(Clone, Copy, Debug, PartialEq, Eq)]
pub struct Edge {
    /// The end with the lower number.
    pub low: u16,
    /// The end with the higher number.
    pub high: u16,
    /// The network's own cost of the edge.
    pub cost: i64,
}

/// The meaning of a network text.
#[derive(Clone, Debug, PartialEq, Eq)]
pub struct Network {
    /// Count of vertices.
    pub vertices: usize,
    /// Number of the reserved edge.
    pub reserved: usize,
    /// The edges by number.
    pub edges: Vec<Edge>,
}

/// The meaning of a frame 03.
#[derive(Clone, Copy, Debug, PartialEq, Eq)]
pub struct Step {
    /// The vertex that leaves.
    pub v: u16,
    /// The partner to split with.
    pub x: u16,
    /// The other admissible partner.
    pub y: u16,
    /// The third partner.
    pub z: u16,
    /// The cost of `z` after the step.
    pub cost: i64,
}

/// The meaning of a chain text.
#[derive(Clone, Debug, PartialEq, Eq)]
pub struct Chain {
    /// The steps in order.
    pub steps: Vec<Step>,
    /// The edge that the ending drops.
    pub dropped: u16,
}

/// The meaning of a kept text.
#[derive(Clone, Debug, PartialEq, Eq)]
pub struct Kept {
    /// The kept edges in rising order.
    pub edges: Vec<u16>,
    /// Sum of the kept edges' costs.
    pub cost: i64,
    /// Sum of the costs of all edges but the reserved one.
    pub total: i64,
}

/// Reads a network text; it need not be accepted.
pub fn read_network(text: &[u8]) -> Result<Network, Refusal> {
    let mut lines = Lines::new(text);
    let [vertices, reserved] = HEAD.read(&mut lines)?.map(as_size);
    check_head(vertices, reserved)?;
    let mut edges = Vec::with_capacity(2 * vertices);
    for place in 0..2 * vertices {
        let [number, low, high, cost] = EDGE.read(&mut lines)?;
        if as_size(number) != place {
            return Err(BAD_EDGE);
        }
        let edge = Edge {
            low: as_number(low),
            high: as_number(high),
            cost,
        };
        check_edge(vertices, edge)?;
        edges.push(edge);
    }
    lines.finish()?;
    Ok(Network {
        vertices,
        reserved,
        edges,
    })
}

/// Writes the network text that has the given meaning.
pub fn write_network(network: &Network) -> Result<Vec<u8>, Refusal> {
    let edges = &network.edges;
    write_network_rows(network.vertices, network.reserved, edges, edges.len())
}

/// Writes a network text from complete rows, of which some column may hold more.
pub(crate) fn write_network_rows(
    vertices: usize,
    reserved: usize,
    rows: &[Edge],
    longest_column: usize,
) -> Result<Vec<u8>, Refusal> {
    check_head(vertices, reserved)?;
    let mut text = Vec::new();
    HEAD.write([as_field(vertices), as_field(reserved)], &mut text);
    for place in 0..2 * vertices {
        let edge = *rows.get(place).ok_or(BROKEN_TEXT)?;
        check_edge(vertices, edge)?;
        let fields = [
            as_field(place),
            edge.low.into(),
            edge.high.into(),
            edge.cost,
        ];
        EDGE.write(fields, &mut text);
    }
    if longest_column > 2 * vertices {
        return Err(BROKEN_TEXT);
    }
    Ok(text)
}

/// Reads a chain text for the given count of vertices.
pub fn read_chain(vertices: usize, text: &[u8]) -> Result<Chain, Refusal> {
    check_vertex_count(vertices)?;
    let mut lines = Lines::new(text);
    let steps = (2..vertices)
        .map(|_| read_step(&mut lines))
        .collect::<Result<Vec<Step>, Refusal>>()?;
    let dropped = read_ending(&mut lines)?;
    lines.finish()?;
    Ok(Chain { steps, dropped })
}

/// Takes one frame 03.
pub(crate) fn read_step(lines: &mut Lines) -> Result<Step, Refusal> {
    let [v, x, y, z, cost] = STEP.read(lines)?;
    let [v, x, y, z] = [v, x, y, z].map(as_number);
    Ok(Step { v, x, y, z, cost })
}

/// Takes one frame 04.
pub(crate) fn read_ending(lines: &mut Lines) -> Result<u16, Refusal> {
    let [dropped] = ENDING.read(lines)?.map(as_number);
    Ok(dropped)
}

/// Writes the chain text that has the given meaning.
pub fn write_chain(vertices: usize, chain: &Chain) -> Result<Vec<u8>, Refusal> {
    let steps = &chain.steps;
    write_chain_rows(vertices, steps, steps.len(), chain.dropped)
}

/// Writes a chain text from complete rows, of which some column may hold more.
pub(crate) fn write_chain_rows(
    vertices: usize,
    rows: &[Step],
    longest_column: usize,
    dropped: u16,
) -> Result<Vec<u8>, Refusal> {
    check_vertex_count(vertices)?;
    if rows.len() < vertices - 2 || longest_column > vertices - 2 {
        return Err(BROKEN_TEXT);
    }
    let mut text = Vec::new();
    for step in rows {
        write_step(*step, &mut text);
    }
    write_ending(dropped, &mut text);
    Ok(text)
}

/// Appends one frame 03, whatever its numbers.
pub fn write_step(step: Step, text: &mut Vec<u8>) {
    STEP.write(step_fields(step), text);
}

/// The fields of a frame 03.
pub(crate) fn step_fields(step: Step) -> [i64; 5] {
    let [v, x, y, z] = [step.v, step.x, step.y, step.z].map(i64::from);
    [v, x, y, z, step.cost]
}

/// Appends one frame 04, whatever its number.
pub fn write_ending(dropped: u16, text: &mut Vec<u8>) {
    ENDING.write([dropped.into()], text);
}

/// Reads an audit list for the given count of vertices.
pub fn read_list(vertices: usize, text: &[u8]) -> Result<Vec<u16>, Refusal> {
    check_vertex_count(vertices)?;
    let mut lines = Lines::new(text);
    let mut edges: Vec<u16> = Vec::new();
    while !lines.at_end() {
        let [edge] = LISTED.read(&mut lines)?.map(as_number);
        check_listed(vertices, edges.last().copied(), edge)?;
        edges.push(edge);
    }
    Ok(edges)
}

/// Writes the audit list that has the given meaning.
pub fn write_list(vertices: usize, edges: &[u16]) -> Result<Vec<u8>, Refusal> {
    check_vertex_count(vertices)?;
    let mut text = Vec::new();
    let mut before = None;
    for &edge in edges {
        check_listed(vertices, before, edge)?;
        LISTED.write([edge.into()], &mut text);
        before = Some(edge);
    }
    Ok(text)
}

/// Writes a kept text.
pub fn write_kept(kept: &Kept) -> Vec<u8> {
    let mut text = Vec::new();
    for &edge in &kept.edges {
        LISTED.write([edge.into()], &mut text);
    }
    write_sums(kept, &mut text);
    text
}

/// Appends the frame 06 of a kept text.
pub fn write_sums(kept: &Kept, text: &mut Vec<u8>) {
    SUMS.write([kept.cost, kept.total], text);
}

/// Reads the form of a kept text; whether its numbers are right isn't looked at.
pub fn read_kept(text: &[u8]) -> Result<Kept, Refusal> {
    let mut lines = Lines::new(text);
    let mut edges = Vec::new();
    loop {
        let mut ahead = lines.clone();
        let Ok([edge]) = LISTED.read(&mut ahead) else {
            break;
        };
        edges.push(as_number(edge));
        lines = ahead;
    }
    let [cost, total] = SUMS.read(&mut lines)?;
    lines.finish()?;
    Ok(Kept { edges, cost, total })
}

/// The 0f line of a refusal.
pub fn write_refusal(refusal: Refusal) -> Vec<u8> {
    let mut text = Vec::new();
    REFUSED.write([refusal.into()], &mut text);
    text
}

fn check_vertex_count(vertices: usize) -> Result<(), Refusal> {
    if (FEWEST_VERTICES..=MOST_VERTICES).contains(&vertices) {
        Ok(())
    } else {
        Err(BAD_VERTEX_COUNT)
    }
}

pub(crate) fn check_head(vertices: usize, reserved: usize) -> Result<(), Refusal> {
    check_vertex_count(vertices)?;
    check_reserved(vertices, reserved)
}

/// A reserved edge, in a head or in a list of candidates.
pub(crate) fn check_reserved(vertices: usize, reserved: usize) -> Result<(), Refusal> {
    if reserved < 2 * vertices {
        Ok(())
    } else {
        Err(BAD_RESERVED)
    }
}

fn check_edge(vertices: usize, edge: Edge) -> Result<(), Refusal> {
    check_ends(vertices, edge.low, edge.high)?;
    check_cost(edge.cost)
}

/// The ends of an edge or a span.
pub(crate) fn check_ends(vertices: usize, low: u16, high: u16) -> Result<(), Refusal> {
    if low < high && usize::from(high) < vertices {
        Ok(())
    } else {
        Err(BAD_EDGE)
    }
}

/// The cost of an edge or a span.
pub(crate) fn check_cost(cost: i64) -> Result<(), Refusal> {
    if (-COST_LIMIT..=COST_LIMIT).contains(&cost) {
        Ok(())
    } else {
        Err(BAD_COST)
    }
}

fn check_listed(vertices: usize, before: Option<u16>, edge: u16) -> Result<(), Refusal> {
    let rising = before.is_none_or(|before| before < edge);
    if rising && usize::from(edge) < 2 * vertices {
        Ok(())
    } else {
        Err(BAD_LIST)
    }
}

/// A two-byte field as a number.
pub(crate) fn as_number(field: i64) -> u16 {
    u16::try_from(field).expect("the field has two bytes")
}

/// A two-byte field as a count or a place.
pub(crate) fn as_size(field: i64) -> usize {
    usize::from(as_number(field))
}

/// A count or a place as a field.
pub(crate) fn as_field(size: usize) -> i64 {
    i64::try_from(size).expect("the size fits into two bytes")
}
