//! Tables of spans: their texts, the networks that they stand for, and the services on them.

use std::iter;

use crate::chain::{plan_texts, Plan};
use crate::lines::{Lines, SPAN, TABLE_HEAD};
use crate::network::Method;
use crate::refusal::{Refusal, BAD_SPAN, BAD_TOTAL};
use crate::texts::{
    as_field, as_number, as_size, check_cost, check_ends, check_head, write_network, Edge, Network,
};

/// The least doubled weight of a span.
pub const LEAST_WEIGHT: u8 = 1;
/// The most doubled weight of a span.
pub const MOST_WEIGHT: u8 = 4;

/// One span of a table: parallel edges of one cost.
#[derive(Clone, Copy, Debug, PartialEq, Eq)]
pub struct Span {
    /// The end with the lower number.
    pub low: u16,
    /// The end with the higher number.
    pub high: u16,
    /// The doubled weight, which is how many edges the span stands for.
    pub weight: u8,
    /// The cost of each of these edges.
    pub cost: i64,
}

/// The meaning of a table text.
#[derive(Clone, Debug, PartialEq, Eq)]
pub struct Table {
    /// Count of vertices.
    pub vertices: usize,
    /// Number of the reserved edge in the network that the table stands for.
    pub reserved: usize,
    /// The spans, which rise by lower end, then higher end.
    pub spans: Vec<Span>,
}

impl Table {
    /// The network that the table stands for: the edges of each span in turn.
    pub fn network(&self) -> Network {
        let edges = self.spans.iter().flat_map(|&span| {
            let edge = Edge {
                low: span.low,
                high: span.high,
                cost: span.cost,
            };
            iter::repeat_n(edge, span.weight.into())
        });
        Network {
            vertices: self.vertices,
            reserved: self.reserved,
            edges: edges.collect(),
        }
    }
}

/// Reads a table text; the network that it stands for need not be accepted.
pub fn read_table(text: &[u8]) -> Result<Table, Refusal> {
    let mut lines = Lines::new(text);
    let [vertices, reserved, count] = TABLE_HEAD.read(&mut lines)?.map(as_size);
    check_table_head(vertices, reserved, count)?;
    let mut spans = Vec::with_capacity(count);
    for _ in 0..count {
        let span = read_span(&mut lines)?;
        check_span(vertices, spans.last(), span)?;
        spans.push(span);
    }
    lines.finish()?;
    check_total(vertices, &spans)?;
    Ok(Table {
        vertices,
        reserved,
        spans,
    })
}

/// Takes one frame 09.
fn read_span(lines: &mut Lines) -> Result<Span, Refusal> {
    let [low, high, weight, cost] = SPAN.read(lines)?;
    Ok(Span {
        low: as_number(low),
        high: as_number(high),
        weight: u8::try_from(weight).expect("the field has one byte"),
        cost,
    })
}

/// Writes the table text that has the given meaning.
pub fn write_table(table: &Table) -> Result<Vec<u8>, Refusal> {
    let (vertices, spans) = (table.vertices, &table.spans);
    check_table_head(vertices, table.reserved, spans.len())?;
    let mut text = Vec::new();
    let head = [vertices, table.reserved, spans.len()];
    TABLE_HEAD.write(head.map(as_field), &mut text);
    let mut before = None;
    for span in spans {
        check_span(vertices, before, *span)?;
        write_span(*span, &mut text);
        before = Some(span);
    }
    check_total(vertices, spans)?;
    Ok(text)
}

/// Appends one frame 09, whatever its numbers.
pub fn write_span(span: Span, text: &mut Vec<u8>) {
    SPAN.write(span_fields(span), text);
}

/// The fields of a frame 09.
pub(crate) fn span_fields(span: Span) -> [i64; 4] {
    let (low, high, weight) = (span.low.into(), span.high.into(), span.weight.into());
    [low, high, weight, span.cost]
}

/// Checks a table text with cuts judged by the given method.
pub fn check_table_by(text: &[u8], method: Method) -> Result<(), Refusal> {
    read_accepted(text, method).map(|_| ())
}

/// Plans the network that a table text stands for.
pub fn plan_table_by(text: &[u8], method: Method) -> Result<Plan, Refusal> {
    plan_texts(&read_accepted(text, method)?, method)
}

/// The network text that a table text stands for; degrees and cuts aren't looked at.
pub fn table_network(text: &[u8]) -> Result<Vec<u8>, Refusal> {
    write_network(&read_table(text)?.network())
}

/// Reads a table text and gives its network if that is accepted.
fn read_accepted(text: &[u8], method: Method) -> Result<Network, Refusal> {
    let network = read_table(text)?.network();
    network.accept(method)?;
    Ok(network)
}

fn check_table_head(vertices: usize, reserved: usize, count: usize) -> Result<(), Refusal> {
    check_head(vertices, reserved)?;
    if count <= 2 * vertices {
        Ok(())
    } else {
        Err(BAD_TOTAL)
    }
}

/// A span and its place behind the one before.
fn check_span(vertices: usize, before: Option<&Span>, span: Span) -> Result<(), Refusal> {
    check_ends(vertices, span.low, span.high)?;
    let rising = before.is_none_or(|before| (before.low, before.high) < (span.low, span.high));
    if !rising || !(LEAST_WEIGHT..=MOST_WEIGHT).contains(&span.weight) {
        return Err(BAD_SPAN);
    }
    check_cost(span.cost)
}

/// The spans stand for as many edges as the network has.
fn check_total(vertices: usize, spans: &[Span]) -> Result<(), Refusal> {
    let total: usize = spans.iter().map(|span| usize::from(span.weight)).sum();
    if total == 2 * vertices {
        Ok(())
    } else {
        Err(BAD_TOTAL)
    }
}
