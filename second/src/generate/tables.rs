//! Tables: those of accepted networks, those of any spans, and ones with a fault aimed at.

use std::collections::BTreeMap;

use super::costs::beyond_limits;
use super::damage::break_line;
use super::networks::two_below;
use super::shapes::{NARROW_SPAN, SPAN_AS_EDGE};
use super::{damage, dress, network_of, CostStyle, Family, Rng, Shapeless};
use crate::lengths;
use crate::lines::TABLE_HEAD;
use crate::refusal::{
    Refusal, BAD_COST, BAD_EDGE, BAD_RESERVED, BAD_SPAN, BAD_TOTAL, BAD_VERTEX_COUNT, BROKEN_TEXT,
    NOT_FOUR_REGULAR, SMALL_CUT,
};
use crate::tables::{span_fields, write_span, write_table, Span, Table, MOST_WEIGHT};
use crate::texts::{as_field, Network, COST_LIMIT, MOST_VERTICES};

/// The table of a network: a span for each pair of ends, for as many edges as it has. They
/// get one cost, that of the first of them, since no pair stands in a table twice.
fn merged(network: &Network) -> Table {
    let mut spans = BTreeMap::new();
    for edge in &network.edges {
        let none = Span {
            low: edge.low,
            high: edge.high,
            weight: 0,
            cost: edge.cost,
        };
        spans.entry((edge.low, edge.high)).or_insert(none).weight += 1;
    }
    Table {
        vertices: network.vertices,
        reserved: network.reserved,
        spans: spans.into_values().collect(),
    }
}

/// A table of an accepted network of the given family, size and style of costs.
///
/// Three vertices and more have spans of weight 1 and 2 alone, two have one of weight 4.
pub fn table_of(rng: &mut Rng, family: Family, vertices: usize, style: CostStyle) -> Table {
    merged(&network_of(rng, family, vertices, style))
}

/// A table of an accepted network of any family and style of costs.
pub fn table(rng: &mut Rng, vertices: usize) -> Table {
    let (family, style) = (rng.pick(&Family::ALL), rng.pick(&CostStyle::ALL));
    table_of(rng, family, vertices, style)
}

/// A table that reads, of any spans and every weight. Its network is mostly not accepted.
pub fn loose_table(rng: &mut Rng, vertices: usize) -> Table {
    let mut weights: BTreeMap<(u16, u16), u8> = BTreeMap::new();
    let mut left = 2 * vertices;
    while left > 0 {
        let (a, b) = two_below(rng, vertices);
        let pair = (as_number(a.min(b)), as_number(a.max(b)));
        let weight = weights.entry(pair).or_insert(0);
        let room = left.min(usize::from(MOST_WEIGHT - *weight));
        if room > 0 {
            let more = rng.between(1, room);
            *weight += u8::try_from(more).expect("weights are small");
            left -= more;
        }
    }
    let style = rng.pick(&CostStyle::ALL);
    let costs = style.costs(rng, weights.len());
    let spans = weights.into_iter().zip(costs);
    Table {
        vertices,
        reserved: rng.below(2 * vertices),
        spans: spans
            .map(|(((low, high), weight), cost)| Span {
                low,
                high,
                weight,
                cost,
            })
            .collect(),
    }
}

/// The text of a generated table.
pub fn table_text(table: &Table) -> Vec<u8> {
    write_table(table).expect("generated tables keep the limits")
}

/// A fault of a table to aim at.
#[derive(Clone, Copy, Debug, PartialEq, Eq)]
pub enum TableAim {
    /// Too few or too many vertices.
    VertexCount,
    /// A reserved edge that isn't there.
    Reserved,
    /// More spans than the network has edges.
    SpanCount,
    /// An end that isn't there.
    End,
    /// Ends that are equal or falling.
    EndOrder,
    /// A weight beyond a limit.
    Weight,
    /// The same pair of ends again.
    EqualPair,
    /// A pair of ends below the one before.
    FallingPair,
    /// A cost beyond a limit.
    Cost,
    /// A line is broken.
    BrokenLine,
    /// A head or a span with the kind of another frame.
    WrongKind,
    /// The cost of one span in four bytes, of the others in eight.
    NarrowCost,
    /// The costs of all spans in four bytes.
    NarrowCosts,
    /// A span with the fields of an edge.
    EdgeFields,
    /// A span that the head counts goes missing.
    MissingSpan,
    /// Bytes follow, and the weights' total may be wrong.
    LeftOver,
    /// No spans.
    NoSpans,
    /// Weights that total one too low.
    TotalLow,
    /// Weights that total one too high.
    TotalHigh,
    /// As many spans as the network has edges, of the most weight each.
    LargeTotal,
    /// A vertex without four edges.
    Degree,
    /// A cut with too few edges.
    Cut,
}

impl TableAim {
    /// Every aim.
    pub const ALL: [TableAim; 22] = [
        TableAim::VertexCount,
        TableAim::Reserved,
        TableAim::SpanCount,
        TableAim::End,
        TableAim::EndOrder,
        TableAim::Weight,
        TableAim::EqualPair,
        TableAim::FallingPair,
        TableAim::Cost,
        TableAim::BrokenLine,
        TableAim::WrongKind,
        TableAim::NarrowCost,
        TableAim::NarrowCosts,
        TableAim::EdgeFields,
        TableAim::MissingSpan,
        TableAim::LeftOver,
        TableAim::NoSpans,
        TableAim::TotalLow,
        TableAim::TotalHigh,
        TableAim::LargeTotal,
        TableAim::Degree,
        TableAim::Cut,
    ];

    fn refusal(self) -> Refusal {
        match self {
            TableAim::VertexCount => BAD_VERTEX_COUNT,
            TableAim::Reserved => BAD_RESERVED,
            TableAim::End | TableAim::EndOrder => BAD_EDGE,
            TableAim::Weight | TableAim::EqualPair | TableAim::FallingPair => BAD_SPAN,
            TableAim::Cost => BAD_COST,
            TableAim::BrokenLine
            | TableAim::WrongKind
            | TableAim::NarrowCost
            | TableAim::NarrowCosts
            | TableAim::EdgeFields
            | TableAim::MissingSpan
            | TableAim::LeftOver => BROKEN_TEXT,
            TableAim::SpanCount
            | TableAim::NoSpans
            | TableAim::TotalLow
            | TableAim::TotalHigh
            | TableAim::LargeTotal => BAD_TOTAL,
            TableAim::Degree => NOT_FOUR_REGULAR,
            TableAim::Cut => SMALL_CUT,
        }
    }

    /// The fewest vertices for which the fault can be had.
    fn fewest_vertices(self) -> usize {
        match self {
            // From here on there are several spans, none of them of the most weight.
            TableAim::EqualPair
            | TableAim::FallingPair
            | TableAim::TotalHigh
            | TableAim::NarrowCost => 3,
            // From here on there are as many pairs of vertices as edges.
            TableAim::LargeTotal => 5,
            _ => 2,
        }
    }
}

/// A table text with the given fault, and the refusal that is due. What follows the faulty
/// frame may be damaged as well. It has as many vertices or the fewest that will do.
pub fn aimed_table(rng: &mut Rng, aim: TableAim, vertices: usize) -> (Vec<u8>, Refusal) {
    let vertices = vertices.max(aim.fewest_vertices());
    let table = table(rng, vertices);
    let text = match aim {
        TableAim::VertexCount | TableAim::Reserved | TableAim::SpanCount => {
            wrong_head(rng, aim, table)
        }
        TableAim::End
        | TableAim::EndOrder
        | TableAim::Weight
        | TableAim::EqualPair
        | TableAim::FallingPair
        | TableAim::Cost => wrong_span(rng, aim, table),
        TableAim::BrokenLine | TableAim::WrongKind | TableAim::MissingSpan | TableAim::LeftOver => {
            wrong_form(rng, aim, table)
        }
        TableAim::NarrowCost | TableAim::NarrowCosts | TableAim::EdgeFields => {
            wrong_fields(rng, aim, &table)
        }
        TableAim::NoSpans | TableAim::TotalLow | TableAim::TotalHigh | TableAim::LargeTotal => {
            let table = wrong_total(rng, aim, table);
            table_frames(&table)
        }
        TableAim::Degree => shapeless(rng, Shapeless::MovedEnd, vertices),
        TableAim::Cut => {
            let shape = rng.pick(&[Shapeless::TwoAcross, Shapeless::Islands]);
            shapeless(rng, shape, vertices)
        }
    };
    (text, aim.refusal())
}

/// A wrong number in the head, perhaps with another that is looked at later.
fn wrong_head(rng: &mut Rng, aim: TableAim, mut table: Table) -> Vec<u8> {
    let edges = 2 * table.vertices;
    let mut count = table.spans.len();
    if aim == TableAim::SpanCount && rng.once_in(2) {
        table.spans = lowest_spans(table.vertices, edges + 1, 1);
        count = edges + 1;
    } else if aim == TableAim::SpanCount || rng.once_in(3) {
        count = rng.pick(&[edges + 1, edges + 2, 513, 65_535]);
    }
    if aim == TableAim::Reserved || (aim == TableAim::VertexCount && rng.once_in(3)) {
        table.reserved = rng.pick(&[edges, edges + 1, 65_535]);
    }
    if aim == TableAim::VertexCount {
        table.vertices = rng.pick(&[0, 1, 257, 258, 512, 65_535]);
    }
    let text = frames(&table, count);
    damaged_behind(rng, text, lengths::table_text(0))
}

/// A wrong number in a span, perhaps with another that is looked at later.
fn wrong_span(rng: &mut Rng, aim: TableAim, mut table: Table) -> Vec<u8> {
    let missing_end = rng.pick(&[as_number(table.vertices), 256, 65_535]);
    let spans = &mut table.spans;
    let least = usize::from(matches!(aim, TableAim::EqualPair | TableAim::FallingPair));
    let place = rng.between(least, spans.len() - 1);
    let Span { low, high, .. } = spans[place];
    match aim {
        TableAim::End => spans[place].high = missing_end,
        TableAim::EndOrder if rng.once_in(2) => spans[place].low = high,
        TableAim::EndOrder => (spans[place].low, spans[place].high) = (high, low),
        TableAim::EqualPair => {
            let Span { low, high, .. } = spans[place - 1];
            (spans[place].low, spans[place].high) = (low, high);
        }
        TableAim::FallingPair => spans.swap(place - 1, place),
        _ => {}
    }
    let ends_are_wrong = matches!(aim, TableAim::End | TableAim::EndOrder);
    if aim == TableAim::Weight || (ends_are_wrong && rng.once_in(3)) {
        spans[place].weight = rng.pick(&[0, MOST_WEIGHT + 1, MOST_WEIGHT + 2, 255]);
    }
    if aim == TableAim::Cost || rng.once_in(3) {
        spans[place].cost = beyond_limits(rng);
    }
    let text = table_frames(&table);
    damaged_behind(rng, text, lengths::table_text(place + 1))
}

/// A text whose numbers are right, or are looked at later.
fn wrong_form(rng: &mut Rng, aim: TableAim, mut table: Table) -> Vec<u8> {
    let count = table.spans.len();
    match aim {
        TableAim::BrokenLine => {
            let mut text = table_text(&table);
            break_line(rng, &mut text);
            text
        }
        TableAim::WrongKind => {
            let mut text = table_text(&table);
            let (start, kind) = match rng.between(0, count) {
                0 => (0, rng.pick(&[b"01", b"09"])),
                place => (lengths::table_text(place - 1), rng.pick(&[b"02", b"08"])),
            };
            text[start..start + 2].copy_from_slice(kind);
            text
        }
        TableAim::MissingSpan => {
            table.spans.remove(rng.below(count));
            frames(&table, count)
        }
        _ => {
            if rng.once_in(2) {
                table = wrong_total(rng, TableAim::TotalLow, table);
            }
            let mut text = table_frames(&table);
            let behind = [
                &b"\n"[..],
                b"0",
                b"\r\n",
                b"\0",
                b"08000200000001\n",
                b"0900000001040000000000000000\n",
            ];
            text.extend_from_slice(rng.pick(&behind));
            text
        }
    }
}

/// The frames of a table in which one span has other fields, or all of them have.
fn wrong_fields(rng: &mut Rng, aim: TableAim, table: &Table) -> Vec<u8> {
    let wrong = rng.below(table.spans.len());
    let mut text = head_frame(table, table.spans.len());
    for (place, &span) in table.spans.iter().enumerate() {
        let fields @ [low, high, _, cost] = span_fields(span);
        match aim {
            TableAim::NarrowCosts => NARROW_SPAN.write(fields, &mut text),
            TableAim::NarrowCost if place == wrong => NARROW_SPAN.write(fields, &mut text),
            TableAim::EdgeFields if place == wrong => {
                SPAN_AS_EDGE.write([as_field(place), low, high, cost], &mut text);
            }
            _ => write_span(span, &mut text),
        }
    }
    text
}

/// A table with nothing wrong but the total of its weights.
fn wrong_total(rng: &mut Rng, aim: TableAim, mut table: Table) -> Table {
    let place = rng.below(table.spans.len());
    match aim {
        TableAim::NoSpans => table.spans.clear(),
        TableAim::TotalLow if table.spans[place].weight == 1 => {
            table.spans.remove(place);
        }
        TableAim::TotalLow => table.spans[place].weight -= 1,
        TableAim::TotalHigh => table.spans[place].weight += 1,
        _ => {
            table.vertices = rng.pick(&[table.vertices, MOST_VERTICES]);
            table.spans = lowest_spans(table.vertices, 2 * table.vertices, MOST_WEIGHT);
        }
    }
    table
}

/// The table of a network that is refused for its shape.
fn shapeless(rng: &mut Rng, shape: Shapeless, vertices: usize) -> Vec<u8> {
    let graph = shape.multigraph(rng, vertices);
    let style = rng.pick(&CostStyle::ALL);
    table_text(&merged(&dress(rng, &graph, style)))
}

/// Spans of one weight on the lowest pairs of ends: so many, or as many as there are pairs.
fn lowest_spans(vertices: usize, count: usize, weight: u8) -> Vec<Span> {
    let end = as_number(vertices);
    let pairs = (0..end).flat_map(|low| (low + 1..end).map(move |high| (low, high)));
    let spans = pairs.take(count).map(|(low, high)| Span {
        low,
        high,
        weight,
        cost: COST_LIMIT,
    });
    spans.collect()
}

/// The frames of a table, whatever its numbers.
pub fn table_frames(table: &Table) -> Vec<u8> {
    frames(table, table.spans.len())
}

/// The frames of a table, whatever its numbers, with this count of spans in the head.
fn frames(table: &Table, count: usize) -> Vec<u8> {
    let mut text = head_frame(table, count);
    for &span in &table.spans {
        write_span(span, &mut text);
    }
    text
}

/// The head of a table, with this count of spans in it.
fn head_frame(table: &Table, count: usize) -> Vec<u8> {
    let mut text = Vec::new();
    let head = [table.vertices, table.reserved, count];
    TABLE_HEAD.write(head.map(as_field), &mut text);
    text
}

/// The text with all behind its first bytes damaged, or as it is.
fn damaged_behind(rng: &mut Rng, text: Vec<u8>, length: usize) -> Vec<u8> {
    if rng.once_in(2) {
        return text;
    }
    let (front, rest) = text.split_at(length);
    [front, &damage(rng, rest)].concat()
}

fn as_number(place: usize) -> u16 {
    u16::try_from(place).expect("there are few vertices")
}
