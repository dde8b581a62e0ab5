//! Meanings to be written, of which many have to be turned down.

use super::{list, network, size, CostAim, Rng};
use crate::columns::StepColumns;
use crate::lengths::step_column;

/// A network's meaning by columns, which may differ in length.
#[derive(Clone, Debug, PartialEq, Eq)]
pub struct NetworkColumns {
    /// Count of vertices.
    pub vertices: usize,
    /// Number of the reserved edge.
    pub reserved: usize,
    /// Lower ends.
    pub low: Vec<u16>,
    /// Higher ends.
    pub high: Vec<u16>,
    /// Costs.
    pub cost: Vec<i64>,
}

/// A chain's meaning by columns, which may differ in length.
#[derive(Clone, Debug, PartialEq, Eq)]
pub struct ChainColumns {
    /// Count of vertices.
    pub vertices: usize,
    /// The columns of the steps.
    pub steps: StepColumns,
    /// The dropped edge.
    pub dropped: u16,
}

/// A column of a chain's steps.
#[derive(Clone, Copy, Debug, PartialEq, Eq, PartialOrd, Ord)]
pub enum StepColumn {
    /// The vertices that leave.
    V,
    /// The partners x.
    X,
    /// The partners y.
    Y,
    /// The third partners.
    Z,
    /// Their costs after the steps.
    Cost,
}

impl StepColumn {
    /// Every column.
    pub const ALL: [StepColumn; 5] = [
        StepColumn::V,
        StepColumn::X,
        StepColumn::Y,
        StepColumn::Z,
        StepColumn::Cost,
    ];

    /// Gives this column so many entries, by leaving out some at the end or by adding any.
    pub fn resize(self, rng: &mut Rng, columns: &mut StepColumns, length: usize) {
        match self {
            StepColumn::V => columns.v.resize_with(length, || any_number(rng)),
            StepColumn::X => columns.x.resize_with(length, || any_number(rng)),
            StepColumn::Y => columns.y.resize_with(length, || any_number(rng)),
            StepColumn::Z => columns.z.resize_with(length, || any_number(rng)),
            StepColumn::Cost => columns.cost.resize_with(length, || any_cost(rng)),
        }
    }

    /// How many entries the column has.
    pub fn length(self, columns: &StepColumns) -> usize {
        match self {
            StepColumn::V => columns.v.len(),
            StepColumn::X => columns.x.len(),
            StepColumn::Y => columns.y.len(),
            StepColumn::Z => columns.z.len(),
            StepColumn::Cost => columns.cost.len(),
        }
    }
}

/// A network's meaning with a few changes or none.
pub fn network_columns(rng: &mut Rng) -> NetworkColumns {
    let size = size(rng);
    let network = network(rng, size);
    let mut columns = NetworkColumns {
        vertices: network.vertices,
        reserved: network.reserved,
        low: network.edges.iter().map(|edge| edge.low).collect(),
        high: network.edges.iter().map(|edge| edge.high).collect(),
        cost: network.edges.iter().map(|edge| edge.cost).collect(),
    };
    for _ in 0..rng.below(4) {
        let place = rng.below(2 * size);
        match rng.below(8) {
            0 => columns.vertices = changed_count(rng, columns.vertices),
            1 => columns.reserved = rng.pick(&[2 * size, 2 * size - 1, 65_536, usize::MAX]),
            2 => change(&mut columns.low, place, changed_end(rng, size)),
            3 => change(&mut columns.high, place, changed_end(rng, size)),
            4 => change(&mut columns.cost, place, rng.pick(&CostAim::ALL).cost(rng)),
            5 => change_length(rng, &mut columns.low, 0),
            6 => change_length(rng, &mut columns.high, 1),
            _ => change_length(rng, &mut columns.cost, 0),
        }
    }
    columns
}

/// A chain's meaning for so many vertices with any numbers, every column as long as is due.
pub fn whole_chain_columns(rng: &mut Rng, vertices: usize) -> ChainColumns {
    let mut steps = StepColumns::default();
    for column in StepColumn::ALL {
        column.resize(rng, &mut steps, step_column(vertices));
    }
    let dropped = any_number(rng);
    ChainColumns {
        vertices,
        steps,
        dropped,
    }
}

/// A chain's meaning with any numbers and a few changes of lengths or none.
pub fn chain_columns(rng: &mut Rng) -> ChainColumns {
    let vertices = size(rng);
    let mut columns = whole_chain_columns(rng, vertices);
    for _ in 0..rng.below(3) {
        if rng.once_in(4) {
            columns.vertices = changed_count(rng, vertices);
        } else {
            let column = rng.pick(&StepColumn::ALL);
            let length = changed_length(rng, column.length(&columns.steps));
            column.resize(rng, &mut columns.steps, length);
        }
    }
    columns
}

/// A count of vertices and a list's meaning for it, with a few changes or none.
pub fn list_meaning(rng: &mut Rng) -> (usize, Vec<u16>) {
    let size = size(rng);
    let network = network(rng, size);
    let mut vertices = size;
    let mut edges = list(rng, &network);
    for _ in 0..rng.below(3) {
        let place = rng.below(edges.len());
        match rng.below(4) {
            0 => vertices = changed_count(rng, vertices),
            1 => change(&mut edges, place, any_number(rng)),
            2 => edges.push(any_number(rng)),
            _ => edges.extend_from_within(place..),
        }
    }
    (vertices, edges)
}

fn changed_count(rng: &mut Rng, count: usize) -> usize {
    let (fewer, more) = (count.saturating_sub(1), count.saturating_add(1));
    rng.pick(&[0, 1, 2, 256, 257, fewer, more, usize::MAX])
}

fn changed_end(rng: &mut Rng, size: usize) -> u16 {
    let size = u16::try_from(size).expect("sizes are small");
    rng.pick(&[0, 1, size - 1, size, 256, 65_535])
}

fn any_number(rng: &mut Rng) -> u16 {
    let bound = rng.pick(&[4, 512, 65_536]);
    u16::try_from(rng.below(bound)).expect("two bytes")
}

/// Any number of eight bytes: zero, one near it, or one that would be another in four bytes or in
/// seven.
fn any_cost(rng: &mut Rng) -> i64 {
    let near = rng.signed(-9, 9);
    let aimed = rng.pick(&CostAim::ALL).cost(rng);
    let any = i64::from_le_bytes(rng.bits().to_le_bytes());
    rng.pick(&[0, near, aimed, any])
}

/// Changes the entry at a place, if the column still reaches there.
fn change<T>(column: &mut [T], place: usize, entry: T) {
    if let Some(old) = column.get_mut(place) {
        *old = entry;
    }
}

/// Makes a column shorter or longer by a few entries.
fn change_length<T: Clone>(rng: &mut Rng, column: &mut Vec<T>, filling: T) {
    let length = changed_length(rng, column.len());
    column.resize(length, filling);
}

/// A length that is shorter or longer by a few.
fn changed_length(rng: &mut Rng, length: usize) -> usize {
    let few = rng.between(1, 3);
    if rng.once_in(2) {
        length.saturating_sub(few)
    } else {
        length + few
    }
}
