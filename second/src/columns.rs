//! Meanings given column by column, where the columns may differ in length.
//!
//! A row that some column lacks is missing at its place; a row that some column has
//! beyond the count is left over at the end.

use crate::refusal::Refusal;
use crate::texts::{write_chain_rows, write_network_rows, Edge, Step};

/// Writes a network text from columns of lower ends, higher ends and costs.
pub fn write_network(
    vertices: usize,
    reserved: usize,
    low: &[u16],
    high: &[u16],
    cost: &[i64],
) -> Result<Vec<u8>, Refusal> {
    let rows: Vec<Edge> = low
        .iter()
        .zip(high)
        .zip(cost)
        .map(|((&low, &high), &cost)| Edge { low, high, cost })
        .collect();
    let longest = low.len().max(high.len()).max(cost.len());
    write_network_rows(vertices, reserved, &rows, longest)
}

/// The columns of a chain's steps.
#[derive(Clone, Debug, Default, PartialEq, Eq)]
pub struct StepColumns {
    /// The vertices that leave.
    pub v: Vec<u16>,
    /// The partners x.
    pub x: Vec<u16>,
    /// The partners y.
    pub y: Vec<u16>,
    /// The third partners.
    pub z: Vec<u16>,
    /// The costs of the third partners after the steps.
    pub cost: Vec<i64>,
}

impl StepColumns {
    /// The columns of whole rows.
    pub fn of(steps: &[Step]) -> Self {
        StepColumns {
            v: steps.iter().map(|step| step.v).collect(),
            x: steps.iter().map(|step| step.x).collect(),
            y: steps.iter().map(|step| step.y).collect(),
            z: steps.iter().map(|step| step.z).collect(),
            cost: steps.iter().map(|step| step.cost).collect(),
        }
    }

    /// The rows that all columns have.
    pub fn rows(&self) -> Vec<Step> {
        let numbers = self.v.iter().zip(&self.x).zip(&self.y).zip(&self.z);
        numbers
            .zip(&self.cost)
            .map(|((((&v, &x), &y), &z), &cost)| Step { v, x, y, z, cost })
            .collect()
    }

    /// How many entries the longest column has.
    fn longest(&self) -> usize {
        let numbers = [&self.v, &self.x, &self.y, &self.z].map(Vec::len);
        numbers.into_iter().fold(self.cost.len(), usize::max)
    }
}

/// Writes a chain text from the columns of its steps and the dropped edge.
pub fn write_chain(
    vertices: usize,
    columns: &StepColumns,
    dropped: u16,
) -> Result<Vec<u8>, Refusal> {
    write_chain_rows(vertices, &columns.rows(), columns.longest(), dropped)
}

#[cfg(test)]
mod tests {
    use super::*;
    use crate::refusal::{BAD_COST, BAD_EDGE, BROKEN_TEXT};
    use crate::texts::COST_LIMIT;

    #[test]
    fn a_short_column_is_met_at_its_place() {
        let low = [0, 0, 0, 0];
        let high = [1, 1, 1, 1];
        let cost = [1, 2, 3, 4];
        assert!(write_network(2, 0, &low, &high, &cost).is_ok());
        assert_eq!(
            write_network(2, 0, &low, &high[..3], &cost),
            Err(BROKEN_TEXT)
        );
        let dear = [1, 2, 3, COST_LIMIT + 1];
        assert_eq!(
            write_network(2, 0, &low[..3], &high, &dear),
            Err(BROKEN_TEXT)
        );
        assert_eq!(write_network(2, 0, &low, &high, &dear), Err(BAD_COST));
        let wrong = [1, 0, 1, 1];
        assert_eq!(write_network(2, 0, &low, &wrong, &cost[..2]), Err(BAD_EDGE));
    }

    #[test]
    fn a_long_column_is_met_at_the_end() {
        let low = [0, 0, 0, 0, 0];
        let high = [1, 1, 1, 1];
        let cost = [1, 2, 3, 4];
        assert_eq!(write_network(2, 0, &low, &high, &cost), Err(BROKEN_TEXT));
        let dear = [1, 2, 3, -COST_LIMIT - 1];
        assert_eq!(write_network(2, 0, &low, &high, &dear), Err(BAD_COST));
    }

    /// The only step of the printed chain.
    const STEP: Step = Step {
        v: 1,
        x: 4,
        y: 5,
        z: 1,
        cost: -2,
    };

    #[test]
    fn every_column_of_a_chain_has_the_same_length() {
        let whole = StepColumns::of(&[STEP]);
        let text = b"030001000400050001fffffffffffffffe\n040003\n".to_vec();
        assert_eq!(whole.rows(), [STEP]);
        assert_eq!(write_chain(3, &whole, 3), Ok(text));
        let changes: [fn(&mut StepColumns, usize); 5] = [
            |columns, length| columns.v.resize(length, 1),
            |columns, length| columns.x.resize(length, 4),
            |columns, length| columns.y.resize(length, 5),
            |columns, length| columns.z.resize(length, 1),
            |columns, length| columns.cost.resize(length, -2),
        ];
        for change in changes {
            for length in [0, 2] {
                let mut columns = whole.clone();
                change(&mut columns, length);
                assert_eq!(write_chain(3, &columns, 3), Err(BROKEN_TEXT));
            }
            let mut columns = StepColumns::default();
            change(&mut columns, 1);
            assert_eq!(write_chain(2, &columns, 3), Err(BROKEN_TEXT));
        }
        let none = StepColumns::default();
        assert_eq!(write_chain(2, &none, 3), Ok(b"040003\n".to_vec()));
    }
}
