//! Costs of lists to be printed: numbers and sums of every width.

use std::iter;

use super::{list_of, loose_network, network, size, ListStyle, Rng};
use crate::texts::{Network, COST_LIMIT};

/// How the costs of the listed edges are drawn.
#[derive(Clone, Copy, Debug, PartialEq, Eq)]
pub enum PrintedCosts {
    /// As the network has them.
    Own,
    /// Powers of ten and their neighbours, zero among them, on both sides of zero.
    EveryWidth,
    /// All at one limit: the sum is as far from zero as so many costs go.
    OneLimit,
    /// Anything whose sum is a power of ten or its neighbour, perhaps zero, on either side of zero.
    RoundSum,
}

impl PrintedCosts {
    /// Every way.
    pub const ALL: [PrintedCosts; 4] = [
        PrintedCosts::Own,
        PrintedCosts::EveryWidth,
        PrintedCosts::OneLimit,
        PrintedCosts::RoundSum,
    ];

    /// A network, accepted or loose, with a list of every style. One of these lists has costs that
    /// are drawn this way.
    pub fn lists(self, rng: &mut Rng) -> (Network, Vec<Vec<u16>>) {
        let vertices = size(rng);
        let mut network = if rng.once_in(2) {
            network(rng, vertices)
        } else {
            loose_network(rng, vertices)
        };
        let styles = ListStyle::all(rng, &network);
        let lists = styles.map(|style| list_of(rng, &network, style));
        let place = rng.below(lists.len());
        self.give(rng, &mut network, &lists[place]);
        (network, lists.to_vec())
    }

    /// Gives the listed edges of a network costs that are drawn this way.
    pub fn give(self, rng: &mut Rng, network: &mut Network, list: &[u16]) {
        let count = list.len();
        let costs = match self {
            PrintedCosts::Own => return,
            PrintedCosts::EveryWidth => (0..count).map(|_| round(rng, COST_LIMIT)).collect(),
            PrintedCosts::OneLimit => vec![rng.pick(&[COST_LIMIT, -COST_LIMIT]); count],
            PrintedCosts::RoundSum => round_sum(rng, count),
        };
        for (&number, cost) in list.iter().zip(costs) {
            network.edges[usize::from(number)].cost = cost;
        }
    }
}

/// A power of ten or a neighbour of it, which may be zero, on either side of zero and no further
/// from it than the limit.
fn round(rng: &mut Rng, limit: i64) -> i64 {
    let powers = iter::successors(Some(1), |power| Some(10 * power));
    let powers: Vec<i64> = powers.take_while(|&power| power <= limit).collect();
    let near = rng.pick(&powers) + rng.pick(&[-1, 0, 1]);
    rng.pick(&[1, -1]) * near.min(limit)
}

/// So many costs with a round sum: shared out evenly, and then moved between neighbours.
fn round_sum(rng: &mut Rng, count: usize) -> Vec<i64> {
    let shares = i64::try_from(count).expect("there are few edges");
    if shares == 0 {
        return Vec::new();
    }
    let sum = round(rng, shares * COST_LIMIT);
    let left = sum.abs() % shares;
    let mut costs: Vec<i64> = (0..shares)
        .map(|place| sum / shares + sum.signum() * i64::from(place < left))
        .collect();
    for place in 1..count {
        let furthest = costs[place - 1].abs().max(costs[place].abs());
        let room = COST_LIMIT - furthest;
        let moved = rng.signed(-room, room);
        costs[place - 1] += moved;
        costs[place] -= moved;
    }
    costs
}

#[cfg(test)]
mod tests {
    use std::collections::BTreeSet;

    use super::*;
    use crate::generate;

    /// Sums and costs of many lists whose costs are drawn this way.
    fn drawn(costs: PrintedCosts) -> BTreeSet<(i64, i64)> {
        let mut all = BTreeSet::new();
        for seed in 0..400 {
            let mut rng = Rng::new(seed);
            let mut network = generate::network(&mut rng, 256);
            let count = rng.pick(&[1, 2, 3, 99, 100, 512]);
            let list: Vec<u16> = (0..count).collect();
            costs.give(&mut rng, &mut network, &list);
            let listed = &network.edges[..usize::from(count)];
            let sum = listed.iter().map(|edge| edge.cost).sum();
            all.extend(listed.iter().map(|edge| (sum, edge.cost)));
        }
        assert!(all.iter().all(|(_, cost)| cost.abs() <= COST_LIMIT));
        all
    }

    /// Powers of ten and their neighbours up to the limit, on both sides of zero.
    fn round_numbers(limit: i64) -> BTreeSet<i64> {
        let powers = (0..18).map(|power| 10_i64.pow(power));
        let near = powers.flat_map(|power| [power - 1, power, power + 1]);
        near.filter(|&number| number <= limit)
            .flat_map(|number| [number, -number])
            .collect()
    }

    #[test]
    fn costs_of_every_width() {
        let costs = drawn(PrintedCosts::EveryWidth).into_iter();
        let costs: BTreeSet<i64> = costs.map(|(_, cost)| cost).collect();
        assert_eq!(costs, round_numbers(COST_LIMIT));
    }

    #[test]
    fn sums_of_every_width() {
        let sums = drawn(PrintedCosts::RoundSum).into_iter();
        let sums: BTreeSet<i64> = sums.map(|(sum, _)| sum).collect();
        // One cost goes no further than its limit, and a list's sum no further than all of them.
        assert!(sums.is_subset(&round_numbers(512 * COST_LIMIT)));
        let widths: BTreeSet<usize> = sums.iter().map(|sum| sum.to_string().len()).collect();
        assert_eq!(widths, (1..=16).collect());
        let drawn = drawn(PrintedCosts::RoundSum);
        let costs: BTreeSet<i64> = drawn.into_iter().map(|(_, cost)| cost).collect();
        assert!(costs.len() > 10_000);
    }

    #[test]
    fn sums_at_both_ends() {
        let sums = drawn(PrintedCosts::OneLimit).into_iter();
        let sums: BTreeSet<i64> = sums.map(|(sum, _)| sum).collect();
        assert_eq!(sums.first(), Some(&(-512 * COST_LIMIT)));
        assert_eq!(sums.last(), Some(&(512 * COST_LIMIT)));
    }
}
