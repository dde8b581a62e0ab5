//! Styles of edge costs, and costs on both sides of their limits.

use super::Rng;
use crate::refusal::{Refusal, BAD_COST};
use crate::texts::COST_LIMIT;

/// How the costs of a network's edges are drawn.
#[derive(Clone, Copy, Debug, PartialEq, Eq)]
pub enum CostStyle {
    /// All edges cost the same.
    AllEqual,
    /// Few values, so that many edges tie.
    FewValues,
    /// Both limits, seldom something else.
    Limits,
    /// Below zero throughout.
    Negative,
    /// Small whole numbers on both sides of zero.
    Small,
    /// Anything within the limits.
    Anything,
    /// One edge at the upper limit among cheap ones.
    OneDear,
    /// Near multiples of two to the power 31, so that most would be other numbers in four bytes.
    FourBytes,
}

impl CostStyle {
    /// Every style.
    pub const ALL: [CostStyle; 8] = [
        CostStyle::AllEqual,
        CostStyle::FewValues,
        CostStyle::Limits,
        CostStyle::Negative,
        CostStyle::Small,
        CostStyle::Anything,
        CostStyle::OneDear,
        CostStyle::FourBytes,
    ];

    /// Costs for so many edges.
    pub fn costs(self, rng: &mut Rng, edges: usize) -> Vec<i64> {
        let anything = |rng: &mut Rng| rng.signed(-COST_LIMIT, COST_LIMIT);
        match self {
            CostStyle::AllEqual => {
                let values = [0, 1, -1, COST_LIMIT, -COST_LIMIT, anything(rng)];
                vec![rng.pick(&values); edges]
            }
            CostStyle::FewValues => {
                let values = [rng.signed(-5, 5), rng.signed(-5, 5), rng.signed(0, 9)];
                (0..edges).map(|_| rng.pick(&values)).collect()
            }
            CostStyle::Limits => (0..edges)
                .map(|_| match rng.below(9) {
                    0 => 0,
                    1 => COST_LIMIT - 1,
                    2 => 1 - COST_LIMIT,
                    draw if draw % 2 == 1 => COST_LIMIT,
                    _ => -COST_LIMIT,
                })
                .collect(),
            CostStyle::Negative => (0..edges).map(|_| rng.signed(-COST_LIMIT, -1)).collect(),
            CostStyle::Small => (0..edges).map(|_| rng.signed(-20, 20)).collect(),
            CostStyle::Anything => (0..edges).map(|_| anything(rng)).collect(),
            CostStyle::OneDear => {
                let mut costs: Vec<i64> = (0..edges).map(|_| rng.signed(0, 3)).collect();
                let place = rng.below(edges);
                costs[place] = COST_LIMIT;
                costs
            }
            CostStyle::FourBytes => (0..edges).map(|_| CostAim::Within.cost(rng)).collect(),
        }
    }
}

/// A cost to aim at.
#[derive(Clone, Copy, Debug, PartialEq, Eq)]
pub enum CostAim {
    /// A limit.
    Limit,
    /// Within the limits, near a multiple of two to the power 31: mostly another number in four
    /// bytes.
    Within,
    /// The next one beyond a limit.
    Next,
    /// Beyond a limit, near a multiple of two to the power 31: in four bytes it would be within.
    Beyond,
    /// The furthest that the field can say.
    Furthest,
}

impl CostAim {
    /// Every aim.
    pub const ALL: [CostAim; 5] = [
        CostAim::Limit,
        CostAim::Within,
        CostAim::Next,
        CostAim::Beyond,
        CostAim::Furthest,
    ];

    /// The refusal of such a cost, if it has one.
    pub fn refusal(self) -> Option<Refusal> {
        match self {
            CostAim::Limit | CostAim::Within => None,
            CostAim::Next | CostAim::Beyond | CostAim::Furthest => Some(BAD_COST),
        }
    }

    /// Such a cost above zero, and one below.
    pub fn costs(self, rng: &mut Rng) -> [i64; 2] {
        let multiples_within = COST_LIMIT / HALF;
        let above = match self {
            CostAim::Limit => COST_LIMIT,
            CostAim::Within => near_multiple(rng, 1, multiples_within),
            CostAim::Next => COST_LIMIT + 1,
            CostAim::Beyond => near_multiple(rng, multiples_within + 1, i64::MAX / HALF),
            CostAim::Furthest => return [i64::MAX, i64::MIN],
        };
        [above, -above]
    }

    /// Such a cost on either side of zero.
    pub fn cost(self, rng: &mut Rng) -> i64 {
        let costs = self.costs(rng);
        rng.pick(&costs)
    }
}

/// Two to the power 31, half of the numbers that four bytes have.
const HALF: i64 = 1 << 31;

/// A number at a multiple of two to the power 31 or beside it: at the lowest of these multiples,
/// at the next one, or at any up to the highest.
fn near_multiple(rng: &mut Rng, lowest: i64, highest: i64) -> i64 {
    let any = rng.signed(lowest, highest);
    rng.pick(&[lowest, lowest + 1, any]) * HALF + rng.pick(&[-1, 0, 1])
}

/// A cost beyond a limit, on either side of zero.
pub(super) fn beyond_limits(rng: &mut Rng) -> i64 {
    let aim = rng.pick(&[CostAim::Next, CostAim::Beyond, CostAim::Furthest]);
    aim.cost(rng)
}

#[cfg(test)]
mod tests {
    use std::collections::BTreeSet;

    use super::*;

    /// Many costs of an aim.
    fn drawn(aim: CostAim) -> BTreeSet<i64> {
        let mut rng = Rng::new(1);
        (0..1_000).flat_map(|_| aim.costs(&mut rng)).collect()
    }

    #[test]
    fn an_aim_has_costs_with_its_refusal_on_both_sides_of_zero() {
        for aim in CostAim::ALL {
            let costs = drawn(aim);
            let within = -COST_LIMIT..=COST_LIMIT;
            let refused = |cost: &i64| !within.contains(cost);
            assert_eq!(costs.iter().all(refused), aim.refusal().is_some());
            assert_eq!(costs.iter().any(refused), aim.refusal().is_some());
            assert!(costs.first() < Some(&0) && costs.last() > Some(&0));
        }
    }

    #[test]
    fn costs_that_four_bytes_take_for_others() {
        let within = drawn(CostAim::Within);
        for cost in [
            0x7fff_ffff,
            0x8000_0000,
            0xffff_ffff,
            0x1_0000_0000,
            0x1_0000_0001,
        ] {
            assert!(within.contains(&cost) && within.contains(&-cost), "{cost}");
        }
        let beyond = drawn(CostAim::Beyond);
        let in_four_bytes = |cost: &i64| *cost as i32;
        assert!(beyond.iter().any(|cost| in_four_bytes(cost) == 1));
        assert!(beyond.iter().any(|cost| in_four_bytes(cost) == -1));
    }
}
