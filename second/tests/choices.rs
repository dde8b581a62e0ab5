//! The planner's choices, looked at step by step, the sum that going back must give, and how far
//! working costs go.

mod common;

use common::rounds;
use second::chain::{check_step, plan_network};
use second::generate::{self, CostStyle, Family, Rng};
use second::network::Method;
use second::texts::COST_LIMIT;
use second::working::Working;
use second::{read_kept, read_network, Network};

/// A working cost is never further from zero.
const WORKING_LIMIT: i64 = 512 * COST_LIMIT;

/// The admissible partners at a vertex in rising order.
fn admissible(working: &Working, v: usize) -> Vec<usize> {
    let partners = working.partners(v).into_iter();
    partners
        .filter(|&x| working.admissible(v, x, Method::EveryFlow))
        .collect()
}

fn assert_choices(network: &Network) {
    let (chain, kept) = plan_network(network, Method::Mixed);
    let mut working = Working::new(network);
    let mut sum = 0;
    for step in chain.steps {
        assert_eq!(check_step(&working, step, Method::Mixed), Ok(()));
        let [v, x, y] = [step.v, step.x, step.y].map(usize::from);
        let ends = working.reserved_ends();
        assert_eq!(v, ends.0.max(ends.1));
        assert_eq!([x.min(y), x.max(y)], admissible(&working, v)[..2]);
        let (dear, cheap) = (working.cost(x), working.cost(y));
        assert!(dear > cheap || (dear == cheap && x < y));
        sum += dear + cheap;
        let z = usize::from(step.z);
        assert_eq!(step.cost, working.cost(z) - dear);
        let mut named = [x, y, z];
        named.sort_unstable();
        assert_eq!(working.partners(v), named);
        working.split(step);
        assert_eq!(working.cost(z), step.cost);
        assert!(step.cost.abs() <= WORKING_LIMIT);
        assert!(!working.has_vertex(v));
        assert!(!working.has_edge(x) && !working.has_edge(y));
    }
    let dropped = usize::from(chain.dropped);
    for edge in working.partners(working.reserved_ends().0) {
        let (cost, most) = (working.cost(edge), working.cost(dropped));
        assert!(cost < most || (cost == most && edge <= dropped));
        sum += cost;
    }
    assert_eq!(kept.cost, sum - working.cost(dropped));
}

#[test]
fn the_planner_chooses_as_it_must() {
    rounds(600, |rng| {
        let size = generate::size(rng).min(20);
        assert_choices(&generate::network(rng, size));
    });
}

/// How far from zero working costs go on the planner's way.
fn furthest(network: &Network) -> i64 {
    let (chain, _) = plan_network(network, Method::ContractedFlow);
    let costs = chain.steps.iter().map(|step| step.cost.abs());
    costs.max().expect("there are steps")
}

#[test]
fn working_costs_of_the_largest_networks_stay_within_their_limit() {
    for family in Family::ALL {
        let mut rng = Rng::new(1);
        let mut network = generate::network_of(&mut rng, family, 256, CostStyle::Limits);
        assert!(furthest(&network) <= WORKING_LIMIT);
        for edge in &mut network.edges {
            edge.cost = -COST_LIMIT;
        }
        let furthest = furthest(&network);
        assert!(furthest <= WORKING_LIMIT);
        // There each difference is taken from the one before.
        assert!(family != Family::DoubledCycle || furthest > 200 * COST_LIMIT);
    }
}

#[test]
fn every_reserved_edge_can_be_spared() {
    rounds(40, |rng| {
        let size = rng.between(2, 12);
        let mut network = generate::network(rng, size);
        for reserved in 0..2 * size {
            network.reserved = reserved;
            assert_choices(&network);
            let text = generate::text(&network);
            assert_eq!(read_network(&text).as_ref(), Ok(&network));
            let kept = read_kept(&second::plan(&text).unwrap().kept).unwrap();
            assert!(!kept.edges.iter().any(|&edge| usize::from(edge) == reserved));
        }
    });
}
