//! The ways of judging cuts agree: counting, flows, and the flow between contracted pairs.

mod common;

use common::rounds;
use second::generate::{self, CostStyle, Family, Rng, Shapeless};
use second::network::Method;
use second::working::Working;
use second::{check_chain_by, check_network_by, plan_by, Network};

/// Walks down a network by the planner's steps and compares all partners of both ends.
fn compare_partners(network: &Network, methods: &[Method]) {
    let (chain, _) = second::chain::plan_network(network, methods[0]);
    let mut working = Working::new(network);
    for step in chain.steps {
        let ends = working.reserved_ends();
        for v in [ends.0, ends.1] {
            let judged: Vec<Vec<bool>> = methods
                .iter()
                .map(|&method| {
                    let partners = working.partners(v).into_iter();
                    partners.map(|x| working.admissible(v, x, method)).collect()
                })
                .collect();
            assert!(judged.iter().all(|answers| *answers == judged[0]));
            let admissible = judged[0].iter().filter(|&&answer| answer).count();
            assert!(admissible >= 2, "Lemma 8");
        }
        working.split(step);
    }
}

#[test]
fn admissible_partners_of_small_networks() {
    let methods = [
        Method::Enumeration,
        Method::EveryFlow,
        Method::ContractedFlow,
    ];
    rounds(1_500, |rng| {
        let size = rng.between(3, 10);
        compare_partners(&generate::network(rng, size), &methods);
    });
    rounds(12, |rng| {
        let size = rng.between(11, 14);
        compare_partners(&generate::network(rng, size), &methods);
    });
}

#[test]
fn admissible_partners_of_larger_networks() {
    let methods = [Method::ContractedFlow, Method::EveryFlow];
    rounds(60, |rng| {
        let size = rng.between(11, 40);
        compare_partners(&generate::network(rng, size), &methods);
    });
}

#[test]
fn refusals_of_networks() {
    rounds(1_500, |rng| {
        let size = rng.between(2, 12);
        let graph = rng.pick(&Shapeless::ALL).multigraph(rng, size);
        let network = generate::dress(rng, &graph, CostStyle::Small);
        let text = generate::text(&network);
        let answer = check_network_by(&text, Method::Enumeration);
        assert_eq!(check_network_by(&text, Method::Mixed), answer);
        assert_eq!(check_network_by(&text, Method::EveryFlow), answer);
        assert_eq!(check_network_by(&text, Method::ContractedFlow), answer);
    });
}

#[test]
fn plans_and_checks_at_all_sizes() {
    rounds(150, |rng| {
        let size = generate::size(rng).min(64);
        compare_plans(&generate::network(rng, size), rng);
    });
    for family in Family::ALL {
        let mut rng = Rng::new(256);
        let network = generate::network_of(&mut rng, family, 100, CostStyle::Limits);
        compare_plans(&network, &mut rng);
    }
}

fn compare_plans(network: &Network, rng: &mut Rng) {
    let text = generate::text(network);
    let plan = plan_by(&text, Method::Mixed);
    assert_eq!(plan_by(&text, Method::ContractedFlow), plan);
    assert_eq!(plan_by(&text, Method::EveryFlow), plan);
    let chain = generate::changed_chain(rng, network);
    let kept = check_chain_by(&text, &chain, Method::Mixed);
    let again = check_chain_by(&text, &chain, Method::ContractedFlow);
    assert_eq!(again, kept);
    assert_eq!(check_chain_by(&text, &chain, Method::EveryFlow), kept);
}

/// Every four-regular multigraph without loops on up to five vertices, by its ends.
fn all_four_regular(vertices: usize) -> Vec<Vec<(u16, u16)>> {
    fn fill(
        pairs: &[(u16, u16)],
        free: &mut Vec<usize>,
        ends: &mut Vec<(u16, u16)>,
        found: &mut Vec<Vec<(u16, u16)>>,
    ) {
        let Some((&(a, b), rest)) = pairs.split_first() else {
            if free.iter().all(|&ports| ports == 0) {
                found.push(ends.clone());
            }
            return;
        };
        let (from, to) = (usize::from(a), usize::from(b));
        let most = free[from].min(free[to]);
        for count in 0..=most {
            free[from] -= count;
            free[to] -= count;
            ends.extend(std::iter::repeat_n((a, b), count));
            fill(rest, free, ends, found);
            ends.truncate(ends.len() - count);
            free[from] += count;
            free[to] += count;
        }
    }
    let last = u16::try_from(vertices).expect("few vertices");
    let pairs: Vec<(u16, u16)> = (0..last)
        .flat_map(|a| (a + 1..last).map(move |b| (a, b)))
        .collect();
    let mut found = Vec::new();
    fill(&pairs, &mut vec![4; vertices], &mut Vec::new(), &mut found);
    found
}

#[test]
fn every_four_regular_network_on_few_vertices() {
    let methods = [
        Method::Enumeration,
        Method::EveryFlow,
        Method::ContractedFlow,
    ];
    let mut accepted = 0;
    for vertices in 2..=5 {
        for ends in all_four_regular(vertices) {
            let costs: Vec<i64> = (0..2 * vertices as i64).map(|k| k * k % 5).collect();
            let mut network = common::network(vertices, 0, &ends, &costs);
            let answer = network.accept(Method::Enumeration);
            assert_eq!(network.accept(Method::EveryFlow), answer);
            if answer.is_err() {
                continue;
            }
            accepted += 1;
            for reserved in 0..2 * vertices {
                network.reserved = reserved;
                compare_partners(&network, &methods);
            }
        }
    }
    assert!(accepted > 50);
}
