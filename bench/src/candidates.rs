//! A table about candidates for the reserved edge: one call for forty of them, and forty single plans.

use second::generate::{self, Rng};
use thinning::{raw, CHAIN_TEXT, COSTS_TEXT, KEPT_TEXT};

use crate::{milliseconds, network, ratio, shortest, work, Given, SEED};

/// How many edges are tried.
const CANDIDATES: usize = 40;
/// The times that are compared differ by a few hundredths and are long, so it takes many runs until each of them meets
/// an undisturbed moment.
const RUNS: usize = 60;

/// The line above the table.
pub fn heading() {
    println!(
        "{:<12} {:>8} {:>12} {:>12} {:>12} {:>12} {:>6}",
        "family", "vertices", "candidates", "plans", "checks", "difference", "ratio"
    );
}

/// Prints how long one call takes for forty candidates, how long their single plans take and how long as many checks,
/// what is left of the plans without the checks, and the ratio of the one call to that.
pub fn line(given: &Given) {
    let Given {
        family,
        vertices,
        text,
    } = given;
    let mut network = network(*family, *vertices);
    let mut candidates: Vec<u16> = (0..).take(network.edges.len()).collect();
    Rng::new(SEED).shuffle(&mut candidates);
    candidates.truncate(CANDIDATES);
    let singles: Vec<Vec<u8>> = candidates
        .iter()
        .map(|&edge| {
            network.reserved = usize::from(edge);
            generate::text(&network)
        })
        .collect();

    let [mut costs, mut single_costs] = [(); 2].map(|()| vec![0; CANDIDATES * COSTS_TEXT]);
    let mut written = 0;
    let [one_call, plans, checks] = shortest(
        RUNS,
        [
            work(|| raw::plan_candidates(text, &candidates, &mut costs, &mut written)),
            work(|| single_plans(&singles, &mut single_costs)),
            work(|| singles.iter().all(|single| raw::check_network(single) == 0)),
        ],
    );
    assert_eq!(written, costs.len());
    assert_eq!(costs, single_costs);
    let difference = plans.saturating_sub(checks);
    print!("{:<12} {vertices:>8}", format!("{family:?}"));
    for time in [one_call, plans, checks, difference] {
        print!(" {:>12.4}", milliseconds(time));
    }
    println!(" {:>6.3}", ratio(one_call, difference));
}

/// Plans each network and copies the frame at the end of its kept text, which has the costs of its plan.
fn single_plans(networks: &[Vec<u8>], costs: &mut [u8]) {
    let (mut chain, mut kept) = (vec![0; CHAIN_TEXT], vec![0; KEPT_TEXT]);
    let (mut chain_written, mut written) = (0, 0);
    for (network, frame) in networks.iter().zip(costs.chunks_mut(COSTS_TEXT)) {
        let refusal = raw::plan(
            network,
            &mut chain,
            &mut kept,
            &mut chain_written,
            &mut written,
        );
        assert_eq!(refusal, 0);
        frame.copy_from_slice(&kept[written - COSTS_TEXT..written]);
    }
}
