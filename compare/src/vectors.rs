//! The wrapper's own functions, whose answers come in vectors.

use std::fmt::Debug;

use second::columns::{self, StepColumns};
use second::generate::{
    self, chain_by_rule, changed_chain, CandidateStyle, NetworkAim, Rng, WrongPlace,
};
use second::Refusal;

use crate::chains::chain_text;
use crate::costs::some_vertices;
use crate::difference::{Compared, Difference, Given, Text};
use crate::networks::{any_text, MANY_VERTICES};
use crate::reasons::small_network;
use crate::steps;
use crate::tables::every_sort;

/// The same answer from both, or refusals with the same number.
fn same<T: PartialEq + Debug>(
    service: &'static str,
    given: &Given,
    answer: Result<T, thinning::Refusal>,
    due: Result<T, Refusal>,
) -> Compared {
    let answer = answer.map_err(thinning::Refusal::number);
    let due = due.map_err(u32::from);
    if answer == due {
        return Ok(());
    }
    let fault = "the wrapper's answer differs";
    Err(Difference::new(service, fault, given, &due, &answer))
}

/// Check, plan, reader and writer of networks.
pub fn networks(rng: &mut Rng) -> Compared {
    let text = any_text(rng);
    let shown: &Given = &[("network", &Text(&text))];
    let due = second::check_network(&text);
    same("network check", shown, thinning::check_network(&text), due)?;
    let plan = thinning::plan(&text).map(|plan| [plan.chain, plan.kept].map(Text));
    let due = second::plan(&text).map(|plan| [plan.chain, plan.kept].map(Text));
    same("plan", shown, plan, due)?;
    let due = second::read_network(&text).map(by_columns);
    same("network reader", shown, thinning::read_network(&text), due)?;
    let given = generate::network_columns(rng);
    let due = columns::write_network(
        given.vertices,
        given.reserved,
        &given.low,
        &given.high,
        &given.cost,
    );
    let network = thinning::Network {
        vertices: given.vertices,
        reserved: given.reserved,
        low: given.low,
        high: given.high,
        cost: given.cost,
    };
    let written = thinning::write_network(&network).map(Text);
    let shown: &Given = &[("network", &network)];
    same("network writer", shown, written, due.map(Text))
}

fn by_columns(network: second::Network) -> thinning::Network {
    thinning::Network {
        vertices: network.vertices,
        reserved: network.reserved,
        low: network.edges.iter().map(|edge| edge.low).collect(),
        high: network.edges.iter().map(|edge| edge.high).collect(),
        cost: network.edges.iter().map(|edge| edge.cost).collect(),
    }
}

/// Check, reader and writer of chains.
pub fn chains(rng: &mut Rng) -> Compared {
    let vertices = generate::size(rng).min(MANY_VERTICES);
    let network = generate::network(rng, vertices);
    let text = generate::text(&network);
    let by_rule = chain_text(vertices, &chain_by_rule(rng, &network));
    let mut chains = vec![by_rule, changed_chain(rng, &network)];
    chains.extend(steps::any_fault(rng, &network).map(|(_, faulty)| faulty));
    for chain in chains {
        let shown: &Given = &[("network", &Text(&text)), ("chain", &Text(&chain))];
        let kept = thinning::check_chain(&text, &chain).map(Text);
        let due = second::check_chain(&text, &chain).map(Text);
        same("chain check", shown, kept, due)?;
        let due = second::read_chain(vertices, &chain)
            .map(|chain| of_columns(StepColumns::of(&chain.steps), chain.dropped));
        let read = thinning::read_chain(vertices, &chain);
        same("chain reader", shown, read, due)?;
    }
    let given = generate::chain_columns(rng);
    let due = columns::write_chain(given.vertices, &given.steps, given.dropped);
    let chain = of_columns(given.steps, given.dropped);
    let text = thinning::write_chain(given.vertices, &chain).map(Text);
    let shown: &Given = &[("vertices", &given.vertices), ("chain", &chain)];
    same("chain writer", shown, text, due.map(Text))
}

fn of_columns(steps: StepColumns, dropped: u16) -> thinning::Chain {
    let StepColumns { v, x, y, z, cost } = steps;
    thinning::Chain {
        v,
        x,
        y,
        z,
        cost,
        dropped,
    }
}

/// Reader and writer of lists, and the audit.
pub fn lists(rng: &mut Rng) -> Compared {
    let vertices = generate::size(rng);
    let network = generate::network(rng, vertices);
    let text = generate::text(&network);
    let edges = generate::list(rng, &network);
    let list = second::write_list(vertices, &edges).expect("the list rises");
    for list in [generate::damage(rng, &list), list] {
        let shown: &Given = &[("network", &Text(&text)), ("list", &Text(&list))];
        let due = second::read_list(vertices, &list);
        let read = thinning::read_list(vertices, &list);
        same("list reader", shown, read, due)?;
        let answers = thinning::audit(&text, &list)
            .map(|audit| (audit.connected, audit.reached, audit.critical));
        let due = second::audit(&text, &list)
            .map(|audit| (audit.connected, audit.reached, audit.critical));
        same("audit", shown, answers, due)?;
    }
    let (vertices, edges) = generate::list_meaning(rng);
    let shown: &Given = &[("vertices", &vertices), ("edges", &edges)];
    let due = second::write_list(vertices, &edges).map(Text);
    let written = thinning::write_list(vertices, &edges).map(Text);
    same("list writer", shown, written, due)
}

/// Pages of lists, whole and with a fault aimed at, over an accepted network and over any text.
pub fn pages(rng: &mut Rng) -> Compared {
    let vertices = generate::size(rng);
    let network = generate::network(rng, vertices);
    let edges = generate::list(rng, &network);
    let list = second::write_list(vertices, &edges).expect("the list rises");
    let (aimed, _) = generate::aimed_list(rng, &network);
    for text in [generate::text(&network), any_text(rng)] {
        for list in [&list, &aimed] {
            let shown: &Given = &[("network", &Text(&text)), ("list", &Text(list))];
            let page = thinning::print_page(&text, list).map(Text);
            let due = second::print_page(&text, list).map(Text);
            same("page", shown, page, due)?;
        }
    }
    Ok(())
}

/// Sums of candidates, of a few, of none and with a wrong number, over an accepted network, and of
/// one over any text.
pub fn candidates(rng: &mut Rng) -> Compared {
    let vertices = some_vertices(rng);
    let network = generate::network(rng, vertices);
    let few = generate::candidates_of(rng, &network, CandidateStyle::Few);
    let place = rng.pick(&WrongPlace::ALL);
    let (wrong, _) = generate::aimed_candidates(rng, &network, place);
    let text = generate::text(&network);
    for reserved in [&few[..], &wrong, &[]] {
        some_candidates(&text, reserved)?;
    }
    some_candidates(&any_text(rng), &few[..1])
}

fn some_candidates(network: &[u8], reserved: &[u16]) -> Compared {
    let shown: &Given = &[("network", &Text(network)), ("reserved", &reserved)];
    let costs = thinning::plan_candidates(network, reserved)
        .map(|all| all.iter().map(|costs| (costs.kept, costs.total)).collect());
    let due = second::plan_candidates(network, reserved)
        .and_then(|frames| second::read_candidates(&frames))
        .map(|all| all.iter().map(|sums| (sums.cost, sums.total)).collect());
    same::<Vec<(i64, i64)>>("candidates", shown, costs, due)
}

/// Reasons of chains by rule, changed ones and ones with a fault of a step, over an accepted network,
/// and of one over a network with any fault.
pub fn reasons(rng: &mut Rng) -> Compared {
    let network = small_network(rng);
    let vertices = network.vertices;
    let text = generate::text(&network);
    let by_rule = chain_text(vertices, &chain_by_rule(rng, &network));
    let mut chains = vec![by_rule, changed_chain(rng, &network)];
    chains.extend(steps::any_fault(rng, &network).map(|(_, faulty)| faulty));
    for chain in &chains {
        some_reasons(&text, chain)?;
    }
    let aim = rng.pick(&NetworkAim::ALL);
    let (faulty, _) = generate::aimed_network(rng, aim, vertices);
    some_reasons(&faulty, &chains[0])
}

fn some_reasons(network: &[u8], chain: &[u8]) -> Compared {
    let shown: &Given = &[("network", &Text(network)), ("chain", &Text(chain))];
    let reasons = thinning::reasons(network, chain).map(|all| {
        all.iter()
            .map(|reason| (reason.edge, reason.rule.number(), reason.step))
            .collect()
    });
    let due = second::reasons(network, chain)
        .and_then(|frames| second::read_reasons(&frames))
        .map(|all| {
            all.iter()
                .map(|reason| (reason.edge, reason.rule.number(), reason.step))
                .collect()
        });
    same::<Vec<(u16, u8, u16)>>("reasons", shown, reasons, due)
}

/// Check, plan and network of tables.
pub fn tables(rng: &mut Rng) -> Compared {
    for text in every_sort(rng)? {
        let shown: &Given = &[("table", &Text(&text))];
        let due = second::check_table(&text);
        same("table check", shown, thinning::check_table(&text), due)?;
        let plan = thinning::plan_table(&text).map(|plan| [plan.chain, plan.kept].map(Text));
        let due = second::plan_table(&text).map(|plan| [plan.chain, plan.kept].map(Text));
        same("table plan", shown, plan, due)?;
        let network = thinning::table_network(&text).map(Text);
        let due = second::table_network(&text).map(Text);
        same("table network", shown, network, due)?;
    }
    Ok(())
}

#[cfg(test)]
mod tests {
    use second::lengths::{
        candidates_text, edge_column, kept_text, step_column, LONGEST_CHAIN_TEXT,
        LONGEST_LIST_TEXT, LONGEST_NETWORK_TEXT, LONGEST_PAGE, LONGEST_REASONS_TEXT,
        LONGEST_TABLE_TEXT,
    };
    use second::texts::MOST_VERTICES;

    #[test]
    fn the_wrapper_has_room_for_the_longest_of_everything_and_no_more() {
        let edges = edge_column(MOST_VERTICES);
        assert_eq!(thinning::VERTICES, MOST_VERTICES);
        assert_eq!(thinning::EDGES, edges);
        assert_eq!(thinning::STEPS, step_column(MOST_VERTICES));
        assert_eq!(thinning::NETWORK_TEXT, LONGEST_NETWORK_TEXT);
        assert_eq!(thinning::CHAIN_TEXT, LONGEST_CHAIN_TEXT);
        // All edges but the reserved one are kept.
        assert_eq!(thinning::KEPT_TEXT, kept_text(edges - 1));
        assert_eq!(thinning::REASONS_TEXT, LONGEST_REASONS_TEXT);
        assert_eq!(thinning::LIST_TEXT, LONGEST_LIST_TEXT);
        assert_eq!(thinning::PAGE_TEXT, LONGEST_PAGE);
        assert_eq!(thinning::TABLE_TEXT, LONGEST_TABLE_TEXT);
        assert_eq!(thinning::COSTS_TEXT, candidates_text(1));
    }
}
