//! Costs on both sides of their limits, of an edge and of a span, and frames with other fields.

use second::generate::{self, CostAim, NetworkAim, Rng, TableAim};
use second::lengths::{candidates_text, edge_column};
use second::Refusal;

use crate::difference::{Compared, Difference, Given, Text};
use crate::{candidates, chains, lists, networks, pages, reasons, tables};

/// Networks of more vertices take long, since many are planned.
const MOST_VERTICES: usize = 20;

/// A text, and the refusal that its check gives if it isn't accepted.
pub struct Case {
    pub text: Vec<u8>,
    refusal: Option<Refusal>,
}

/// All services on networks with every sort of cost, and with frames that have other fields.
pub fn edges(rng: &mut Rng) -> Compared {
    let vertices = some_vertices(rng);
    let all: Vec<u16> = (0..).take(edge_column(vertices)).collect();
    let list = second::write_list(vertices, &all).expect("the list rises");
    for case in edge_cases(rng, vertices) {
        let text = &case.text;
        let plan = second::plan(text);
        // A chain that passes, or one that doesn't get the refusal of the network.
        let chain = plan.map_or_else(|_| chains::of_right_form(vertices), |plan| plan.chain);
        meets("network check", &case, second::check_network(text).err())?;
        networks::check(text)?;
        networks::plan(rng, text, true)?;
        networks::read(rng, text, true)?;
        chains::check(rng, text, &chain, true)?;
        reasons::write_exact(rng, text, &chain, vertices)?;
        lists::audit(rng, text, &list)?;
        pages::print(rng, text, &list)?;
        candidate(rng, text, &all)?;
    }
    Ok(())
}

/// The frame of one candidate out of all edges, with an exact buffer.
fn candidate(rng: &mut Rng, network: &[u8], all: &[u16]) -> Compared {
    let reserved = [rng.pick(all)];
    let due = second::plan_candidates(network, &reserved);
    candidates::plan_into(rng, network, &reserved, &due, candidates_text(1))
}

/// All services on tables with every sort of cost, and with frames that have other fields.
pub fn spans(rng: &mut Rng) -> Compared {
    let vertices = some_vertices(rng);
    for case in span_cases(rng, vertices) {
        let text = &case.text;
        meets("table check", &case, second::check_table(text).err())?;
        tables::check(text)?;
        tables::plan(rng, text, true)?;
        tables::network(rng, text)?;
    }
    Ok(())
}

/// A count of vertices, none of the large ones.
pub fn some_vertices(rng: &mut Rng) -> usize {
    generate::size(rng).min(MOST_VERTICES)
}

/// Texts of networks: any edge at each sort of cost, above zero and below, and frames with other
/// fields.
pub fn edge_cases(rng: &mut Rng, vertices: usize) -> Vec<Case> {
    let mut cases = Vec::new();
    for aim in CostAim::ALL {
        for cost in aim.costs(rng) {
            let mut network = generate::network(rng, vertices);
            let place = rng.below(network.edges.len());
            network.edges[place].cost = cost;
            cases.push(Case {
                text: generate::frames(&network),
                refusal: aim.refusal(),
            });
        }
    }
    for aim in [
        NetworkAim::NarrowCost,
        NetworkAim::NarrowCosts,
        NetworkAim::SpanFields,
    ] {
        cases.push(refused(generate::aimed_network(rng, aim, vertices)));
    }
    cases
}

/// Texts of tables: any span at each sort of cost, above zero and below, and frames with other
/// fields.
pub fn span_cases(rng: &mut Rng, vertices: usize) -> Vec<Case> {
    let mut cases = Vec::new();
    for aim in CostAim::ALL {
        for cost in aim.costs(rng) {
            let mut table = generate::table(rng, vertices);
            let place = rng.below(table.spans.len());
            table.spans[place].cost = cost;
            cases.push(Case {
                text: generate::table_frames(&table),
                refusal: aim.refusal(),
            });
        }
    }
    for aim in [
        TableAim::NarrowCost,
        TableAim::NarrowCosts,
        TableAim::EdgeFields,
    ] {
        cases.push(refused(generate::aimed_table(rng, aim, vertices)));
    }
    cases
}

fn refused((text, refusal): (Vec<u8>, Refusal)) -> Case {
    Case {
        text,
        refusal: Some(refusal),
    }
}

/// The second program's check gives the refusal that is due.
fn meets(service: &'static str, case: &Case, answer: Option<Refusal>) -> Compared {
    if answer == case.refusal {
        return Ok(());
    }
    let given: &Given = &[("text", &Text(&case.text))];
    let fault = "the second program itself misses what was aimed at";
    let due = &case.refusal;
    Err(Difference::new(service, fault, given, due, &answer))
}
