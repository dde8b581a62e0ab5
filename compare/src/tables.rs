//! Tables: check, plan and the networks that they stand for.

use second::generate::{self, Rng, TableAim};
use second::properties::judge_table_kept;
use second::{Plan, Refusal};
use thinning::raw;

use crate::buffers::compare;
use crate::difference::{Compared, Difference, Given, Text, Words};
use crate::networks::{any_text, plan_lengths, planner, writer, MANY_VERTICES};

/// Plans of tables with more spans take long.
const MANY_SPANS: usize = MANY_VERTICES;

/// All services on table texts of every sort.
pub fn texts(rng: &mut Rng) -> Compared {
    for text in every_sort(rng)? {
        let seldom = text.len() > second::lengths::table_text(MANY_SPANS);
        check(&text)?;
        plan(rng, &text, seldom)?;
        network(rng, &text)?;
        plan_of_network(&text)?;
    }
    Ok(())
}

/// Table texts: one of an accepted network, the same one damaged, one of any spans, one with a
/// fault aimed at, and a text that is meant for no table.
pub fn every_sort(rng: &mut Rng) -> Result<[Vec<u8>; 5], Difference> {
    let vertices = generate::size(rng);
    let table = generate::table(rng, vertices.min(MANY_VERTICES));
    let accepted = generate::table_text(&table);
    let damaged = generate::damage(rng, &accepted);
    let loose = generate::table_text(&generate::loose_table(rng, vertices));
    let aimed = aimed(rng, vertices)?;
    Ok([accepted, damaged, loose, aimed, any_text(rng)])
}

/// A table text with a fault that the second program finds.
fn aimed(rng: &mut Rng, vertices: usize) -> Result<Vec<u8>, Difference> {
    let aim = rng.pick(&TableAim::ALL);
    let (text, refusal) = generate::aimed_table(rng, aim, vertices);
    let answer = second::check_table(&text).err();
    if answer == Some(refusal) {
        return Ok(text);
    }
    let given: &Given = &[("table", &Text(&text))];
    let fault = format!("the second program itself misses {aim:?}");
    let due = &Some(refusal);
    Err(Difference::new("table check", fault, given, due, &answer))
}

/// The table check.
pub fn check(text: &[u8]) -> Compared {
    let refusal = second::check_table(text).err();
    let answer = raw::check_table(text);
    let given: &Given = &[("table", &Text(text))];
    compare("table check", answer, refusal, given, &[])
}

/// The planner, with buffers of every length or called seldom, as [`plan_lengths`] has it.
pub fn plan(rng: &mut Rng, text: &[u8], seldom: bool) -> Compared {
    let plan = second::plan_table(text);
    let due = plan.as_ref().map_err(|&refusal| refusal);
    for lengths in plan_lengths(rng, due, seldom) {
        plan_into(rng, text, due, lengths)?;
    }
    due.map_or(Ok(()), |plan| judge(text, &plan.kept))
}

/// The planner with buffers of these lengths, where this plan or this refusal is due.
pub fn plan_into(
    rng: &mut Rng,
    text: &[u8],
    due: Result<&Plan, Refusal>,
    lengths: [usize; 2],
) -> Compared {
    let given: &Given = &[("table", &Text(text))];
    planner(
        "table plan",
        rng,
        given,
        due,
        lengths,
        |chain, kept, written| {
            let [chain_written, kept_written] = written;
            raw::plan_table(text, chain, kept, chain_written, kept_written)
        },
    )
}

/// What is promised of every kept text, with the bound of four thirds.
pub fn judge(table: &[u8], kept: &[u8]) -> Compared {
    judge_table_kept(table, kept).map_err(|fault| {
        let given: &Given = &[("table", &Text(table))];
        let due = Words("a kept text that keeps what is promised of it");
        Difference::new("table plan", fault, given, &due, &Text(kept))
    })
}

/// The network text that a table stands for.
pub fn network(rng: &mut Rng, text: &[u8]) -> Compared {
    let due = second::table_network(text);
    let given: &Given = &[("table", &Text(text))];
    writer("table network", rng, given, &due, |network, written| {
        raw::table_network(text, network, written)
    })
}

/// The core plans a table as it plans the network text that it writes for it.
fn plan_of_network(text: &[u8]) -> Compared {
    let network = thinning::table_network(text);
    let due = network.as_ref().map_err(|&refusal| refusal);
    let due = due.and_then(|network| thinning::plan(network));
    let plan = thinning::plan_table(text);
    if plan == due {
        return Ok(());
    }
    let given: &Given = &[("table", &Text(text)), ("network", &network.map(Text))];
    let fault = "the core plans the network that it writes in another way";
    let [due, plan] = [due, plan].map(|plan| plan.map(|plan| [plan.chain, plan.kept].map(Text)));
    Err(Difference::new("table plan", fault, given, &due, &plan))
}
