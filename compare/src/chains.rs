//! Chains: check, reader and writer.

use std::fmt::Debug;

use second::columns::StepColumns;
use second::generate::{
    self, aimed_chain, chain_by_rule, changed_chain, Aim, ChainColumns, Rng, StepColumn,
};
use second::lengths::step_column;
use second::texts::{write_ending, write_step};
use second::{columns, Chain, Network, Refusal, Step};
use thinning::raw;

use crate::buffers::{compare, due_length, lengths, one_text, Lent, Number};
use crate::difference::{Compared, Difference, Given, Text};
use crate::networks::{any_text, judge, judge_steps, writer, MANY_VERTICES};
use crate::steps;

/// The chain check on chains by rule, changed ones, ones with a fault aimed at and ones with a
/// fault of a step's z, its cost or its form, over an accepted network and over any text.
pub fn checks(rng: &mut Rng) -> Compared {
    let vertices = generate::size(rng);
    let network = generate::network(rng, vertices);
    let text = generate::text(&network);
    let seldom = vertices > MANY_VERTICES;
    let mut chains = vec![by_rule(rng, &network), changed_chain(rng, &network)];
    let aim = rng.pick(&Aim::ALL);
    if let Some(aimed) = aimed_chain(rng, &network, aim) {
        meets(&text, &aim, &aimed.chain, aimed.refusal)?;
        chains.push(aimed.chain);
    }
    if let Some((fault, faulty)) = steps::any_fault(rng, &network) {
        meets(&text, &fault, &faulty, Some(fault.refusal()))?;
        chains.push(faulty);
    }
    if seldom {
        rng.shuffle(&mut chains);
        chains.truncate(1);
    }
    for chain in &chains {
        check(rng, &text, chain, seldom)?;
    }
    // The network's refusals come before the chain's.
    let other = any_text(rng);
    check(rng, &other, &chains[0], true)
}

/// The second program finds the fault that was aimed at, or that there is none.
pub fn meets(network: &[u8], aim: &dyn Debug, chain: &[u8], refusal: Option<Refusal>) -> Compared {
    let answer = second::check_chain(network, chain).err();
    if answer == refusal {
        return Ok(());
    }
    let given: &Given = &[("network", &Text(network)), ("chain", &Text(chain))];
    let fault = format!("the second program itself misses {aim:?}");
    Err(Difference::new(
        "chain check",
        fault,
        given,
        &refusal,
        &answer,
    ))
}

fn by_rule(rng: &mut Rng, network: &Network) -> Vec<u8> {
    let chain = chain_by_rule(rng, network);
    chain_text(network.vertices, &chain)
}

/// The text of a chain that has all its steps.
pub fn chain_text(vertices: usize, chain: &Chain) -> Vec<u8> {
    second::write_chain(vertices, chain).expect("the chain has all its steps")
}

/// A chain text of the right form. Its first step, if there is one, names one edge twice, for which
/// a check refuses it.
pub fn of_right_form(vertices: usize) -> Vec<u8> {
    let step = Step {
        v: 0,
        x: 0,
        y: 0,
        z: 0,
        cost: 0,
    };
    let chain = Chain {
        steps: vec![step; step_column(vertices)],
        dropped: 0,
    };
    chain_text(vertices, &chain)
}

/// The chain check, with buffers of every length or called seldom, as [`lengths`] has it.
pub fn check(rng: &mut Rng, network: &[u8], chain: &[u8], seldom: bool) -> Compared {
    let due = second::check_chain(network, chain);
    let length_due = due_length(rng, due.as_deref().ok());
    for [length] in lengths(rng, [length_due], seldom) {
        check_into(rng, network, chain, &due, length)?;
    }
    Ok(())
}

/// The chain check with a buffer of this length, where this kept text or this refusal is due.
pub fn check_into(
    rng: &mut Rng,
    network: &[u8],
    chain: &[u8],
    due: &Result<Vec<u8>, Refusal>,
    length: usize,
) -> Compared {
    let service = "chain check";
    let given: &Given = &[("network", &Text(network)), ("chain", &Text(chain))];
    let kept = one_text(service, rng, given, due, length, |kept, written| {
        raw::check_chain(network, chain, kept, written)
    })?;
    let Some(kept) = kept else {
        return Ok(());
    };
    judge(service, network, &kept)?;
    judge_steps(service, network, chain)
}

/// Reader and writer on columns with any numbers, which may differ in length, and on their
/// texts, whole and damaged.
pub fn texts_and_columns(rng: &mut Rng) -> Compared {
    let given = generate::chain_columns(rng);
    let text = write(rng, &given)?;
    // What was refused is read as the text of whole rows, for its wrong count.
    let text = text.unwrap_or_else(|_| rows(&given));
    read(rng, given.vertices, &text)?;
    let damaged = generate::damage(rng, &text);
    read(rng, given.vertices, &damaged)?;
    let count = rng.pick(&[0, 1, 2, 3, 255, 256, 257, usize::MAX]);
    read(rng, count, &text)
}

/// The writer on columns of which each in its turn is shorter, longer and as long as is due, and
/// the reader on the text of those that are.
pub fn columns(rng: &mut Rng) -> Compared {
    for given in every_column(rng) {
        if let Ok(text) = write(rng, &given)? {
            read(rng, given.vertices, &text)?;
        }
    }
    Ok(())
}

/// A chain's columns, and the same ones with each in its turn without its last entry, without all,
/// with one more and with a few more.
pub fn every_column(rng: &mut Rng) -> Vec<ChainColumns> {
    // From here on a column has an entry to lose.
    let vertices = generate::size(rng).max(3);
    let whole = generate::whole_chain_columns(rng, vertices);
    let due = step_column(vertices);
    let mut all = vec![whole.clone()];
    for column in StepColumn::ALL {
        for length in [due - 1, 0, due + 1, due + rng.between(2, 9)] {
            let mut given = whole.clone();
            column.resize(rng, &mut given.steps, length);
            all.push(given);
        }
    }
    all
}

/// The writer on columns, with buffers of every length; gives the text or the refusal that is due.
fn write(rng: &mut Rng, given: &ChainColumns) -> Result<Result<Vec<u8>, Refusal>, Difference> {
    let ChainColumns {
        vertices,
        steps,
        dropped,
    } = given;
    let due = columns::write_chain(*vertices, steps, *dropped);
    let columns = raw::Steps {
        v: &steps.v,
        x: &steps.x,
        y: &steps.y,
        z: &steps.z,
        cost: &steps.cost,
    };
    let shown: &Given = &[
        ("vertices", vertices),
        ("steps", steps),
        ("dropped", dropped),
    ];
    writer("chain writer", rng, shown, &due, |text, written| {
        raw::write_chain(*vertices, columns, *dropped, text, written)
    })?;
    Ok(due)
}

/// Frames of the rows that all columns have, and an ending.
fn rows(given: &ChainColumns) -> Vec<u8> {
    let mut text = Vec::new();
    for step in given.steps.rows() {
        write_step(step, &mut text);
    }
    write_ending(given.dropped, &mut text);
    text
}

fn read(rng: &mut Rng, vertices: usize, text: &[u8]) -> Compared {
    let (chain, refusal) = match second::read_chain(vertices, text) {
        Ok(chain) => (chain, None),
        Err(refusal) => (nothing(), Some(refusal)),
    };
    let due = StepColumns::of(&chain.steps);
    let length_due = due_length(rng, refusal.is_none().then_some(&due.v[..]));
    for lengths in lengths(rng, [length_due; 5], false) {
        let [v, x, y, z, cost] = lengths;
        let [mut v, mut x, mut y, mut z] = [v, x, y, z].map(|length| Lent::new(rng, length));
        let mut cost = Lent::new(rng, cost);
        let mut dropped = Number::new(rng);
        let columns = raw::StepsMut {
            v: v.buffer(),
            x: x.buffer(),
            y: y.buffer(),
            z: z.buffer(),
            cost: cost.buffer(),
        };
        let answer = raw::read_chain(vertices, text, columns, dropped.place());
        compare(
            "chain reader",
            answer,
            refusal,
            &[("vertices", &vertices), ("chain", &Text(text))],
            &[
                &("v", &v, &due.v[..]),
                &("x", &x, &due.x[..]),
                &("y", &y, &due.y[..]),
                &("z", &z, &due.z[..]),
                &("cost", &cost, &due.cost[..]),
                &("dropped", &dropped, chain.dropped),
            ],
        )?;
    }
    Ok(())
}

/// What a refused text means.
fn nothing() -> Chain {
    Chain {
        steps: Vec::new(),
        dropped: 0,
    }
}
