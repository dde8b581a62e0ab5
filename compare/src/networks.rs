//! Networks: check, plan, reader and writer.

use second::generate::{self, NetworkAim, Rng};
use second::lengths::LONGEST_NETWORK_TEXT;
use second::properties::{judge_chain, judge_kept};
use second::{columns, Network, Plan, Refusal};
use thinning::raw;

use crate::buffers::{compare, due_length, lengths, one_text, Lent, Number};
use crate::difference::{Compared, Difference, Given, Text, Words};

/// Plans and chain checks of networks with more vertices take long.
pub const MANY_VERTICES: usize = 48;

/// Bytes of junk, many times the longest text.
const LONG_JUNK: usize = 200_000;

/// A network text: mostly an accepted one, else a fault, damage or junk.
pub fn any_text(rng: &mut Rng) -> Vec<u8> {
    let vertices = generate::size(rng);
    match rng.below(8) {
        0..4 => generate::text(&generate::network(rng, vertices)),
        4 | 5 => {
            let aim = rng.pick(&NetworkAim::ALL);
            generate::aimed_network(rng, aim, vertices.max(8)).0
        }
        6 => {
            let network = generate::network(rng, vertices);
            generate::damage(rng, &generate::text(&network))
        }
        _ => {
            // Now and then far more than any text has.
            let most = rng.pick(&[64, LONGEST_NETWORK_TEXT + 200, LONG_JUNK]);
            let length = rng.below(most);
            (0..length)
                .map(|_| rng.pick(b"0123456789abcdefA\r\n"))
                .collect()
        }
    }
}

/// Check, plan and reader on any text.
pub fn texts(rng: &mut Rng) -> Compared {
    let text = any_text(rng);
    let seldom = text.len() > second::lengths::network_text(MANY_VERTICES);
    check(&text)?;
    plan(rng, &text, seldom)?;
    read(rng, &text, false)
}

/// The network check.
pub fn check(text: &[u8]) -> Compared {
    let refusal = second::check_network(text).err();
    let answer = raw::check_network(text);
    compare(
        "network check",
        answer,
        refusal,
        &[("network", &Text(text))],
        &[],
    )
}

/// The planner, with buffers of every length or called seldom, as [`lengths`] has it.
pub fn plan(rng: &mut Rng, text: &[u8], seldom: bool) -> Compared {
    let plan = second::plan(text);
    let due = plan.as_ref().map_err(|&refusal| refusal);
    for lengths in plan_lengths(rng, due, seldom) {
        plan_into(rng, text, due, lengths)?;
    }
    due.map_or(Ok(()), |plan| judge_plan(text, plan))
}

/// What is promised of every plan.
pub fn judge_plan(network: &[u8], plan: &Plan) -> Compared {
    judge("plan", network, &plan.kept)?;
    judge_steps("plan", network, &plan.chain)
}

/// The planner with buffers of these lengths, where this plan or this refusal is due.
pub fn plan_into(
    rng: &mut Rng,
    text: &[u8],
    due: Result<&Plan, Refusal>,
    lengths: [usize; 2],
) -> Compared {
    let given: &Given = &[("network", &Text(text))];
    planner("plan", rng, given, due, lengths, |chain, kept, written| {
        let [chain_written, kept_written] = written;
        raw::plan(text, chain, kept, chain_written, kept_written)
    })
}

/// Lengths to lend the buffers of any planner with, as [`lengths`] has them.
pub fn plan_lengths(rng: &mut Rng, due: Result<&Plan, Refusal>, seldom: bool) -> Vec<[usize; 2]> {
    let due = [
        due_length(rng, due.ok().map(|plan| &plan.chain[..])),
        due_length(rng, due.ok().map(|plan| &plan.kept[..])),
    ];
    lengths(rng, due, seldom)
}

/// Any planner with buffers of these lengths.
pub fn planner(
    service: &'static str,
    rng: &mut Rng,
    given: &Given,
    due: Result<&Plan, Refusal>,
    lengths: [usize; 2],
    plan: impl Fn(&mut [u8], &mut [u8], [&mut usize; 2]) -> u32,
) -> Compared {
    let mut chain = Lent::new(rng, lengths[0]);
    let mut kept = Lent::new(rng, lengths[1]);
    let (mut chain_written, mut kept_written) = (Number::new(rng), Number::new(rng));
    let answer = plan(
        chain.buffer(),
        kept.buffer(),
        [chain_written.place(), kept_written.place()],
    );
    let (chain_due, kept_due) = due.map_or((&[][..], &[][..]), |plan| (&plan.chain, &plan.kept));
    compare(
        service,
        answer,
        due.err(),
        given,
        &[
            &("chain", &chain, chain_due),
            &("kept", &kept, kept_due),
            &("chain_written", &chain_written, chain_due.len()),
            &("kept_written", &kept_written, kept_due.len()),
        ],
    )
}

/// What is promised of every kept text, judged without its chain.
pub fn judge(service: &'static str, network: &[u8], kept: &[u8]) -> Compared {
    judge_kept(network, kept).map_err(|fault| {
        let given: &Given = &[("network", &Text(network))];
        let due = Words("a kept text that keeps what is promised of it");
        Difference::new(service, fault, given, &due, &Text(kept))
    })
}

/// What is promised of every chain that passes, judged without a cut.
pub fn judge_steps(service: &'static str, network: &[u8], chain: &[u8]) -> Compared {
    judge_chain(network, chain).map_err(|fault| {
        let given: &Given = &[("network", &Text(network))];
        let due = Words("a chain whose steps name the edges at their vertices and right costs");
        Difference::new(service, fault, given, &due, &Text(chain))
    })
}

/// The reader, with buffers of every length or called seldom, as [`lengths`] has it.
pub fn read(rng: &mut Rng, text: &[u8], seldom: bool) -> Compared {
    let (network, refusal) = match second::read_network(text) {
        Ok(network) => (network, None),
        Err(refusal) => (nothing(), Some(refusal)),
    };
    let low_due: Vec<u16> = network.edges.iter().map(|edge| edge.low).collect();
    let high_due: Vec<u16> = network.edges.iter().map(|edge| edge.high).collect();
    let cost_due: Vec<i64> = network.edges.iter().map(|edge| edge.cost).collect();
    let due = due_length(rng, refusal.is_none().then_some(&low_due[..]));
    for lengths in lengths(rng, [due; 3], seldom) {
        let mut low = Lent::new(rng, lengths[0]);
        let mut high = Lent::new(rng, lengths[1]);
        let mut cost = Lent::new(rng, lengths[2]);
        let (mut vertices, mut reserved) = (Number::new(rng), Number::new(rng));
        let answer = raw::read_network(
            text,
            low.buffer(),
            high.buffer(),
            cost.buffer(),
            vertices.place(),
            reserved.place(),
        );
        compare(
            "network reader",
            answer,
            refusal,
            &[("network", &Text(text))],
            &[
                &("low", &low, &low_due[..]),
                &("high", &high, &high_due[..]),
                &("cost", &cost, &cost_due[..]),
                &("vertices", &vertices, network.vertices),
                &("reserved", &reserved, network.reserved),
            ],
        )?;
    }
    Ok(())
}

/// What a refused text means.
fn nothing() -> Network {
    Network {
        vertices: 0,
        reserved: 0,
        edges: Vec::new(),
    }
}

/// The writer on columns, which may differ in length.
pub fn columns(rng: &mut Rng) -> Compared {
    let given = generate::network_columns(rng);
    let (vertices, reserved) = (given.vertices, given.reserved);
    let (low, high, cost) = (&given.low[..], &given.high[..], &given.cost[..]);
    let due = columns::write_network(vertices, reserved, low, high, cost);
    let shown: &Given = &[
        ("vertices", &vertices),
        ("reserved", &reserved),
        ("low", &low),
        ("high", &high),
        ("cost", &cost),
    ];
    writer("network writer", rng, shown, &due, |text, written| {
        raw::write_network(vertices, reserved, low, high, cost, text, written)
    })
}

/// Any writer, with buffers of every length.
pub fn writer(
    service: &'static str,
    rng: &mut Rng,
    given: &Given,
    due: &Result<Vec<u8>, Refusal>,
    write: impl Fn(&mut [u8], &mut usize) -> u32,
) -> Compared {
    let length_due = due_length(rng, due.as_deref().ok());
    for [length] in lengths(rng, [length_due], false) {
        one_text(service, rng, given, due, length, &write)?;
    }
    Ok(())
}
