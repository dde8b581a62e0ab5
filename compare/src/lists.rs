//! Audit lists: reader, writer and the audit.

use second::audit::audit_list_by_definition;
use second::generate::{self, ListStyle, NetworkAim, Rng};
use second::{Audit, Network};
use thinning::raw;

use crate::buffers::{compare, due_length, lengths, Lent, Number};
use crate::difference::{Compared, Difference, Given, Text};
use crate::networks::writer;

/// The reader on texts of lists, whole, damaged and with a fault aimed at.
pub fn texts(rng: &mut Rng) -> Compared {
    let vertices = generate::size(rng);
    let network = generate::network(rng, vertices);
    let list = generate::list(rng, &network);
    let text = second::write_list(vertices, &list).expect("the list rises");
    read(rng, vertices, &text)?;
    let damaged = generate::damage(rng, &text);
    read(rng, vertices, &damaged)?;
    let (aimed, _) = generate::aimed_list(rng, &network);
    read(rng, vertices, &aimed)?;
    let count = rng.pick(&[0, 1, 2, vertices - 1, 256, 257, usize::MAX]);
    read(rng, count, &text)
}

fn read(rng: &mut Rng, vertices: usize, text: &[u8]) -> Compared {
    let (edges_due, refusal) = match second::read_list(vertices, text) {
        Ok(edges) => (edges, None),
        Err(refusal) => (Vec::new(), Some(refusal)),
    };
    let due = due_length(rng, refusal.is_none().then_some(&edges_due[..]));
    for [length] in lengths(rng, [due], false) {
        let mut edges = Lent::new(rng, length);
        let mut count = Number::new(rng);
        let answer = raw::read_list(vertices, text, edges.buffer(), count.place());
        compare(
            "list reader",
            answer,
            refusal,
            &[("vertices", &vertices), ("list", &Text(text))],
            &[
                &("edges", &edges, &edges_due[..]),
                &("count", &count, edges_due.len()),
            ],
        )?;
    }
    Ok(())
}

/// The writer on lists that rise and on others.
pub fn meanings(rng: &mut Rng) -> Compared {
    let (vertices, edges) = generate::list_meaning(rng);
    let due = second::write_list(vertices, &edges);
    let given: &Given = &[("vertices", &vertices), ("edges", &edges)];
    writer("list writer", rng, given, &due, |text, written| {
        raw::write_list(vertices, &edges, text, written)
    })
}

/// The audit of lists over networks, accepted or not, over broken ones, and of damaged lists.
pub fn audits(rng: &mut Rng) -> Compared {
    let vertices = generate::size(rng).max(8);
    let network = generate::network(rng, vertices);
    let text = generate::text(&network);
    let edges = generate::list(rng, &network);
    let list = second::write_list(vertices, &edges).expect("the list rises");
    audit(rng, &text, &list)?;
    let damaged = generate::damage(rng, &list);
    audit(rng, &text, &damaged)?;
    let (aimed, _) = generate::aimed_list(rng, &network);
    audit(rng, &text, &aimed)?;
    let loose = generate::loose_network(rng, vertices);
    let edges = generate::list(rng, &loose);
    let loose_list = second::write_list(loose.vertices, &edges).expect("the list rises");
    audit(rng, &generate::text(&loose), &loose_list)?;
    let aim = rng.pick(&NetworkAim::ALL);
    let (broken, _) = generate::aimed_network(rng, aim, vertices);
    audit(rng, &broken, &list)
}

/// The audit of lists of every style, many of them with islands, over an accepted network and a loose one.
pub fn half_built_audits(rng: &mut Rng) -> Compared {
    for (network, lists) in half_built(rng) {
        let text = generate::text(&network);
        for edges in lists {
            let list = second::write_list(network.vertices, &edges).expect("the list rises");
            audit(rng, &text, &list)?;
        }
    }
    Ok(())
}

/// An accepted network and a loose one, each with a list of every style.
pub fn half_built(rng: &mut Rng) -> [(Network, Vec<Vec<u16>>); 2] {
    let vertices = generate::size(rng);
    let networks = [
        generate::network(rng, vertices),
        generate::loose_network(rng, vertices),
    ];
    networks.map(|network| {
        let styles = ListStyle::all(rng, &network);
        let lists = styles.map(|style| generate::list_of(rng, &network, style));
        (network, lists.to_vec())
    })
}

/// The audit of a list over a network, whatever both are.
pub fn audit(rng: &mut Rng, network: &[u8], list: &[u8]) -> Compared {
    let due = second::audit(network, list);
    if let Ok(answer) = due {
        by_definition(network, list, answer)?;
    }
    let (connected_due, reached_due, critical_due) = match due {
        Ok(audit) => (audit.connected, audit.reached, audit.critical),
        Err(_) => (false, 0, 0),
    };
    let mut connected = Number::new(rng);
    let mut reached = Number::new(rng);
    let mut critical = Number::new(rng);
    let answer = raw::audit(
        network,
        list,
        connected.place(),
        reached.place(),
        critical.place(),
    );
    compare(
        "audit",
        answer,
        due.err(),
        &[("network", &Text(network)), ("list", &Text(list))],
        &[
            &("connected", &connected, connected_due),
            &("reached", &reached, reached_due),
            &("critical", &critical, critical_due),
        ],
    )
}

/// The second program's answer, which comes from a search for bridges, is what the definition gives.
fn by_definition(network: &[u8], list: &[u8], answer: Audit) -> Compared {
    let read = second::read_network(network).expect("it was audited");
    let edges = second::read_list(read.vertices, list).expect("it was audited");
    let due = audit_list_by_definition(&read, &edges);
    if answer == due {
        return Ok(());
    }
    let given: &Given = &[("network", &Text(network)), ("list", &Text(list))];
    let fault = "the second program itself doesn't keep to the definition";
    Err(Difference::new("audit", fault, given, &due, &answer))
}
