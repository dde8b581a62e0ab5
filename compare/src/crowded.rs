//! Crowded networks: the first frames give a vertex more than four edges, and a fault that
//! outranks that stands far behind them, or none does.

use second::generate::{self, Crowd, FrameFault, Rng, FEWEST_CROWDING};
use second::refusal::NOT_FOUR_REGULAR;

use crate::buffers::due_length;
use crate::difference::{Compared, Difference, Given, Text};
use crate::{candidates, chains, lists, networks, pages, reasons};

/// Candidates that every network has: if the fault is missed, they don't give a refusal instead.
const CANDIDATES: [u16; 2] = [1, 0];

/// A text of a crowded network and the fault in it, with a chain and a list that have the
/// right form: if the fault is missed, they don't give its refusal instead.
pub struct Case {
    pub fault: FrameFault,
    pub text: Vec<u8>,
    chain: Vec<u8>,
    list: Vec<u8>,
}

/// All services on a network with any crowd and every fault.
pub fn texts(rng: &mut Rng) -> Compared {
    for case in any_crowd(rng) {
        services(rng, &case)?;
    }
    Ok(())
}

/// A network with any crowd and every fault.
pub fn any_crowd(rng: &mut Rng) -> Vec<Case> {
    let vertices = generate::size(rng);
    let crowd = rng.pick(&Crowd::ALL);
    cases(rng, crowd, vertices)
}

/// A network with the given crowd and every fault, in its last frame and in any one behind the
/// crowding edges.
pub fn cases(rng: &mut Rng, crowd: Crowd, vertices: usize) -> Vec<Case> {
    let network = generate::crowded_network(rng, crowd, vertices);
    let edges = generate::list(rng, &network);
    let list = second::write_list(network.vertices, &edges).expect("the list rises");
    let chain = chains::of_right_form(network.vertices);
    let last = network.edges.len() - 1;
    let mut cases = Vec::new();
    for fault in FrameFault::ALL {
        for place in [last, rng.between(FEWEST_CROWDING, last)] {
            cases.push(Case {
                fault,
                text: generate::faulty_text(rng, &network, fault, place),
                chain: chain.clone(),
                list: list.clone(),
            });
        }
    }
    cases
}

/// All services on a text that has the refusal of its fault.
pub fn services(rng: &mut Rng, case: &Case) -> Compared {
    meets(case)?;
    let Case {
        fault,
        text,
        chain,
        list,
    } = case;
    let refusal = fault.refusal();
    networks::check(text)?;
    networks::read(rng, text, true)?;
    for lengths in networks::plan_lengths(rng, Err(refusal), true) {
        networks::plan_into(rng, text, Err(refusal), lengths)?;
    }
    let length = due_length::<u8>(rng, None);
    chains::check_into(rng, text, chain, &Err(refusal), length)?;
    reasons::write_into(rng, text, chain, &Err(refusal), length)?;
    lists::audit(rng, text, list)?;
    pages::print(rng, text, list)?;
    candidates::plan(rng, text, &CANDIDATES)
}

/// The second program's services give the refusal of the fault; its audit and its page don't look
/// at degrees.
fn meets(case: &Case) -> Compared {
    let Case {
        fault,
        text,
        chain,
        list,
    } = case;
    let due = Some(fault.refusal());
    let read = due.filter(|&refusal| refusal != NOT_FOUR_REGULAR);
    for (service, due, answer) in [
        ("network check", due, second::check_network(text).err()),
        ("plan", due, second::plan(text).err()),
        ("chain check", due, second::check_chain(text, chain).err()),
        ("reasons", due, second::reasons(text, chain).err()),
        ("audit", read, second::audit(text, list).err()),
        ("page", read, second::print_page(text, list).err()),
        (
            "candidates",
            due,
            second::plan_candidates(text, &CANDIDATES).err(),
        ),
    ] {
        if answer != due {
            let given: &Given = &[("network", &Text(text))];
            let fault = format!("the second program itself misses {fault:?}");
            return Err(Difference::new(service, fault, given, &due, &answer));
        }
    }
    Ok(())
}
