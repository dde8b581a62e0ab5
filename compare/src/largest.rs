//! The largest networks: 256 vertices, of every family, with a stack of 2 MB.
//!
//! All services on networks, and those on a table of each family and on one with the largest total,
//! run on a thread with that stack, and the plan program runs as a process with it, each held to
//! the second program. A call that goes deeper ends the program. Crowded networks, among them ones
//! whose edges all run between two vertices, come with every fault of their texts and with none.
//! Each network is planned for a few candidates, and its chain is checked with faults of a step. The
//! reasons are those of the planner's chain and of one by rule, and the same refusals come for them.

use std::fmt::Debug;
use std::thread::{self, Scope, ScopedJoinHandle};

use second::generate::{
    self, aimed_chain, Aim, CostStyle, Crowd, Family, ListStyle, PrintedCosts, Rng, StepFault,
    StepPlace, TableAim,
};
use second::lengths::{candidates_text, LONGEST_NETWORK_TEXT, LONGEST_REASONS_TEXT};
use second::{read_kept, write_chain, Chain, Network, Plan, Table};

use crate::difference::{Compared, Difference, Given, Text, Words};
use crate::{candidates, chains, crowded, lists, networks, pages, program, reasons, tables};

const VERTICES: usize = 256;
const SEED: u64 = 1;
/// Bytes of stack of the thread that calls the services.
const THREAD_STACK: usize = 2_000_000;
/// Units of 1,024 bytes of stack of the plan program; no more than 2 MB.
const PROGRAM_STACK: usize = THREAD_STACK / 1_024;

/// Which text gets a buffer that is a byte short. Each family has a network for either, and
/// these have a wrong chain of another kind, so that the whole takes little time. The first one
/// has a table beside it.
#[derive(Clone, Copy, PartialEq, Eq)]
enum Short {
    Chain,
    Kept,
}

/// A network of 256 vertices and its plan by the second program.
struct Case {
    network: Network,
    short: Short,
    text: Vec<u8>,
    plan: Plan,
}

/// Runs all families and crowds, a line for each, and says how many differences were met.
pub fn run() -> u64 {
    let (mut networks, mut crowded, mut differences) = (0, 0, 0);
    for family in Family::ALL {
        let compared = family_networks(family, &mut networks);
        let (names, met) = reported(&family, compared);
        println!("{family:?}: {}: {met} differences", names.join(", "));
        differences += met;
    }
    for crowd in Crowd::ALL {
        let (names, met) = reported(&crowd, crowded_texts(crowd));
        println!("{crowd:?}: {} texts: {met} differences", names.len());
        crowded += names.len();
        differences += met;
    }
    let tables = Family::ALL.len();
    println!(
        "{networks} networks, {tables} tables and {crowded} crowded texts of {VERTICES} vertices, \
         {differences} differences"
    );
    differences
}

/// Reports the differences of a family or a crowd: the names of all that was compared, and how
/// many differ.
fn reported(group: &dyn Debug, all: Vec<(String, Compared)>) -> (Vec<String>, u64) {
    let (mut names, mut met) = (Vec::new(), 0);
    for (name, compared) in all {
        if let Err(difference) = compared {
            met += 1;
            let report = difference.report(&format!("largest-{group:?}-{name}"));
            println!("{report}");
        }
        names.push(name);
    }
    (names, met)
}

/// The networks of a family by name, with what they give, and counted.
fn family_networks(family: Family, counted: &mut usize) -> Vec<(String, Compared)> {
    thread::scope(|scope| {
        let threads = [Short::Chain, Short::Kept].map(|short| {
            let place = *counted;
            *counted += 1;
            on_small_stack(scope, move || compare_network(family, short, place))
        });
        threads
            .map(|thread| thread.join().expect("a comparison gives an answer"))
            .into()
    })
}

/// The texts of a crowded network by name, with what they give.
fn crowded_texts(crowd: Crowd) -> Vec<(String, Compared)> {
    thread::scope(|scope| {
        let thread = on_small_stack(scope, move || compare_crowd(crowd));
        thread.join().expect("a comparison gives an answer")
    })
}

/// A thread with the small stack.
fn on_small_stack<'scope, T: Send + 'scope>(
    scope: &'scope Scope<'scope, '_>,
    work: impl FnOnce() -> T + Send + 'scope,
) -> ScopedJoinHandle<'scope, T> {
    thread::Builder::new()
        .stack_size(THREAD_STACK)
        .spawn_scoped(scope, work)
        .expect("a thread starts")
}

/// Compares everything about a crowded network, with each fault behind its crowd and with none.
fn compare_crowd(crowd: Crowd) -> Vec<(String, Compared)> {
    let mut rng = Rng::new(SEED);
    let cases = crowded::cases(&mut rng, crowd, VERTICES);
    let compared = cases.iter().enumerate().map(|(place, case)| {
        let services = crowded::services(&mut rng, case);
        let compared = services.and_then(|()| program::plan_on_stack(&case.text, PROGRAM_STACK));
        (format!("{:?}-{place}", case.fault), compared)
    });
    compared.collect()
}

/// Compares everything about one network, and says which it was. Styles of costs take turns.
fn compare_network(family: Family, short: Short, place: usize) -> (String, Compared) {
    let mut rng = Rng::new(SEED + place as u64);
    let style = CostStyle::ALL[place % CostStyle::ALL.len()];
    let mut network = generate::network_of(&mut rng, family, VERTICES, style);
    network.reserved = reserved(place, network.reserved);
    let name = format!("{style:?}-{}", network.reserved);
    let compared = case(network, short).and_then(|case| {
        services(&mut rng, &case, place)?;
        if short == Short::Chain {
            let mut table = generate::table_of(&mut rng, family, VERTICES, style);
            table.reserved = reserved(place, table.reserved);
            table_services(&mut rng, &table)?;
            largest_total(&mut rng)?;
        }
        printed(&mut rng, &case)?;
        tried(&mut rng, &case)?;
        program::plan_on_stack(&case.text, PROGRAM_STACK)
    });
    (name, compared)
}

/// The lowest reserved edge, the highest and any one take turns.
fn reserved(place: usize, any: usize) -> usize {
    match place % 3 {
        0 => 0,
        1 => 2 * VERTICES - 1,
        _ => any,
    }
}

/// The network, if it has 256 vertices and is accepted by the second program.
fn case(network: Network, short: Short) -> Result<Case, Difference> {
    let text = generate::text(&network);
    let plan = second::plan(&text);
    match plan {
        Ok(plan) if text.len() == LONGEST_NETWORK_TEXT && network.vertices == VERTICES => {
            Ok(Case {
                network,
                short,
                text,
                plan,
            })
        }
        _ => Err(not_meant(
            "plan",
            "an accepted network of 256 vertices",
            &[("network", &Text(&text))],
            &plan,
        )),
    }
}

/// The second program finds something else than the case was made for.
fn not_meant(service: &'static str, meant: &str, given: &Given, answer: &dyn Debug) -> Difference {
    let fault = "the case is not what it is meant to be";
    Difference::new(service, fault, given, &Words(meant), answer)
}

/// Check, plan, chain checks, reasons and audits.
fn services(rng: &mut Rng, case: &Case, place: usize) -> Compared {
    networks::check(&case.text)?;
    plans(rng, case)?;
    passing_chain(rng, case)?;
    passing_reasons(rng, case)?;
    wrong_chain(rng, case, place)?;
    wrong_steps(rng, case, place)?;
    audits(rng, case)
}

/// The planner with exact buffers, and with one that is a byte short.
fn plans(rng: &mut Rng, case: &Case) -> Compared {
    let (chain, kept) = (case.plan.chain.len(), case.plan.kept.len());
    let short = match case.short {
        Short::Chain => [chain - 1, kept],
        Short::Kept => [chain, kept - 1],
    };
    for lengths in [[chain, kept], short] {
        networks::plan_into(rng, &case.text, Ok(&case.plan), lengths)?;
    }
    networks::judge_plan(&case.text, &case.plan)
}

/// The check of the planner's chain gives the planner's kept text, or 13 a byte short of it.
fn passing_chain(rng: &mut Rng, case: &Case) -> Compared {
    let Plan { chain, kept } = &case.plan;
    let due = Ok(kept.clone());
    chains::check_into(rng, &case.text, chain, &due, kept.len())?;
    match case.short {
        Short::Chain => Ok(()),
        Short::Kept => chains::check_into(rng, &case.text, chain, &due, kept.len() - 1),
    }
}

/// The reasons of the planner's chain with a buffer that is exact and one that is a byte short, or of
/// a chain by rule with an exact one.
fn passing_reasons(rng: &mut Rng, case: &Case) -> Compared {
    let Case { network, text, .. } = case;
    let (chain, lengths) = match case.short {
        Short::Chain => {
            let chain = generate::chain_by_rule(rng, network);
            (
                chains::chain_text(VERTICES, &chain),
                vec![LONGEST_REASONS_TEXT],
            )
        }
        Short::Kept => (
            case.plan.chain.clone(),
            vec![LONGEST_REASONS_TEXT, LONGEST_REASONS_TEXT - 1],
        ),
    };
    let due = reasons::due_reasons(text, &chain);
    for length in lengths {
        reasons::write_into(rng, text, &chain, &due, length)?;
    }
    reasons::same_as_check(text, &chain, &due)
}

/// A chain that is refused: at its end, or at any place.
fn wrong_chain(rng: &mut Rng, case: &Case, place: usize) -> Compared {
    let chain = match case.short {
        Short::Chain => wrong_ending(case),
        Short::Kept => aimed(rng, case, place)?,
    };
    match second::check_chain(&case.text, &chain) {
        Err(refusal) => {
            chains::check_into(rng, &case.text, &chain, &Err(refusal), 0)?;
            reasons::write_into(rng, &case.text, &chain, &Err(refusal), 0)
        }
        Ok(kept) => Err(not_meant(
            "chain check",
            "a refusal",
            &[("network", &Text(&case.text))],
            &Text(kept),
        )),
    }
}

/// The planner's chain, but that it drops the reserved edge.
fn wrong_ending(case: &Case) -> Vec<u8> {
    let mut chain = planned(case);
    chain.dropped = as_number(case.network.reserved);
    write_chain(VERTICES, &chain).expect("it has all its steps")
}

/// The planner's chain.
fn planned(case: &Case) -> Chain {
    second::read_chain(VERTICES, &case.plan.chain).expect("it is a chain")
}

/// The planner's chain with a fault of its first step, of one in the middle and of its last one;
/// the faults take turns.
fn wrong_steps(rng: &mut Rng, case: &Case, place: usize) -> Compared {
    let chain = planned(case);
    let turns = StepPlace::ALL.len() * place..;
    for (turn, step) in turns.zip(StepPlace::ALL) {
        let faults = StepFault::ALL.into_iter().cycle().skip(turn);
        let (fault, faulty) = faults
            .filter(|fault| fault.can_be_at(step))
            .find_map(|fault| {
                let faulty = generate::faulty_chain(rng, &case.network, &chain, fault, step)?;
                Some((fault, faulty))
            })
            .expect("some fault can be had");
        let refusal = fault.refusal();
        chains::meets(&case.text, &fault, &faulty, Some(refusal))?;
        let exact = case.plan.kept.len();
        chains::check_into(rng, &case.text, &faulty, &Err(refusal), exact)?;
        let exact = LONGEST_REASONS_TEXT;
        reasons::write_into(rng, &case.text, &faulty, &Err(refusal), exact)?;
    }
    Ok(())
}

/// A chain with a fault that the second program finds; the faults take turns.
fn aimed(rng: &mut Rng, case: &Case, place: usize) -> Result<Vec<u8>, Difference> {
    let aims = Aim::ALL.into_iter().cycle().skip(place);
    let (aim, aimed) = aims
        .filter(|aim| aim.refusal().is_some())
        .find_map(|aim| Some((aim, aimed_chain(rng, &case.network, aim)?)))
        .expect("some fault can be had");
    chains::meets(&case.text, &aim, &aimed.chain, aimed.refusal)?;
    Ok(aimed.chain)
}

/// The audit of lists that join all vertices, and of lists that leave islands.
fn audits(rng: &mut Rng, case: &Case) -> Compared {
    let network = &case.network;
    let kept = read_kept(&case.plan.kept).expect("it is a kept text").edges;
    let all: Vec<u16> = (0..).take(network.edges.len()).collect();
    let alone = as_number(rng.below(VERTICES));
    let (at_one, elsewhere): (Vec<u16>, Vec<u16>) = all.iter().partition(|&&number| {
        let edge = network.edges[usize::from(number)];
        edge.low == alone || edge.high == alone
    });
    let joined = [
        kept[1..].to_vec(),
        kept,
        all,
        generate::list_of(rng, network, ListStyle::Forest),
    ];
    for list in joined {
        audit(rng, case, &list, true)?;
    }
    let unjoined = [
        at_one,
        elsewhere,
        Vec::new(),
        generate::list_of(rng, network, ListStyle::NoneAcross),
        generate::list_of(rng, network, ListStyle::Islands),
    ];
    for list in unjoined {
        audit(rng, case, &list, false)?;
    }
    Ok(())
}

/// The audit of a list that joins all vertices, or doesn't.
fn audit(rng: &mut Rng, case: &Case, list: &[u16], joins: bool) -> Compared {
    let list = second::write_list(VERTICES, list).expect("the list rises");
    let audit = second::audit(&case.text, &list);
    if audit.is_ok_and(|audit| audit.connected == joins) {
        return lists::audit(rng, &case.text, &list);
    }
    let meant = format!("connected: {joins}");
    let given: &Given = &[("network", &Text(&case.text))];
    Err(not_meant("audit", &meant, given, &audit))
}

/// The pages of the kept edges, of none, and of all edges with costs of every sort.
fn printed(rng: &mut Rng, case: &Case) -> Compared {
    let kept = read_kept(&case.plan.kept).expect("it is a kept text").edges;
    for list in [kept, Vec::new()] {
        pages::print_list(rng, &case.network, &list)?;
    }
    for costs in PrintedCosts::ALL {
        let (network, all) = pages::all_edges(rng, case.network.clone(), costs);
        pages::print_list(rng, &network, &all)?;
    }
    Ok(())
}

/// The network's own reserved edge and another one as candidates, the other one twice, with a buffer
/// that is exact and one that is a byte short; then with a number behind them that no edge has.
fn tried(rng: &mut Rng, case: &Case) -> Compared {
    let Case { network, text, .. } = case;
    let own = as_number(network.reserved);
    let other = as_number((network.reserved + rng.between(1, 2 * VERTICES - 1)) % (2 * VERTICES));
    let reserved = [other, own, other];
    let due = second::plan_candidates(text, &reserved);
    let exact = candidates_text(reserved.len());
    for length in [exact, exact - 1] {
        candidates::plan_into(rng, text, &reserved, &due, length)?;
    }
    candidates::Singles::new(network.clone()).compare(&reserved, &due)?;
    candidates::plan(rng, text, &[other, own, as_number(2 * VERTICES)])
}

/// A vertex or an edge as a number of two bytes.
fn as_number(place: usize) -> u16 {
    u16::try_from(place).expect("there are few vertices and edges")
}

/// Check, plan and network of a table, which is accepted.
fn table_services(rng: &mut Rng, table: &Table) -> Compared {
    let text = generate::table_text(table);
    let plan = second::plan_table(&text).map_err(|refusal| {
        let given: &Given = &[("table", &Text(&text))];
        not_meant("table plan", "an accepted table", given, &refusal)
    })?;
    tables::check(&text)?;
    let exact = [plan.chain.len(), plan.kept.len()];
    tables::plan_into(rng, &text, Ok(&plan), exact)?;
    tables::judge(&text, &plan.kept)?;
    tables::network(rng, &text)
}

/// Check and network of a table whose doubled weights total as much as they can.
fn largest_total(rng: &mut Rng) -> Compared {
    let (text, _) = generate::aimed_table(rng, TableAim::LargeTotal, VERTICES);
    tables::check(&text)?;
    tables::network(rng, &text)
}
