//! The reason beside each edge: chains by hand, what holds of all reasons, and which refusal comes
//! first.

mod common;

use std::cell::{Cell, RefCell};
use std::collections::BTreeSet;

use common::{
    lines_replaced, network_text, refused_in_order, rounds, SQUARE_COSTS, SQUARE_ENDS, T,
    TWO_ACROSS,
};
use second::generate::{self, Aim, CostStyle, Family, NetworkAim, Rng, StepFault, StepPlace};
use second::lengths::{fits, reasons_text, LONGEST_REASONS_TEXT};
use second::properties::judge_reasons;
use second::reasons::{reasons_of, write_reason};
use second::{
    check_chain, check_network, plan, read_chain, read_kept, read_network, read_reasons, reasons,
    reasons_by, write_chain, Method, Reason, Refusal, Rule,
};

/// The planner's chain over the printed network.
const T_CHAIN: &[u8] = b"030001000400050001fffffffffffffffe\n040003\n";

/// Its reasons: edge 4 is x and out, since its z, which is edge 1, is kept at the ending.
const T_REASONS: &str = "\
0a0000000000
0a0001040000
0a0002040000
0a0003050000
0a0004030001
0a0005010001
";

/// Rules with their steps, by edges.
type Outcome<'a> = &'a [(Rule, u16)];

/// The planner's chain passes with these reasons.
fn assert_planned(network: &[u8], outcome: Outcome) {
    let chain = plan(network).unwrap().chain;
    assert_reasons(network, &chain, outcome);
}

/// A chain passes with these reasons, by every method.
fn assert_reasons(network: &[u8], chain: &[u8], outcome: Outcome) {
    let due: Vec<Reason> = (0..)
        .zip(outcome)
        .map(|(edge, &(rule, step))| Reason { edge, rule, step })
        .collect();
    for method in Method::ALL {
        let text = reasons_by(network, chain, method).unwrap();
        assert_eq!(read_reasons(&text).as_ref(), Ok(&due));
    }
}

/// The reasons as a host with so many bytes for them gets them.
fn reasons_into(network: &[u8], chain: &[u8], lent: usize) -> Result<Vec<u8>, Refusal> {
    let text = reasons(network, chain)?;
    fits(text.len(), lent).map(|()| text)
}

/// The network of four vertices in the rules, with another cost of edge 7.
fn square_with(last: i64) -> Vec<u8> {
    let mut costs = SQUARE_COSTS;
    costs[7] = last;
    network_text(4, 4, &SQUARE_ENDS, &costs)
}

#[test]
fn the_printed_network_byte_for_byte() {
    assert_eq!(plan(T.as_bytes()).unwrap().chain, T_CHAIN);
    for method in Method::ALL {
        let text = reasons_by(T.as_bytes(), T_CHAIN, method).unwrap();
        assert_eq!(text, T_REASONS.as_bytes());
    }
}

#[test]
fn two_vertices_have_no_steps() {
    let network = network_text(2, 0, &[(0, 1); 4], &[5, -1, 3, 3]);
    let [reserved, kept, dropped] =
        [Rule::Reserved, Rule::KeptAtEnding, Rule::DroppedAtEnding].map(|rule| (rule, 0));
    assert_planned(&network, &[reserved, kept, kept, dropped]);
    // The other edge of the same cost is dropped.
    assert_reasons(&network, b"040002\n", &[reserved, kept, dropped, kept]);
    let network = network_text(2, 3, &[(0, 1); 4], &[0, -4, -4, -6]);
    assert_planned(&network, &[dropped, kept, kept, reserved]);
}

#[test]
fn x_is_kept_where_z_is_dropped() {
    // With edge 1 at 40 it is the dearest of the last three, at 34; it is the z of edge 4.
    let dear = lines_replaced(T, &[(2, "020001000000010000000000000028")]);
    let outcome = [
        (Rule::Reserved, 0),
        (Rule::DroppedAtEnding, 0),
        (Rule::KeptAtEnding, 0),
        (Rule::KeptAtEnding, 0),
        (Rule::KeptAsX, 1),
        (Rule::KeptAsY, 1),
    ];
    assert_planned(&dear, &outcome);
}

#[test]
fn the_other_end_of_the_reserved_edge() {
    // At vertex 0 the partners are 1, 2 and 3, at 4, 1 and 2: edge 3 is x, 2 is y and 1 is z, at 2
    // from then on. Of the last three, 1, 4 and 5, at 2, 6 and 3, edge 4 is dropped.
    let chain = b"0300000003000200010000000000000002\n040004\n";
    let outcome = [
        (Rule::Reserved, 0),
        (Rule::KeptAtEnding, 0),
        (Rule::KeptAsY, 1),
        (Rule::OutAsX, 1),
        (Rule::DroppedAtEnding, 0),
        (Rule::KeptAtEnding, 0),
    ];
    assert_reasons(T.as_bytes(), chain, &outcome);
}

#[test]
fn having_been_z_does_not_count() {
    // Step 1 at vertex 2: x 3, y 2, z 7. Step 2 at vertex 3: x 5, y 7, z 6. Edge 7 was z of the
    // first step and is y of the second, so that it is kept and edge 3 is out. Edge 6 is z of the
    // second step and one of the last three, 0, 1 and 6, at 2, 5 and 3: it is kept, so 5 is out.
    let outcome = [
        (Rule::KeptAtEnding, 0),
        (Rule::DroppedAtEnding, 0),
        (Rule::KeptAsY, 1),
        (Rule::OutAsX, 1),
        (Rule::Reserved, 0),
        (Rule::OutAsX, 2),
        (Rule::KeptAtEnding, 0),
        (Rule::KeptAsY, 2),
    ];
    assert_planned(&square_with(2), &outcome);
    // The same first step, and a second one at vertex 0, the other end: x 1, y 0, z 6. The last
    // three are 5, 6 and 7, at 3, 1 and -2. Both z are kept, and both x out.
    let chain = b"030002000300020007fffffffffffffffe\n0300000001000000060000000000000001\n040005\n";
    let outcome = [
        (Rule::KeptAsY, 2),
        (Rule::OutAsX, 2),
        (Rule::KeptAsY, 1),
        (Rule::OutAsX, 1),
        (Rule::Reserved, 0),
        (Rule::DroppedAtEnding, 0),
        (Rule::KeptAtEnding, 0),
        (Rule::KeptAtEnding, 0),
    ];
    assert_reasons(&square_with(2), chain, &outcome);
}

#[test]
fn x_is_kept_where_z_is_out_at_a_later_step() {
    // With edge 7 at 20 it costs 16 after the first step, so that it is x of the second one, where 5
    // is y and 6 is z, at -10 from then on. Of the last three, 0, 1 and 6, edge 1 is dropped. Edge 6
    // is kept, so 7 is out; 7 is out, so 3 is kept.
    let outcome = [
        (Rule::KeptAtEnding, 0),
        (Rule::DroppedAtEnding, 0),
        (Rule::KeptAsY, 1),
        (Rule::KeptAsX, 1),
        (Rule::Reserved, 0),
        (Rule::KeptAsY, 2),
        (Rule::KeptAtEnding, 0),
        (Rule::OutAsX, 2),
    ];
    assert_planned(&square_with(20), &outcome);
}

#[test]
fn rules_and_their_numbers() {
    for (number, rule) in (0..).zip(Rule::ALL) {
        assert_eq!(rule.number(), number);
        assert_eq!(rule.keeps(), [1, 2, 4].contains(&number));
        let reason = Reason {
            edge: 511,
            rule,
            step: 254,
        };
        let mut text = Vec::new();
        write_reason(reason, &mut text);
        assert_eq!(text, format!("0a01ff0{number}00fe\n").into_bytes());
        assert_eq!(read_reasons(&text), Ok(vec![reason]));
    }
    for broken in ["0a0000060000\n", "0a0000ff0000\n", "0a0000000000", "\n"] {
        assert_eq!(read_reasons(broken.as_bytes()), Err(1));
    }
    assert_eq!(read_reasons(b""), Ok(Vec::new()));
}

/// What holds of the reasons of a chain that passes: all that is judged, and one rule for each edge
/// by counting frames.
fn assert_reasons_are_good(network_text: &[u8], chain_text: &[u8]) -> BTreeSet<Rule> {
    let network = read_network(network_text).unwrap();
    let chain = read_chain(network.vertices, chain_text).unwrap();
    let kept_text = check_chain(network_text, chain_text).unwrap();
    let text = reasons(network_text, chain_text).unwrap();
    let judged = judge_reasons(network_text, chain_text, &kept_text, &text);
    assert_eq!(judged, Ok(()));
    assert_eq!(text.len(), reasons_text(network.vertices));

    let reasons = read_reasons(&text).unwrap();
    assert_eq!(reasons, reasons_of(&network, &chain));
    let edges: BTreeSet<u16> = reasons.iter().map(|reason| reason.edge).collect();
    assert_eq!(edges.len(), network.edges.len());
    let count = |rule: Rule| reasons.iter().filter(|reason| reason.rule == rule).count();
    assert_eq!(Rule::ALL.map(count).iter().sum::<usize>(), edges.len());
    assert_eq!(count(Rule::Reserved), 1);
    assert_eq!(count(Rule::KeptAtEnding), 2);
    assert_eq!(count(Rule::DroppedAtEnding), 1);
    assert_eq!(count(Rule::KeptAsY), chain.steps.len());
    assert_eq!(
        count(Rule::KeptAsX) + count(Rule::OutAsX),
        chain.steps.len()
    );
    let keeping = reasons.iter().filter(|reason| reason.rule.keeps());
    let keeping: Vec<u16> = keeping.map(|reason| reason.edge).collect();
    assert_eq!(keeping, read_kept(&kept_text).unwrap().edges);
    reasons.iter().map(|reason| reason.rule).collect()
}

#[test]
fn reasons_of_plans_of_every_family_and_cost_style() {
    for family in Family::ALL {
        let met = RefCell::new(BTreeSet::new());
        for style in CostStyle::ALL {
            rounds(12, |rng| {
                let vertices = generate::size(rng).min(40);
                let network = generate::network_of(rng, family, vertices, style);
                let text = generate::text(&network);
                let chain = plan(&text).unwrap().chain;
                met.borrow_mut()
                    .extend(assert_reasons_are_good(&text, &chain));
            });
        }
        assert_eq!(met.into_inner(), Rule::ALL.into(), "{family:?}");
    }
}

#[test]
fn reasons_of_chains_by_rule() {
    let at_higher = RefCell::new(BTreeSet::new());
    rounds(300, |rng| {
        let vertices = generate::size(rng).min(32);
        let network = generate::network(rng, vertices);
        let chain = generate::chain_by_rule(rng, &network);
        if let Some(step) = chain.steps.first() {
            let edge = network.edges[network.reserved];
            at_higher.borrow_mut().insert(step.v == edge.high);
        }
        let chain = write_chain(vertices, &chain).unwrap();
        assert_reasons_are_good(&generate::text(&network), &chain);
    });
    assert_eq!(at_higher.into_inner(), BTreeSet::from([false, true]));
}

#[test]
fn reasons_of_the_largest_networks() {
    for family in Family::ALL {
        let mut rng = Rng::new(6);
        let network = generate::network_of(&mut rng, family, 256, CostStyle::Anything);
        let text = generate::text(&network);
        let chain = plan(&text).unwrap().chain;
        assert_reasons_are_good(&text, &chain);
        assert_eq!(
            reasons(&text, &chain).unwrap().len(),
            LONGEST_REASONS_TEXT,
            "{family:?}"
        );
    }
}

#[test]
fn every_method_gives_the_same_reasons() {
    let (passed, refused) = (Cell::new(0), Cell::new(0));
    rounds(80, |rng| {
        let vertices = generate::size(rng).min(14);
        let network = generate::network(rng, vertices);
        let text = generate::text(&network);
        let by_rule = generate::chain_by_rule(rng, &network);
        let by_rule = write_chain(vertices, &by_rule).unwrap();
        for chain in [by_rule, generate::changed_chain(rng, &network)] {
            let due = reasons(&text, &chain);
            for method in Method::ALL {
                assert_eq!(reasons_by(&text, &chain, method), due);
            }
            let counted = if due.is_ok() { &passed } else { &refused };
            counted.set(counted.get() + 1);
        }
    });
    assert!(passed.get() > 60 && refused.get() > 40);
}

#[test]
fn a_chain_that_does_not_pass_gets_the_refusal_of_its_check() {
    let met = RefCell::new(BTreeSet::new());
    rounds(40, |rng| {
        let vertices = generate::size(rng).clamp(StepPlace::FEWEST_VERTICES, 16);
        let network = generate::network(rng, vertices);
        let text = generate::text(&network);
        let mut refused: Vec<(Vec<u8>, Refusal)> = Vec::new();
        for aim in Aim::ALL {
            let aimed = generate::aimed_chain(rng, &network, aim);
            refused.extend(aimed.and_then(|aimed| Some((aimed.chain, aimed.refusal?))));
        }
        let chain = generate::chain_by_rule(rng, &network);
        for fault in StepFault::ALL {
            let place = rng.pick(&StepPlace::ALL);
            let faulty = generate::faulty_chain(rng, &network, &chain, fault, place);
            refused.extend(faulty.map(|faulty| (faulty, fault.refusal())));
        }
        for (chain, refusal) in refused {
            assert_eq!(check_chain(&text, &chain), Err(refusal));
            assert_eq!(reasons(&text, &chain), Err(refusal));
            met.borrow_mut().insert(refusal);
        }
        for aim in NetworkAim::ALL {
            let (faulty, refusal) = generate::aimed_network(rng, aim, vertices);
            let chain = write_chain(vertices, &chain).unwrap();
            for chain in [&chain[..], b""] {
                assert_eq!(reasons(&faulty, chain), Err(refusal));
            }
            met.borrow_mut().insert(refusal);
        }
    });
    let every = [1, 2, 3, 4, 5, 6, 7, 8, 9, 10, 11, 12, 17];
    assert_eq!(met.into_inner(), BTreeSet::from(every));
}

/// Networks near the printed one with the refusals of their checks, each number once or more.
fn refused_networks() -> Vec<(Vec<u8>, Refusal)> {
    let with = |lines: &[(usize, &str)]| lines_replaced(T, lines);
    vec![
        (Vec::new(), 1),
        ([T, "0"].concat().into_bytes(), 1),
        (with(&[(0, "0100010000")]), 2),
        (with(&[(0, "0100030006")]), 3),
        (with(&[(2, "020002000000010000000000000004")]), 4),
        (with(&[(1, "02000000000001000000e8d4a51001")]), 5),
        (with(&[(6, "020005000000020000000000000003")]), 6),
        (network_text(4, 0, &TWO_ACROSS, &[0; 8]), 7),
    ]
}

/// Chains over the printed network, with the refusals of their checks.
const T_CHAINS: [(&[u8], Option<Refusal>); 11] = [
    (T_CHAIN, None),
    (b"", Some(1)),
    (b"030001000400050001fffffffffffffffe\n", Some(1)),
    (b"030001000400050001fffffffffffffffe\n040003\n\n", Some(1)),
    (b"030002000400050001fffffffffffffffe\njunk", Some(8)),
    (b"030001000400000001fffffffffffffffe\n040003\n", Some(9)),
    (b"0300010001000500040000000000000002\n040003\n", Some(10)),
    (b"0300010005000400010000000000000001\n040003\n", Some(11)),
    (b"030001000400050001fffffffffffffffe\n040002\n", Some(12)),
    (b"030001000400050002fffffffffffffffe\n040003\n", Some(17)),
    (b"030001000400050001fffffffffffffffd\njunk", Some(17)),
];

#[test]
fn the_network_before_the_chain_and_the_chain_before_the_buffer() {
    let mut networks = vec![(T.as_bytes().to_vec(), None)];
    let refused = refused_networks().into_iter();
    networks.extend(refused.map(|(text, refusal)| (text, Some(refusal))));
    let met: BTreeSet<Refusal> = networks.iter().filter_map(|network| network.1).collect();
    assert_eq!(met, (1..=7).collect());
    for (network, refusal) in &networks {
        assert_eq!(check_network(network).err(), *refusal);
    }
    for (chain, refusal) in T_CHAINS {
        assert_eq!(check_chain(T.as_bytes(), chain).err(), refusal);
    }
    refused_in_order(
        &networks,
        &T_CHAINS,
        |_| T_REASONS.len(),
        T_REASONS.len() / 6,
        |network, chain, lent| reasons_into(network, chain, lent).err(),
    );
}
