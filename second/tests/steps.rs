//! The third partner that a step names, and its cost after the step: what is refused of them, in
//! which order, and what aimed faults are.

mod common;

use std::cell::RefCell;
use std::collections::BTreeSet;

use common::{network_text, rounds, SQUARE_COSTS, SQUARE_ENDS, T};
use second::generate::{
    self, CostStyle, Family, Rng, StepFault, StepPlace, NARROW_STEP, SHORT_STEP, STEP_COST_FIRST,
    STEP_WITHOUT_COST, STEP_WITHOUT_Z,
};
use second::lengths::LONGEST_CHAIN_TEXT;
use second::lines::{Lines, Shape, STEP};
use second::texts::write_step;
use second::working::Working;
use second::{check_chain, plan, read_chain, write_chain, Chain, Network, Refusal, Step};

/// The step of the printed chain: the partners cost 6, 3 and 4.
const RIGHT: Step = Step {
    v: 1,
    x: 4,
    y: 5,
    z: 1,
    cost: -2,
};

/// The refusal of a step over the printed network with these bytes behind it.
fn refused(step: Step, behind: &[u8]) -> Option<Refusal> {
    let mut chain = Vec::new();
    write_step(step, &mut chain);
    chain.extend_from_slice(behind);
    check_chain(T.as_bytes(), &chain).err()
}

#[test]
fn a_wrong_z_or_a_wrong_cost_is_refused() {
    assert_eq!(refused(RIGHT, b"040003\n"), None);
    // x, y, the reserved edge, two that don't end at v, and numbers of no edge.
    for z in [4, 5, 0, 2, 3, 6, 257, 513, 32_769, 65_535] {
        assert_eq!(refused(Step { z, ..RIGHT }, b"040003\n"), Some(17));
    }
    // One off, the other sign, unchanged, with x or y added, less y, and the low four bytes.
    for cost in [-3, -1, 2, 4, 10, 7, 1, 0xffff_fffe, i64::MAX, i64::MIN] {
        assert_eq!(refused(Step { cost, ..RIGHT }, b"040003\n"), Some(17));
        let z = 2;
        assert_eq!(refused(Step { z, cost, ..RIGHT }, b"040003\n"), Some(17));
    }
}

#[test]
fn retired_edges_and_the_other_end() {
    let network = network_text(4, 4, &SQUARE_ENDS, &SQUARE_COSTS);
    let checked = |second: &str| {
        let first = "030002000300020007fffffffffffffffe\n";
        check_chain(&network, [first, second].concat().as_bytes()).err()
    };
    // At vertex 3 the partners are 5, 7 and 6, at 3, -2 and 6; edges 2 and 3 have retired.
    let right = "0300030005000700060000000000000003\n040001\n";
    assert_eq!(checked(right), None);
    for wrong in ["0002", "0003"] {
        assert_eq!(checked(&right.replace("0006", wrong)), Some(17));
    }
    // At vertex 0, the other end, they are 1, 0 and 6, at 5, 2 and 6; edge 5 is then the dearest.
    let right = "0300000001000000060000000000000001\n040005\n";
    assert_eq!(checked(right), None);
    for wrong in ["0000000000000006", "000000000000000b", "ffffffffffffffff"] {
        let cost = "0000000000000001";
        assert_eq!(checked(&right.replace(cost, wrong)), Some(17));
    }
}

#[test]
fn earlier_numbers_come_first() {
    let (z, cost) = (9, 9);
    for (v, x, y, refusal) in [
        (2, 4, 5, 8),
        (9, 4, 5, 8),
        (1, 4, 0, 9),
        (1, 4, 4, 9),
        (1, 6, 5, 9),
        (1, 1, 5, 10),
        (1, 4, 1, 10),
        (1, 5, 4, 11),
    ] {
        let step = Step { v, x, y, z, cost };
        assert_eq!(refused(step, b"040003\n"), Some(refusal));
    }
    // With the z and the cost that these would give.
    for (x, y, z, cost, refusal) in [(1, 5, 4, 2, 10), (4, 1, 5, -3, 10), (5, 4, 1, 1, 11)] {
        let step = Step {
            v: 1,
            x,
            y,
            z,
            cost,
        };
        assert_eq!(refused(step, b"040003\n"), Some(refusal));
    }
}

#[test]
fn what_follows_comes_later_and_the_form_of_the_frame_earlier() {
    let wrong = Step { z: 2, ..RIGHT };
    let dear = Step { cost: -1, ..RIGHT };
    for step in [wrong, dear] {
        for behind in [
            &b""[..],
            b"junk",
            b"040003",
            b"040002\n",
            b"04ffff\n",
            b"040003\n\n",
            b"03000100040005\n040003\n",
        ] {
            assert_eq!(refused(step, behind), Some(17));
        }
        let mut line = Vec::new();
        write_step(step, &mut line);
        let feed = line.pop();
        assert_eq!(feed, Some(b'\n'));
        for behind in [&b""[..], b"0\n", b"00\n", b"\r\n", b" \n"] {
            let chain = [&line[..], behind, b"040003\n"].concat();
            assert_eq!(check_chain(T.as_bytes(), &chain), Err(1));
        }
    }
}

#[test]
fn frames_of_other_widths_are_refused() {
    for step in [
        "03000100040005",
        "030001000400050001",
        "03000100040005fffffffffffffffe",
        "030001000400050001fffffffe",
        "030001000400050001fffffffffffe",
        "030001000400050001fffffffffffffffffe",
        "03000100040005000000000001fffffffffffffffe",
    ] {
        let chain = [step, "\n040003\n"].concat();
        assert_eq!(check_chain(T.as_bytes(), chain.as_bytes()), Err(1));
        assert_eq!(read_chain(3, chain.as_bytes()), Err(1));
    }
    // z behind its cost: a frame of the right length with other numbers.
    let exchanged = b"03000100040005fffffffffffffffe0001\n040003\n";
    assert_eq!(check_chain(T.as_bytes(), exchanged), Err(17));
    assert!(read_chain(3, exchanged).is_ok());
}

#[test]
fn a_text_without_a_network_may_have_any_z_and_any_cost() {
    for (digits, cost) in [
        ("7fffffffffffffff", i64::MAX),
        ("8000000000000000", i64::MIN),
        ("000000e8d4a51001", 1_000_000_000_001),
        ("ffffffffffffffff", -1),
    ] {
        for z in [0, 5, 6, 65_535] {
            let text = format!("03000100040005{z:04x}{digits}\n040003\n").into_bytes();
            let steps = vec![Step { z, cost, ..RIGHT }];
            let chain = Chain { steps, dropped: 3 };
            assert_eq!(read_chain(3, &text).as_ref(), Ok(&chain));
            assert_eq!(write_chain(3, &chain), Ok(text));
        }
    }
}

#[test]
fn the_longest_chain_text() {
    for family in Family::ALL {
        let mut rng = Rng::new(4);
        let network = generate::network_of(&mut rng, family, 256, CostStyle::Limits);
        let plan = plan(&generate::text(&network)).unwrap();
        assert_eq!(plan.chain.len(), LONGEST_CHAIN_TEXT);
    }
}

/// A network of the given family with a chain by rule that has a step at every place.
fn chained(rng: &mut Rng, family: Family) -> (Network, Chain) {
    let vertices = generate::size(rng).clamp(StepPlace::FEWEST_VERTICES, 24);
    let style = rng.pick(&CostStyle::ALL);
    let network = generate::network_of(rng, family, vertices, style);
    let chain = generate::chain_by_rule(rng, &network);
    (network, chain)
}

/// Every fault and place, as far as a chain can have it there.
fn every_fault() -> impl Iterator<Item = (StepFault, StepPlace)> {
    let at_every_place = |fault| StepPlace::ALL.map(|place| (fault, place));
    let all = StepFault::ALL.into_iter().flat_map(at_every_place);
    all.filter(|(fault, place)| fault.can_be_at(*place))
}

#[test]
fn faults_get_the_refusal_that_is_due_in_every_family() {
    for family in Family::ALL {
        let met = RefCell::new(BTreeSet::new());
        rounds(40, |rng| {
            let (network, chain) = chained(rng, family);
            let text = generate::text(&network);
            for (fault, place) in every_fault() {
                let faulty = generate::faulty_chain(rng, &network, &chain, fault, place);
                if let Some(faulty) = faulty {
                    let answer = check_chain(&text, &faulty);
                    assert_eq!(answer, Err(fault.refusal()), "{fault:?} {place:?}");
                    met.borrow_mut().insert((fault, place));
                }
            }
        });
        assert_eq!(met.into_inner(), every_fault().collect(), "{family:?}");
    }
}

/// The place of the first line in which two texts differ.
fn first_difference(text: &[u8], other: &[u8]) -> usize {
    let equal = text.iter().zip(other).take_while(|(a, b)| a == b).count();
    equal / STEP.line_length()
}

/// The fields of the frame on the first line of a text, if it has this shape.
fn frame<const FIELDS: usize>(shape: Shape<FIELDS>, text: &[u8]) -> Option<[i64; FIELDS]> {
    shape.read(&mut Lines::new(text)).ok()
}

/// Asserts that a faulty text is what its fault is named for: all before the step is right, and of
/// the step what isn't said to be wrong.
fn assert_named(network: &Network, chain: &Chain, faulty: &[u8], fault: StepFault, place: usize) {
    let right = chain.steps[place];
    let mut working = Working::new(network);
    for &step in &chain.steps[..place] {
        working.split(step);
    }
    let [x, y, z] = [right.x, right.y, right.z].map(|edge| working.cost(edge.into()));
    let line = &faulty[place * STEP.line_length()..];
    let numbers = [right.v, right.x, right.y, right.z].map(i64::from);
    let [v_due, x_due, y_due, z_due] = numbers;
    let given = frame(STEP, line);
    let edges = network.edges.len();
    let is_cost = |cost| given == Some([v_due, x_due, y_due, z_due, cost]);
    let is_z = |named: &dyn Fn(usize) -> bool| {
        let [.., z, cost] = given.expect("it has the form of a step");
        let z = usize::try_from(z).expect("z isn't below zero");
        given == Some([v_due, x_due, y_due, z as i64, cost]) && cost == right.cost && named(z)
    };
    let named = match fault {
        StepFault::CostAbove => is_cost(right.cost + 1),
        StepFault::CostBelow => is_cost(right.cost - 1),
        StepFault::FlippedCost => right.cost != 0 && is_cost(x - z),
        StepFault::CostBefore => x != 0 && is_cost(z),
        StepFault::CostAndX => x != 0 && is_cost(z + x),
        StepFault::CostAndY => x != -y && is_cost(z + y),
        StepFault::CostLessY => x != y && is_cost(z - y),
        StepFault::HighBytes => {
            let cost = given.expect("it has the form of a step")[4];
            is_cost(cost) && cost as i32 == right.cost as i32
        }
        StepFault::HighestCost => is_cost(i64::MAX),
        StepFault::LowestCost => is_cost(i64::MIN),
        StepFault::ZIsX => is_z(&|z| z == usize::from(right.x)),
        StepFault::ZIsY => is_z(&|z| z == usize::from(right.y)),
        StepFault::ZIsReserved => is_z(&|z| z == network.reserved),
        StepFault::ZIsRetired => is_z(&|z| z < edges && !working.has_edge(z)),
        StepFault::ZIsNoEdge => is_z(&|z| z >= edges),
        StepFault::ZLowBits => is_z(&|z| z >= edges && z % 512 == usize::from(right.z)),
        StepFault::ZIsDistant => is_z(&|z| {
            let partners = working.partners(right.v.into());
            working.has_edge(z) && z != network.reserved && !partners.contains(&z)
        }),
        StepFault::CostFirst => {
            frame(STEP_COST_FIRST, line) == Some([v_due, x_due, y_due, right.cost, z_due])
        }
        StepFault::AndVertex | StepFault::AndPartner => given.is_some(),
        StepFault::AndAdmissible | StepFault::AndCheaper => {
            let [v, x, y, z, cost] = given.expect("it has the form of a step");
            let [v, x, y] = [v, x, y].map(|number| usize::try_from(number).expect("a number"));
            let would_be = working.step(v, x, y);
            (z, cost) != (would_be.z.into(), would_be.cost)
        }
        StepFault::BrokenNext
        | StepFault::WrongNext
        | StepFault::WrongDrop
        | StepFault::LeftOver => given.is_some(),
        StepFault::BrokenLine => given.is_none(),
        StepFault::ShortFrame | StepFault::ShortFrames => {
            frame(SHORT_STEP, line) == Some([v_due, x_due, y_due])
        }
        StepFault::WithoutCost => {
            frame(STEP_WITHOUT_COST, line) == Some([v_due, x_due, y_due, z_due])
        }
        StepFault::WithoutZ => {
            frame(STEP_WITHOUT_Z, line) == Some([v_due, x_due, y_due, right.cost])
        }
        StepFault::NarrowCost => {
            let low = i64::from(right.cost as i32);
            frame(NARROW_STEP, line) == Some([v_due, x_due, y_due, z_due, low])
        }
    };
    assert!(named, "{fault:?}");
}

#[test]
fn faults_are_what_they_are_named_for() {
    rounds(60, |rng| {
        let family = rng.pick(&Family::ALL);
        let (network, chain) = chained(rng, family);
        let text = write_chain(network.vertices, &chain).unwrap();
        let last = chain.steps.len() - 1;
        for (fault, place) in every_fault() {
            let faulty = generate::faulty_chain(rng, &network, &chain, fault, place);
            let Some(faulty) = faulty else {
                continue;
            };
            let at = first_difference(&text, &faulty);
            let is_there = match place {
                StepPlace::First => at == 0,
                StepPlace::Middle => 0 < at && at < last,
                StepPlace::Last => at == last,
            };
            assert!(is_there, "{fault:?} {place:?}");
            assert_named(&network, &chain, &faulty, fault, at);
        }
    });
}

/// The text with its line at a place replaced by the step that is due there.
fn mended(faulty: &[u8], place: usize, right: Step) -> Vec<u8> {
    let (before, rest) = faulty.split_at(place * STEP.line_length());
    let mut line = Vec::new();
    write_step(right, &mut line);
    [before, &line, &rest[STEP.line_length()..]].concat()
}

#[test]
fn behind_a_fault_there_is_nothing_else_or_what_its_name_says() {
    rounds(60, |rng| {
        let family = rng.pick(&Family::ALL);
        let (network, chain) = chained(rng, family);
        let network_text = generate::text(&network);
        let text = write_chain(network.vertices, &chain).unwrap();
        for (fault, place) in every_fault() {
            let faulty = generate::faulty_chain(rng, &network, &chain, fault, place);
            let Some(faulty) = faulty.filter(|_| fault.refusal() != 1) else {
                continue;
            };
            let at = first_difference(&text, &faulty);
            let mended = mended(&faulty, at, chain.steps[at]);
            let answer = check_chain(&network_text, &mended).err();
            let due = match (fault, place) {
                (StepFault::BrokenNext | StepFault::LeftOver, _) => Some(1),
                (StepFault::WrongNext, StepPlace::First | StepPlace::Middle) => Some(8),
                (StepFault::WrongNext, StepPlace::Last) | (StepFault::WrongDrop, _) => Some(12),
                _ => None,
            };
            assert_eq!(answer, due, "{fault:?} {place:?}");
            assert!(due.is_some() || mended == text);
        }
    });
}

#[test]
fn a_chain_is_read_alone() {
    // No partner is looked for: the last three are those that no step retires, at the costs that
    // the steps have named last.
    rounds(200, |rng| {
        let family = rng.pick(&Family::ALL);
        let (network, chain) = chained(rng, family);
        let mut costs: Vec<Option<i64>> = network.edges.iter().map(|e| Some(e.cost)).collect();
        costs[network.reserved] = None;
        for step in &chain.steps {
            costs[usize::from(step.z)] = Some(step.cost);
            costs[usize::from(step.x)] = None;
            costs[usize::from(step.y)] = None;
        }
        let last: Vec<i64> = costs.iter().copied().flatten().collect();
        assert_eq!(last.len(), 3);
        let dropped = costs[usize::from(chain.dropped)];
        assert_eq!(dropped, last.into_iter().max());
    });
}
