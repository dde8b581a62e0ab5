//! What is critical in lists by hand, and both ways of finding it on generated lists.

mod common;

use std::cell::RefCell;
use std::collections::BTreeSet;

use common::{network, rounds};
use second::audit::{audit_list, audit_list_by_definition};
use second::generate::{self, ListStyle};
use second::{Audit, Network};

/// The answer, which both ways give.
fn audited(network: &Network, list: &[u16]) -> Audit {
    let answer = audit_list(network, list);
    assert_eq!(answer, audit_list_by_definition(network, list), "{list:?}");
    answer
}

/// A loop of two, a single edge, a triangle, another loop of two, and edges around them.
const ENDS: [(u16, u16); 12] = [
    (0, 1),
    (0, 1),
    (1, 2),
    (2, 3),
    (3, 4),
    (2, 4),
    (4, 5),
    (4, 5),
    (0, 5),
    (1, 5),
    (0, 2),
    (3, 5),
];

#[test]
fn lists_by_hand() {
    let network = network(6, 0, &ENDS, &[0; 12]);
    let all: Vec<u16> = (0..12).collect();
    let cases: [(&[u16], bool, usize, usize); 18] = [
        (&[], false, 1, 0),
        // An edge alone, at vertex 0 or not.
        (&[0], false, 2, 1),
        (&[2], false, 1, 1),
        // A parallel pair alone.
        (&[0, 1], false, 2, 0),
        (&[6, 7], false, 1, 0),
        // A triangle alone, a part of it, and with an edge that hangs on it.
        (&[3, 4, 5], false, 1, 0),
        (&[3, 4], false, 1, 2),
        (&[2, 3, 4, 5], false, 1, 1),
        // Islands: two edges, an edge and a pair, an edge and a triangle, two pairs.
        (&[0, 3], false, 2, 2),
        (&[0, 6, 7], false, 2, 1),
        (&[0, 3, 4, 5], false, 2, 1),
        (&[0, 1, 6, 7], false, 2, 0),
        (&[0, 1, 3, 4, 5, 6], false, 2, 1),
        // One vertex is left over.
        (&[0, 1, 2, 3, 4, 5], false, 5, 1),
        // All are connected: by a tree, with one edge between two parts, by a cycle, by all edges.
        (&[0, 2, 3, 4, 6], true, 6, 5),
        (&[0, 1, 2, 3, 4, 5, 6, 7], true, 6, 1),
        (&[0, 2, 3, 4, 6, 8], true, 6, 0),
        (&all, true, 6, 0),
    ];
    for (list, connected, reached, critical) in cases {
        let due = Audit {
            connected,
            reached,
            critical,
        };
        assert_eq!(audited(&network, list), due, "{list:?}");
    }
}

#[test]
fn the_longest_path_and_cycle() {
    let ends: Vec<(u16, u16)> = (0..512)
        .map(|edge| (edge % 256, (edge + 1) % 256))
        .map(|(a, b)| (a.min(b), a.max(b)))
        .collect();
    let network = network(256, 0, &ends, &[0; 512]);
    let cycle: Vec<u16> = (0..256).collect();
    let path = &cycle[..255];
    let halves = [&cycle[..127], &cycle[128..255]].concat();
    let answers = [&cycle[..], path, &halves[..]].map(|list| audited(&network, list));
    let due = [(true, 256, 0), (true, 256, 255), (false, 128, 254)];
    let due = due.map(|(connected, reached, critical)| Audit {
        connected,
        reached,
        critical,
    });
    assert_eq!(answers, due);
}

#[test]
fn lists_of_every_style() {
    let met = RefCell::new(BTreeSet::new());
    rounds(600, |rng| {
        let size = generate::size(rng).min(40);
        let networks = [
            (true, generate::network(rng, size)),
            (false, generate::loose_network(rng, size)),
        ];
        for (accepted, network) in networks {
            for style in ListStyle::all(rng, &network) {
                let list = generate::list_of(rng, &network, style);
                let Audit {
                    connected,
                    reached,
                    critical,
                } = audited(&network, &list);
                assert_eq!(connected, reached == network.vertices);
                let (any_critical, any_spared) = (critical > 0, critical < list.len());
                let mut met = met.borrow_mut();
                met.insert((accepted, connected, any_critical, any_spared));
            }
        }
    });
    // An empty list has neither critical edges nor others, and doesn't connect two vertices.
    let mut every = BTreeSet::new();
    for accepted in [false, true] {
        every.insert((accepted, false, false, false));
        for connected in [false, true] {
            for (any_critical, any_spared) in [(false, true), (true, true), (true, false)] {
                every.insert((accepted, connected, any_critical, any_spared));
            }
        }
    }
    assert_eq!(met.into_inner(), every);
}

#[test]
fn styles_are_what_they_are_named_for() {
    rounds(400, |rng| {
        let size = generate::size(rng).min(40);
        let network = generate::network(rng, size);
        let mut audit = |style| {
            let list = generate::list_of(rng, &network, style);
            (audited(&network, &list), list)
        };
        let (answer, list) = audit(ListStyle::Forest);
        assert!(answer.connected && answer.critical == list.len());
        let (answer, list) = audit(ListStyle::ForestLessOne);
        assert!(!answer.connected && answer.critical == list.len());
        assert!(audit(ListStyle::ForestAndMore).0.connected);
        assert!(!audit(ListStyle::NoneAcross).0.connected);
        assert!(!audit(ListStyle::Islands).0.connected);
        let ends_of = |&number: &u16| {
            let edge = network.edges[usize::from(number)];
            (edge.low, edge.high)
        };
        let (answer, list) = audit(ListStyle::TwoVertexIslands);
        let islands: BTreeSet<(u16, u16)> = list.iter().map(ends_of).collect();
        let touched: BTreeSet<u16> = islands.iter().flat_map(|&(a, b)| [a, b]).collect();
        assert_eq!(touched.len(), 2 * islands.len());
        // A single edge is critical, a parallel pair has one edge more and none critical.
        assert_eq!(answer.critical + list.len(), touched.len());
        let (_, list) = audit(ListStyle::SinglesAndPairs);
        let mut ends: Vec<(u16, u16)> = list.iter().map(ends_of).collect();
        ends.sort_unstable();
        assert!(ends.windows(3).all(|three| three[0] != three[2]));
    });
}
