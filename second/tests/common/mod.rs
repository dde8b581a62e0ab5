//! What the tests share: small helpers for texts, and how many rounds to go.

#![allow(dead_code)]

use std::fmt::Debug;

use second::generate::{Damage, Rng};
use second::{write_network, Edge, Network, Refusal};

/// The network printed in the rules, three vertices.
pub const T: &str = "\
0100030000
020000000000010000000000000007
020001000000010000000000000004
020002000000020000000000000001
020003000000020000000000000002
020004000100020000000000000006
020005000100020000000000000003
";

/// What the plan program writes for it.
pub const T_PLAN: &str = "\
030001000400050001fffffffffffffffe
040003
050001
050002
050005
0600000000000000080000000000000010
";

/// The ends and the costs of the network of four vertices in the rules; edge 4 is reserved.
pub const SQUARE_ENDS: [(u16, u16); 8] = [
    (0, 1),
    (0, 1),
    (2, 3),
    (2, 3),
    (0, 2),
    (1, 3),
    (0, 3),
    (1, 2),
];
pub const SQUARE_COSTS: [i64; 8] = [2, 5, 1, 4, 9, 3, 6, 2];

/// Two pairs of vertices, each joined threefold, with an edge from either vertex of one pair to one of the other: every
/// vertex has four edges, and two cross the cut between the pairs.
pub const TWO_ACROSS: [(u16, u16); 8] = [
    (0, 1),
    (0, 1),
    (0, 1),
    (2, 3),
    (2, 3),
    (2, 3),
    (0, 2),
    (1, 3),
];

/// A table of three vertices, two edges between any two of them.
pub const TRIANGLE: &str = "\
08000300000003
0900000001020000000000000007
0900000002020000000000000001
0900010002020000000000000006
";

/// What makes any text of frames unreadable, or leaves it with other frames than are due.
pub const BREAKING: [Damage; 11] = [
    Damage::MissingLastFeed,
    Damage::CarriageReturn,
    Damage::OddDigits,
    Damage::BlankLine,
    Damage::WrongLength,
    Damage::RepeatedFrame,
    Damage::MissingFrame,
    Damage::JoinedFrames,
    Damage::CutAnywhere,
    Damage::Empty,
    Damage::Repeated,
];

/// A text with some of its lines replaced.
pub fn lines_replaced(text: &str, lines: &[(usize, &str)]) -> Vec<u8> {
    let mut all: Vec<&str> = text.lines().collect();
    for &(place, line) in lines {
        all[place] = line;
    }
    (all.join("\n") + "\n").into_bytes()
}

/// A network's text from its ends and costs.
pub fn network_text(
    vertices: usize,
    reserved: usize,
    ends: &[(u16, u16)],
    costs: &[i64],
) -> Vec<u8> {
    write_network(&network(vertices, reserved, ends, costs)).expect("the network can be written")
}

/// A network from its ends and costs.
pub fn network(vertices: usize, reserved: usize, ends: &[(u16, u16)], costs: &[i64]) -> Network {
    let edges = ends
        .iter()
        .zip(costs)
        .map(|(&(low, high), &cost)| Edge { low, high, cost });
    Network {
        vertices,
        reserved,
        edges: edges.collect(),
    }
}

/// Asks a service for the text of every list over every network, into buffers of several lengths: a network's refusal
/// comes before a list's, and that before 13. So many bytes are due for a list, and so many of them are its last line.
pub fn refused_in_order<L: Copy + Debug>(
    networks: &[(Vec<u8>, Option<Refusal>)],
    lists: &[(L, Option<Refusal>)],
    due: impl Fn(L) -> usize,
    last_line: usize,
    refusal: impl Fn(&[u8], L, usize) -> Option<Refusal>,
) {
    for (network, of_network) in networks {
        for &(list, of_list) in lists {
            let due = due(list);
            let shorter = [0, due.saturating_sub(last_line), due.saturating_sub(1)];
            for lent in shorter.into_iter().chain([due, due + 1]) {
                let short = (lent < due).then_some(13);
                let first = of_network.or(of_list).or(short);
                assert_eq!(refusal(network, list, lent), first, "{list:?} into {lent}");
            }
        }
    }
}

/// Runs a property for many seeds. `SECOND_ROUNDS` multiplies the rounds, `SECOND_SEED`
/// moves the seeds.
pub fn rounds(count: u64, property: impl Fn(&mut Rng)) {
    let given = |name: &str| {
        std::env::var(name)
            .ok()
            .and_then(|value| value.parse().ok())
    };
    let start = given("SECOND_SEED").unwrap_or(0);
    for round in 0..count * given("SECOND_ROUNDS").unwrap_or(1) {
        let seed = u64::wrapping_add(start, round);
        let told = Told(seed);
        property(&mut Rng::new(seed));
        std::mem::forget(told);
    }
}

/// Tells the seed when a property fails.
struct Told(u64);

impl Drop for Told {
    fn drop(&mut self) {
        eprintln!("failed with SECOND_SEED={} in the first round", self.0);
    }
}
