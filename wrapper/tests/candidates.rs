//! Candidates for the reserved edge of one network, and the refusals of a list of them.

use thinning::{raw, Costs, Network, Refusal, COSTS_TEXT};

const NETWORK: &[u8] = include_bytes!("../../crates/plan/stdin");
/// The number of its edges, and the lowest one that is none of them.
const EDGES: u16 = 6;

/// The network with some bytes exchanged for others.
fn changed(from: &str, to: &str) -> Vec<u8> {
    let text = String::from_utf8(NETWORK.to_vec()).expect("digits");
    assert!(text.contains(from));
    text.replacen(from, to, 1).into_bytes()
}

/// Eight vertices, each joined to the next one and to the one after it around a circle.
fn circle() -> Network {
    let ends = (0..8u16).flat_map(|vertex| [1, 2].map(|far| (vertex, (vertex + far) % 8)));
    let (low, high) = ends.map(|(a, b)| (a.min(b), a.max(b))).unzip();
    Network {
        vertices: 8,
        reserved: 3,
        low,
        high,
        cost: (0..16).map(|edge| edge * edge * 5 % 23 - 4).collect(),
    }
}

/// The frames of a list that is not refused, in a buffer of their length.
fn frames(network: &[u8], reserved: &[u16]) -> Vec<u8> {
    let mut costs = vec![7; COSTS_TEXT * reserved.len()];
    let mut written = 5;
    let answer = raw::plan_candidates(network, reserved, &mut costs, &mut written);
    assert_eq!((answer, written), (0, costs.len()));
    costs
}

/// The frame at the end of the kept text of a single plan, with an edge reserved in the network's head.
fn single(network: &Network, reserved: u16) -> Vec<u8> {
    let text = thinning::write_network(&Network {
        reserved: usize::from(reserved),
        ..network.clone()
    });
    let plan = thinning::plan(&text.expect("it is written")).expect("it is accepted");
    plan.kept[plan.kept.len() - COSTS_TEXT..].to_vec()
}

#[test]
fn frames_are_those_of_single_plans_in_list_order() {
    let printed = thinning::read_network(NETWORK).expect("it reads");
    let circle = circle();
    let cases: [(&Network, &[u16]); 7] = [
        (&printed, &[0]),
        (&printed, &[0, 1, 2, 3, 4, 5]),
        (&printed, &[5, 4, 3, 2, 1, 0]),
        (&printed, &[4, 0, 4, 4, 1, 0]),
        (&circle, &[15]),
        (
            &circle,
            &[9, 2, 15, 0, 7, 12, 3, 5, 14, 1, 10, 6, 13, 4, 8, 11],
        ),
        (&circle, &[11, 11, 3, 11, 3, 3]),
    ];
    for (network, reserved) in cases {
        let text = thinning::write_network(network).expect("it is written");
        let singles: Vec<_> = reserved.iter().map(|&edge| single(network, edge)).collect();
        assert_eq!(frames(&text, reserved), singles.concat());
    }
}

#[test]
fn a_list_may_be_longer_than_the_network_has_edges() {
    let frame = frames(NETWORK, &[2]);
    assert_eq!(frames(NETWORK, &[2; 1_000]), frame.repeat(1_000));
}

#[test]
fn costs_of_the_printed_network() {
    let all = [(8, 16), (11, 19), (9, 22), (8, 21), (8, 17), (11, 20)];
    let all = all.map(|(kept, total)| Costs { kept, total });
    let candidates = thinning::plan_candidates(NETWORK, &[0, 1, 2, 3, 4, 5]);
    assert_eq!(candidates, Ok(all.to_vec()));
    let candidates = thinning::plan_candidates(NETWORK, &[3, 0, 3]);
    assert_eq!(candidates, Ok(vec![all[3], all[0], all[3]]));
}

#[test]
fn costs_at_their_limits() {
    let limit = 1_000_000_000_000;
    // The cost of edge 0 and that of the three others; the costs with edge 0 reserved, and with edge 2. Of the three
    // that aren't reserved a dearest is dropped.
    let cases = [
        (-limit, limit, [(2 * limit, 3 * limit), (0, limit)]),
        (
            limit,
            -limit,
            [(-2 * limit, -3 * limit), (-2 * limit, -limit)],
        ),
    ];
    for (first, other, due) in cases {
        let text = thinning::write_network(&Network {
            vertices: 2,
            reserved: 0,
            low: vec![0; 4],
            high: vec![1; 4],
            cost: vec![first, other, other, other],
        });
        let candidates = thinning::plan_candidates(&text.expect("it is written"), &[0, 2]);
        let due = due.map(|(kept, total)| Costs { kept, total });
        assert_eq!(candidates, Ok(due.to_vec()));
    }
}

#[test]
fn an_empty_list_writes_nothing() {
    assert_eq!(thinning::plan_candidates(NETWORK, &[]), Ok(Vec::new()));
    for length in [0, 1, COSTS_TEXT] {
        let mut costs = vec![7; length];
        let mut written = 5;
        let answer = raw::plan_candidates(NETWORK, &[], &mut costs, &mut written);
        assert_eq!((answer, written), (0, 0));
        assert_eq!(costs, vec![7; length]);
    }
}

#[test]
fn the_list_stands_in_for_the_reserved_edge_of_the_head() {
    let reserved = [5, 0, 3];
    let due = frames(NETWORK, &reserved);
    for edge in 0..EDGES {
        let text = changed("0100030000", &format!("010003{edge:04x}"));
        assert_eq!(frames(&text, &reserved), due);
    }
}

/// A text for each refusal of a network.
fn refused_networks() -> [(Vec<u8>, Refusal); 8] {
    let islands = Network {
        vertices: 4,
        reserved: 0,
        low: vec![0, 0, 0, 0, 2, 2, 2, 2],
        high: vec![1, 1, 1, 1, 3, 3, 3, 3],
        cost: vec![0; 8],
    };
    let islands = thinning::write_network(&islands).expect("it is written");
    let dear = changed("0000000000000007", "000000e8d4a51001");
    let uneven = changed("02000100000001", "02000100000002");
    [
        (Vec::new(), Refusal::Form),
        ([NETWORK, b"0"].concat(), Refusal::Form),
        (changed("0100030000", "0100010000"), Refusal::Vertices),
        (changed("0100030000", "0100030006"), Refusal::Reserved),
        (changed("020001", "020000"), Refusal::Edge),
        (dear, Refusal::Cost),
        (uneven, Refusal::Degree),
        (islands, Refusal::Cut),
    ]
}

/// Asserts a refusal, and that the buffer and the number are left alone.
fn assert_refused(network: &[u8], reserved: &[u16], room: usize, refusal: Refusal) {
    let mut costs = vec![7; room];
    let mut written = 5;
    let answer = raw::plan_candidates(network, reserved, &mut costs, &mut written);
    assert_eq!(Refusal::try_from(answer), Ok(refusal));
    assert_eq!((costs, written), (vec![7; room], 5));
}

#[test]
fn the_networks_refusals_come_first() {
    for (text, refusal) in refused_networks() {
        for reserved in [&[][..], &[0], &[1, 0], &[u16::MAX], &[0, u16::MAX]] {
            let refused = thinning::plan_candidates(&text, reserved);
            assert_eq!(refused, Err(refusal));
            for room in [0, 1, COSTS_TEXT, 3 * COSTS_TEXT] {
                assert_refused(&text, reserved, room, refusal);
            }
        }
    }
}

#[test]
fn a_number_that_is_no_edge_refuses_the_whole_list() {
    for none in [EDGES, EDGES + 1, 255, 256, 511, 512, 32_768, u16::MAX] {
        let lists: [&[u16]; 5] = [
            &[none],
            &[none, 0, 1],
            &[0, none, 1],
            &[5, 0, none],
            &[none, none],
        ];
        for reserved in lists {
            let refused = thinning::plan_candidates(NETWORK, reserved);
            assert_eq!(refused, Err(Refusal::Reserved));
            for room in [0, COSTS_TEXT, COSTS_TEXT * reserved.len(), 200] {
                assert_refused(NETWORK, reserved, room, Refusal::Reserved);
            }
        }
    }
}

#[test]
fn a_short_buffer_is_refused_last_and_left_alone() {
    for reserved in [&[0][..], &[5, 1], &[3, 3, 3]] {
        let due = COSTS_TEXT * reserved.len();
        for room in [0, 1, due - COSTS_TEXT, due - 1] {
            assert_refused(NETWORK, reserved, room, Refusal::ShortBuffer);
        }
    }
}

#[test]
fn a_long_list_is_refused_before_anything_is_planned() {
    let mut reserved = vec![0; 1_000_000];
    assert_refused(NETWORK, &reserved, 0, Refusal::ShortBuffer);
    reserved.push(EDGES);
    assert_refused(NETWORK, &reserved, COSTS_TEXT, Refusal::Reserved);
}

#[test]
fn a_longer_buffer_keeps_its_bytes_behind_the_frames() {
    let reserved = [4, 2];
    let due = frames(NETWORK, &reserved);
    for more in [1, COSTS_TEXT, 40] {
        let mut costs = vec![7; due.len() + more];
        let mut written = 5;
        let answer = raw::plan_candidates(NETWORK, &reserved, &mut costs, &mut written);
        assert_eq!((answer, written), (0, due.len()));
        assert_eq!(costs, [&due[..], &vec![7; more]].concat());
    }
}
