//! Candidates: plans by hand, the list's own order, and which refusal comes first.

mod common;

use std::cell::RefCell;
use std::collections::BTreeSet;

use common::{lines_replaced, network_text, refused_in_order, rounds, T, TWO_ACROSS, T_PLAN};
use second::generate::{self, CandidateStyle, NetworkAim, Rng, WrongPlace};
use second::lengths::{candidates_text, fits};
use second::properties::judge_candidates;
use second::{
    check_network, plan, plan_candidates, plan_candidates_by, read_candidates, Method, Network,
    Refusal, Sums,
};

/// The frames 06 of the printed network, by the edge that is reserved. The kept edges are 1, 2, 5;
/// then 0, 2, 5; then 1, 3, 5; then 1, 2, 5 twice; then 1, 2, 4.
const T_FRAMES: [&str; 6] = [
    "0600000000000000080000000000000010\n",
    "06000000000000000b0000000000000013\n",
    "0600000000000000090000000000000016\n",
    "0600000000000000080000000000000015\n",
    "0600000000000000080000000000000011\n",
    "06000000000000000b0000000000000014\n",
];

/// The frames of the printed network for these candidates.
fn t_frames(reserved: &[u16]) -> Vec<u8> {
    let frames = reserved.iter().map(|&edge| T_FRAMES[usize::from(edge)]);
    frames.collect::<String>().into_bytes()
}

/// The frames as a host with so many bytes for them gets them.
fn planned_into(network: &[u8], reserved: &[u16], lent: usize) -> Result<Vec<u8>, Refusal> {
    let text = plan_candidates(network, reserved)?;
    fits(text.len(), lent).map(|()| text)
}

/// The last frame of the single plan with this edge in the head.
fn single_plan(network: &Network, edge: u16) -> Vec<u8> {
    let reserved = edge.into();
    let edges = network.edges.clone();
    let single = Network {
        vertices: network.vertices,
        reserved,
        edges,
    };
    let kept = plan(&generate::text(&single)).unwrap().kept;
    kept[kept.len() - candidates_text(1)..].to_vec()
}

#[test]
fn the_printed_network_with_each_edge_reserved() {
    assert!(T_PLAN.ends_with(T_FRAMES[0]));
    let all = [0, 1, 2, 3, 4, 5];
    for method in Method::ALL {
        let text = plan_candidates_by(T.as_bytes(), &all, method).unwrap();
        assert_eq!(text, T_FRAMES.concat().into_bytes());
    }
    let sums = [(8, 16), (11, 19), (9, 22), (8, 21), (8, 17), (11, 20)];
    let sums = sums.map(|(cost, total)| Sums { cost, total });
    assert_eq!(read_candidates(&t_frames(&all)), Ok(sums.to_vec()));
}

#[test]
fn sums_below_zero() {
    let network = network_text(2, 3, &[(0, 1); 4], &[0, -4, -4, -6]);
    let text = plan_candidates(&network, &[0, 1, 2, 3]).unwrap();
    let sums = [(-10, -14), (-10, -10), (-10, -10), (-8, -8)];
    let sums = sums.map(|(cost, total)| Sums { cost, total });
    assert_eq!(read_candidates(&text), Ok(sums.to_vec()));
}

#[test]
fn frames_in_list_order_with_repeats() {
    let lists: [&[u16]; 7] = [
        &[5],
        &[5, 4, 3, 2, 1, 0],
        &[3, 0, 5, 1],
        &[2, 2],
        &[0, 1, 0],
        &[4, 4, 4, 1, 4, 1],
        &[5, 0].repeat(20),
    ];
    for list in lists {
        assert_eq!(plan_candidates(T.as_bytes(), list), Ok(t_frames(list)));
    }
}

#[test]
fn the_heads_reserved_edge_makes_no_difference() {
    for head in 0..6 {
        let network = lines_replaced(T, &[(0, &format!("010003000{head}"))]);
        let list = [4, 0, head];
        assert_eq!(plan_candidates(&network, &list), Ok(t_frames(&list)));
    }
}

#[test]
fn an_empty_list_succeeds_over_an_accepted_network() {
    assert_eq!(planned_into(T.as_bytes(), &[], 0), Ok(Vec::new()));
    for (network, refusal) in refused_networks() {
        assert_eq!(planned_into(&network, &[], 0), Err(refusal));
    }
}

#[test]
fn numbers_on_both_sides_of_the_limit() {
    assert_eq!(plan_candidates(T.as_bytes(), &[5]), Ok(t_frames(&[5])));
    for wrong in [6, 7, 256, 261, 512, 32_768, 32_773, 65_535] {
        let lists: [&[u16]; 7] = [
            &[wrong],
            &[wrong, 0, 5],
            &[0, wrong, 5],
            &[0, 5, wrong],
            &[wrong, wrong],
            &[wrong, 0, wrong],
            &[[0; 40].to_vec(), vec![wrong]].concat(),
        ];
        for list in lists {
            assert_eq!(plan_candidates(T.as_bytes(), list), Err(3));
        }
    }
}

#[test]
fn numbers_on_both_sides_of_the_highest_limit() {
    let network = generate::network(&mut Rng::new(1), 256);
    let text = generate::text(&network);
    let last = plan_candidates(&text, &[511, 511]).unwrap();
    assert_eq!(last, single_plan(&network, 511).repeat(2));
    assert_eq!(plan_candidates(&text, &[511, 512]), Err(3));
    assert_eq!(plan_candidates(&text, &[512, 511]), Err(3));
}

/// Networks near the printed one with the refusals of their checks, each number once or more.
fn refused_networks() -> Vec<(Vec<u8>, Refusal)> {
    let with = |lines: &[(usize, &str)]| lines_replaced(T, lines);
    vec![
        (Vec::new(), 1),
        (T.as_bytes()[..T.len() - 1].to_vec(), 1),
        ([T, "0"].concat().into_bytes(), 1),
        (with(&[(0, "0100010000")]), 2),
        (with(&[(0, "0101010000")]), 2),
        (with(&[(0, "0100030006")]), 3),
        (with(&[(0, "010003ffff")]), 3),
        (with(&[(2, "020002000000010000000000000004")]), 4),
        (with(&[(1, "02000000000001000000e8d4a51001")]), 5),
        (with(&[(6, "020005000000020000000000000003")]), 6),
        (network_text(4, 0, &TWO_ACROSS, &[0; 8]), 7),
    ]
}

#[test]
fn the_network_before_the_list_and_the_list_before_the_buffer() {
    let mut networks = vec![(T.as_bytes().to_vec(), None)];
    networks.extend(
        refused_networks()
            .into_iter()
            .map(|(text, refusal)| (text, Some(refusal))),
    );
    let met: BTreeSet<Refusal> = networks
        .iter()
        .filter_map(|(_, refusal)| *refusal)
        .collect();
    assert_eq!(met, (1..=7).collect());
    let lists: [(&[u16], Option<Refusal>); 7] = [
        (&[], None),
        (&[0], None),
        (&[5, 0, 5], None),
        (&[65_535], Some(3)),
        (&[8, 0, 0], Some(3)),
        (&[0, 8, 0], Some(3)),
        (&[0, 0, 8], Some(3)),
    ];
    for (network, refusal) in &networks {
        assert_eq!(check_network(network).err(), *refusal);
    }
    refused_in_order(
        &networks,
        &lists,
        |list| candidates_text(list.len()),
        candidates_text(1),
        |network, list, lent| planned_into(network, list, lent).err(),
    );
}

#[test]
fn the_heads_own_reserved_edge_is_refused_in_reading_order() {
    // The list stands in for it only once the network is accepted.
    let head = (0, "0100030006");
    let dear = (1, "02000000000001000000e8d4a51001");
    for list in [&[0][..], &[], &[6]] {
        let text = lines_replaced(T, &[head]);
        assert_eq!(plan_candidates(&text, list), Err(3));
        let text = lines_replaced(T, &[head, dear]);
        assert_eq!(plan_candidates(&text, list), Err(3));
        let text = lines_replaced(T, &[dear]);
        assert_eq!(plan_candidates(&text, list), Err(5));
    }
}

#[test]
fn aimed_networks_and_lists_get_the_refusal_that_is_due() {
    let met = RefCell::new(BTreeSet::new());
    rounds(100, |rng| {
        let vertices = generate::size(rng).clamp(4, 24);
        let network = generate::network(rng, vertices);
        let good = generate::candidates_of(rng, &network, CandidateStyle::Few);
        let mut lists = vec![(good, None)];
        for place in WrongPlace::ALL {
            let (list, refusal) = generate::aimed_candidates(rng, &network, place);
            lists.push((list, Some(refusal)));
        }
        let broken = generate::broken_network(rng, vertices);
        let aimed = NetworkAim::ALL.map(|aim| generate::aimed_network(rng, aim, vertices));
        let refused = [broken].into_iter().chain(aimed);
        let mut networks = vec![(generate::text(&network), None)];
        networks.extend(refused.map(|(text, refusal)| (text, Some(refusal))));
        for (text, of_network) in &networks {
            for (list, of_list) in &lists {
                let answer = plan_candidates(text, list).err();
                assert_eq!(answer, of_network.or(*of_list));
                met.borrow_mut().insert((*of_network, *of_list));
            }
        }
    });
    assert_eq!(met.into_inner().len(), 8 * 2);
}

#[test]
fn every_frame_is_that_of_a_single_plan() {
    rounds(60, |rng| {
        let vertices = generate::size(rng).min(12);
        let network = generate::network(rng, vertices);
        let singles: Vec<Vec<u8>> = (0..)
            .take(network.edges.len())
            .map(|edge| single_plan(&network, edge))
            .collect();
        let text = generate::text(&network);
        for style in CandidateStyle::ALL {
            let list = generate::candidates_of(rng, &network, style);
            let frames = plan_candidates(&text, &list).unwrap();
            assert_eq!(frames.len(), candidates_text(list.len()));
            assert_eq!(judge_candidates(&text, &list, &frames), Ok(()));
            let singly = list.iter().map(|&edge| &singles[usize::from(edge)][..]);
            assert_eq!(frames, singly.collect::<Vec<&[u8]>>().concat());
        }
    });
}

#[test]
fn every_method_gives_the_same_frames() {
    rounds(40, |rng| {
        let vertices = generate::size(rng).min(14);
        let network = generate::network(rng, vertices);
        let text = generate::text(&network);
        let list = generate::candidates(rng, &network);
        let frames = plan_candidates(&text, &list);
        for method in Method::ALL {
            assert_eq!(plan_candidates_by(&text, &list, method), frames);
        }
    });
}

#[test]
fn larger_networks_with_a_few_candidates() {
    rounds(20, |rng| {
        let vertices = rng.pick(&[25, 48, 64, 100]);
        let network = generate::network(rng, vertices);
        let list = generate::candidates_of(rng, &network, CandidateStyle::Few);
        let frames = plan_candidates(&generate::text(&network), &list).unwrap();
        let singly: Vec<Vec<u8>> = list
            .iter()
            .map(|&edge| single_plan(&network, edge))
            .collect();
        assert_eq!(frames, singly.concat());
    });
}
