//! The examples printed in the rules, byte for byte where bytes are printed.

mod common;

use common::{network_text, SQUARE_COSTS, SQUARE_ENDS, T, TWO_ACROSS, T_PLAN};
use second::{
    audit, check_chain_by, check_network, check_network_by, plan_by, plan_output, write_chain,
    write_kept, write_list, Audit, Chain, Kept, Method, Step,
};

/// Steps with v, x, y, z and the cost of z, dropped edge, kept edges, kept cost and total.
type Outcome<'a> = (&'a [(u16, u16, u16, u16, i64)], u16, &'a [u16], i64, i64);

fn assert_planned(network: &[u8], vertices: usize, (steps, dropped, edges, cost, total): Outcome) {
    let steps = steps
        .iter()
        .map(|&(v, x, y, z, cost)| Step { v, x, y, z, cost })
        .collect();
    let edges = edges.to_vec();
    let chain = write_chain(vertices, &Chain { steps, dropped }).unwrap();
    let kept = write_kept(&Kept { edges, cost, total });
    for method in Method::ALL {
        let plan = plan_by(network, method).unwrap();
        assert_eq!(plan.chain, chain);
        assert_eq!(plan.kept, kept);
        assert_eq!(check_chain_by(network, &chain, method), Ok(kept.clone()));
    }
}

fn two_vertices(costs: [i64; 4]) -> Vec<u8> {
    network_text(2, 0, &[(0, 1); 4], &costs)
}

/// The ends of the printed network's edges.
const T_ENDS: [(u16, u16); 6] = [(0, 1), (0, 1), (0, 2), (0, 2), (1, 2), (1, 2)];

fn t_with(costs: [i64; 6]) -> Vec<u8> {
    network_text(3, 0, &T_ENDS, &costs)
}

#[test]
fn the_printed_input_gives_the_printed_output() {
    for method in Method::ALL {
        assert_eq!(plan_output(T.as_bytes(), method), T_PLAN.as_bytes());
    }
    assert_eq!(t_with([7, 4, 1, 2, 6, 3]), T.as_bytes());
}

#[test]
fn two_vertices_drop_a_dearest() {
    let network = two_vertices([5, -1, 3, 3]);
    assert_planned(&network, 2, (&[], 3, &[1, 2], 2, 5));
    let network = two_vertices([9, 1, 1, 1]);
    assert_planned(&network, 2, (&[], 3, &[1, 2], 2, 3));
    let network = two_vertices([0, -4, -4, -6]);
    assert_planned(&network, 2, (&[], 2, &[1, 3], -10, -14));
}

#[test]
fn the_printed_network_with_other_costs() {
    // At vertex 1 the partners are 1, 4 and 5; 1 runs along the reserved edge, so that it is z, and
    // its cost becomes its own less that of 4.
    let network = t_with([7, 4, 1, 2, 6, 3]);
    assert_planned(&network, 3, (&[(1, 4, 5, 1, 4 - 6)], 3, &[1, 2, 5], 8, 16));
    let network = t_with([7, 40, 1, 2, 6, 3]);
    let steps = [(1, 4, 5, 1, 40 - 6)];
    assert_planned(&network, 3, (&steps, 1, &[2, 3, 4, 5], 12, 52));
    let network = t_with([1; 6]);
    assert_planned(&network, 3, (&[(1, 4, 5, 1, 0)], 3, &[1, 2, 5], 3, 5));
}

#[test]
fn four_vertices() {
    let network = network_text(4, 4, &SQUARE_ENDS, &SQUARE_COSTS);
    // At vertex 2 the partners are 2, 3 and 7: 7 then runs from 3 to 1, at 2 less the 4 of edge 3.
    // At vertex 3 they are 5, 6 and 7: 6 then runs from 1 to 0, at 6 less the 3 of edge 5. The
    // last three cost 2, 5 and 3.
    let steps = [(2, 3, 2, 7, -2), (3, 5, 7, 6, 3)];
    assert_planned(&network, 4, (&steps, 1, &[0, 2, 6, 7], 11, 23));
}

#[test]
fn refused_chains_over_the_printed_network() {
    let cases: [(&[u8], u8); 10] = [
        (b"030002000400050001fffffffffffffffe\n040003\n", 8),
        (b"030001000400000001fffffffffffffffe\n040003\n", 9),
        // With x 1 edge 4 is the third one, at 6 less 4; with x 5 edge 1 is, at 4 less 3.
        (b"0300010001000500040000000000000002\n040003\n", 10),
        (b"0300010005000400010000000000000001\n040003\n", 11),
        (b"030001000400050001fffffffffffffffe\n040002\n", 12),
        // A wrong z, and costs that are one off, unchanged and added.
        (b"030001000400050002fffffffffffffffe\n040003\n", 17),
        (b"030001000400050001fffffffffffffffd\n040003\n", 17),
        (b"0300010004000500010000000000000004\n040003\n", 17),
        (b"030001000400050001000000000000000a\n040003\n", 17),
        // The frame with v, x and y alone.
        (b"03000100040005\n040003\n", 1),
    ];
    for (chain, refusal) in cases {
        for method in Method::ALL {
            assert_eq!(check_chain_by(T.as_bytes(), chain, method), Err(refusal));
        }
    }
}

#[test]
fn refused_networks() {
    let uneven = [(0, 1), (0, 1), (0, 1), (0, 2), (0, 2), (1, 2)];
    for method in Method::ALL {
        let network = network_text(4, 0, &TWO_ACROSS, &[0; 8]);
        assert_eq!(check_network_by(&network, method), Err(7));
        let network = network_text(3, 0, &uneven, &[0; 6]);
        assert_eq!(check_network_by(&network, method), Err(6));
    }
}

#[test]
fn counts_of_vertices_at_their_limits() {
    assert_eq!(check_network(b"0100010000\n"), Err(2));
    assert_eq!(check_network(b"0101010000\n"), Err(2));
    assert_eq!(check_network(&two_vertices([0; 4])), Ok(()));
    let ends: Vec<(u16, u16)> = (0..512)
        .map(|edge| (edge % 256, (edge + 1) % 256))
        .map(|(a, b)| (a.min(b), a.max(b)))
        .collect();
    let network = network_text(256, 511, &ends, &[1; 512]);
    assert_eq!(check_network(&network), Ok(()));
}

#[test]
fn reserved_edges_and_costs_at_their_limits() {
    let with_reserved = |digit: &str| T.replacen("0100030000", &format!("010003000{digit}"), 1);
    assert_eq!(check_network(with_reserved("5").as_bytes()), Ok(()));
    assert_eq!(check_network(with_reserved("6").as_bytes()), Err(3));
    let checked = |cost: &str| check_network(T.replacen("0000000000000007", cost, 1).as_bytes());
    // 1,000,000,000,000 on both sides of zero, and one more.
    assert_eq!(checked("000000e8d4a51000"), Ok(()));
    assert_eq!(checked("000000e8d4a51001"), Err(5));
    assert_eq!(checked("ffffff172b5af000"), Ok(()));
    assert_eq!(checked("ffffff172b5aefff"), Err(5));
}

#[test]
fn audits_of_the_printed_network() {
    let cases: [(&[u16], bool, usize, usize); 4] = [
        (&[1, 2, 5], true, 3, 0),
        (&[1, 2], true, 3, 2),
        (&[4, 5], false, 1, 0),
        (&[], false, 1, 0),
    ];
    for (list, connected, reached, critical) in cases {
        let list = write_list(3, list).unwrap();
        assert_eq!(
            audit(T.as_bytes(), &list),
            Ok(Audit {
                connected,
                reached,
                critical
            })
        );
    }
}
