//! Which refusal comes first where several are due.

mod common;

use common::{lines_replaced, network, T};
use second::texts::COST_LIMIT;
use second::{
    audit, check_chain, check_network, read_chain, read_list, read_network, write_chain,
    write_list, write_network, write_refusal, Chain, Network, Step,
};

/// The printed network with some of its lines replaced.
fn t_with(lines: &[(usize, &str)]) -> Vec<u8> {
    lines_replaced(T, lines)
}

#[test]
fn a_refusal_is_printed_in_hexadecimal() {
    assert_eq!(write_refusal(1), b"0f01\n");
    assert_eq!(write_refusal(10), b"0f0a\n");
}

#[test]
fn the_head_before_everything_else() {
    assert_eq!(check_network(b""), Err(1));
    assert_eq!(check_network(b"0100010000"), Err(1));
    assert_eq!(check_network(b"010001ffff\n"), Err(2));
    assert_eq!(check_network(b"0100000000\njunk"), Err(2));
    assert_eq!(check_network(b"010003ffff\njunk"), Err(3));
    assert_eq!(check_network(b"0100030000\n"), Err(1));
}

#[test]
fn edge_frames_in_order() {
    let dear = "02000000000001000000e8d4a51001";
    assert_eq!(check_network(&t_with(&[(1, dear), (2, "02")])), Err(5));
    assert_eq!(check_network(&t_with(&[(1, "02"), (2, dear)])), Err(1));
    let dear_and_swapped = "02000000010000000000e8d4a51001";
    assert_eq!(check_network(&t_with(&[(1, dear_and_swapped)])), Err(4));
    let last_dear = "02000500010002000000e8d4a51001";
    let text = t_with(&[(6, last_dear)]);
    assert_eq!(check_network(&text), Err(5));
    assert_eq!(check_network(&text[..text.len() - 1]), Err(1));
    assert_eq!(check_network(&[&text[..], b"\n"].concat()), Err(5));
}

#[test]
fn bytes_left_over_before_degrees_and_cuts() {
    let uneven = t_with(&[(6, "020005000000020000000000000003")]);
    assert_eq!(check_network(&uneven), Err(6));
    assert_eq!(check_network(&[&uneven[..], b"0"].concat()), Err(1));
    // Islands and uneven degrees: 6 beats 7.
    let ends = [(0, 1); 8];
    let islands = write_network(&network(4, 0, &ends, &[0; 8])).unwrap();
    assert_eq!(check_network(&islands), Err(6));
}

#[test]
fn the_network_before_the_chain_and_frames_in_order() {
    let uneven = t_with(&[(6, "020005000000020000000000000003")]);
    assert_eq!(check_chain(&uneven, b"junk"), Err(6));
    assert_eq!(check_chain(T.as_bytes(), b""), Err(1));
    // What stands behind v, x and y is that of the right step, which is wrong in most of these.
    let step = |start: &str, end: &str| {
        let chain = [start, "0001fffffffffffffffe", end].concat();
        check_chain(T.as_bytes(), chain.as_bytes())
    };
    assert_eq!(step("03000200040005", "\njunk"), Err(8));
    assert_eq!(step("03000200040005", ""), Err(1));
    assert_eq!(step("03000200040004", "\n"), Err(8));
    assert_eq!(step("03000100010001", "\n"), Err(9));
    assert_eq!(step("03000100010000", "\n"), Err(9));
    assert_eq!(step("03000100050001", "\n"), Err(10));
    assert_eq!(step("03000100050004", "\n"), Err(11));
    let good = b"030001000400050001fffffffffffffffe\n";
    let with = |ending: &[u8]| check_chain(T.as_bytes(), &[good, ending].concat());
    assert_eq!(with(b""), Err(1));
    assert_eq!(with(b"040002\nleft over"), Err(12));
    assert_eq!(with(b"040003\n\n"), Err(1));
    assert_eq!(with(b"040000\n"), Err(12));
    assert_eq!(with(b"040004\n"), Err(12));
    assert_eq!(with(b"04ffff\n"), Err(12));
    assert_eq!(with(b"030002000100020003fffffffffffffffe\n"), Err(1));
    assert!(with(b"040003\n").is_ok());
}

#[test]
fn the_other_end_may_be_split() {
    // At vertex 0 the partners are 1, 2 and 3, at costs 4, 1 and 2; 1 runs along the reserved edge.
    let by_rule = b"0300000003000200010000000000000002\n040004\n";
    assert!(check_chain(T.as_bytes(), by_rule).is_ok());
    let cheaper = b"0300000002000300010000000000000003\n040004\n";
    assert_eq!(check_chain(T.as_bytes(), cheaper), Err(11));
    let along = b"030000000100030002fffffffffffffffd\n040004\n";
    assert_eq!(check_chain(T.as_bytes(), along), Err(10));
}

#[test]
fn the_audit_takes_networks_that_are_not_accepted() {
    let uneven = t_with(&[(6, "020005000000020000000000000003")]);
    assert!(audit(&uneven, b"").is_ok());
    assert_eq!(audit(&[&uneven[..], b"\n"].concat(), b"junk"), Err(1));
    let dear = t_with(&[(1, "02000000000001000000e8d4a51001")]);
    assert_eq!(audit(&dear, b"junk"), Err(5));
    assert_eq!(audit(T.as_bytes(), b"050006\njunk"), Err(14));
    assert_eq!(audit(T.as_bytes(), b"050003\n050003\n"), Err(14));
    assert_eq!(audit(T.as_bytes(), b"050003\n050002"), Err(1));
    assert_eq!(audit(T.as_bytes(), b"\n"), Err(1));
}

#[test]
fn counts_outside_their_limits_before_all_else() {
    for vertices in [0, 1, 257, usize::MAX] {
        assert_eq!(read_chain(vertices, b"junk"), Err(2));
        assert_eq!(read_list(vertices, b"junk"), Err(2));
        assert_eq!(write_list(vertices, &[9, 9]), Err(2));
        let chain = Chain {
            steps: Vec::new(),
            dropped: 0,
        };
        assert_eq!(write_chain(vertices, &chain), Err(2));
        let meaning = Network {
            vertices,
            reserved: usize::MAX,
            edges: Vec::new(),
        };
        assert_eq!(write_network(&meaning), Err(2));
    }
}

#[test]
fn writers_refuse_in_the_readers_order() {
    let mut meaning = read_network(T.as_bytes()).unwrap();
    meaning.reserved = 6;
    meaning.edges.pop();
    assert_eq!(write_network(&meaning), Err(3));
    meaning.reserved = 5;
    assert_eq!(write_network(&meaning), Err(1));
    meaning.edges[4].cost = -COST_LIMIT - 1;
    assert_eq!(write_network(&meaning), Err(5));
    meaning.edges[4].low = 2;
    assert_eq!(write_network(&meaning), Err(4));
    meaning.edges[4].low = 1;
    meaning.edges[4].cost = 0;
    let last = meaning.edges[4];
    meaning.edges.extend([last, last]);
    assert_eq!(write_network(&meaning), Err(1));
    meaning.edges.pop();
    assert!(write_network(&meaning).is_ok());

    let step = Step {
        v: 9,
        x: 9,
        y: 9,
        z: 9,
        cost: i64::MIN,
    };
    for count in [0, 2] {
        let steps = vec![step; count];
        let dropped = 65_535;
        assert_eq!(write_chain(3, &Chain { steps, dropped }), Err(1));
    }
    assert_eq!(write_list(3, &[0, 6]), Err(14));
    assert_eq!(write_list(3, &[1, 1]), Err(14));
    assert_eq!(write_list(3, &[1, 0]), Err(14));
    assert_eq!(write_list(3, &[0, 5]), Ok(b"050000\n050005\n".to_vec()));
    assert_eq!(write_list(3, &[]), Ok(Vec::new()));
}
