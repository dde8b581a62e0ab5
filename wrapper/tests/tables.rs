//! Each service on a table of three vertices, and its refusals.

use thinning::{raw, Refusal};

const TABLE: &str = "\
08000300000003
0900000001020000000000000007
0900000002020000000000000001
0900010002020000000000000006
";
const NETWORK: &[u8] = b"0100030000\n\
    020000000000010000000000000007\n\
    020001000000010000000000000007\n\
    020002000000020000000000000001\n\
    020003000000020000000000000001\n\
    020004000100020000000000000006\n\
    020005000100020000000000000006\n";
const CHAIN: &[u8] = b"0300010004000500010000000000000001\n040003\n";
const KEPT: &[u8] = b"050001\n050002\n050005\n06000000000000000e0000000000000015\n";

/// The digits of the second span's cost.
const ONE: &str = "0000000000000001";

/// The table with some digits exchanged for others.
fn changed(from: &str, to: &str) -> Vec<u8> {
    assert!(TABLE.contains(from));
    TABLE.replacen(from, to, 1).into_bytes()
}

#[test]
fn a_table_is_planned_as_the_network_it_stands_for() {
    let table = TABLE.as_bytes();
    assert_eq!(thinning::check_table(table), Ok(()));
    assert_eq!(thinning::table_network(table), Ok(NETWORK.to_vec()));
    let plan = thinning::plan_table(table).expect("it is accepted");
    assert_eq!(plan.chain, CHAIN);
    assert_eq!(plan.kept, KEPT);
    assert_eq!(thinning::plan(NETWORK), Ok(plan));
}

#[test]
fn a_table_is_refused_by_name() {
    let left_over = [TABLE, "0"].concat().into_bytes();
    let cases = [
        (Vec::new(), Refusal::Form),
        (left_over, Refusal::Form),
        (changed("0800030000", "0801010000"), Refusal::Vertices),
        (changed("0800030000", "0800030006"), Refusal::Reserved),
        (changed("08000300000003", "08000300000007"), Refusal::Total),
        (changed("0900010002", "0900010003"), Refusal::Edge),
        (changed("0900000002", "0900000001"), Refusal::Span),
        (changed("090000000202", "090000000205"), Refusal::Span),
        (changed(ONE, "000000e8d4a51001"), Refusal::Cost),
        (changed(ONE, "ffffff172b5aefff"), Refusal::Cost),
        (changed(ONE, "7fffffffffffffff"), Refusal::Cost),
        (changed(ONE, "8000000000000000"), Refusal::Cost),
        (changed(ONE, "00000001"), Refusal::Form),
        (changed("090000000202", "090000000203"), Refusal::Total),
    ];
    for (text, refusal) in cases {
        assert_eq!(thinning::check_table(&text), Err(refusal));
        assert_eq!(thinning::plan_table(&text), Err(refusal));
        assert_eq!(thinning::table_network(&text), Err(refusal));
    }
}

#[test]
fn costs_up_to_their_limits_are_those_of_the_network() {
    for digits in [
        "000000e8d4a51000",
        "ffffff172b5af000",
        "00000000ffffffff",
        "ffffffff00000000",
    ] {
        let text = changed(ONE, digits);
        let network = thinning::table_network(&text).expect("it reads");
        let due = String::from_utf8(NETWORK.to_vec()).expect("digits");
        assert_eq!(network, due.replace(ONE, digits).into_bytes());
        assert_eq!(thinning::plan_table(&text), thinning::plan(&network));
        assert_eq!(thinning::check_table(&text), Ok(()));
    }
}

#[test]
fn degrees_and_cuts_are_not_looked_at_where_a_network_is_written() {
    let uneven = b"08000300000002\n0900000001030000000000000000\n0900000002030000000000000000\n";
    let islands = b"08000400000002\n0900000001040000000000000000\n0900020003040000000000000000\n";
    let cases = [(&uneven[..], Refusal::Degree), (islands, Refusal::Cut)];
    for (text, refusal) in cases {
        assert_eq!(thinning::check_table(text), Err(refusal));
        assert_eq!(thinning::plan_table(text), Err(refusal));
        assert!(thinning::table_network(text).is_ok());
    }
}

#[test]
fn a_short_buffer_is_left_alone() {
    let table = TABLE.as_bytes();
    for lengths in [[CHAIN.len() - 1, KEPT.len()], [CHAIN.len(), KEPT.len() - 1]] {
        let [mut chain, mut kept] = lengths.map(|length| vec![7; length]);
        let (mut chain_written, mut kept_written) = (5, 6);
        let answer = raw::plan_table(
            table,
            &mut chain,
            &mut kept,
            &mut chain_written,
            &mut kept_written,
        );
        assert_eq!(answer, Refusal::ShortBuffer.number());
        assert_eq!([chain, kept], lengths.map(|length| vec![7; length]));
        assert_eq!((chain_written, kept_written), (5, 6));
    }
    let mut network = vec![7; NETWORK.len() - 1];
    let mut written = 5;
    let answer = raw::table_network(table, &mut network, &mut written);
    assert_eq!(answer, Refusal::ShortBuffer.number());
    assert_eq!((network, written), (vec![7; NETWORK.len() - 1], 5));
}

#[test]
fn a_longer_buffer_keeps_its_bytes_behind_the_text() {
    let mut network = vec![7; NETWORK.len() + 3];
    let mut written = 5;
    let answer = raw::table_network(TABLE.as_bytes(), &mut network, &mut written);
    assert_eq!((answer, written), (0, NETWORK.len()));
    assert_eq!(network, [NETWORK, &[7; 3]].concat());
}
