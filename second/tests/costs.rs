//! Costs on both sides of their limits, of edges and of spans, and frames whose costs have another
//! width.

mod common;

use common::{lines_replaced, T, TRIANGLE};
use second::generate::{self, CostStyle, Family, Rng};
use second::properties::judge_kept;
use second::texts::COST_LIMIT;
use second::{
    audit, check_chain, check_network, check_table, plan, plan_table, print_page, read_kept,
    read_network, read_table, table_network, write_network, write_table, Refusal,
};

/// Costs within the limits, by their digits.
const WITHIN: [(&str, i64); 16] = [
    ("000000e8d4a51000", 1_000_000_000_000),
    ("000000e8d4a50fff", 999_999_999_999),
    ("ffffff172b5af000", -1_000_000_000_000),
    ("ffffff172b5af001", -999_999_999_999),
    // Numbers that four bytes hold, hold with another sign, or don't hold.
    ("000000003b9aca01", 1_000_000_001),
    ("ffffffffc46535ff", -1_000_000_001),
    ("000000007fffffff", 2_147_483_647),
    ("ffffffff80000000", -2_147_483_648),
    ("0000000080000000", 2_147_483_648),
    ("ffffffff7fffffff", -2_147_483_649),
    ("00000000ffffffff", 4_294_967_295),
    ("ffffffff00000001", -4_294_967_295),
    ("0000000100000000", 4_294_967_296),
    ("ffffffff00000000", -4_294_967_296),
    ("0000000100000001", 4_294_967_297),
    ("fffffffeffffffff", -4_294_967_297),
];

/// Costs beyond the limits.
const BEYOND: [&str; 12] = [
    "000000e8d4a51001",
    "ffffff172b5aefff",
    "7fffffffffffffff",
    "8000000000000000",
    // In four bytes, the low ones or the high ones, they would be within.
    "0000010000000000",
    "0000010000000001",
    "ffffff0000000000",
    "fffffeffffffffff",
    "7fffffff00000001",
    "80000000ffffffff",
    "3b9aca0000000000",
    "c465360000000000",
];

/// The printed network with this cost of its first edge.
fn network_with(cost: &str) -> Vec<u8> {
    let line = ["02000000000001", cost].concat();
    lines_replaced(T, &[(1, &line)])
}

/// The triangle with this cost of its first span.
fn table_with(cost: &str) -> Vec<u8> {
    let line = ["090000000102", cost].concat();
    lines_replaced(TRIANGLE, &[(1, &line)])
}

/// Every service that takes a network text refuses it.
fn assert_network_refused(text: &[u8], refusal: Refusal) {
    assert_eq!(check_network(text), Err(refusal));
    assert_eq!(plan(text), Err(refusal));
    assert_eq!(read_network(text), Err(refusal));
    assert_eq!(check_chain(text, b""), Err(refusal));
    assert_eq!(audit(text, b""), Err(refusal));
    assert_eq!(print_page(text, b""), Err(refusal));
}

/// Every service that takes a table text refuses it.
fn assert_table_refused(text: &[u8], refusal: Refusal) {
    assert_eq!(check_table(text), Err(refusal));
    assert_eq!(plan_table(text), Err(refusal));
    assert_eq!(read_table(text), Err(refusal));
    assert_eq!(table_network(text), Err(refusal));
}

#[test]
fn an_edge_within_the_limits_is_read_written_planned_and_printed() {
    for (digits, cost) in WITHIN {
        let text = network_with(digits);
        let network = read_network(&text).unwrap();
        assert_eq!(network.edges[0].cost, cost);
        assert_eq!(write_network(&network).as_ref(), Ok(&text));
        let plan = plan(&text).unwrap();
        assert_eq!(check_chain(&text, &plan.chain).as_ref(), Ok(&plan.kept));
        assert_eq!(judge_kept(&text, &plan.kept), Ok(()));
        let page = format!("     0     0     1{cost:>18}\n{cost:>36}\n");
        assert_eq!(print_page(&text, b"050000\n"), Ok(page.into_bytes()));
    }
}

#[test]
fn a_span_within_the_limits_is_read_written_and_planned() {
    for (digits, cost) in WITHIN {
        let text = table_with(digits);
        let table = read_table(&text).unwrap();
        assert_eq!(table.spans[0].cost, cost);
        assert_eq!(write_table(&table).as_ref(), Ok(&text));
        let network = table_network(&text).unwrap();
        let edges = read_network(&network).unwrap().edges;
        assert_eq!([edges[0].cost, edges[1].cost], [cost; 2]);
        assert_eq!(plan_table(&text), plan(&network));
        // All edges but the reserved one, which is the other one of the first span.
        let kept = read_kept(&plan_table(&text).unwrap().kept).unwrap();
        assert_eq!(kept.total, cost + 1 + 1 + 6 + 6);
    }
}

#[test]
fn costs_beyond_the_limits_are_refused() {
    for digits in BEYOND {
        assert_network_refused(&network_with(digits), 5);
        assert_table_refused(&table_with(digits), 5);
    }
    let mut network = read_network(T.as_bytes()).unwrap();
    let mut table = read_table(TRIANGLE.as_bytes()).unwrap();
    let next = COST_LIMIT + 1;
    for cost in [next, -next, i64::MAX, i64::MIN, 1 << 40, -1 << 40] {
        network.edges[0].cost = cost;
        assert_eq!(write_network(&network), Err(5));
        table.spans[0].cost = cost;
        assert_eq!(write_table(&table), Err(5));
    }
}

/// The printed network with costs of four bytes.
const NARROW_NETWORK: &str = "\
0100030000
0200000000000100000007
0200010000000100000004
0200020000000200000001
0200030000000200000002
0200040001000200000006
0200050001000200000003
";

/// The triangle with costs of four bytes.
const NARROW_TABLE: &str = "\
08000300000003
09000000010200000007
09000000020200000001
09000100020200000006
";

#[test]
fn costs_of_four_bytes_are_refused() {
    assert_network_refused(NARROW_NETWORK.as_bytes(), 1);
    assert_table_refused(NARROW_TABLE.as_bytes(), 1);
    for (place, line) in NARROW_NETWORK.lines().enumerate().skip(1) {
        assert_network_refused(&lines_replaced(T, &[(place, line)]), 1);
    }
    for (place, line) in NARROW_TABLE.lines().enumerate().skip(1) {
        assert_table_refused(&lines_replaced(TRIANGLE, &[(place, line)]), 1);
    }
}

#[test]
fn a_narrow_frame_is_refused_in_its_place() {
    // The frame before it has a cost beyond the limits.
    let (dear, narrow) = ("02000000000001000000e8d4a51001", "0200010000000100000004");
    assert_network_refused(&lines_replaced(T, &[(1, dear), (2, narrow)]), 5);
    let (dear, narrow) = ("090000000102000000e8d4a51001", "09000000020200000001");
    assert_table_refused(&lines_replaced(TRIANGLE, &[(1, dear), (2, narrow)]), 5);
    // Its own numbers and those of the frames behind it are wrong.
    let (narrow, dear) = ("0200050000000100000007", "02000100000001000000e8d4a51001");
    assert_network_refused(&lines_replaced(T, &[(1, narrow), (2, dear)]), 1);
    let (narrow, dear) = ("09000200010200000007", "090000000202000000e8d4a51001");
    assert_table_refused(&lines_replaced(TRIANGLE, &[(1, narrow), (2, dear)]), 1);
}

#[test]
fn the_fields_of_the_other_frame_are_refused() {
    let span_fields = "0200000001020000000000000007";
    assert_network_refused(&lines_replaced(T, &[(1, span_fields)]), 1);
    let edge_fields = "090000000000010000000000000007";
    assert_table_refused(&lines_replaced(TRIANGLE, &[(1, edge_fields)]), 1);
}

#[test]
fn sums_of_all_edges_at_a_limit() {
    for family in Family::ALL {
        for cost in [COST_LIMIT, -COST_LIMIT] {
            let mut rng = Rng::new(2);
            let mut network = generate::network_of(&mut rng, family, 256, CostStyle::Small);
            for edge in &mut network.edges {
                edge.cost = cost;
            }
            let text = generate::text(&network);
            let plan = plan(&text).unwrap();
            assert_eq!(judge_kept(&text, &plan.kept), Ok(()));
            let kept = read_kept(&plan.kept).unwrap();
            assert_eq!(kept.total, 511 * cost);
            let count = i64::try_from(kept.edges.len()).unwrap();
            assert_eq!(kept.cost, count * cost);
        }
    }
}
