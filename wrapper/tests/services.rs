//! Each service on the printed network of document 01, and its refusals.

use thinning::{raw, Audit, Chain, Network, Refusal};

const NETWORK: &[u8] = include_bytes!("../../crates/plan/stdin");
const CHAIN: &[u8] = b"030001000400050001fffffffffffffffe\n040003\n";
const KEPT: &[u8] = b"050001\n050002\n050005\n0600000000000000080000000000000010\n";

fn meaning() -> Network {
    Network {
        vertices: 3,
        reserved: 0,
        low: vec![0, 0, 0, 0, 1, 1],
        high: vec![1, 1, 2, 2, 2, 2],
        cost: vec![7, 4, 1, 2, 6, 3],
    }
}

/// The meaning of the chain.
fn chain() -> Chain {
    Chain {
        v: vec![1],
        x: vec![4],
        y: vec![5],
        z: vec![1],
        cost: vec![-2],
        dropped: 3,
    }
}

/// The digits of the first edge's cost.
const SEVEN: &str = "0000000000000007";

/// A text with some bytes exchanged for others.
fn changed(text: &[u8], from: &str, to: &str) -> Vec<u8> {
    let text = String::from_utf8(text.to_vec()).expect("digits");
    assert!(text.contains(from));
    text.replacen(from, to, 1).into_bytes()
}

#[test]
fn the_printed_network_is_planned() {
    assert_eq!(thinning::check_network(NETWORK), Ok(()));
    let plan = thinning::plan(NETWORK).expect("it is accepted");
    assert_eq!(plan.chain, CHAIN);
    assert_eq!(plan.kept, KEPT);
    assert_eq!(thinning::check_chain(NETWORK, CHAIN), Ok(KEPT.to_vec()));
}

/// The network's text with a wrong place for each refusal that a reader gives.
fn broken_texts() -> [(Vec<u8>, Refusal); 5] {
    [
        (
            changed(NETWORK, "0100030000\n", "0100030000"),
            Refusal::Form,
        ),
        (
            changed(NETWORK, "0100030000", "0100010000"),
            Refusal::Vertices,
        ),
        (
            changed(NETWORK, "0100030000", "0100030006"),
            Refusal::Reserved,
        ),
        (changed(NETWORK, "020001", "020000"), Refusal::Edge),
        (changed(NETWORK, SEVEN, "000000e8d4a51001"), Refusal::Cost),
    ]
}

#[test]
fn a_network_is_refused_by_name() {
    let uneven = changed(NETWORK, "02000100000001", "02000100000002");
    let cases = broken_texts()
        .into_iter()
        .chain([(uneven, Refusal::Degree)]);
    for (text, refusal) in cases {
        assert_eq!(thinning::check_network(&text), Err(refusal));
        assert_eq!(thinning::plan(&text), Err(refusal));
        assert_eq!(thinning::check_chain(&text, CHAIN), Err(refusal));
    }
}

#[test]
fn costs_up_to_their_limits_are_read_written_and_planned() {
    let limit = 1_000_000_000_000;
    for (digits, cost) in [
        ("000000e8d4a51000", limit),
        ("ffffff172b5af000", -limit),
        // In four bytes these would be -1 and 0.
        ("00000000ffffffff", 4_294_967_295),
        ("ffffffff00000000", -4_294_967_296),
    ] {
        let text = changed(NETWORK, SEVEN, digits);
        let mut due = meaning();
        due.cost[0] = cost;
        assert_eq!(thinning::read_network(&text).as_ref(), Ok(&due));
        assert_eq!(thinning::write_network(&due).as_ref(), Ok(&text));
        assert!(thinning::plan(&text).is_ok());
        let page = format!("     0     0     1{cost:>18}\n{cost:>36}\n");
        let printed = thinning::print_page(&text, b"050000\n");
        assert_eq!(printed.as_deref(), Ok(page.as_bytes()));
    }
}

#[test]
fn costs_beyond_their_limits_are_refused() {
    for digits in [
        "000000e8d4a51001",
        "ffffff172b5aefff",
        "7fffffffffffffff",
        "8000000000000000",
        "0000010000000001",
    ] {
        let text = changed(NETWORK, SEVEN, digits);
        assert_eq!(thinning::check_network(&text), Err(Refusal::Cost));
        assert_eq!(thinning::read_network(&text), Err(Refusal::Cost));
        assert_eq!(thinning::plan(&text), Err(Refusal::Cost));
        assert_eq!(thinning::audit(&text, b""), Err(Refusal::Cost));
    }
    for cost in [1_000_000_000_001, -1_000_000_000_001, i64::MAX, i64::MIN] {
        let mut network = meaning();
        network.cost[0] = cost;
        assert_eq!(thinning::write_network(&network), Err(Refusal::Cost));
    }
}

#[test]
fn a_cost_of_four_bytes_is_refused_for_its_form() {
    let text = changed(NETWORK, SEVEN, "00000007");
    assert_eq!(thinning::check_network(&text), Err(Refusal::Form));
    assert_eq!(thinning::read_network(&text), Err(Refusal::Form));
    assert_eq!(thinning::plan(&text), Err(Refusal::Form));
    assert_eq!(thinning::audit(&text, b""), Err(Refusal::Form));
}

#[test]
fn a_chain_is_refused_by_name() {
    let cases = [
        ("03000100040005", "03000200040005", Refusal::StepVertex),
        ("03000100040005", "03000100000005", Refusal::StepPartner),
        ("03000100040005", "03000100010005", Refusal::Admissible),
        ("03000100040005", "03000100050004", Refusal::CheaperX),
        ("040003", "040000", Refusal::Dropped),
        (
            "0001fffffffffffffffe",
            "0002fffffffffffffffe",
            Refusal::NotGiven,
        ),
        (
            "0001fffffffffffffffe",
            "fffffffffffffffffffe",
            Refusal::NotGiven,
        ),
        ("fffffffffffffffe", "ffffffffffffffff", Refusal::NotGiven),
        ("fffffffffffffffe", "0000000000000002", Refusal::NotGiven),
        ("fffffffffffffffe", "7fffffffffffffff", Refusal::NotGiven),
        ("fffffffffffffffe", "8000000000000000", Refusal::NotGiven),
        // v, x and y alone, and a cost of four bytes.
        ("0001fffffffffffffffe", "", Refusal::Form),
        ("fffffffffffffffe", "fffffffe", Refusal::Form),
    ];
    for (from, to, refusal) in cases {
        let chain = changed(CHAIN, from, to);
        assert_eq!(thinning::check_chain(NETWORK, &chain), Err(refusal));
    }
    assert_eq!(thinning::check_chain(NETWORK, b""), Err(Refusal::Form));
}

#[test]
fn a_wrong_third_partner_is_refused_behind_x_and_before_what_follows() {
    let wrong = changed(CHAIN, "0001fffffffffffffffe", "00050000000000000000");
    let cheaper = changed(&wrong, "00040005", "00050004");
    assert_eq!(
        thinning::check_chain(NETWORK, &cheaper),
        Err(Refusal::CheaperX)
    );
    for behind in ["", "junk", "040000\n", "040003\n0"] {
        let chain = changed(&wrong, "040003\n", behind);
        assert_eq!(
            thinning::check_chain(NETWORK, &chain),
            Err(Refusal::NotGiven)
        );
    }
}

#[test]
fn a_refused_chain_leaves_its_buffer_alone() {
    let wrong = changed(CHAIN, "fffffffffffffffe", "fffffffffffffffd");
    for length in [0, KEPT.len() - 1, KEPT.len(), KEPT.len() + 40] {
        let mut kept = vec![7; length];
        let mut written = 5;
        let answer = raw::check_chain(NETWORK, &wrong, &mut kept, &mut written);
        assert_eq!(answer, Refusal::NotGiven.number());
        assert_eq!((kept, written), (vec![7; length], 5));
    }
}

#[test]
fn the_printed_network_is_audited() {
    // Lists, whether they join all vertices, how many they join to vertex 0, and how many of their edges are critical.
    let cases: [(&[u16], bool, usize, usize); 4] = [
        (&[1, 2, 5], true, 3, 0),
        (&[1, 2], true, 3, 2),
        (&[4, 5], false, 1, 0),
        (&[], false, 1, 0),
    ];
    for (edges, connected, reached, critical) in cases {
        let list = thinning::write_list(3, edges).expect("the list rises");
        let due = Audit {
            connected,
            reached,
            critical,
        };
        assert_eq!(thinning::audit(NETWORK, &list), Ok(due));
    }
}

#[test]
fn an_audit_is_refused_by_name() {
    let uneven = changed(NETWORK, "02000100000001", "02000100000002");
    assert!(thinning::audit(&uneven, b"").is_ok());
    let broken = changed(NETWORK, "0100030000\n", "0100030000");
    assert_eq!(thinning::audit(&broken, b"050006\n"), Err(Refusal::Form));
    assert_eq!(thinning::audit(NETWORK, b"050005"), Err(Refusal::Form));
    assert_eq!(thinning::audit(NETWORK, b"050006\n"), Err(Refusal::Listed));
}

#[test]
fn a_list_of_the_printed_network_is_printed() {
    let kept = [
        "     1     0     1                 4\n",
        "     2     0     2                 1\n",
        "     5     1     2                 3\n",
        "                                   8\n",
    ]
    .concat();
    let reserved = [
        "     0     0     1                 7\n",
        "                                   7\n",
    ]
    .concat();
    let empty = format!("{:>36}\n", 0);
    let cases: [(&[u16], &str); 3] = [(&[1, 2, 5], &kept), (&[0], &reserved), (&[], &empty)];
    for (edges, page) in cases {
        let list = thinning::write_list(3, edges).expect("the list rises");
        let printed = thinning::print_page(NETWORK, &list);
        assert_eq!(printed.as_deref(), Ok(page.as_bytes()));
    }
}

#[test]
fn costs_below_zero_are_printed_with_a_minus() {
    let network = changed(NETWORK, "0000000000000004", "ffffff172b5af000");
    let page = [
        "     1     0     1    -1000000000000\n",
        "     5     1     2                 3\n",
        "                       -999999999997\n",
    ]
    .concat();
    let printed = thinning::print_page(&network, b"050001\n050005\n");
    assert_eq!(printed.as_deref(), Ok(page.as_bytes()));
}

#[test]
fn a_page_is_refused_by_name() {
    for (text, refusal) in broken_texts() {
        assert_eq!(thinning::print_page(&text, b"050006\n"), Err(refusal));
    }
    let broken = b"050006";
    assert_eq!(thinning::print_page(NETWORK, broken), Err(Refusal::Form));
    let too_high = b"050006\n";
    let refused = thinning::print_page(NETWORK, too_high);
    assert_eq!(refused, Err(Refusal::Listed));
    assert_eq!(raw::print_page(NETWORK, too_high, &mut [], &mut 0), 14);
    // Degrees and cuts are not looked at.
    let uneven = changed(NETWORK, "02000100000001", "02000100000002");
    assert!(thinning::print_page(&uneven, b"").is_ok());
}

#[test]
fn a_page_has_37_bytes_for_each_line() {
    let list = b"050001\n050005\n";
    let due = thinning::print_page(NETWORK, list).expect("both read");
    assert_eq!(due.len(), 3 * 37);
    for length in [0, 2 * 37, 3 * 37 - 1] {
        let mut page = vec![7; length];
        let mut written = 5;
        let answer = raw::print_page(NETWORK, list, &mut page, &mut written);
        assert_eq!(answer, Refusal::ShortBuffer.number());
        assert_eq!((page, written), (vec![7; length], 5));
    }
    for more in [0, 1, 40] {
        let mut page = vec![7; due.len() + more];
        let mut written = 5;
        let answer = raw::print_page(NETWORK, list, &mut page, &mut written);
        assert_eq!((answer, written), (0, due.len()));
        assert_eq!(page, [&due[..], &vec![7; more]].concat());
    }
}

#[test]
fn readers_and_writers_are_inverse() {
    assert_eq!(thinning::read_network(NETWORK), Ok(meaning()));
    assert_eq!(thinning::write_network(&meaning()), Ok(NETWORK.to_vec()));
    assert_eq!(thinning::write_chain(3, &chain()), Ok(CHAIN.to_vec()));
    assert_eq!(thinning::read_chain(3, CHAIN), Ok(chain()));
    assert_eq!(thinning::read_list(3, b"050001\n050005\n"), Ok(vec![1, 5]));
    assert_eq!(
        thinning::write_list(3, &[1, 5]),
        Ok(b"050001\n050005\n".to_vec())
    );
    assert_eq!(thinning::read_list(3, b""), Ok(Vec::new()));
}

#[test]
fn steps_are_read_and_written_at_any_cost() {
    for (digits, cost) in [
        ("7fffffffffffffff", i64::MAX),
        ("8000000000000000", i64::MIN),
        ("000000e8d4a51001", 1_000_000_000_001),
        ("00000000fffffffe", 4_294_967_294),
    ] {
        let text = changed(CHAIN, "fffffffffffffffe", digits);
        let cost = vec![cost];
        let meaning = Chain { cost, ..chain() };
        assert_eq!(thinning::write_chain(3, &meaning).as_ref(), Ok(&text));
        assert_eq!(thinning::read_chain(3, &text), Ok(meaning));
    }
}

#[test]
fn every_column_of_steps_has_its_length() {
    let changes: [fn(&mut Chain, usize); 5] = [
        |chain, length| chain.v.resize(length, 1),
        |chain, length| chain.x.resize(length, 4),
        |chain, length| chain.y.resize(length, 5),
        |chain, length| chain.z.resize(length, 1),
        |chain, length| chain.cost.resize(length, -2),
    ];
    for change in changes {
        for (length, due) in [
            (0, Err(Refusal::Form)),
            (1, Ok(CHAIN.to_vec())),
            (2, Err(Refusal::Form)),
        ] {
            let mut meaning = chain();
            change(&mut meaning, length);
            assert_eq!(thinning::write_chain(3, &meaning), due);
        }
    }
}

#[test]
fn a_short_column_of_steps_is_left_alone() {
    for short in 0..5 {
        let room = |column| if column == short { 0 } else { 2 };
        let [mut v, mut x, mut y, mut z] = [0, 1, 2, 3].map(|column| vec![7; room(column)]);
        let mut cost = vec![7; room(4)];
        let mut dropped = 5;
        let columns = raw::StepsMut {
            v: &mut v,
            x: &mut x,
            y: &mut y,
            z: &mut z,
            cost: &mut cost,
        };
        let answer = raw::read_chain(3, CHAIN, columns, &mut dropped);
        assert_eq!(answer, Refusal::ShortBuffer.number());
        let due = [0, 1, 2, 3].map(|column| vec![7; room(column)]);
        assert_eq!(([v, x, y, z], dropped), (due, 5));
        assert_eq!(cost, vec![7; room(4)]);
    }
}

#[test]
fn meanings_are_refused_by_name() {
    let mut short = meaning();
    short.cost.pop();
    assert_eq!(thinning::write_network(&short), Err(Refusal::Form));
    assert_eq!(thinning::read_chain(257, CHAIN), Err(Refusal::Vertices));
    assert_eq!(
        thinning::read_chain(usize::MAX, CHAIN),
        Err(Refusal::Vertices)
    );
    assert_eq!(thinning::write_list(3, &[5, 5]), Err(Refusal::Listed));
    assert_eq!(thinning::read_list(3, b"050006\n"), Err(Refusal::Listed));
}

#[test]
fn a_short_buffer_is_left_alone() {
    let mut chain = [7; 42];
    let mut kept = [9; 55];
    let (mut chain_written, mut kept_written) = (5, 6);
    let answer = raw::plan(
        NETWORK,
        &mut chain,
        &mut kept,
        &mut chain_written,
        &mut kept_written,
    );
    assert_eq!(answer, Refusal::ShortBuffer.number());
    assert_eq!((chain, kept), ([7; 42], [9; 55]));
    assert_eq!((chain_written, kept_written), (5, 6));
    assert_eq!(raw::check_chain(NETWORK, CHAIN, &mut [], &mut 0), 13);
    assert_eq!(raw::read_list(3, b"", &mut [], &mut 0), 0);
}
