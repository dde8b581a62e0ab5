//! The reason of each edge, for chains worked out by hand and for plans, and the refusals of others.

use thinning::{raw, Network, Reason, Refusal, Rule, REASONS_TEXT};

const NETWORK: &[u8] = include_bytes!("../../crates/plan/stdin");
const CHAIN: &[u8] = b"030001000400050001fffffffffffffffe\n040003\n";
/// Edge 4 is out as x, since its z, which is edge 1, is kept.
const REASONS: &[u8] = b"0a0000000000\n\
    0a0001040000\n\
    0a0002040000\n\
    0a0003050000\n\
    0a0004030001\n\
    0a0005010001\n";
/// The bytes of a frame.
const FRAME: usize = 13;

/// A text with some bytes exchanged for others.
fn changed(text: &[u8], from: &str, to: &str) -> Vec<u8> {
    let text = String::from_utf8(text.to_vec()).expect("digits");
    assert!(text.contains(from));
    text.replacen(from, to, 1).into_bytes()
}

/// The network of four vertices in document 01, with another cost of its last edge.
fn square(last: i64) -> Vec<u8> {
    let network = Network {
        vertices: 4,
        reserved: 4,
        low: vec![0, 0, 2, 2, 0, 1, 0, 1],
        high: vec![1, 1, 3, 3, 2, 3, 3, 2],
        cost: vec![2, 5, 1, 4, 9, 3, 6, last],
    };
    thinning::write_network(&network).expect("it is written")
}

/// Vertices around a circle, each joined to the next one and to the one after it.
fn circle(vertices: u16) -> Network {
    let ends =
        (0..vertices).flat_map(|vertex| [1, 2].map(|far| (vertex, (vertex + far) % vertices)));
    let (low, high) = ends.map(|(a, b)| (a.min(b), a.max(b))).unzip();
    Network {
        vertices: usize::from(vertices),
        reserved: 3,
        low,
        high,
        cost: (0..2 * i64::from(vertices))
            .map(|edge| edge * edge * 5 % 23 - 4)
            .collect(),
    }
}

/// The edges of the kept text that the chain's check writes.
fn kept(network: &[u8], chain: &[u8]) -> Vec<u16> {
    let kept = thinning::check_chain(network, chain).expect("it passes");
    let lines = kept.split(|&byte| byte == b'\n');
    let edges = lines.filter_map(|line| line.strip_prefix(b"05"));
    let number = |digits| u16::from_str_radix(str::from_utf8(digits).expect("digits"), 16);
    edges
        .map(|digits| number(digits).expect("digits"))
        .collect()
}

#[test]
fn the_printed_network_byte_for_byte() {
    let mut reasons = vec![7; REASONS.len()];
    let mut written = 5;
    let answer = raw::reasons(NETWORK, CHAIN, &mut reasons, &mut written);
    assert_eq!((answer, written), (0, REASONS.len()));
    assert_eq!(reasons, REASONS);
}

/// Asserts rules and steps by edges.
fn assert_reasons(network: &[u8], chain: &[u8], due: &[(Rule, u16)]) {
    let due = (0..)
        .zip(due)
        .map(|(edge, &(rule, step))| Reason { edge, rule, step });
    assert_eq!(thinning::reasons(network, chain), Ok(due.collect()));
}

#[test]
fn every_rule_is_seen() {
    let [reserved, last, dropped] =
        [Rule::Reserved, Rule::KeptAtEnding, Rule::DroppedAtEnding].map(|rule| (rule, 0));
    let as_y = |step| (Rule::KeptAsY, step);
    let kept_as_x = |step| (Rule::KeptAsX, step);
    let out_as_x = |step| (Rule::OutAsX, step);
    let due = [reserved, last, last, dropped, out_as_x(1), as_y(1)];
    assert_reasons(NETWORK, CHAIN, &due);
    // With edge 1 at 40 the ending drops it; it is the z of edge 4, which is kept for that.
    let dear = changed(NETWORK, "0000000000000004", "0000000000000028");
    let chain = b"0300010004000500010000000000000022\n040001\n";
    let due = [reserved, dropped, last, last, kept_as_x(1), as_y(1)];
    assert_reasons(&dear, chain, &due);
    // The other end of the reserved edge.
    let chain = b"0300000003000200010000000000000002\n040004\n";
    let due = [reserved, last, as_y(1), out_as_x(1), dropped, last];
    assert_reasons(NETWORK, chain, &due);
}

#[test]
fn an_edge_that_was_z_has_the_rule_by_which_it_left() {
    let [reserved, last, dropped] =
        [Rule::Reserved, Rule::KeptAtEnding, Rule::DroppedAtEnding].map(|rule| (rule, 0));
    // Edge 7 is z of the first step and y of the second.
    let chain = b"030002000300020007fffffffffffffffe\n0300030005000700060000000000000003\n040001\n";
    let due = [
        last,
        dropped,
        (Rule::KeptAsY, 1),
        (Rule::OutAsX, 1),
        reserved,
        (Rule::OutAsX, 2),
        last,
        (Rule::KeptAsY, 2),
    ];
    assert_reasons(&square(2), chain, &due);
    // At 20 it is x of the second, and out: so the first step's x is kept.
    let chain = b"0300020003000200070000000000000010\n030003000700050006fffffffffffffff6\n040001\n";
    let due = [
        last,
        dropped,
        (Rule::KeptAsY, 1),
        (Rule::KeptAsX, 1),
        reserved,
        (Rule::KeptAsY, 2),
        last,
        (Rule::OutAsX, 2),
    ];
    assert_reasons(&square(20), chain, &due);
}

#[test]
fn the_kept_edges_are_those_of_the_chains_check() {
    let mut networks = vec![NETWORK.to_vec(), square(2), square(20)];
    for vertices in [5, 8, 31, 256] {
        let text = thinning::write_network(&circle(vertices));
        networks.push(text.expect("it is written"));
    }
    for network in networks {
        let chain = thinning::plan(&network).expect("it is accepted").chain;
        let reasons = thinning::reasons(&network, &chain).expect("it passes");
        let vertices = thinning::read_network(&network).expect("it reads").vertices;
        assert_eq!(reasons.len(), 2 * vertices);
        let keeping = reasons.iter().filter(|reason| reason.rule.keeps());
        let keeping: Vec<u16> = keeping.map(|reason| reason.edge).collect();
        assert_eq!(keeping, kept(&network, &chain));
    }
}

#[test]
fn steps_and_ending_name_the_edges() {
    let network = thinning::write_network(&circle(20)).expect("it is written");
    let text = thinning::plan(&network).expect("it is accepted").chain;
    let chain = thinning::read_chain(20, &text).expect("it reads");
    let reasons = thinning::reasons(&network, &text).expect("it passes");
    let of = |edge: u16| reasons[usize::from(edge)];
    for step in 0..18 {
        let number = u16::try_from(step + 1).expect("there are few steps");
        let [x, y, z] = [chain.x[step], chain.y[step], chain.z[step]].map(of);
        assert_eq!((y.rule, y.step), (Rule::KeptAsY, number));
        let due = if z.rule.keeps() {
            Rule::OutAsX
        } else {
            Rule::KeptAsX
        };
        assert_eq!((x.rule, x.step), (due, number));
    }
    assert_eq!(of(3).rule, Rule::Reserved);
    assert_eq!(of(chain.dropped).rule, Rule::DroppedAtEnding);
    let stepless = reasons.iter().filter(|reason| reason.step == 0);
    assert_eq!(stepless.count(), 4);
}

/// Asserts a refusal, and that the buffer and the number are left alone.
fn assert_refused(network: &[u8], chain: &[u8], room: usize, refusal: Refusal) {
    let mut reasons = vec![7; room];
    let mut written = 5;
    let answer = raw::reasons(network, chain, &mut reasons, &mut written);
    assert_eq!(Refusal::try_from(answer), Ok(refusal));
    assert_eq!((reasons, written), (vec![7; room], 5));
}

/// A text for each refusal of a network.
fn refused_networks() -> [(Vec<u8>, Refusal); 8] {
    let islands = Network {
        vertices: 4,
        reserved: 0,
        low: vec![0, 0, 0, 0, 2, 2, 2, 2],
        high: vec![1, 1, 1, 1, 3, 3, 3, 3],
        cost: vec![0; 8],
    };
    let islands = thinning::write_network(&islands).expect("it is written");
    let with = |from, to| changed(NETWORK, from, to);
    [
        (Vec::new(), Refusal::Form),
        ([NETWORK, b"0"].concat(), Refusal::Form),
        (with("0100030000", "0100010000"), Refusal::Vertices),
        (with("0100030000", "0100030006"), Refusal::Reserved),
        (with("020001", "020000"), Refusal::Edge),
        (with("0000000000000007", "000000e8d4a51001"), Refusal::Cost),
        (with("02000100000001", "02000100000002"), Refusal::Degree),
        (islands, Refusal::Cut),
    ]
}

/// A chain for each refusal over the printed network, with junk behind it where that doesn't matter.
fn refused_chains() -> [(Vec<u8>, Refusal); 10] {
    let with = |from, to| changed(CHAIN, from, to);
    [
        (Vec::new(), Refusal::Form),
        (with("040003\n", ""), Refusal::Form),
        ([CHAIN, b"\n"].concat(), Refusal::Form),
        (with("030001", "030002"), Refusal::StepVertex),
        (with("00040005", "00000005"), Refusal::StepPartner),
        (with("00040005", "00010005"), Refusal::Admissible),
        (with("00040005", "00050004"), Refusal::CheaperX),
        (with("050001", "050002"), Refusal::NotGiven),
        (with("fffe\n040003", "fffd\njunk"), Refusal::NotGiven),
        (with("040003\n", "040002\njunk"), Refusal::Dropped),
    ]
}

/// Buffers that are short of the printed network's reasons, exact, longer and long enough for all.
const ROOMS: [usize; 6] = [
    0,
    REASONS.len() - FRAME,
    REASONS.len() - 1,
    REASONS.len(),
    REASONS.len() + 1,
    REASONS_TEXT,
];

#[test]
fn a_chain_that_does_not_pass_has_the_refusal_of_its_check() {
    for (chain, refusal) in refused_chains() {
        assert_eq!(thinning::check_chain(NETWORK, &chain), Err(refusal));
        assert_eq!(thinning::reasons(NETWORK, &chain), Err(refusal));
        for room in ROOMS {
            assert_refused(NETWORK, &chain, room, refusal);
        }
    }
}

#[test]
fn the_networks_refusals_come_first() {
    for (network, refusal) in refused_networks() {
        for chain in [CHAIN, b"", b"junk"] {
            assert_eq!(thinning::reasons(&network, chain), Err(refusal));
            for room in ROOMS {
                assert_refused(&network, chain, room, refusal);
            }
        }
    }
}

#[test]
fn a_short_buffer_is_refused_last_and_left_alone() {
    // A buffer that takes the kept text is still too short.
    let kept = thinning::check_chain(NETWORK, CHAIN).expect("it passes");
    for room in [0, 1, kept.len(), REASONS.len() - FRAME, REASONS.len() - 1] {
        assert_refused(NETWORK, CHAIN, room, Refusal::ShortBuffer);
    }
}

#[test]
fn a_longer_buffer_keeps_its_bytes_behind_the_frames() {
    for more in [1, FRAME, 40] {
        let mut reasons = vec![7; REASONS.len() + more];
        let mut written = 5;
        let answer = raw::reasons(NETWORK, CHAIN, &mut reasons, &mut written);
        assert_eq!((answer, written), (0, REASONS.len()));
        assert_eq!(reasons, [REASONS, &vec![7; more]].concat());
    }
}

#[test]
fn the_largest_network_fills_the_longest_reasons() {
    let network = thinning::write_network(&circle(256)).expect("it is written");
    let chain = thinning::plan(&network).expect("it is accepted").chain;
    let mut reasons = vec![7; REASONS_TEXT];
    let mut written = 5;
    let answer = raw::reasons(&network, &chain, &mut reasons, &mut written);
    assert_eq!((answer, written), (0, REASONS_TEXT));
    assert!(reasons.starts_with(b"0a0000"));
    assert!(reasons.ends_with(b"\n"));
    assert_refused(&network, &chain, REASONS_TEXT - 1, Refusal::ShortBuffer);
}
