//! What holds of every kept text, checked without the chain it came from, of every chain that
//! passes, checked without judging a cut, of its reasons, checked by what it keeps, of the sums of
//! every candidate, checked without a plan, and of every page, checked without printing one.

use std::collections::BTreeMap;

use crate::candidates::{read_candidates, Sums};
use crate::cuts::Multigraph;
use crate::network::Method;
use crate::page::{read_page, Page};
use crate::reasons::{read_reasons, Reason, Rule};
use crate::tables::{read_table, table_network, Table};
use crate::texts::{read_chain, read_kept, read_list, read_network, Edge, Network, Step};
use crate::working::as_number;

/// Says what is wrong with a kept text over an accepted network, if anything is.
///
/// Looked at: form, rising order, the reserved edge, both sums, the ratio of two thirds,
/// and two kept edges across every cut of all the network's vertices.
pub fn judge_kept(network_text: &[u8], kept_text: &[u8]) -> Result<(), String> {
    let network = read_network(network_text).map_err(|r| format!("network refused by {r}"))?;
    let kept = read_kept(kept_text).map_err(|_| "broken kept text".to_owned())?;

    if kept.edges.windows(2).any(|pair| pair[0] >= pair[1]) {
        return Err("kept edges don't rise".to_owned());
    }
    let numbers: Vec<usize> = kept.edges.iter().map(|&edge| edge.into()).collect();
    if numbers.iter().any(|&edge| edge >= network.edges.len()) {
        return Err("no such edge".to_owned());
    }
    if numbers.contains(&network.reserved) {
        return Err("the reserved edge is kept".to_owned());
    }

    let cost: i64 = numbers.iter().map(|&edge| network.edges[edge].cost).sum();
    let total = all_but(&network, network.reserved);
    if (cost, total) != (kept.cost, kept.total) {
        return Err(format!("the sums are {cost} and {total}"));
    }
    judge_ratio(cost, total)?;
    if !every_cut_has_two(&network, &numbers) {
        return Err("a cut is crossed by fewer than two kept edges".to_owned());
    }
    Ok(())
}

/// Says what is wrong with a chain text over an accepted network, if anything is.
///
/// Looked at: form; at each step, that the reserved edge, x, y and z are the edges at v, that x
/// doesn't cost less than y, and that the cost of z becomes its own less that of x; at the end,
/// that a dearest edge is dropped. Whether x and y are admissible isn't looked at.
pub fn judge_chain(network_text: &[u8], chain_text: &[u8]) -> Result<(), String> {
    let network = read_network(network_text).map_err(|r| format!("network refused by {r}"))?;
    let chain = read_chain(network.vertices, chain_text);
    let chain = chain.map_err(|_| "broken chain text".to_owned())?;
    let reserved = as_number(network.reserved);
    let mut edges: BTreeMap<u16, Edge> = (0..).zip(network.edges).collect();
    for (number, step) in (1..).zip(chain.steps) {
        judge_step(&mut edges, reserved, step)
            .map_err(|fault| format!("step {number}: {fault}"))?;
    }
    let cost = |edge: &u16| edges[edge].cost;
    let last: Vec<u16> = edges.keys().copied().filter(|&e| e != reserved).collect();
    if !last.contains(&chain.dropped) {
        return Err("the dropped edge isn't one of the last".to_owned());
    }
    if last.iter().map(cost).max() > Some(cost(&chain.dropped)) {
        return Err("the dropped edge isn't a dearest".to_owned());
    }
    Ok(())
}

/// Says what is wrong with a step, if anything is, and takes it. The ends of an edge may be in any
/// order.
fn judge_step(edges: &mut BTreeMap<u16, Edge>, reserved: u16, step: Step) -> Result<(), String> {
    let Step { v, x, y, z, cost } = step;
    let at_v = |edge: &Edge| edge.low == v || edge.high == v;
    let around = edges.iter().filter(|(_, edge)| at_v(edge));
    let around: Vec<u16> = around.map(|(&number, _)| number).collect();
    let mut named = [reserved, x, y, z];
    named.sort_unstable();
    if around != named {
        return Err(format!("the edges at {v} are {around:?}"));
    }
    let [to_u, to_x, to_y, to_z] = [reserved, x, y, z].map(|number| {
        let Edge { low, high, cost } = edges[&number];
        (if low == v { high } else { low }, cost)
    });
    if to_x.1 < to_y.1 {
        return Err(format!("x costs {} and y {}", to_x.1, to_y.1));
    }
    if cost != to_z.1 - to_x.1 {
        return Err(format!("z costs {} and x {}", to_z.1, to_x.1));
    }
    let joined = |low, high, cost| Edge { low, high, cost };
    edges.insert(reserved, joined(to_u.0, to_x.0, to_u.1));
    edges.insert(z, joined(to_y.0, to_z.0, cost));
    edges.remove(&x);
    edges.remove(&y);
    Ok(())
}

/// Says what is wrong with the reasons of a chain that passes and keeps these edges, if anything is.
///
/// Looked at: form, one frame for each edge in edge order; that the reserved edge alone has rule 0,
/// the dropped edge alone rule 5 and two edges rule 4; that of each step y alone has rule 1 and x
/// alone rule 2 or 3, as z is kept or isn't; and that rules 1, 2 and 4 are those of the kept edges.
pub fn judge_reasons(
    network_text: &[u8],
    chain_text: &[u8],
    kept_text: &[u8],
    text: &[u8],
) -> Result<(), String> {
    let network = read_network(network_text).map_err(|r| format!("network refused by {r}"))?;
    let chain = read_chain(network.vertices, chain_text);
    let chain = chain.map_err(|_| "broken chain text".to_owned())?;
    let kept = read_kept(kept_text).map_err(|_| "broken kept text".to_owned())?;
    let reasons = read_reasons(text).map_err(|_| "broken frames".to_owned())?;

    let every_edge = (0..).take(network.edges.len());
    if !reasons.iter().map(|reason| reason.edge).eq(every_edge) {
        return Err("there isn't one frame for each edge in order".to_owned());
    }
    let with = |rule: Rule, step: u16| edges_with(&reasons, rule, step);
    if with(Rule::Reserved, 0) != [as_number(network.reserved)] {
        return Err("the reserved edge alone has rule 0".to_owned());
    }
    if with(Rule::DroppedAtEnding, 0) != [chain.dropped] {
        return Err("the dropped edge alone has rule 5".to_owned());
    }
    if with(Rule::KeptAtEnding, 0).len() != 2 {
        return Err("two edges have rule 4".to_owned());
    }
    for (number, step) in (1..).zip(&chain.steps) {
        let of_x = if kept.edges.contains(&step.z) {
            Rule::OutAsX
        } else {
            Rule::KeptAsX
        };
        if with(Rule::KeptAsY, number) != [step.y] || with(of_x, number) != [step.x] {
            return Err(format!("step {number} retires x by {of_x:?} and y"));
        }
    }
    let keeping = reasons.iter().filter(|reason| reason.rule.keeps());
    if !keeping.map(|reason| &reason.edge).eq(&kept.edges) {
        return Err("other edges are kept".to_owned());
    }
    Ok(())
}

/// The edges that have this rule and this step.
fn edges_with(reasons: &[Reason], rule: Rule, step: u16) -> Vec<u16> {
    let having = reasons.iter().filter(|r| (r.rule, r.step) == (rule, step));
    having.map(|reason| reason.edge).collect()
}

/// The sum of the costs of all edges but one.
fn all_but(network: &Network, reserved: usize) -> i64 {
    (0..network.edges.len())
        .filter(|&edge| edge != reserved)
        .map(|edge| network.edges[edge].cost)
        .sum()
}

/// Whether a kept cost is at most two thirds of the total, whatever both are.
fn judge_ratio(cost: i64, total: i64) -> Result<(), String> {
    if 3 * i128::from(cost) > 2 * i128::from(total) {
        Err(format!("{cost} is above two thirds of {total}"))
    } else {
        Ok(())
    }
}

/// Says what is wrong with the frames 06 of candidates over a network, if anything is.
///
/// Looked at: form, one frame for each candidate in list order, by the sum of all edges but that
/// one, and the ratio of two thirds.
pub fn judge_candidates(network_text: &[u8], reserved: &[u16], text: &[u8]) -> Result<(), String> {
    let network = read_network(network_text).map_err(|r| format!("network refused by {r}"))?;
    let sums = read_candidates(text).map_err(|_| "broken frames".to_owned())?;
    if sums.len() != reserved.len() {
        return Err(format!("{} frames", sums.len()));
    }
    for (&edge, Sums { cost, total }) in reserved.iter().zip(sums) {
        let due = all_but(&network, edge.into());
        if total != due {
            return Err(format!("the sum of all but {edge} is {due}"));
        }
        judge_ratio(cost, total)?;
    }
    Ok(())
}

/// Says what is wrong with a kept text over an accepted table, if anything is.
///
/// Looked at: what [`judge_kept`] looks at, for the network that the table stands for, and
/// the bound of four thirds.
pub fn judge_table_kept(table_text: &[u8], kept_text: &[u8]) -> Result<(), String> {
    let refused = |refusal| format!("table refused by {refusal}");
    let table = read_table(table_text).map_err(refused)?;
    let network_text = table_network(table_text).map_err(refused)?;
    judge_kept(&network_text, kept_text)?;
    let kept = read_kept(kept_text).map_err(|_| "broken kept text".to_owned())?;
    if within_four_thirds(&table, kept.cost) {
        Ok(())
    } else {
        Err(format!("{} is above the bound of four thirds", kept.cost))
    }
}

/// Whether a kept cost is at most four thirds of the solver's cost, which is half the sum of
/// cost times doubled weight over all spans. Nothing is promised if a cost is below zero.
pub fn within_four_thirds(table: &Table, kept_cost: i64) -> bool {
    let costs = table.spans.iter().map(|span| span.cost);
    let weights = table.spans.iter().map(|span| i64::from(span.weight));
    let doubled: i64 = costs.zip(weights).map(|(cost, weight)| cost * weight).sum();
    table.spans.iter().any(|span| span.cost < 0) || 3 * kept_cost <= 2 * doubled
}

/// Says what is wrong with the page of a list over a network that reads, if anything is.
///
/// Looked at: the form of each line, the sum of the printed costs, and that the listed edges are
/// printed with their own ends and costs, so that no other list prints alike.
pub fn judge_page(network_text: &[u8], list_text: &[u8], page: &[u8]) -> Result<(), String> {
    let network = read_network(network_text).map_err(|r| format!("network refused by {r}"))?;
    let list = read_list(network.vertices, list_text);
    let list = list.map_err(|r| format!("list refused by {r}"))?;
    let Page { edges, sum } = read_page(page).ok_or("a line of another form")?;

    let printed: i64 = edges.iter().map(|(_, edge)| edge.cost).sum();
    if sum != printed {
        return Err(format!("the sum of the printed costs is {printed}"));
    }
    let edge_of = |&number: &u16| (number, network.edges[usize::from(number)]);
    let due: Vec<(u16, Edge)> = list.iter().map(edge_of).collect();
    if edges == due {
        Ok(())
    } else {
        Err("the printed edges aren't those of the list".to_owned())
    }
}

/// Whether at least two of the given edges cross every cut: each cut is counted in small
/// networks, flows serve in larger ones.
pub fn every_cut_has_two(network: &Network, numbers: &[usize]) -> bool {
    let whole = network.multigraph();
    let kept = Multigraph {
        vertices: whole.vertices,
        edges: numbers.iter().map(|&edge| whole.edges[edge]).collect(),
    };
    if kept.vertices <= Method::MOST_COUNTED {
        kept.every_cut_counted(2)
    } else {
        kept.every_cut_by_flows(2)
    }
}

#[cfg(test)]
mod tests {
    use super::*;
    use crate::texts::{write_kept, Kept};

    const TWO: &[u8] = b"0100020000\n\
        020000000000010000000000000005\n\
        02000100000001ffffffffffffffff\n\
        020002000000010000000000000003\n\
        020003000000010000000000000003\n";

    fn judge(edges: &[u16], cost: i64, total: i64) -> Result<(), String> {
        let edges = edges.to_vec();
        judge_kept(TWO, &write_kept(&Kept { edges, cost, total }))
    }

    #[test]
    fn a_good_kept_text_passes() {
        assert_eq!(judge(&[1, 2], 2, 5), Ok(()));
    }

    #[test]
    fn each_fault_is_found() {
        assert!(judge(&[2, 1], 2, 5).is_err());
        assert!(judge(&[1, 1], -2, 5).is_err());
        assert!(judge(&[0, 1], 4, 5).is_err());
        assert!(judge(&[1, 4], 2, 5).is_err());
        assert!(judge(&[1, 2], 3, 5).is_err());
        assert!(judge(&[1, 2], 2, 10).is_err());
        assert!(judge(&[2, 3], 6, 5).is_err());
        assert!(judge(&[1], -1, 5).is_err());
        assert!(judge_kept(TWO, b"").is_err());
        assert!(judge_kept(b"", b"").is_err());
    }

    /// Three vertices, any two of them joined twice, with edge 0 reserved.
    const THREE: &[u8] = b"0100030000\n\
        020000000000010000000000000007\n\
        020001000000010000000000000004\n\
        020002000000020000000000000001\n\
        020003000000020000000000000002\n\
        020004000100020000000000000006\n\
        020005000100020000000000000003\n";

    #[test]
    fn each_fault_of_a_chain_is_found() {
        let right = "030001000400050001fffffffffffffffe\n040003\n";
        let judge = |chain: &str| judge_chain(THREE, chain.as_bytes());
        assert_eq!(judge(right), Ok(()));
        for (from, to) in [
            // Another v, x and y exchanged, another z, another cost, another dropped edge.
            ("030001", "030002"),
            ("00040005", "00050004"),
            ("050001", "050002"),
            ("fffffffffffffffe", "fffffffffffffffd"),
            ("fffffffffffffffe", "0000000000000002"),
            ("fffffffffffffffe", "0000000000000004"),
            ("040003", "040002"),
            ("040003", "040000"),
            ("040003", "040004"),
            // Other forms.
            ("0001fffffffffffffffe", ""),
            ("040003\n", ""),
        ] {
            assert!(right.contains(from));
            let chain = right.replacen(from, to, 1);
            assert!(judge(&chain).is_err(), "{chain}");
        }
        assert!(judge_chain(b"", b"").is_err());
    }

    #[test]
    fn each_fault_of_reasons_is_found() {
        let chain = b"030001000400050001fffffffffffffffe\n040003\n";
        let kept = b"050001\n050002\n050005\n0600000000000000080000000000000010\n";
        let right = "0a0000000000\n0a0001040000\n0a0002040000\n\
            0a0003050000\n0a0004030001\n0a0005010001\n";
        let judge = |text: &str| judge_reasons(THREE, chain, kept, text.as_bytes());
        assert_eq!(judge(right), Ok(()));
        for (from, to) in [
            // Another rule: of the reserved edge, of a kept one, of the dropped one, of x and of y.
            ("0a000000", "0a000005"),
            ("0a000000", "0a000004"),
            ("0a000104", "0a000105"),
            ("0a000104", "0a000101"),
            ("0a000305", "0a000304"),
            ("0a000305", "0a000300"),
            ("0a000403", "0a000402"),
            ("0a000403", "0a000401"),
            ("0a000403", "0a000405"),
            ("0a000501", "0a000503"),
            ("0a000501", "0a000504"),
            // Another step: where none is due, and where one is.
            ("0a0000000000", "0a0000000001"),
            ("0a0001040000", "0a0001040001"),
            ("0a0003050000", "0a0003050001"),
            ("0a0004030001", "0a0004030000"),
            ("0a0005010001", "0a0005010002"),
            // x and y exchanged, a dropped edge for a kept one, z with its step.
            ("04030001\n0a0005010001", "04010001\n0a0005030001"),
            ("02040000\n0a000305", "02050000\n0a000304"),
            ("0a0001040000", "0a0001010001"),
            // Other edges, other forms.
            ("0a0002", "0a0001"),
            ("0a0005010001\n", ""),
            ("0a0000000000\n", ""),
            ("0a0000000000\n0a0001040000", "0a0001040000\n0a0000000000"),
            ("0a000305", "0a000306"),
            ("0a000104", "05000104"),
            ("0a0005010001\n", "0a0005010001"),
            ("0a0005010001\n", "0a0005010001\n0a0006040000\n"),
        ] {
            assert!(right.contains(from), "{from}");
            let text = right.replacen(from, to, 1);
            assert!(judge(&text).is_err(), "{text}");
        }
        let judge = |kept: &[u8]| judge_reasons(THREE, chain, kept, right.as_bytes());
        let other = b"050001\n050003\n050005\n0600000000000000090000000000000010\n";
        assert!(judge(other).is_err());
        assert!(judge(b"").is_err());
        assert!(judge_reasons(THREE, b"040003\n", kept, right.as_bytes()).is_err());
        assert!(judge_reasons(b"", b"", b"", b"").is_err());
    }

    #[test]
    fn each_fault_of_candidates_is_found() {
        let kept = |cost, total| {
            let edges = Vec::new();
            write_kept(&Kept { edges, cost, total })
        };
        // The edges cost 5, -1, 3 and 3.
        let (first, second) = (kept(2, 5), kept(7, 11));
        let both = [&first[..], &second].concat();
        assert_eq!(judge_candidates(TWO, &[0, 1], &both), Ok(()));
        assert_eq!(judge_candidates(TWO, &[0], &first), Ok(()));
        assert_eq!(judge_candidates(TWO, &[], b""), Ok(()));
        assert!(judge_candidates(TWO, &[1, 0], &both).is_err());
        assert!(judge_candidates(TWO, &[0], &both).is_err());
        assert!(judge_candidates(TWO, &[0, 1], &first).is_err());
        assert!(judge_candidates(TWO, &[0], &kept(4, 5)).is_err());
        assert!(judge_candidates(TWO, &[0], &kept(2, 10)).is_err());
        assert!(judge_candidates(TWO, &[0], &first[1..]).is_err());
        assert!(judge_candidates(b"", &[], b"").is_err());
    }

    #[test]
    fn each_fault_of_a_page_is_found() {
        let line = "     1     0     1                -1\n";
        let sum = "                                  -1\n";
        let judge = |list: &[u8], lines: &[&str]| judge_page(TWO, list, lines.concat().as_bytes());
        assert_eq!(judge(b"050001\n", &[line, sum]), Ok(()));
        assert!(judge(b"050001\n", &[sum]).is_err());
        assert!(judge(b"050001\n", &[line, line]).is_err());
        assert!(judge(b"050002\n", &[line, sum]).is_err());
        assert!(judge(b"", &[line, sum]).is_err());
        assert!(judge(b"050001\n", &[line, &sum.replace('1', "2")]).is_err());
        for (from, to) in [("0     1", "0     2"), ("     0", "     1"), ("-1", "-2")] {
            let [line, sum] = [line, sum].map(|line| line.replacen(from, to, 1));
            assert!(judge(b"050001\n", &[&line, &sum]).is_err());
        }
        assert!(judge_page(b"", b"", b"").is_err());
        assert!(judge_page(TWO, b"0", b"").is_err());
    }

    /// Two vertices and one span of weight 4, whose edges cost 3 each.
    const SPAN: &[u8] = b"08000200000001\n0900000001040000000000000003\n";

    #[test]
    fn a_table_is_judged_by_its_network() {
        let kept = |edges: &[u16], cost| {
            let edges = edges.to_vec();
            let total = 9;
            judge_table_kept(SPAN, &write_kept(&Kept { edges, cost, total }))
        };
        assert_eq!(kept(&[1, 2], 6), Ok(()));
        assert!(kept(&[1, 2], 5).is_err());
        assert!(kept(&[1, 2, 3], 9).is_err());
        assert!(judge_table_kept(b"", b"").is_err());
    }

    #[test]
    fn four_thirds_on_both_sides() {
        let mut table = read_table(SPAN).unwrap();
        assert!(within_four_thirds(&table, 8));
        assert!(!within_four_thirds(&table, 9));
        table.spans[0].cost = 0;
        assert!(within_four_thirds(&table, 0));
        assert!(!within_four_thirds(&table, 1));
        table.spans[0].cost = -1;
        assert!(within_four_thirds(&table, 1));
    }
}
