//! Lists of edges for the audit: of every size, connected ones and ones with islands.

use std::collections::BTreeMap;

use super::damage::IN_NO_LINE;
use super::{damage, Rng};
use crate::lines::LISTED;
use crate::refusal::{Refusal, BAD_LIST, BROKEN_TEXT};
use crate::texts::Network;

/// How a list is drawn.
#[derive(Clone, Copy, Debug, PartialEq, Eq)]
pub enum ListStyle {
    /// So many edges, at most all of them.
    Size(usize),
    /// A forest that connects as much as the network does.
    Forest,
    /// A forest and a few edges more.
    ForestAndMore,
    /// A forest without one of its edges.
    ForestLessOne,
    /// All edges but those across some cut.
    NoneAcross,
    /// Two islands or more: within each all edges, a forest or about half of them.
    Islands,
    /// Islands of two vertices, each joined by one edge or by a parallel pair.
    TwoVertexIslands,
    /// Of the edges between any two vertices none, one or two.
    SinglesAndPairs,
}

impl ListStyle {
    /// Every style for a network; of the sizes none, one, all and any.
    pub fn all(rng: &mut Rng, network: &Network) -> [ListStyle; 11] {
        let edges = network.edges.len();
        [
            ListStyle::Size(0),
            ListStyle::Size(1),
            ListStyle::Size(edges),
            ListStyle::Size(rng.between(0, edges)),
            ListStyle::Forest,
            ListStyle::ForestAndMore,
            ListStyle::ForestLessOne,
            ListStyle::NoneAcross,
            ListStyle::Islands,
            ListStyle::TwoVertexIslands,
            ListStyle::SinglesAndPairs,
        ]
    }
}

/// A list of any style over a network that reads.
pub fn list(rng: &mut Rng, network: &Network) -> Vec<u16> {
    let styles = ListStyle::all(rng, network);
    let style = rng.pick(&styles);
    list_of(rng, network, style)
}

/// A list of the given style.
pub fn list_of(rng: &mut Rng, network: &Network, style: ListStyle) -> Vec<u16> {
    let order = rng.permutation(network.edges.len());
    let mut chosen = match style {
        ListStyle::Size(size) => order.into_iter().take(size).collect(),
        ListStyle::Forest => forest(network, &order),
        ListStyle::ForestAndMore => {
            let more = rng.between(1, network.vertices);
            let mut chosen = forest(network, &order);
            // The first ones in the order are mostly in the forest.
            chosen.extend(order.into_iter().rev().take(more));
            chosen
        }
        ListStyle::ForestLessOne => forest(network, &order).split_off(1),
        ListStyle::NoneAcross => none_across(rng, network),
        ListStyle::Islands => islands(rng, network, &order),
        ListStyle::TwoVertexIslands => two_vertex_islands(rng, network, &order),
        ListStyle::SinglesAndPairs => singles_and_pairs(rng, network, &order),
    };
    chosen.sort_unstable();
    chosen.dedup();
    chosen.into_iter().map(as_number).collect()
}

fn ends(network: &Network, number: usize) -> (usize, usize) {
    let edge = network.edges[number];
    (edge.low.into(), edge.high.into())
}

/// Takes each edge in the given order that joins two parts.
fn forest(network: &Network, order: &[usize]) -> Vec<usize> {
    forest_and_parts(network, order).0
}

/// The same, and which part each vertex is in at the end.
fn forest_and_parts(network: &Network, order: &[usize]) -> (Vec<usize>, Vec<usize>) {
    let mut part: Vec<usize> = (0..network.vertices).collect();
    let mut chosen = Vec::new();
    for &number in order {
        let (a, b) = ends(network, number);
        let (from, to) = (part[a], part[b]);
        if from != to {
            chosen.push(number);
            for entry in part.iter_mut().filter(|entry| **entry == from) {
                *entry = to;
            }
        }
    }
    (chosen, part)
}

fn none_across(rng: &mut Rng, network: &Network) -> Vec<usize> {
    let order = rng.permutation(network.vertices);
    let size = rng.between(1, network.vertices - 1);
    let mut on_side = vec![false; network.vertices];
    for &vertex in &order[..size] {
        on_side[vertex] = true;
    }
    let is_within = |&number: &usize| {
        let (a, b) = ends(network, number);
        on_side[a] == on_side[b]
    };
    (0..network.edges.len()).filter(is_within).collect()
}

/// What is listed within an island.
#[derive(Clone, Copy)]
enum Built {
    All,
    Forest,
    Half,
}

/// Islands are what a forest falls into when it loses edges.
fn islands(rng: &mut Rng, network: &Network, order: &[usize]) -> Vec<usize> {
    let whole = forest(network, order);
    let most_lost = rng.pick(&[1, whole.len() / 2, whole.len()]).max(1);
    let left = &whole[rng.between(1, most_lost)..];
    let (_, island) = forest_and_parts(network, left);
    let ways = [Built::All, Built::Forest, Built::Half];
    let built: Vec<Built> = island.iter().map(|_| rng.pick(&ways)).collect();
    let is_listed = |&number: &usize| {
        let (a, b) = ends(network, number);
        let listed = match built[island[a]] {
            Built::All => true,
            Built::Forest => left.contains(&number),
            Built::Half => rng.once_in(2),
        };
        island[a] == island[b] && listed
    };
    order.iter().copied().filter(is_listed).collect()
}

fn two_vertex_islands(rng: &mut Rng, network: &Network, order: &[usize]) -> Vec<usize> {
    let most = rng.between(1, network.vertices);
    let mut taken = vec![false; network.vertices];
    let mut chosen = Vec::new();
    for &number in order.iter().take(most) {
        let (a, b) = ends(network, number);
        if taken[a] || taken[b] {
            continue;
        }
        (taken[a], taken[b]) = (true, true);
        chosen.push(number);
        let parallel = |&other: &usize| other != number && ends(network, other) == (a, b);
        if rng.once_in(2) {
            chosen.extend(order.iter().copied().find(parallel));
        }
    }
    chosen
}

fn singles_and_pairs(rng: &mut Rng, network: &Network, order: &[usize]) -> Vec<usize> {
    let mut wanted: BTreeMap<(usize, usize), usize> = BTreeMap::new();
    let mut chosen = Vec::new();
    for &number in order {
        let left = wanted
            .entry(ends(network, number))
            .or_insert_with(|| rng.below(3));
        if *left > 0 {
            *left -= 1;
            chosen.push(number);
        }
    }
    chosen
}

/// A list text with a number that is too high or doesn't rise, and the refusal due. What
/// follows the faulty frame may be damaged as well.
pub fn aimed_list(rng: &mut Rng, network: &Network) -> (Vec<u8>, Refusal) {
    let list = list(rng, network);
    let place = rng.between(0, list.len());
    let before = place.checked_sub(1).map(|last| list[last]);
    let too_high = rng.pick(&[as_number(network.edges.len()), 512, 65_535]);
    let faulty = match before {
        Some(before) if rng.once_in(2) => rng.pick(&[before, before / 2, 0]),
        _ => too_high,
    };
    let mut text = frames(&list[..place]);
    text.extend(frames(&[faulty]));
    let rest = frames(&list[place..]);
    text.extend(if rng.once_in(2) {
        damage(rng, &rest)
    } else {
        rest
    });
    (text, BAD_LIST)
}

/// A list text with a broken line, and the refusal due. The number on that line may be wrong as
/// well, and what follows it begins the list anew.
pub fn broken_list(rng: &mut Rng, network: &Network) -> (Vec<u8>, Refusal) {
    let list = list(rng, network);
    let before = frames(&list[..rng.between(0, list.len())]);
    let mut behind = frames(&list);
    let number = rng.pick(&[0, as_number(network.edges.len() - 1), 512, 65_535]);
    let mut line = frames(&[number]);
    let place = rng.below(line.len());
    match rng.below(5) {
        0 => line[place] = rng.pick(IN_NO_LINE),
        1 => line.insert(place, rng.pick(b"05f")),
        2 => {
            line.remove(place);
        }
        3 => line[..2].copy_from_slice(rng.pick(&[b"00", b"02", b"04", b"06", b"15"])),
        _ => {
            line.truncate(place.max(1));
            behind.clear();
        }
    }
    ([before, line, behind].concat(), BROKEN_TEXT)
}

fn frames(edges: &[u16]) -> Vec<u8> {
    let mut text = Vec::new();
    for &edge in edges {
        LISTED.write([edge.into()], &mut text);
    }
    text
}

fn as_number(place: usize) -> u16 {
    u16::try_from(place).expect("edge numbers have two bytes")
}
