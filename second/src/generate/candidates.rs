//! Lists of edges to be reserved in turn: in any order, with repeats, and with a wrong number.

use std::iter;

use super::Rng;
use crate::refusal::{Refusal, BAD_RESERVED};
use crate::texts::Network;

/// As many candidates as a planner tries on one network.
pub const MANY_CANDIDATES: usize = 40;
/// A few candidates are up to so many.
const FEW_CANDIDATES: usize = 3;
/// The highest number of two bytes.
const HIGHEST_NUMBER: usize = 65_535;

/// How a list of candidates is drawn.
#[derive(Clone, Copy, Debug, PartialEq, Eq)]
pub enum CandidateStyle {
    /// No edge.
    Empty,
    /// One edge.
    Single,
    /// One edge, two or three, which may be the same.
    Few,
    /// A few edges, each of them twice or more, in any order.
    Repeats,
    /// All edges in rising order.
    Rising,
    /// All edges in any order.
    AnyOrder,
    /// Forty edges, any of them more than once.
    Many,
}

impl CandidateStyle {
    /// Every style.
    pub const ALL: [CandidateStyle; 7] = [
        CandidateStyle::Empty,
        CandidateStyle::Single,
        CandidateStyle::Few,
        CandidateStyle::Repeats,
        CandidateStyle::Rising,
        CandidateStyle::AnyOrder,
        CandidateStyle::Many,
    ];
}

/// A list of any style over a network that reads.
pub fn candidates(rng: &mut Rng, network: &Network) -> Vec<u16> {
    let style = rng.pick(&CandidateStyle::ALL);
    candidates_of(rng, network, style)
}

/// A list of the given style.
pub fn candidates_of(rng: &mut Rng, network: &Network, style: CandidateStyle) -> Vec<u16> {
    let edges = network.edges.len();
    let chosen = match style {
        CandidateStyle::Empty => Vec::new(),
        CandidateStyle::Single => any_edges(rng, edges, 1),
        CandidateStyle::Few => {
            let count = rng.between(1, FEW_CANDIDATES);
            any_edges(rng, edges, count)
        }
        CandidateStyle::Repeats => repeats(rng, edges),
        CandidateStyle::Rising => (0..edges).collect(),
        CandidateStyle::AnyOrder => rng.permutation(edges),
        CandidateStyle::Many => any_edges(rng, edges, MANY_CANDIDATES),
    };
    chosen.into_iter().map(as_number).collect()
}

/// So many numbers of edges, which may be the same.
fn any_edges(rng: &mut Rng, edges: usize, count: usize) -> Vec<usize> {
    (0..count).map(|_| rng.below(edges)).collect()
}

fn repeats(rng: &mut Rng, edges: usize) -> Vec<usize> {
    let count = rng.between(1, FEW_CANDIDATES);
    let mut chosen = Vec::new();
    for edge in rng.permutation(edges).into_iter().take(count) {
        chosen.extend(iter::repeat_n(edge, rng.between(2, 3)));
    }
    rng.shuffle(&mut chosen);
    chosen
}

/// Where a list has its wrong number.
#[derive(Clone, Copy, Debug, PartialEq, Eq)]
pub enum WrongPlace {
    /// Before edges.
    First,
    /// Between edges.
    Middle,
    /// Behind edges.
    Last,
    /// There is no other number.
    Alone,
}

impl WrongPlace {
    /// Every place.
    pub const ALL: [WrongPlace; 4] = [
        WrongPlace::First,
        WrongPlace::Middle,
        WrongPlace::Last,
        WrongPlace::Alone,
    ];
}

/// A list with a number at the given place that no edge has, and the refusal that is due over an
/// accepted network.
pub fn aimed_candidates(
    rng: &mut Rng,
    network: &Network,
    place: WrongPlace,
) -> (Vec<u16>, Refusal) {
    let edges = network.edges.len();
    let count = match place {
        WrongPlace::Alone => 0,
        _ => rng.between(2, 2 * FEW_CANDIDATES),
    };
    let mut list = any_edges(rng, edges, count);
    let at = match place {
        WrongPlace::First | WrongPlace::Alone => 0,
        WrongPlace::Middle => rng.between(1, count - 1),
        WrongPlace::Last => count,
    };
    list.insert(at, wrong_number(rng, edges));
    (list.into_iter().map(as_number).collect(), BAD_RESERVED)
}

/// A number that none of so many edges has: the next one, the highest, any, or one that has an
/// edge's number in its lower bits.
fn wrong_number(rng: &mut Rng, edges: usize) -> usize {
    let edge = rng.below(edges);
    let any = rng.between(edges, HIGHEST_NUMBER);
    rng.pick(&[
        edges,
        edges + 1,
        edge + 512,
        edge + 32_768,
        HIGHEST_NUMBER,
        any,
    ])
}

fn as_number(place: usize) -> u16 {
    u16::try_from(place).expect("the numbers have two bytes")
}

#[cfg(test)]
mod tests {
    use std::collections::{BTreeMap, BTreeSet};

    use super::*;
    use crate::generate;

    /// How often each number stands in a list.
    fn counted(list: &[u16]) -> BTreeMap<u16, usize> {
        let mut counted = BTreeMap::new();
        for &edge in list {
            *counted.entry(edge).or_default() += 1;
        }
        counted
    }

    #[test]
    fn lists_of_every_style() {
        let mut orders = BTreeSet::new();
        for seed in 0..400 {
            let mut rng = Rng::new(seed);
            let vertices = generate::size(&mut rng);
            let network = generate::network(&mut rng, vertices);
            let all: Vec<u16> = (0..).take(network.edges.len()).collect();
            for style in CandidateStyle::ALL {
                let mut list = candidates_of(&mut rng, &network, style);
                assert!(list.iter().all(|edge| all.contains(edge)));
                match style {
                    CandidateStyle::Empty => assert!(list.is_empty()),
                    CandidateStyle::Single => assert_eq!(list.len(), 1),
                    CandidateStyle::Few => assert!((1..=FEW_CANDIDATES).contains(&list.len())),
                    CandidateStyle::Repeats => {
                        assert!(counted(&list).into_values().all(|times| times > 1));
                    }
                    CandidateStyle::Rising => assert_eq!(list, all),
                    CandidateStyle::AnyOrder => {
                        orders.insert(list == all);
                        list.sort_unstable();
                        assert_eq!(list, all);
                    }
                    CandidateStyle::Many => assert_eq!(list.len(), 40),
                }
            }
        }
        assert!(orders.contains(&false));
    }

    #[test]
    fn one_wrong_number_at_its_place() {
        let (mut next, mut highest) = (BTreeSet::new(), BTreeSet::new());
        for seed in 0..400 {
            let mut rng = Rng::new(seed);
            let vertices = rng.pick(&[2, 3, 10, 256]);
            let network = generate::network(&mut rng, vertices);
            let edges = as_number(network.edges.len());
            for place in WrongPlace::ALL {
                let (list, refusal) = aimed_candidates(&mut rng, &network, place);
                assert_eq!(refusal, 3);
                let wrong: Vec<usize> = (0..list.len()).filter(|&at| list[at] >= edges).collect();
                let [at] = wrong[..] else {
                    panic!("one number is wrong");
                };
                let last = list.len() - 1;
                let is_there = match place {
                    WrongPlace::First => at == 0 && last > 0,
                    WrongPlace::Middle => 0 < at && at < last,
                    WrongPlace::Last => at == last && last > 0,
                    WrongPlace::Alone => last == 0,
                };
                assert!(is_there, "{place:?}");
                next.insert(list[at] == edges);
                highest.insert(list[at] == u16::MAX);
            }
        }
        let both = BTreeSet::from([false, true]);
        assert_eq!([next, highest], [both.clone(), both]);
    }
}
