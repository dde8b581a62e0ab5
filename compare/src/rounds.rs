//! Rounds of comparisons, each from a seed of its own.

use std::io::{self, IsTerminal};
use std::panic::{self, AssertUnwindSafe};

use second::generate::Rng;

use crate::difference::{Compared, Difference, Words};
use crate::{
    candidates, chains, costs, crowded, lists, networks, pages, program, reasons, steps, tables,
    vectors,
};

/// A part of a round and its name.
type Part = (&'static str, fn(&mut Rng) -> Compared);

/// New parts stand last, so that those before them keep their numbers.
const PARTS: [Part; 29] = [
    ("program", program::plan),
    ("network-texts", networks::texts),
    ("network-columns", networks::columns),
    ("chain-checks", chains::checks),
    ("chain-texts-and-columns", chains::texts_and_columns),
    ("list-texts", lists::texts),
    ("list-meanings", lists::meanings),
    ("audits", lists::audits),
    ("network-vectors", vectors::networks),
    ("chain-vectors", vectors::chains),
    ("list-vectors", vectors::lists),
    ("table-texts", tables::texts),
    ("table-vectors", vectors::tables),
    ("half-built-audits", lists::half_built_audits),
    ("crowded-networks", crowded::texts),
    ("pages", pages::lists),
    ("longest-pages", pages::longest),
    ("page-refusals", pages::refusals),
    ("page-vectors", vectors::pages),
    ("edge-costs", costs::edges),
    ("span-costs", costs::spans),
    ("candidates", candidates::lists),
    ("candidate-refusals", candidates::refusals),
    ("candidate-vectors", vectors::candidates),
    ("step-faults", steps::faults),
    ("chain-columns", chains::columns),
    ("reasons", reasons::chains),
    ("reason-refusals", reasons::refusals),
    ("reason-vectors", vectors::reasons),
];

/// Runs all rounds, and says how many differences were met.
pub fn run(rounds: u64, seed: u64) -> u64 {
    let progress = Progress::new(rounds);
    let mut differences = 0;
    for done in 0..rounds {
        progress.show(done, differences);
        for report in round(seed + done) {
            differences += 1;
            progress.clear();
            println!("{report}");
        }
    }
    progress.clear();
    println!("{rounds} rounds, {differences} differences");
    differences
}

/// One round.
fn round(seed: u64) -> Vec<String> {
    let mut reports = Vec::new();
    for (part, mut rng) in parts(seed) {
        if let Err(difference) = answer(part, &mut rng) {
            reports.push(difference.report(&format!("seed-{seed}-{}", part.0)));
        }
    }
    reports
}

/// The parts of a round: every one starts from numbers of its own.
fn parts(seed: u64) -> impl Iterator<Item = (Part, Rng)> {
    let mut seeds = Rng::new(seed);
    PARTS.map(|part| (part, Rng::new(seeds.bits()))).into_iter()
}

/// What a part gives; a panic is a difference too.
fn answer((name, part): Part, rng: &mut Rng) -> Compared {
    panic::catch_unwind(AssertUnwindSafe(|| part(rng))).unwrap_or_else(|_| {
        let (due, panic) = (Words("an answer"), Words("a panic"));
        Err(Difference::new(name, "it panics", &[], &due, &panic))
    })
}

/// Says on standard error how far the rounds are: a line now and then, or one line that is
/// written again and again on a terminal.
struct Progress {
    rounds: u64,
    on_terminal: bool,
}

impl Progress {
    fn new(rounds: u64) -> Self {
        Progress {
            rounds,
            on_terminal: io::stderr().is_terminal(),
        }
    }

    fn show(&self, done: u64, differences: u64) {
        let line = format!(
            "{done} of {} rounds, {differences} differences",
            self.rounds
        );
        if self.on_terminal && done.is_multiple_of(10) {
            eprint!("\r{line}");
        } else if !self.on_terminal && done > 0 && done.is_multiple_of(1_000) {
            eprintln!("{line}");
        }
    }

    /// Makes room for a line that stays.
    fn clear(&self) {
        if self.on_terminal {
            eprint!("\r\x1b[K");
        }
    }
}

#[cfg(test)]
mod tests {
    use std::cmp::Ordering;
    use std::collections::{BTreeMap, BTreeSet};

    use second::audit::audit_list;
    use second::columns::write_chain;
    use second::generate::{
        self, Aim, Family, NetworkAim, StepColumn, StepFault, StepPlace, EDGE_AS_SPAN,
        MANY_CANDIDATES, NARROW_EDGE, NARROW_SPAN, SPAN_AS_EDGE,
    };
    use second::lengths::{candidates_text, fits, reasons_text, step_column};
    use second::lines::{Lines, Shape, EDGE, HEAD, SPAN, TABLE_HEAD};
    use second::refusal::NOT_GIVEN;
    use second::texts::COST_LIMIT;
    use second::{Network, Rule};

    use super::*;
    use crate::buffers::four;

    /// What the check of a table may answer; 13 comes with the short buffers of the accepted ones.
    const ANSWERS: [u8; 10] = [0, 1, 2, 3, 4, 5, 6, 7, 15, 16];

    #[test]
    fn few_rounds_have_tables_of_every_answer() {
        let mut met = BTreeSet::new();
        for (part, mut rng) in (1..=200).flat_map(parts) {
            if part.0 == "table-texts" {
                let texts = tables::every_sort(&mut rng).expect("the second program is right");
                met.extend(texts.map(|text| second::check_table(&text).err().unwrap_or(0)));
            }
        }
        assert_eq!(met, BTreeSet::from(ANSWERS));
    }

    /// Whether a list connects all vertices, has critical edges, and has others.
    const SORTS: [(bool, bool, bool); 7] = [
        (false, false, false),
        (false, false, true),
        (false, true, true),
        (false, true, false),
        (true, false, true),
        (true, true, true),
        (true, true, false),
    ];

    #[test]
    fn few_rounds_have_half_built_lists_of_every_sort() {
        let mut met = [BTreeSet::new(), BTreeSet::new()];
        for (part, mut rng) in (1..=40).flat_map(parts) {
            if part.0 == "half-built-audits" {
                for ((network, lists), met) in lists::half_built(&mut rng).iter().zip(&mut met) {
                    met.extend(lists.iter().map(|list| {
                        let audit = audit_list(network, list);
                        let (critical, all) = (audit.critical, list.len());
                        (audit.connected, critical > 0, critical < all)
                    }));
                }
            }
        }
        assert_eq!(met, [SORTS, SORTS].map(BTreeSet::from));
    }

    /// What the check of a crowded network answers: for a fault of its text, and for the crowd alone.
    const CROWDED_ANSWERS: [u8; 4] = [1, 4, 5, 6];

    #[test]
    fn every_round_has_crowded_networks_of_every_answer() {
        for (part, mut rng) in (1..=40).flat_map(parts) {
            if part.0 == "crowded-networks" {
                let cases = crowded::any_crowd(&mut rng);
                let answers = cases.iter().map(|case| second::check_network(&case.text));
                let met: BTreeSet<u8> = answers.map(|answer| answer.err().unwrap_or(0)).collect();
                assert_eq!(met, BTreeSet::from(CROWDED_ANSWERS));
            }
        }
    }

    /// What the check of a network that is printed answers, and what its list does.
    const NETWORK_ANSWERS: [u8; 8] = [0, 1, 2, 3, 4, 5, 6, 7];
    const LIST_ANSWERS: [u8; 3] = [0, 1, 14];
    /// What a page answers.
    const PAGE_ANSWERS: [u8; 8] = [0, 1, 2, 3, 4, 5, 13, 14];

    #[test]
    fn every_round_has_pages_of_every_answer() {
        for (part, mut rng) in (1..=40).flat_map(parts) {
            if part.0 != "page-refusals" {
                continue;
            }
            let (mut pairs, mut answers) = (BTreeSet::new(), BTreeSet::new());
            for case in pages::every_fault(&mut rng) {
                let of_network = second::check_network(&case.network).err();
                pairs.insert((of_network.unwrap_or(0), case.of_list.unwrap_or(0)));
                let page = second::print_page(&case.network, &case.list);
                let due = page.as_deref().ok();
                let lengths = pages::page_lengths(&mut rng, &case.list, due);
                // Too short for any page, and long enough for every one that a list might get.
                assert!(lengths.contains(&0) && lengths.contains(&pages::longer(&case.list)));
                for length in lengths {
                    let due = page.as_ref().map_err(|&refusal| refusal);
                    let answer = due.and_then(|page| fits(page.len(), length));
                    answers.insert(answer.err().unwrap_or(0));
                }
            }
            let with_every_list = |network| LIST_ANSWERS.map(|list| (network, list));
            let every_pair = NETWORK_ANSWERS.into_iter().flat_map(with_every_list);
            assert_eq!(pairs, every_pair.collect());
            assert_eq!(answers, BTreeSet::from(PAGE_ANSWERS));
        }
    }

    /// Sorts of lists of candidates: with no number, with right ones alone, or by where the wrong one
    /// stands.
    const CANDIDATE_LISTS: [&str; 6] = ["none", "right", "first", "middle", "last", "alone"];

    /// The sort of a list over a network of so many edges.
    fn sort_of(reserved: &[u16], edges: usize) -> &'static str {
        let wrong = |&edge: &u16| usize::from(edge) >= edges;
        match reserved.iter().position(wrong) {
            None if reserved.is_empty() => "none",
            None => "right",
            Some(_) if reserved.len() == 1 => "alone",
            Some(0) => "first",
            Some(place) if place + 1 == reserved.len() => "last",
            Some(_) => "middle",
        }
    }

    /// What a network with this answer of its check and a list of this sort may answer.
    fn candidate_answers(of_network: u8, sort: &str) -> Vec<u8> {
        match (of_network, sort) {
            (0, "none") => vec![0],
            (0, "right") => vec![0, 13],
            (0, _) => vec![3],
            _ => vec![of_network],
        }
    }

    #[test]
    fn every_round_has_candidates_of_every_answer() {
        let every_pair = NETWORK_ANSWERS
            .into_iter()
            .flat_map(|of_network| CANDIDATE_LISTS.map(|sort| (of_network, sort)));
        let due: BTreeSet<_> = every_pair
            .flat_map(|(of_network, sort)| {
                let answers = candidate_answers(of_network, sort).into_iter();
                answers.map(move |answer| (of_network, sort, answer))
            })
            .collect();
        for (part, mut rng) in (1..=40).flat_map(parts) {
            if part.0 != "candidate-refusals" {
                continue;
            }
            let cases = candidates::every_fault(&mut rng);
            let accepted = second::read_network(&cases[0].network).expect("it is accepted");
            let mut met = BTreeSet::new();
            for case in cases {
                let of_network = second::check_network(&case.network).err().unwrap_or(0);
                let sort = sort_of(&case.reserved, accepted.edges.len());
                let frames = second::plan_candidates(&case.network, &case.reserved);
                let lengths = candidates::frame_lengths(&mut rng, &case.reserved);
                // Empty, and long enough for a frame of every number in the list.
                let enough = candidates_text(case.reserved.len());
                assert!(lengths.contains(&0) && lengths.contains(&enough));
                for length in lengths {
                    let due = frames.as_ref().map_err(|&refusal| refusal);
                    let answer = due.and_then(|frames| fits(frames.len(), length));
                    met.insert((of_network, sort, answer.err().unwrap_or(0)));
                }
            }
            assert_eq!(met, due);
        }
    }

    #[test]
    fn few_rounds_have_every_wrong_candidate() {
        let mut met = BTreeSet::new();
        for (part, mut rng) in (1..=200).flat_map(parts) {
            if part.0 != "candidate-refusals" {
                continue;
            }
            let cases = candidates::every_fault(&mut rng);
            let accepted = second::read_network(&cases[0].network).expect("it is accepted");
            let edges = accepted.edges.len();
            for case in cases.iter().filter(|case| case.of_network.is_none()) {
                let numbers = case.reserved.iter().map(|&edge| usize::from(edge));
                let wrong = numbers.filter(|&edge| edge >= edges);
                let sort = sort_of(&case.reserved, edges);
                met.extend(wrong.map(|edge| (sort, edge == edges, edge == 65_535)));
            }
        }
        let next_highest_other = [(true, false), (false, true), (false, false)];
        let due = CANDIDATE_LISTS[2..]
            .iter()
            .flat_map(|&sort| next_highest_other.map(|(next, highest)| (sort, next, highest)));
        assert_eq!(met, due.collect());
    }

    #[test]
    fn every_round_has_candidates_of_every_sort() {
        for (part, mut rng) in (1..=40).flat_map(parts) {
            if part.0 != "candidates" {
                continue;
            }
            let [(small, lists), (_, few)] = candidates::tried(&mut rng);
            let all: Vec<u16> = (0..).take(small.edges.len()).collect();
            let different = |list: &Vec<u16>| list.iter().collect::<BTreeSet<_>>().len();
            let sorted = |list: &Vec<u16>| {
                let mut list = list.clone();
                list.sort_unstable();
                list
            };
            assert!(lists.contains(&all) && lists.contains(&Vec::new()));
            assert!(lists.iter().filter(|&list| sorted(list) == all).count() > 1);
            assert!(lists.iter().any(|list| list.len() == 1));
            assert!(lists.iter().any(|list| list.len() == MANY_CANDIDATES));
            assert!(lists.iter().any(|list| different(list) < list.len()));
            assert!(few.iter().all(|list| !list.is_empty()));
        }
    }

    /// What the check of a chain with a fault of a step answers: for the fault itself, for an earlier
    /// one, and for its form.
    const STEP_ANSWERS: [u8; 6] = [1, 8, 9, 10, 11, 17];

    #[test]
    fn every_round_has_every_fault_of_a_step_with_its_refusal() {
        let at_every_place = |fault| StepPlace::ALL.map(|place| (fault, place));
        let due: BTreeSet<_> = StepFault::ALL
            .into_iter()
            .flat_map(at_every_place)
            // Before the first step no edge has retired.
            .filter(|&pair| pair != (StepFault::ZIsRetired, StepPlace::First))
            .map(|(fault, place)| (fault, place, fault.refusal()))
            .collect();
        for (part, mut rng) in (1..=40).flat_map(parts) {
            if part.0 != "step-faults" {
                continue;
            }
            let (mut met, mut met_by_rule) = (BTreeSet::new(), BTreeSet::new());
            let (mut families, mut higher) = (Vec::new(), BTreeSet::new());
            for case in steps::every_fault(&mut rng) {
                let text = generate::text(&case.network);
                let answer = |chain: &[u8]| second::check_chain(&text, chain).err().unwrap_or(0);
                met.insert((case.fault, case.place, answer(&case.faulty)));
                met_by_rule.insert(answer(&case.by_rule));
                families.push(case.family);
                let edge = case.network.edges[case.network.reserved];
                let chain = second::read_chain(case.network.vertices, &case.by_rule);
                higher.insert(chain.expect("it is a chain").steps[0].v == edge.high);
            }
            assert_eq!(met, due);
            let answers: BTreeSet<u8> = met.iter().map(|&(_, _, answer)| answer).collect();
            assert_eq!(answers, BTreeSet::from(STEP_ANSWERS));
            assert_eq!(met_by_rule, BTreeSet::from([0]));
            assert!(Family::ALL.iter().all(|family| families.contains(family)));
            // The first step is at either end.
            assert_eq!(higher, BTreeSet::from([false, true]));
        }
    }

    #[test]
    fn every_round_has_each_column_of_steps_short_exact_and_long() {
        for (part, mut rng) in (1..=40).flat_map(parts) {
            if part.0 != "chain-columns" {
                continue;
            }
            let mut met = BTreeSet::new();
            for given in chains::every_column(&mut rng) {
                let due = step_column(given.vertices);
                let answer = write_chain(given.vertices, &given.steps, given.dropped).err();
                let lengths = StepColumn::ALL.map(|column| column.length(&given.steps).cmp(&due));
                met.insert((lengths, answer));
            }
            let whole = [Ordering::Equal; 5];
            let mut every = BTreeSet::from([(whole, None)]);
            for place in 0..5 {
                for length in [Ordering::Less, Ordering::Greater] {
                    let mut lengths = whole;
                    lengths[place] = length;
                    every.insert((lengths, Some(1)));
                }
            }
            assert_eq!(met, every);
        }
    }

    /// The networks and chains of the parts about reasons, each with the vertices that its buffers are for.
    fn reasoned(part: &str, rng: &mut Rng) -> Vec<(Vec<u8>, Vec<u8>, usize)> {
        let mut all = Vec::new();
        match part {
            "reasons" => {
                for (network, chains) in reasons::passing(rng) {
                    let text = generate::text(&network);
                    let chains = chains.into_iter();
                    all.extend(chains.map(|chain| (text.clone(), chain, network.vertices)));
                }
            }
            "reason-refusals" => {
                let cases = reasons::every_refusal(rng).into_iter();
                all.extend(cases.map(|case| (case.network, case.chain, case.vertices)));
            }
            _ => {}
        }
        all
    }

    /// What the service of reasons answers.
    const REASON_ANSWERS: [u8; 15] = [0, 1, 2, 3, 4, 5, 6, 7, 8, 9, 10, 11, 12, 13, 17];

    #[test]
    fn every_round_has_reasons_of_every_answer() {
        for seed in 1..=40 {
            let mut met = BTreeSet::new();
            for (part, mut rng) in parts(seed) {
                for (network, chain, vertices) in reasoned(part.0, &mut rng) {
                    let reasons = second::reasons(&network, &chain);
                    for length in four(&mut rng, reasons_text(vertices)) {
                        let due = reasons.as_ref().map_err(|&refusal| refusal);
                        let answer = due.and_then(|text| fits(text.len(), length));
                        met.insert(answer.err().unwrap_or(0));
                    }
                }
            }
            assert_eq!(met, BTreeSet::from(REASON_ANSWERS));
        }
    }

    #[test]
    fn every_round_has_refused_networks_with_chains_of_both_sorts() {
        let refused = NETWORK_ANSWERS.into_iter().filter(|&answer| answer > 0);
        let both = refused.flat_map(|refusal| [(refusal, false), (refusal, true)]);
        let due: BTreeSet<_> = both.chain([(0, true)]).collect();
        for (part, mut rng) in (1..=40).flat_map(parts) {
            if part.0 != "reason-refusals" {
                continue;
            }
            let mut met = BTreeSet::new();
            for case in reasons::every_refusal(&mut rng) {
                let of_network = second::check_network(&case.network).err();
                assert_eq!(of_network, case.of_network);
                met.insert((of_network.unwrap_or(0), case.of_chain.is_some()));
            }
            assert_eq!(met, due);
        }
    }

    #[test]
    fn few_rounds_have_every_fault_of_a_chain_without_reasons() {
        let mut met = BTreeSet::new();
        for (part, mut rng) in (1..=200).flat_map(parts) {
            if part.0 == "reason-refusals" {
                let cases = reasons::every_refusal(&mut rng).into_iter();
                met.extend(cases.map(|case| case.fault));
            }
        }
        let aims = Aim::ALL.iter().filter(|aim| aim.refusal().is_some());
        let faults = StepFault::ALL.iter();
        let faults = faults.filter(|fault| fault.refusal() == NOT_GIVEN);
        let mut every: BTreeSet<String> = aims.map(|aim| format!("{aim:?}")).collect();
        every.extend(faults.map(|fault| format!("{fault:?}")));
        every.extend(NetworkAim::ALL.iter().map(|aim| format!("{aim:?}")));
        every.insert("Broken".to_owned());
        assert_eq!(met, every);
    }

    #[test]
    fn few_rounds_have_reasons_of_every_rule_from_either_end() {
        let (mut rules, mut ends, mut planned) = (BTreeSet::new(), BTreeSet::new(), 0);
        for (part, mut rng) in (1..=40).flat_map(parts) {
            if part.0 != "reasons" {
                continue;
            }
            for (network, chain, vertices) in reasoned(part.0, &mut rng) {
                let frames = second::reasons(&network, &chain).expect("it passes");
                let all = second::read_reasons(&frames).expect("they read");
                rules.extend(all.iter().map(|reason| (reason.rule, reason.step > 1)));
                let plan = second::plan(&network).expect("it is accepted");
                planned += usize::from(chain == plan.chain);
                let network = second::read_network(&network).expect("it reads");
                let edge = network.edges[network.reserved];
                let chain = second::read_chain(vertices, &chain).expect("it reads");
                ends.extend(chain.steps.first().map(|step| step.v == edge.high));
            }
        }
        let retiring = [Rule::KeptAsY, Rule::KeptAsX, Rule::OutAsX];
        let late = retiring.map(|rule| (rule, true));
        let every = Rule::ALL.map(|rule| (rule, false)).into_iter().chain(late);
        assert_eq!(rules, every.collect());
        assert_eq!(ends, BTreeSet::from([false, true]));
        // The planner's chain twice in each round.
        assert!(planned >= 80);
    }

    /// What the check of a text answers, and what it meets for that: in an accepted text costs at a
    /// limit, else a cost beyond the limits or a frame with other fields; and whether a cost is
    /// below zero.
    type Met = (u8, &'static str, bool);

    const EVERY_COST: [Met; 11] = [
        (0, "limit", false),
        (0, "limit", true),
        (5, "next", false),
        (5, "next", true),
        (5, "beyond", false),
        (5, "beyond", true),
        (5, "furthest", false),
        (5, "furthest", true),
        (1, "narrow cost", false),
        (1, "narrow costs", false),
        (1, "other fields", false),
    ];

    /// Where a cost is, if it is at a limit or beyond.
    fn place_of(cost: i64) -> Option<&'static str> {
        let beyond = cost.unsigned_abs().checked_sub(COST_LIMIT.unsigned_abs())?;
        Some(match beyond {
            0 => "limit",
            1 => "next",
            _ if cost == i64::MAX || cost == i64::MIN => "furthest",
            _ => "beyond",
        })
    }

    /// What is met in a text with this head and such frames, of which two shapes are wrong.
    fn met<const FIELDS: usize>(
        answer: u8,
        text: &[u8],
        head: Shape<FIELDS>,
        [frame, narrow, other]: [Shape<4>; 3],
    ) -> Vec<Met> {
        let mut lines = Lines::new(text);
        head.read(&mut lines).expect("the heads are right");
        let reads = |shape: Shape<4>, mut lines: Lines| shape.read(&mut lines).is_ok();
        let all_read = |shape: Shape<4>, mut lines: Lines| {
            while shape.read(&mut lines).is_ok() {}
            lines.at_end()
        };
        if all_read(narrow, lines.clone()) {
            return vec![(answer, "narrow costs", false)];
        }
        let mut met = Vec::new();
        while !lines.at_end() {
            let rest = lines.clone();
            let Ok([.., cost]) = frame.read(&mut lines) else {
                met.clear();
                met.extend(reads(narrow, rest.clone()).then_some((answer, "narrow cost", false)));
                met.extend(reads(other, rest).then_some((answer, "other fields", false)));
                return met;
            };
            let here = place_of(cost).map(|place| (answer, place, cost < 0));
            if cost.unsigned_abs() > COST_LIMIT.unsigned_abs() {
                return here.into_iter().collect();
            }
            met.extend(here);
        }
        met
    }

    #[test]
    fn every_round_has_costs_on_both_sides_of_their_limits() {
        for (part, mut rng) in (1..=40).flat_map(parts) {
            let mut all = BTreeSet::new();
            match part.0 {
                "edge-costs" => {
                    let vertices = costs::some_vertices(&mut rng);
                    for case in costs::edge_cases(&mut rng, vertices) {
                        let answer = second::check_network(&case.text).err().unwrap_or(0);
                        let shapes = [EDGE, NARROW_EDGE, EDGE_AS_SPAN];
                        all.extend(met(answer, &case.text, HEAD, shapes));
                    }
                }
                "span-costs" => {
                    let vertices = costs::some_vertices(&mut rng);
                    for case in costs::span_cases(&mut rng, vertices) {
                        let answer = second::check_table(&case.text).err().unwrap_or(0);
                        let shapes = [SPAN, NARROW_SPAN, SPAN_AS_EDGE];
                        all.extend(met(answer, &case.text, TABLE_HEAD, shapes));
                    }
                }
                _ => continue,
            }
            assert_eq!(all, BTreeSet::from(EVERY_COST), "{}", part.0);
        }
    }

    /// The networks that read among those of a part, or none of a part that isn't looked at.
    fn networks_of(part: &str, rng: &mut Rng) -> Vec<Network> {
        match part {
            "program" | "network-texts" | "network-vectors" => {
                let text = networks::any_text(rng);
                second::read_network(&text).into_iter().collect()
            }
            "table-texts" | "table-vectors" => {
                let texts = tables::every_sort(rng).expect("the second program is right");
                let tables = texts.iter().flat_map(|text| second::read_table(text));
                tables.map(|table| table.network()).collect()
            }
            "half-built-audits" => lists::half_built(rng).map(|(network, _)| network).into(),
            "pages" => pages::printable(rng).map(|(network, _)| network).into(),
            "candidates" => candidates::tried(rng).map(|(network, _)| network).into(),
            "reasons" => reasons::passing(rng).map(|(network, _)| network).into(),
            _ => Vec::new(),
        }
    }

    #[test]
    fn more_than_half_of_all_networks_have_costs_beyond_four_bytes() {
        let mut counted: BTreeMap<&str, [usize; 2]> = BTreeMap::new();
        for (part, mut rng) in (1..=200).flat_map(parts) {
            for network in networks_of(part.0, &mut rng) {
                let [wide, all] = counted.entry(part.0).or_default();
                let mut costs = network.edges.iter().map(|edge| edge.cost);
                *wide += usize::from(costs.any(|cost| i32::try_from(cost).is_err()));
                *all += 1;
            }
        }
        assert_eq!(counted.len(), 9);
        for (part, [wide, all]) in counted {
            assert!(2 * wide > all, "{part}: {wide} of {all}");
        }
    }

    /// The signs of numbers with how many digits they have.
    fn widths(numbers: &BTreeSet<i64>) -> BTreeSet<(bool, usize)> {
        let width = |number: &i64| number.unsigned_abs().to_string().len();
        let widths = numbers.iter().map(|number| (*number < 0, width(number)));
        widths.collect()
    }

    /// One digit up to so many, on both sides of zero.
    fn every_width(most: usize) -> BTreeSet<(bool, usize)> {
        let widths = (1..=most).flat_map(|width| [(false, width), (true, width)]);
        widths.collect()
    }

    /// Whether a list that is printed has no edges, and whether it has all of them.
    const PRINTED: [(bool, bool); 3] = [(true, false), (false, false), (false, true)];

    #[test]
    fn few_rounds_have_pages_of_every_number_and_list() {
        let (mut costs, mut sums) = (BTreeSet::new(), BTreeSet::new());
        let mut lists = BTreeSet::new();
        for (part, mut rng) in (1..=200).flat_map(parts) {
            let printed = match part.0 {
                "pages" => pages::printable(&mut rng).to_vec(),
                "longest-pages" => {
                    let (network, all) = pages::longest_list(&mut rng);
                    vec![(network, vec![all])]
                }
                _ => continue,
            };
            for (network, printed) in printed {
                let answer = second::check_network(&generate::text(&network));
                for list in printed {
                    let edges = list.iter().map(|&edge| network.edges[usize::from(edge)]);
                    let listed: Vec<i64> = edges.map(|edge| edge.cost).collect();
                    sums.insert(listed.iter().sum());
                    costs.extend(listed);
                    let (none, all) = (list.is_empty(), list.len() == network.edges.len());
                    lists.insert((answer.err().unwrap_or(0), (none, all)));
                }
            }
        }
        assert_eq!(widths(&costs), every_width(13));
        assert_eq!(widths(&sums), every_width(15));
        let ends = |numbers: BTreeSet<i64>| [numbers.first().copied(), numbers.last().copied()];
        assert_eq!(ends(costs), [-COST_LIMIT, COST_LIMIT].map(Some));
        assert_eq!(ends(sums), [-512 * COST_LIMIT, 512 * COST_LIMIT].map(Some));
        let every_list = |answer: u8| PRINTED.map(|sort| (answer, sort));
        let every_list = [0, 6, 7].into_iter().flat_map(every_list);
        assert_eq!(lists, every_list.collect());
    }
}
