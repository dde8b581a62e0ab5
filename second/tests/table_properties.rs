//! What holds for every generated table, over many seeds.

mod common;

use std::cell::Cell;
use std::collections::BTreeSet;

use common::{rounds, BREAKING};
use second::generate::{self, CostStyle, Damage, Family, Rng, TableAim};
use second::properties::{judge_table_kept, within_four_thirds};
use second::{
    check_network, check_table, check_table_by, lengths, plan, plan_table, plan_table_by,
    read_kept, read_network, read_table, table_network, write_table, Method, Network, Refusal,
    Table,
};

/// All three services agree with those of the network that the table stands for.
fn assert_stands_for_its_network(text: &[u8]) {
    match table_network(text) {
        Ok(network) => {
            assert_eq!(check_table(text), check_network(&network));
            assert_eq!(plan_table(text), plan(&network));
        }
        Err(refusal) => {
            assert_eq!(check_table(text), Err(refusal));
            assert_eq!(plan_table(text), Err(refusal));
        }
    }
}

/// The network has as many edges of each span as its weight says, numbered on in span order.
fn assert_edges_in_span_order(table: &Table, network: &Network) {
    assert_eq!(network.vertices, table.vertices);
    assert_eq!(network.reserved, table.reserved);
    let mut edges = network.edges.iter();
    for span in &table.spans {
        for edge in edges.by_ref().take(span.weight.into()) {
            assert_eq!((edge.low, edge.high), (span.low, span.high));
            assert_eq!(edge.cost, span.cost);
        }
    }
    assert_eq!(edges.next(), None);
    assert_eq!(network.edges.len(), 2 * table.vertices);
}

/// Plans a table, and looks at everything that is promised about the plan.
fn assert_plan_is_good(table: &Table) {
    let text = generate::table_text(table);
    assert_eq!(text.len(), lengths::table_text(table.spans.len()));
    assert_eq!(read_table(&text).as_ref(), Ok(table));
    assert_eq!(check_table(&text), Ok(()));
    assert_stands_for_its_network(&text);
    let network = table_network(&text).unwrap();
    assert_eq!(network.len(), lengths::network_text(table.vertices));
    assert_edges_in_span_order(table, &read_network(&network).unwrap());
    let plan = plan_table(&text).unwrap();
    assert_eq!(judge_table_kept(&text, &plan.kept), Ok(()));
}

#[test]
fn plans_of_all_families_and_cost_styles() {
    for family in Family::ALL {
        for style in CostStyle::ALL {
            rounds(30, |rng| {
                let size = generate::size(rng).min(64);
                assert_plan_is_good(&generate::table_of(rng, family, size, style));
            });
        }
    }
}

#[test]
fn plans_of_the_largest_tables() {
    let mut longest = 0;
    for family in Family::ALL {
        let mut rng = Rng::new(9);
        let table = generate::table_of(&mut rng, family, 256, CostStyle::Limits);
        longest = longest.max(generate::table_text(&table).len());
        assert_plan_is_good(&table);
    }
    assert_eq!(longest, lengths::LONGEST_TABLE_TEXT);
}

#[test]
fn tables_of_every_size_are_accepted() {
    let mut rng = Rng::new(3);
    for vertices in 2..=256 {
        let table = generate::table(&mut rng, vertices);
        let text = generate::table_text(&table);
        assert_eq!(check_table(&text), Ok(()));
    }
}

#[test]
fn costs_from_zero_on_keep_within_four_thirds() {
    let tight = Cell::new(0);
    rounds(1_000, |rng| {
        let size = generate::size(rng).min(40);
        let mut table = generate::table(rng, size);
        for span in &mut table.spans {
            span.cost = span.cost.abs();
        }
        let plan = plan_table(&generate::table_text(&table)).unwrap();
        let cost = read_kept(&plan.kept).unwrap().cost;
        assert!(within_four_thirds(&table, cost));
        if !within_four_thirds(&table, cost + cost / 4 + 1) {
            tight.set(tight.get() + 1);
        }
    });
    assert!(tight.get() > 50, "{} were near the bound", tight.get());
}

#[test]
fn every_reserved_edge_of_a_table() {
    rounds(40, |rng| {
        let size = rng.between(2, 12);
        let mut table = generate::table(rng, size);
        for reserved in 0..2 * size {
            table.reserved = reserved;
            assert_plan_is_good(&table);
        }
    });
}

#[test]
fn the_ways_of_judging_cuts_agree() {
    rounds(300, |rng| {
        let size = rng.between(2, 12);
        let table = if rng.once_in(3) {
            generate::loose_table(rng, size)
        } else {
            generate::table(rng, size)
        };
        let text = generate::table_text(&table);
        for method in Method::ALL {
            assert_eq!(check_table_by(&text, method), check_table(&text));
            assert_eq!(plan_table_by(&text, method), plan_table(&text));
        }
    });
}

#[test]
fn loose_tables_read_and_have_every_weight() {
    let weights = Cell::new([0; 5]);
    let answers = Cell::new([0; 8]);
    rounds(2_000, |rng| {
        let size = generate::size(rng);
        let table = generate::loose_table(rng, size);
        let text = generate::table_text(&table);
        assert_eq!(read_table(&text).as_ref(), Ok(&table));
        assert_stands_for_its_network(&text);
        let mut counted = weights.get();
        for span in &table.spans {
            counted[usize::from(span.weight)] += 1;
        }
        weights.set(counted);
        let mut counted = answers.get();
        counted[usize::from(check_table(&text).err().unwrap_or(0))] += 1;
        answers.set(counted);
    });
    assert!(weights.get()[1..].iter().all(|&count| count > 1_000));
    // Accepted, wrong degrees, small cuts.
    let answers = answers.get();
    assert!(answers[0] > 10 && answers[6] > 1_000, "{answers:?}");
}

#[test]
fn aimed_tables_get_the_refusal_that_is_due() {
    let mut met: BTreeSet<Refusal> = BTreeSet::new();
    for aim in TableAim::ALL {
        rounds(150, |rng| {
            let size = generate::size(rng).min(64);
            let (text, refusal) = generate::aimed_table(rng, aim, size);
            assert_eq!(check_table(&text), Err(refusal), "{aim:?}");
            assert_stands_for_its_network(&text);
            let written = table_network(&text).err();
            let before_degrees = !matches!(refusal, 6 | 7);
            assert_eq!(written, before_degrees.then_some(refusal), "{aim:?}");
        });
        met.insert(generate::aimed_table(&mut Rng::new(1), aim, 8).1);
    }
    assert_eq!(met, BTreeSet::from([1, 2, 3, 4, 5, 6, 7, 15, 16]));
}

#[test]
fn a_text_is_read_only_if_it_is_the_one_written_for_its_meaning() {
    for damage in Damage::ALL {
        rounds(80, |rng| {
            let size = generate::size(rng).min(24);
            let table = generate::table(rng, size);
            let text = damage.apply(rng, &generate::table_text(&table));
            assert_stands_for_its_network(&text);
            if let Ok(meaning) = read_table(&text) {
                assert_eq!(write_table(&meaning).as_ref(), Ok(&text));
            }
        });
    }
}

#[test]
fn damage_that_always_breaks_a_table() {
    for damage in BREAKING.into_iter().chain([Damage::WrongKind]) {
        rounds(60, |rng| {
            let size = generate::size(rng).min(24);
            let text = generate::table_text(&generate::table(rng, size));
            assert!(check_table(&damage.apply(rng, &text)).is_err());
        });
    }
}

#[test]
fn a_network_is_no_table_and_a_table_no_network() {
    rounds(100, |rng| {
        let size = generate::size(rng);
        let network = generate::text(&generate::network(rng, size));
        assert_eq!(check_table(&network), Err(1));
        let table = generate::table_text(&generate::table(rng, size));
        assert_eq!(check_network(&table), Err(1));
    });
}
