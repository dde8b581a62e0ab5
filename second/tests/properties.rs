//! What holds for every generated network, chain and list, over many seeds.

mod common;

use std::cell::Cell;

use common::{rounds, BREAKING};
use second::audit::{audit_list, audit_list_by_definition};
use second::columns::StepColumns;
use second::generate::{
    self, Aim, CostStyle, Damage, Family, ListStyle, NetworkAim, Rng, Shapeless,
};
use second::properties::{judge_chain, judge_kept};
use second::{
    audit, check_chain, check_network, columns, lengths, plan, read_chain, read_kept, read_list,
    read_network, write_chain, write_list, write_network,
};

/// Plans a network, and looks at everything that is promised about the plan.
fn assert_plan_is_good(text: &[u8]) {
    assert_eq!(check_network(text), Ok(()));
    let plan = plan(text).unwrap();
    assert_eq!(check_chain(text, &plan.chain).as_ref(), Ok(&plan.kept));
    assert_eq!(judge_kept(text, &plan.kept), Ok(()));
    assert_eq!(judge_chain(text, &plan.chain), Ok(()));
    let vertices = read_network(text).unwrap().vertices;
    assert_eq!(plan.chain.len(), lengths::chain_text(vertices));
    let kept = read_kept(&plan.kept).unwrap();
    assert_eq!(plan.kept.len(), lengths::kept_text(kept.edges.len()));
}

#[test]
fn plans_of_all_families_and_cost_styles() {
    for family in Family::ALL {
        for style in CostStyle::ALL {
            rounds(60, |rng| {
                let size = generate::size(rng).min(64);
                let network = generate::network_of(rng, family, size, style);
                assert_plan_is_good(&generate::text(&network));
            });
        }
    }
}

#[test]
fn plans_of_the_largest_networks() {
    for family in Family::ALL {
        for style in [CostStyle::Limits, CostStyle::FewValues] {
            let mut rng = Rng::new(9);
            let network = generate::network_of(&mut rng, family, 256, style);
            assert_plan_is_good(&generate::text(&network));
        }
    }
}

#[test]
fn networks_of_every_size_are_accepted() {
    let mut rng = Rng::new(3);
    for vertices in 2..=256 {
        let network = generate::network(&mut rng, vertices);
        let text = generate::text(&network);
        assert_eq!(text.len(), lengths::network_text(vertices));
        assert_eq!(check_network(&text), Ok(()));
        assert_eq!(read_network(&text), Ok(network));
    }
}

#[test]
fn chains_by_rule_pass() {
    rounds(800, |rng| {
        let size = generate::size(rng).min(40);
        let network = generate::network(rng, size);
        let text = generate::text(&network);
        let chain = generate::chain_by_rule(rng, &network);
        let chain_text = write_chain(size, &chain).unwrap();
        assert_eq!(read_chain(size, &chain_text), Ok(chain));
        let kept = check_chain(&text, &chain_text).unwrap();
        assert_eq!(judge_kept(&text, &kept), Ok(()));
        assert_eq!(judge_chain(&text, &chain_text), Ok(()));
    });
}

#[test]
fn aimed_chains_get_the_refusal_that_is_due() {
    for aim in Aim::ALL {
        let met = Cell::new(0);
        rounds(150, |rng| {
            let size = generate::size(rng).min(32);
            let network = generate::network(rng, size);
            let Some(aimed) = generate::aimed_chain(rng, &network, aim) else {
                return;
            };
            met.set(met.get() + 1);
            let answer = check_chain(&generate::text(&network), &aimed.chain);
            assert_eq!(answer.err(), aimed.refusal, "{aim:?}");
        });
        assert!(met.get() > 50, "{aim:?} was had {} times", met.get());
    }
}

#[test]
fn changed_chains_pass_only_as_chain_texts() {
    let (passed, refused) = (Cell::new(0), Cell::new(0));
    rounds(2_000, |rng| {
        let size = generate::size(rng).min(16);
        let network = generate::network(rng, size);
        let text = generate::text(&network);
        let chain = generate::changed_chain(rng, &network);
        if let Ok(kept) = check_chain(&text, &chain) {
            passed.set(passed.get() + 1);
            let meaning = read_chain(size, &chain).unwrap();
            assert_eq!(write_chain(size, &meaning).as_ref(), Ok(&chain));
            assert_eq!(judge_kept(&text, &kept), Ok(()));
            assert_eq!(judge_chain(&text, &chain), Ok(()));
        } else {
            refused.set(refused.get() + 1);
        }
    });
    assert!(passed.get() > 20 && refused.get() > 1_000);
}

#[test]
fn aimed_networks_get_the_refusal_that_is_due() {
    for aim in NetworkAim::ALL {
        rounds(150, |rng| {
            let size = generate::size(rng).min(64);
            let (text, refusal) = generate::aimed_network(rng, aim, size);
            assert_eq!(check_network(&text), Err(refusal), "{aim:?}");
            let same = audit(&text, b"").err();
            assert_eq!(same, Some(refusal).filter(|&number| number < 6));
        });
    }
}

#[test]
fn shapeless_networks_of_all_kinds() {
    for shape in Shapeless::ALL {
        rounds(60, |rng| {
            let size = generate::size(rng).max(shape.fewest_vertices());
            let graph = shape.multigraph(rng, size);
            assert_eq!(graph.edges.len(), 2 * size);
            let text = generate::text(&generate::dress(rng, &graph, CostStyle::Small));
            let answer = check_network(&text);
            match shape {
                Shapeless::MovedEnd => assert_eq!(answer, Err(6)),
                Shapeless::TwoAcross | Shapeless::Islands => assert_eq!(answer, Err(7)),
                Shapeless::FourEach => assert_ne!(answer, Err(6)),
                // By chance each vertex may have four edges.
                Shapeless::AnyEnds => assert!(matches!(answer, Ok(()) | Err(6 | 7))),
                Shapeless::Star | Shapeless::Bundle => assert_ne!(answer, Err(7)),
            }
        });
    }
}

#[test]
fn a_text_is_read_only_if_it_is_the_one_written_for_its_meaning() {
    for damage in Damage::ALL {
        rounds(80, |rng| {
            let size = generate::size(rng).min(24);
            let network = generate::network(rng, size);
            let text = damage.apply(rng, &generate::text(&network));
            if let Ok(meaning) = read_network(&text) {
                assert_eq!(write_network(&meaning).as_ref(), Ok(&text));
            }
            let list = write_list(size, &generate::list(rng, &network)).unwrap();
            let text = damage.apply(rng, &list);
            if let Ok(meaning) = read_list(size, &text) {
                assert_eq!(write_list(size, &meaning).as_ref(), Ok(&text));
            }
            let chain = generate::chain_by_rule(rng, &network);
            let text = damage.apply(rng, &write_chain(size, &chain).unwrap());
            if let Ok(meaning) = read_chain(size, &text) {
                assert_eq!(write_chain(size, &meaning).as_ref(), Ok(&text));
            }
        });
    }
}

#[test]
fn damage_that_always_breaks_a_network() {
    for damage in BREAKING {
        rounds(60, |rng| {
            let size = generate::size(rng).min(24);
            let text = generate::text(&generate::network(rng, size));
            assert!(check_network(&damage.apply(rng, &text)).is_err());
        });
    }
}

#[test]
fn lists_of_every_size_and_shape() {
    rounds(400, |rng| {
        let size = generate::size(rng).min(20);
        let network = if rng.once_in(2) {
            generate::network(rng, size)
        } else {
            generate::loose_network(rng, size)
        };
        for size in 0..=network.edges.len() {
            let list = generate::list_of(rng, &network, ListStyle::Size(size));
            assert_eq!(list.len(), size);
            let answer = audit_list(&network, &list);
            assert_eq!(answer, audit_list_by_definition(&network, &list));
        }
        let list = generate::list(rng, &network);
        let answer = audit_list(&network, &list);
        assert_eq!(answer, audit_list_by_definition(&network, &list));
        let list_text = write_list(network.vertices, &list).unwrap();
        assert_eq!(list_text.len(), lengths::list_text(list.len()));
        assert_eq!(audit(&generate::text(&network), &list_text), Ok(answer));
    });
}

#[test]
fn aimed_lists_get_the_refusal_that_is_due() {
    rounds(500, |rng| {
        let size = generate::size(rng);
        let network = generate::network(rng, size);
        let (list, refusal) = generate::aimed_list(rng, &network);
        assert_eq!(audit(&generate::text(&network), &list), Err(refusal));
    });
}

#[test]
fn the_kept_edges_have_no_critical_one() {
    rounds(200, |rng| {
        let size = generate::size(rng).min(64);
        let network = generate::network(rng, size);
        let plan = plan(&generate::text(&network)).unwrap();
        let kept = read_kept(&plan.kept).unwrap();
        let answer = audit_list(&network, &kept.edges);
        assert!(answer.connected);
        assert_eq!(answer.reached, size);
        assert_eq!(answer.critical, 0);
    });
}

#[test]
fn written_network_columns_are_read_again() {
    let (written, refused) = (Cell::new(0), Cell::new(0));
    rounds(500, |rng| {
        let given = generate::network_columns(rng);
        let (low, high, cost) = (&given.low, &given.high, &given.cost);
        let text = columns::write_network(given.vertices, given.reserved, low, high, cost);
        let Ok(text) = text else {
            refused.set(refused.get() + 1);
            return;
        };
        written.set(written.get() + 1);
        let meaning = read_network(&text).unwrap();
        assert_eq!(meaning.vertices, given.vertices);
        assert_eq!(meaning.reserved, given.reserved);
        assert!(meaning.edges.iter().map(|edge| edge.low).eq(given.low));
        assert!(meaning.edges.iter().map(|edge| edge.high).eq(given.high));
        assert!(meaning.edges.iter().map(|edge| edge.cost).eq(given.cost));
    });
    assert!(written.get() > 100 && refused.get() > 100);
}

#[test]
fn written_chain_columns_are_read_again() {
    let (written, refused) = (Cell::new(0), Cell::new(0));
    rounds(500, |rng| {
        let given = generate::chain_columns(rng);
        let text = columns::write_chain(given.vertices, &given.steps, given.dropped);
        let Ok(text) = text else {
            refused.set(refused.get() + 1);
            return;
        };
        written.set(written.get() + 1);
        let meaning = read_chain(given.vertices, &text).unwrap();
        assert_eq!(meaning.dropped, given.dropped);
        assert_eq!(StepColumns::of(&meaning.steps), given.steps);
    });
    assert!(written.get() > 100 && refused.get() > 100);
}

#[test]
fn written_lists_are_read_again() {
    let (written, refused) = (Cell::new(0), Cell::new(0));
    rounds(500, |rng| {
        let (vertices, edges) = generate::list_meaning(rng);
        let Ok(text) = write_list(vertices, &edges) else {
            refused.set(refused.get() + 1);
            return;
        };
        written.set(written.get() + 1);
        assert_eq!(read_list(vertices, &text), Ok(edges));
    });
    assert!(written.get() > 100 && refused.get() > 100);
}
