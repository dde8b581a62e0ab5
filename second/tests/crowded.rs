//! Networks with a vertex of five edges or more: every fault of their texts comes before that.

mod common;

use common::rounds;
use second::generate::{self, Crowd, FrameFault, Rng, FEWEST_CROWDING};
use second::{audit, check_chain, check_network, plan, read_network, Edge};

/// The last edge, and any one behind those that crowd a vertex.
fn places(rng: &mut Rng, edges: usize) -> [usize; 2] {
    [edges - 1, rng.between(FEWEST_CROWDING, edges - 1)]
}

fn assert_every_service_refuses(text: &[u8], fault: FrameFault) {
    let refusal = fault.refusal();
    assert_eq!(check_network(text), Err(refusal), "{fault:?}");
    assert_eq!(plan(text), Err(refusal), "{fault:?}");
    assert_eq!(check_chain(text, b"040000\n"), Err(refusal), "{fault:?}");
    let of_the_text = Some(refusal).filter(|&number| number < 6);
    assert_eq!(audit(text, b"").err(), of_the_text, "{fault:?}");
}

#[test]
fn a_fault_behind_a_crowd_gets_the_refusal_that_is_due() {
    for crowd in Crowd::ALL {
        for fault in FrameFault::ALL {
            rounds(60, |rng| {
                let size = generate::size(rng);
                let network = generate::crowded_network(rng, crowd, size);
                for place in places(rng, network.edges.len()) {
                    let text = generate::faulty_text(rng, &network, fault, place);
                    assert_every_service_refuses(&text, fault);
                }
            });
        }
    }
}

#[test]
fn the_first_edges_crowd_a_vertex() {
    for crowd in Crowd::ALL {
        rounds(200, |rng| {
            let size = generate::size(rng);
            let network = generate::crowded_network(rng, crowd, size);
            let first = &network.edges[..FEWEST_CROWDING];
            let crowded = |vertex: u16| {
                let is_at = |edge: &Edge| edge.low == vertex || edge.high == vertex;
                first.iter().all(is_at)
            };
            assert!(crowded(first[0].low) || crowded(first[0].high));
            assert!(crowd != Crowd::VertexZero || crowded(0));
            assert_eq!(read_network(&generate::text(&network)), Ok(network));
        });
    }
}

#[test]
fn all_edges_of_the_largest_networks_between_two_vertices() {
    for (crowd, ends) in [
        (Crowd::LowestPair, (0, 1)),
        (Crowd::HighestPair, (254, 255)),
    ] {
        let mut rng = Rng::new(5);
        let network = generate::crowded_network(&mut rng, crowd, 256);
        let (low, high) = ends;
        let count = network.edges.len();
        assert_eq!(count, 512);
        assert!(network
            .edges
            .iter()
            .all(|edge| (edge.low, edge.high) == (low, high)));
        let degrees = network.multigraph().degrees();
        assert_eq!(degrees[usize::from(low)], count);
        assert_eq!(degrees[usize::from(high)], count);
        for fault in FrameFault::ALL {
            for place in places(&mut rng, count) {
                let text = generate::faulty_text(&mut rng, &network, fault, place);
                assert_every_service_refuses(&text, fault);
            }
        }
    }
}
