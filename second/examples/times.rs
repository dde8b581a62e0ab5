//! Prints how long each service takes for 32, 64, 128 and 256 vertices.
//!
//! Run with `cargo run --release --offline --example times`.

use std::hint::black_box;
use std::time::{Duration, Instant};

use second::generate::{self, CostStyle, Family, Rng};
use second::{audit, check_chain_by, check_network_by, plan_by, write_list, Method};

/// The shortest of a few runs.
fn shortest<T>(mut work: impl FnMut() -> T) -> Duration {
    let timed = |work: &mut dyn FnMut() -> T| {
        let start = Instant::now();
        black_box(work());
        start.elapsed()
    };
    let runs = (0..3).map(|_| timed(&mut work));
    runs.min().expect("there are runs")
}

fn main() {
    println!(
        "family       vertices  method            check         plan  chain check        audit"
    );
    for family in [Family::TwoCycles, Family::PinchedNear] {
        for vertices in [32, 64, 128, 256] {
            let mut rng = Rng::new(1);
            let network = generate::network_of(&mut rng, family, vertices, CostStyle::Anything);
            let text = generate::text(&network);
            let all: Vec<u16> = (0..2 * vertices)
                .map(|k| u16::try_from(k).expect("few edges"))
                .collect();
            let list = write_list(vertices, &all).expect("the list rises");
            for method in [Method::ContractedFlow, Method::EveryFlow] {
                let chain = plan_by(&text, method).expect("it is accepted").chain;
                let check = shortest(|| check_network_by(&text, method));
                let plan = shortest(|| plan_by(&text, method));
                let chain_check = shortest(|| check_chain_by(&text, &chain, method));
                let audited = shortest(|| audit(&text, &list));
                println!(
                    "{:<12} {vertices:>8}  {:<14} {:>8.3} ms {:>9.3} ms {:>9.3} ms {:>9.3} ms",
                    format!("{family:?}"),
                    format!("{method:?}"),
                    milliseconds(check),
                    milliseconds(plan),
                    milliseconds(chain_check),
                    milliseconds(audited),
                );
            }
        }
    }
}

fn milliseconds(time: Duration) -> f64 {
    time.as_secs_f64() * 1_000.0
}
