//! Prints how long the linked services and the second program take for the same inputs.
//!
//! `cargo run --release --offline` prints three tables, three lines about reading and two about printing. The first
//! table has the services that look at cuts, reasons too: the core, which takes one flow for a splitting and in a
//! network one from each vertex to all earlier ones at once, and the second program by flows from one vertex to every
//! other one (`EveryFlow`), or so in a network and by one flow for a splitting (`ContractedFlow`). The second table has
//! the audit of all edges, of half of them, which leave islands, and of none: both programs read the network and the
//! list, and then make one depth-first search with low points, which is linear in the vertices and the listed edges.
//!
//! The third table has forty edges of a network, each tried as the reserved one: the core's one call for all of them,
//! its forty single plans, forty checks of the network, and the plans less the checks. A check reads the network and
//! looks at its degrees and cuts, which the one call has to do only once.
//!
//! The lines about reading have the longest texts: a network's columns, a network with its degrees, by a check that
//! ends there, and a table. Beside the second program stands a reader of networks that is written for speed
//! (`single_pass`).
//!
//! The lines about printing have the pages of all edges and of none of a network of 256 vertices. The second program
//! prints by the standard library's format; beside it stands a printer that is written for speed (`single_page`).
//!
//! A ratio says how many times the other program's time the core takes; in the table about candidates, how many times
//! what is left of the plans without the checks the one call takes. Each time is the shortest of some runs, in which
//! the programs take turns, so that a busy moment of the machine doesn't fall on one of them alone; none is asserted.

use std::hint::black_box;
use std::thread;
use std::time::{Duration, Instant};

use second::generate::{self, CostStyle, Family, ListStyle, Rng};
use second::lengths::{self, LONGEST_NETWORK_TEXT, LONGEST_PAGE, LONGEST_TABLE_TEXT};
use second::refusal::{BROKEN_TEXT, NOT_FOUR_REGULAR};
use second::texts::MOST_VERTICES;
use second::{
    audit, check_chain_by, check_network, check_network_by, plan_by, print_page, read_network,
    read_table, reasons_by, write_list, Method, Network,
};
use thinning::{raw, Refusal};

mod candidates;
mod single_page;
mod single_pass;

const SIZES: [usize; 4] = [32, 64, 128, MOST_VERTICES];
const FAMILIES: [Family; 2] = [Family::TwoCycles, Family::PinchedNear];
const SEED: u64 = 1;
const RUNS: usize = 15;
/// What takes a moment needs more runs to meet an undisturbed one.
const SHORT_RUNS: usize = 2_000;
/// What the lines about reading and printing call the core's rivals.
const SECOND: &str = "second";
const SINGLE_PASS: &str = "single pass";
/// Bytes of stack that are to be enough for 256 vertices; a deeper call would end the program.
const STACK: usize = 2_000_000;

fn main() {
    heading("service", &["EveryFlow", "ContractedFlow"]);
    on_every_network(cut_services);
    println!();
    heading("audit of", &["bridge search"]);
    on_every_network(audits);
    println!();
    candidates::heading();
    on_every_network(candidates::line);
    println!();
    on_small_stack(reading_a_network);
    on_small_stack(reading_a_network_and_degrees);
    on_small_stack(reading_a_table);
    println!();
    on_small_stack(|| printing_a_page("all edges", 2 * MOST_VERTICES));
    on_small_stack(|| printing_a_page("no edges", 0));
}

/// The two lines above a table: what a line is about, and what the second program does.
fn heading(subject: &str, ways: &[&str]) {
    print!("{:>47}", "core");
    for way in ways {
        print!("   {way:>19}");
    }
    print!(
        "\n{:<12} {:>8}  {subject:<11} {:>12}",
        "family", "vertices", "ms"
    );
    for _ in ways {
        print!("   {:>12} {:>6}", "ms", "ratio");
    }
    println!();
}

/// An accepted network of the given family and size.
fn network(family: Family, vertices: usize) -> Network {
    generate::network_of(&mut Rng::new(SEED), family, vertices, CostStyle::Anything)
}

/// A network that the programs are given.
struct Given {
    family: Family,
    vertices: usize,
    text: Vec<u8>,
}

impl Given {
    fn new(family: Family, vertices: usize) -> Self {
        let text = generate::text(&network(family, vertices));
        Given {
            family,
            vertices,
            text,
        }
    }

    /// Prints a line of a table: the core's time, and each of the second program's with its ratio.
    fn line<const N: usize>(&self, subject: &str, runs: usize, works: [Work; N]) {
        let times = shortest(runs, works);
        let (&core, second) = times.split_first().expect("the core is timed");
        let family = format!("{:?}", self.family);
        print!("{family:<12} {:>8}  {subject:<11}", self.vertices);
        print!(" {:>12.4}", milliseconds(core));
        for &time in second {
            print!("   {:>12.4} {:>6.2}", milliseconds(time), ratio(core, time));
        }
        println!();
    }
}

/// Prints the lines of a table for each family and size.
fn on_every_network(print_lines: fn(&Given)) {
    for family in FAMILIES {
        for vertices in SIZES {
            let given = Given::new(family, vertices);
            on_small_stack(|| print_lines(&given));
        }
    }
}

/// Prints lines on a thread with a small stack and no more. Where that stack starts within a page, which the times of
/// copies on it depend on, is the same in every run; it isn't for the main thread.
fn on_small_stack(print_lines: impl FnOnce() + Send) {
    thread::scope(|scope| {
        thread::Builder::new()
            .stack_size(STACK)
            .spawn_scoped(scope, print_lines)
            .expect("a thread starts");
    });
}

/// A line for each service that looks at cuts.
fn cut_services(given: &Given) {
    let text = &given.text;
    let chain = &thinning::plan(text).expect("it is accepted").chain;
    let methods = [Method::EveryFlow, Method::ContractedFlow];
    let [every, contracted] = methods.map(|method| work(move || check_network_by(text, method)));
    let core = work(|| thinning::check_network(text));
    given.line("check", RUNS, [core, every, contracted]);
    let [every, contracted] = methods.map(|method| work(move || plan_by(text, method)));
    let core = work(|| thinning::plan(text));
    given.line("plan", RUNS, [core, every, contracted]);
    let [every, contracted] =
        methods.map(|method| work(move || check_chain_by(text, chain, method)));
    let core = work(|| thinning::check_chain(text, chain));
    given.line("chain check", RUNS, [core, every, contracted]);
    reasons(given, chain);
}

/// A line for the reasons of the planner's chain, which each program checks first. The core is lent the buffer, and the
/// second program makes its own.
fn reasons(given: &Given, chain: &[u8]) {
    let text = &given.text;
    let methods = [Method::EveryFlow, Method::ContractedFlow];
    let [every, contracted] = methods.map(|method| work(move || reasons_by(text, chain, method)));
    let mut reasons = vec![0; lengths::reasons_text(given.vertices)];
    let mut written = 0;
    let core = work(|| raw::reasons(text, chain, &mut reasons, &mut written));
    given.line("reasons", RUNS, [core, every, contracted]);
    assert_eq!(written, reasons.len());
    assert_eq!(reasons_by(text, chain, Method::ContractedFlow), Ok(reasons));
}

/// A line for the audit of all edges, one for that of half of them, which leave islands, and one for that of none,
/// which is little more than reading.
fn audits(given: &Given) {
    let (text, vertices) = (&given.text, given.vertices);
    let network = read_network(text).expect("it reads");
    let mut rng = Rng::new(SEED);
    for (subject, size) in [
        ("all edges", 2 * vertices),
        ("half of all", vertices),
        ("no edges", 0),
    ] {
        let edges = generate::list_of(&mut rng, &network, ListStyle::Size(size));
        let list = &write_list(vertices, &edges).expect("the list rises");
        let connected = audit(text, list).expect("both read").connected;
        assert_eq!(connected, size == network.edges.len());
        let core = work(|| thinning::audit(text, list));
        given.line(subject, SHORT_RUNS, [core, work(|| audit(text, list))]);
    }
}

/// The longest network text.
fn reading_a_network() {
    let network = network(Family::TwoCycles, MOST_VERTICES);
    let text = generate::text(&network);
    assert_eq!(text.len(), LONGEST_NETWORK_TEXT);
    let reserved = single_pass::load(&text).map(|loaded| loaded.reserved);
    assert_eq!(reserved, Ok(network.reserved));
    rivals(
        "reading the longest network text",
        text.len(),
        &[SECOND, SINGLE_PASS],
        [
            work(|| thinning::read_network(&text)),
            work(|| read_network(&text)),
            work(|| single_pass::load(&text)),
        ],
    );
}

/// The longest network text with an end moved from the last vertex but one to the last: the check reads it all, counts
/// three edges and five at these two, and looks at no cut.
fn reading_a_network_and_degrees() {
    let mut network = network(Family::TwoCycles, MOST_VERTICES);
    let last = u16::try_from(MOST_VERTICES - 1).expect("there are few vertices");
    let moved = network.edges.iter_mut().find(|edge| edge.high == last - 1);
    moved.expect("an edge leads down from there").high = last;
    let text = generate::text(&network);
    assert_eq!(text.len(), LONGEST_NETWORK_TEXT);
    assert_eq!(thinning::check_network(&text), Err(Refusal::Degree));
    assert_eq!(check_network(&text), Err(NOT_FOUR_REGULAR));
    let single_pass = single_pass::load_four_regular(&text).err();
    assert_eq!(single_pass, Some(NOT_FOUR_REGULAR));
    rivals(
        "reading the longest network text and its degrees",
        text.len(),
        &[SECOND, SINGLE_PASS],
        [
            work(|| thinning::check_network(&text)),
            work(|| check_network(&text)),
            work(|| single_pass::load_four_regular(&text)),
        ],
    );
}

/// The longest table text, 512 spans of weight 1, and a byte behind it: the check reads them all, refuses that byte and
/// looks at nothing else.
fn reading_a_table() {
    let mut rng = Rng::new(SEED);
    let table = generate::table_of(&mut rng, Family::Torus, MOST_VERTICES, CostStyle::Anything);
    let mut text = generate::table_text(&table);
    assert_eq!(text.len(), LONGEST_TABLE_TEXT);
    text.push(b'0');
    assert_eq!(thinning::check_table(&text), Err(Refusal::Form));
    assert_eq!(read_table(&text), Err(BROKEN_TEXT));
    rivals(
        "reading the longest table text and a byte behind it",
        text.len(),
        &[SECOND],
        [
            work(|| thinning::check_table(&text)),
            work(|| read_table(&text)),
        ],
    );
}

/// The page of so many edges of a network of 256 vertices. Each program reads both texts; the core and the printer that
/// is written for speed are lent the page's buffer, and the second program makes its own.
fn printing_a_page(edges: &str, size: usize) {
    let network = network(Family::TwoCycles, MOST_VERTICES);
    let text = &generate::text(&network);
    let listed = generate::list_of(&mut Rng::new(SEED), &network, ListStyle::Size(size));
    let list = &write_list(MOST_VERTICES, &listed).expect("the list rises");
    let due = print_page(text, list).expect("both read");
    let length = due.len();
    assert_eq!(length, lengths::page(size));
    let [mut core, mut single_pass] = [vec![0; LONGEST_PAGE], vec![0; LONGEST_PAGE]];
    let mut written = 0;
    assert_eq!(raw::print_page(text, list, &mut core, &mut written), 0);
    assert_eq!(core[..written], due);
    assert_eq!(single_page::print(text, list, &mut single_pass), Ok(length));
    assert_eq!(single_pass, core);
    rivals(
        &format!("printing {edges}"),
        length,
        &[SECOND, SINGLE_PASS],
        [
            work(|| raw::print_page(text, list, &mut core, &mut written)),
            work(|| print_page(text, list)),
            work(|| single_page::print(text, list, &mut single_pass)),
        ],
    );
}

/// Prints how long the core takes to read or to print so many bytes, and how long each of its rivals does, with its
/// ratio.
fn rivals<const N: usize>(subject: &str, bytes: usize, rivals: &[&str], works: [Work; N]) {
    let times = shortest(SHORT_RUNS, works);
    let (&core, others) = times.split_first().expect("the core is timed");
    print!(
        "{subject}, {bytes} bytes: core {:.4} ms",
        milliseconds(core)
    );
    for (name, &time) in rivals.iter().zip(others) {
        let ratio = ratio(core, time);
        print!(", {name} {:.4} ms, ratio {ratio:.2}", milliseconds(time));
    }
    println!();
}

/// Something to be timed.
type Work<'a> = Box<dyn FnMut() + 'a>;

fn work<'a, T>(mut run: impl FnMut() -> T + 'a) -> Work<'a> {
    Box::new(move || {
        black_box(run());
    })
}

/// The shortest of so many runs of each work; they take turns.
fn shortest<const N: usize>(runs: usize, mut works: [Work; N]) -> [Duration; N] {
    let mut times = [Duration::MAX; N];
    for _ in 0..runs {
        for (time, work) in times.iter_mut().zip(&mut works) {
            let start = Instant::now();
            work();
            *time = (*time).min(start.elapsed());
        }
    }
    times
}

fn milliseconds(time: Duration) -> f64 {
    time.as_secs_f64() * 1_000.0
}

/// How many times the other program's time the core takes.
fn ratio(core: Duration, other: Duration) -> f64 {
    core.as_secs_f64() / other.as_secs_f64()
}
