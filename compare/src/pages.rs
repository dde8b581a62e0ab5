//! Pages: what is printed of lists, and what is refused before anything is.

use second::generate::{self, CostStyle, NetworkAim, PrintedCosts, Rng, Shapeless};
use second::lengths;
use second::page::LINE_LENGTH;
use second::properties::judge_page;
use second::refusal::NOT_FOUR_REGULAR;
use second::texts::MOST_VERTICES;
use second::{Network, Refusal};
use thinning::raw;

use crate::buffers::{due_length, one_text};
use crate::difference::{Compared, Difference, Given, Text, Words};

const SERVICE: &str = "page";

/// The pages of lists of every style, over networks with costs of every sort.
pub fn lists(rng: &mut Rng) -> Compared {
    for (network, lists) in printable(rng) {
        let text = generate::text(&network);
        let lists = lists.iter().map(|edges| list_text(&network, edges));
        let lists: Vec<Vec<u8>> = lists.collect();
        for list in &lists {
            print(rng, &text, list)?;
        }
        apart(&text, &lists)?;
    }
    Ok(())
}

/// For each sort of costs a network with a list of every style, one of which has such costs.
pub fn printable(rng: &mut Rng) -> [(Network, Vec<Vec<u16>>); 4] {
    PrintedCosts::ALL.map(|costs| costs.lists(rng))
}

/// The page of all edges of a network of 256 vertices.
pub fn longest(rng: &mut Rng) -> Compared {
    let (network, all) = longest_list(rng);
    print_list(rng, &network, &all)
}

/// All edges of a network of 256 vertices, which may join any of them, with costs of any sort.
pub fn longest_list(rng: &mut Rng) -> (Network, Vec<u16>) {
    let graph = Shapeless::AnyEnds.multigraph(rng, MOST_VERTICES);
    let style = rng.pick(&CostStyle::ALL);
    let network = generate::dress(rng, &graph, style);
    let costs = rng.pick(&PrintedCosts::ALL);
    all_edges(rng, network, costs)
}

/// All edges of a network, with costs of this sort.
pub fn all_edges(rng: &mut Rng, mut network: Network, costs: PrintedCosts) -> (Network, Vec<u16>) {
    let all: Vec<u16> = (0..).take(network.edges.len()).collect();
    costs.give(rng, &mut network, &all);
    (network, all)
}

fn list_text(network: &Network, edges: &[u16]) -> Vec<u8> {
    second::write_list(network.vertices, edges).expect("the list rises")
}

/// A network and a list with the refusals that they have: the network's in its check, and the
/// list's over a network that reads.
pub struct Case {
    pub of_network: Option<Refusal>,
    pub of_list: Option<Refusal>,
    pub network: Vec<u8>,
    pub list: Vec<u8>,
}

impl Case {
    /// The refusal of the page: the network's comes first, and degrees and cuts aren't looked at.
    fn refusal(&self) -> Option<Refusal> {
        let of_text = self
            .of_network
            .filter(|&refusal| refusal < NOT_FOUR_REGULAR);
        of_text.or(self.of_list)
    }
}

/// Every fault of a network with every fault of a list, and a list and a network that are damaged
/// in any way.
pub fn refusals(rng: &mut Rng) -> Compared {
    for case in every_fault(rng) {
        meets(&case)?;
        print(rng, &case.network, &case.list)?;
    }
    let vertices = generate::size(rng);
    let network = generate::network(rng, vertices);
    let list = list_text(&network, &generate::list(rng, &network));
    let text = generate::text(&network);
    let damaged = generate::damage(rng, &list);
    print(rng, &text, &damaged)?;
    let text = generate::damage(rng, &text);
    print(rng, &text, &list)?;
    print(rng, &text, &damaged)
}

/// Each of these networks with each of these lists: one that reads, one with a broken line and one
/// with a wrong number. The networks are an accepted one, one with a broken line or bytes left over,
/// and one for each wrong number and each fault of degrees and cuts.
pub fn every_fault(rng: &mut Rng) -> Vec<Case> {
    // A network with a small cut has four vertices at least.
    let vertices = generate::size(rng).max(4);
    let network = generate::network(rng, vertices);
    let list = list_text(&network, &generate::list(rng, &network));
    let lists = [
        (list, None),
        refused(generate::broken_list(rng, &network)),
        refused(generate::aimed_list(rng, &network)),
    ];
    let broken = generate::broken_network(rng, vertices);
    let aimed = NetworkAim::ALL.map(|aim| generate::aimed_network(rng, aim, vertices));
    let faulty = [broken].into_iter().chain(aimed).map(refused);
    let networks = [(generate::text(&network), None)].into_iter().chain(faulty);
    let mut cases = Vec::new();
    for (network, of_network) in networks {
        for (list, of_list) in &lists {
            cases.push(Case {
                of_network,
                of_list: *of_list,
                network: network.clone(),
                list: list.clone(),
            });
        }
    }
    cases
}

fn refused((text, refusal): (Vec<u8>, Refusal)) -> (Vec<u8>, Option<Refusal>) {
    (text, Some(refusal))
}

/// The second program finds the refusals of the network and of the page.
fn meets(case: &Case) -> Compared {
    let Case { network, list, .. } = case;
    let page = second::print_page(network, list);
    for (service, due, answer) in [
        (
            "network check",
            case.of_network,
            second::check_network(network).err(),
        ),
        (SERVICE, case.refusal(), page.err()),
    ] {
        if answer != due {
            let given: &Given = &[("network", &Text(network)), ("list", &Text(list))];
            let fault = "the second program itself misses a fault that was aimed at";
            return Err(Difference::new(service, fault, given, &due, &answer));
        }
    }
    Ok(())
}

/// The page of rising edges of a network, with buffers of every length.
pub fn print_list(rng: &mut Rng, network: &Network, edges: &[u16]) -> Compared {
    print(rng, &generate::text(network), &list_text(network, edges))
}

/// The page of a list over a network, whatever both are, with buffers of every length.
pub fn print(rng: &mut Rng, network: &[u8], list: &[u8]) -> Compared {
    let due = second::print_page(network, list);
    for length in page_lengths(rng, list, due.as_deref().ok()) {
        print_into(rng, network, list, &due, length)?;
    }
    Ok(())
}

/// Lengths to lend the buffer of a list's page with: exact, a byte short, without the last line,
/// empty, anything shorter, a little longer, and more than any list of so many bytes prints. After
/// a refusal the page that would be due may have any length.
pub fn page_lengths(rng: &mut Rng, list: &[u8], page: Option<&[u8]>) -> [usize; 7] {
    let due = due_length(rng, page).max(lengths::page(0));
    [
        due,
        due - 1,
        due - LINE_LENGTH,
        0,
        rng.below(due),
        due + rng.between(1, LINE_LENGTH),
        longer(list),
    ]
}

/// More bytes than any list of so many bytes prints.
pub fn longer(list: &[u8]) -> usize {
    lengths::page(list.len() / lengths::list_text(1) + 1)
}

/// The page with a buffer of this length, where this page or this refusal is due.
pub fn print_into(
    rng: &mut Rng,
    network: &[u8],
    list: &[u8],
    due: &Result<Vec<u8>, Refusal>,
    length: usize,
) -> Compared {
    let given: &Given = &[("network", &Text(network)), ("list", &Text(list))];
    let page = one_text(SERVICE, rng, given, due, length, |page, written| {
        raw::print_page(network, list, page, written)
    })?;
    page.map_or(Ok(()), |page| judge(network, list, &page))
}

/// What is promised of every page, judged without printing one.
fn judge(network: &[u8], list: &[u8], page: &[u8]) -> Compared {
    judge_page(network, list, page).map_err(|fault| {
        let given: &Given = &[("network", &Text(network)), ("list", &Text(list))];
        let due = Words("a page that keeps what is promised of it");
        Difference::new(SERVICE, fault, given, &due, &Text(page))
    })
}

/// The core prints no two of these lists alike, unless they are the same.
fn apart(network: &[u8], lists: &[Vec<u8>]) -> Compared {
    let printed = |list: &Vec<u8>| (thinning::print_page(network, list), list.clone());
    let mut pages: Vec<_> = lists.iter().map(printed).collect();
    pages.sort();
    let alike = pages
        .windows(2)
        .find(|two| two[0].0 == two[1].0 && two[0].1 != two[1].1);
    let Some([(page, one), (_, other)]) = alike else {
        return Ok(());
    };
    let given: &Given = &[
        ("network", &Text(network)),
        ("list", &Text(one)),
        ("other list", &Text(other)),
    ];
    let fault = "the core prints different lists alike";
    let due = Words("a page of its own for each");
    let page = page.as_ref().map(Text);
    Err(Difference::new(SERVICE, fault, given, &due, &page))
}
