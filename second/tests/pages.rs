//! Pages by hand, what comes before a page, and what holds of every page.

mod common;

use std::cell::RefCell;
use std::collections::{BTreeMap, BTreeSet};

use common::{network, network_text, refused_in_order, rounds, T, TWO_ACROSS};
use second::generate::{self, ListStyle, NetworkAim, PrintedCosts, Rng};
use second::lengths::{self, fits, LONGEST_PAGE};
use second::page::LINE_LENGTH;
use second::properties::judge_page;
use second::texts::COST_LIMIT;
use second::{check_network, plan, print_page, read_kept, read_network, write_list, Refusal};

/// The page of a list over a network text.
fn printed(network: &[u8], vertices: usize, edges: &[u16]) -> String {
    let list = write_list(vertices, edges).expect("the list rises");
    let page = print_page(network, &list).expect("both read");
    assert_eq!(judge_page(network, &list, &page), Ok(()));
    String::from_utf8(page).expect("digits, spaces and line feeds")
}

/// The page as a host with so many bytes for it gets it.
fn printed_into(network: &[u8], list: &[u8], lent: usize) -> Result<Vec<u8>, Refusal> {
    let page = print_page(network, list)?;
    fits(page.len(), lent).map(|()| page)
}

#[test]
fn the_kept_edges_of_the_printed_network() {
    let kept = plan(T.as_bytes()).unwrap().kept;
    let edges = read_kept(&kept).unwrap().edges;
    let page = [
        "     1     0     1                 4\n",
        "     2     0     2                 1\n",
        "     5     1     2                 3\n",
        "                                   8\n",
    ]
    .concat();
    assert_eq!(printed(T.as_bytes(), 3, &edges), page);
}

#[test]
fn the_reserved_edge_and_all_others() {
    let page = [
        "     0     0     1                 7\n",
        "     1     0     1                 4\n",
        "     2     0     2                 1\n",
        "     3     0     2                 2\n",
        "     4     1     2                 6\n",
        "     5     1     2                 3\n",
        "                                  23\n",
    ]
    .concat();
    assert_eq!(printed(T.as_bytes(), 3, &[0, 1, 2, 3, 4, 5]), page);
}

#[test]
fn a_list_of_no_edges() {
    let page = printed(T.as_bytes(), 3, &[]);
    assert_eq!(page, [&" ".repeat(35), "0\n"].concat());
}

#[test]
fn costs_on_both_sides_of_zero() {
    let network = |costs: [i64; 4]| network_text(2, 0, &[(0, 1); 4], &costs);
    let page = [
        "     0     0     1                -5\n",
        "     1     0     1               -10\n",
        "     2     0     1                 0\n",
        "     3     0     1               100\n",
        "                                  85\n",
    ]
    .concat();
    assert_eq!(printed(&network([-5, -10, 0, 100]), 2, &[0, 1, 2, 3]), page);
    let page = [
        "     0     0     1               -10\n",
        "     3     0     1                -4\n",
        "                                 -14\n",
    ]
    .concat();
    assert_eq!(printed(&network([-10, 9, 9, -4]), 2, &[0, 3]), page);
    // Costs that leave nothing, without a minus before the zero.
    let page = [
        "     1     0     1                -7\n",
        "     2     0     1                 7\n",
        "                                   0\n",
    ]
    .concat();
    assert_eq!(printed(&network([1, -7, 7, 1]), 2, &[1, 2]), page);
}

#[test]
fn costs_at_their_limits() {
    let limit = COST_LIMIT;
    let costs = [limit, -limit, limit - 1, 1 - limit];
    let network = network_text(2, 0, &[(0, 1); 4], &costs);
    let page = [
        "     0     0     1     1000000000000\n",
        "     1     0     1    -1000000000000\n",
        "     2     0     1      999999999999\n",
        "     3     0     1     -999999999999\n",
        "                                   0\n",
    ]
    .concat();
    assert_eq!(printed(&network, 2, &[0, 1, 2, 3]), page);
    let page = [
        "     1     0     1    -1000000000000\n",
        "     3     0     1     -999999999999\n",
        "                      -1999999999999\n",
    ]
    .concat();
    assert_eq!(printed(&network, 2, &[1, 3]), page);
}

#[test]
fn the_longest_pages() {
    let ends: Vec<(u16, u16)> = (0..512)
        .map(|edge| (edge % 256, (edge + 1) % 256))
        .map(|(a, b)| (a.min(b), a.max(b)))
        .collect();
    let all: Vec<u16> = (0..512).collect();
    for (cost, written) in [
        (COST_LIMIT, [" 1000000000000", " 512000000000000"]),
        (-COST_LIMIT, ["-1000000000000", "-512000000000000"]),
    ] {
        let network = network_text(256, 0, &ends, &[cost; 512]);
        let page = printed(&network, 256, &all);
        assert_eq!(page.len(), LONGEST_PAGE);
        let lines: Vec<&str> = page.lines().collect();
        let [cost, sum] = written;
        assert_eq!(lines.len(), 513);
        assert_eq!(lines[9], format!("     9     9    10    {cost}"));
        assert_eq!(lines[99], format!("    99    99   100    {cost}"));
        assert_eq!(lines[255], format!("   255     0   255    {cost}"));
        assert_eq!(lines[510], format!("   510   254   255    {cost}"));
        assert_eq!(lines[512], format!("                    {sum}"));
    }
}

#[test]
fn networks_that_a_check_refuses_are_printed() {
    let uneven = network_text(3, 0, &[(0, 1); 6], &[-3; 6]);
    assert_eq!(check_network(&uneven), Err(6));
    let page = [
        "     4     0     1                -3\n",
        "                                  -3\n",
    ]
    .concat();
    assert_eq!(printed(&uneven, 3, &[4]), page);
    let thin = network_text(4, 0, &TWO_ACROSS, &[9; 8]);
    assert_eq!(check_network(&thin), Err(7));
    let page = [
        "     0     0     1                 9\n",
        "     7     1     3                 9\n",
        "                                  18\n",
    ]
    .concat();
    assert_eq!(printed(&thin, 4, &[0, 7]), page);
}

#[test]
fn the_network_before_the_list_and_the_list_before_the_buffer() {
    let changed = |from: &str, to: &str| {
        assert!(T.contains(from));
        T.replacen(from, to, 1).into_bytes()
    };
    let networks = [
        (T.as_bytes().to_vec(), None),
        (changed("0100030000\n", "0100030000"), Some(1)),
        ([T, "0"].concat().into_bytes(), Some(1)),
        (changed("0100030000", "0100010000"), Some(2)),
        (changed("0100030000", "0100030006"), Some(3)),
        (changed("020001", "020002"), Some(4)),
        (changed("0000000000000007", "000000e8d4a51001"), Some(5)),
        // A vertex without four edges, which isn't looked at.
        (changed("02000100000001", "02000100000002"), None),
    ];
    let lists: [(&[u8], Option<Refusal>); 8] = [
        (b"", None),
        (b"050000\n050005\n", None),
        (b"050000\n050005", Some(1)),
        (b"\n", Some(1)),
        (b"050006", Some(1)),
        (b"050006\n", Some(14)),
        (b"050001\n050001\n", Some(14)),
        (b"050001\n050000\njunk", Some(14)),
    ];
    refused_in_order(
        &networks,
        &lists,
        |list| lengths::page(list.len() / lengths::list_text(1)),
        LINE_LENGTH,
        |network, list, lent| printed_into(network, list, lent).err(),
    );
}

#[test]
fn aimed_and_broken_texts_get_the_refusal_that_is_due() {
    rounds(200, |rng| {
        let vertices = generate::size(rng).max(4);
        let network = generate::network(rng, vertices);
        let text = generate::text(&network);
        let list = write_list(vertices, &generate::list(rng, &network)).unwrap();
        let lists = [
            (list, None),
            with_refusal(generate::broken_list(rng, &network)),
            with_refusal(generate::aimed_list(rng, &network)),
        ];
        let mut networks = vec![
            (text, None),
            with_refusal(generate::broken_network(rng, vertices)),
        ];
        for aim in NetworkAim::ALL {
            networks.push(with_refusal(generate::aimed_network(rng, aim, vertices)));
        }
        for (text, of_network) in &networks {
            assert_eq!(check_network(text).err(), *of_network);
            let of_text = of_network.filter(|&refusal| refusal < 6);
            for (list, of_list) in &lists {
                let answer = print_page(text, list);
                assert_eq!(answer.err(), of_text.or(*of_list));
            }
        }
    });
}

fn with_refusal((text, refusal): (Vec<u8>, Refusal)) -> (Vec<u8>, Option<Refusal>) {
    (text, Some(refusal))
}

#[test]
fn different_lists_never_print_alike() {
    // All 256 lists of a network with no two edges that differ in more than their numbers.
    let network = network(4, 0, &[(1, 2); 8], &[0; 8]);
    let text = generate::text(&network);
    let lists = (0..256_u16).map(|set| (0..8).filter(|edge| set >> edge & 1 == 1).collect());
    let lists: Vec<Vec<u16>> = lists.collect();
    let pages: BTreeSet<String> = lists.iter().map(|list| printed(&text, 4, list)).collect();
    assert_eq!(pages.len(), lists.len());

    rounds(300, |rng| {
        let (text, lists) = any_lists(rng);
        let vertices = read_network(&text).unwrap().vertices;
        let mut pages = BTreeMap::new();
        for list in lists {
            let page = printed(&text, vertices, &list);
            assert_eq!(page.len(), lengths::page(list.len()));
            assert_eq!(*pages.entry(page).or_insert(list.clone()), list);
        }
    });
}

/// A network text, accepted or not, with costs to be printed, and a list of every style.
fn any_lists(rng: &mut Rng) -> (Vec<u8>, Vec<Vec<u16>>) {
    let (network, lists) = rng.pick(&PrintedCosts::ALL).lists(rng);
    (generate::text(&network), lists)
}

#[test]
fn sums_of_every_width() {
    let met = RefCell::new(BTreeSet::new());
    rounds(600, |rng| {
        let mut network = generate::network(rng, 256);
        let style = ListStyle::Size(rng.pick(&[1, 12, 256, 512]));
        let list = generate::list_of(rng, &network, style);
        PrintedCosts::RoundSum.give(rng, &mut network, &list);
        let page = printed(&generate::text(&network), 256, &list);
        let (_, sum) = page.trim_end().rsplit_once(' ').unwrap();
        met.borrow_mut().insert((sum.starts_with('-'), sum.len()));
    });
    let above = (1..=15).map(|width| (false, width));
    let below = (2..=16).map(|width| (true, width));
    assert_eq!(met.into_inner(), above.chain(below).collect());
}
