//! A printer of pages that is written for speed: the network text and the list text are each read in one pass, each
//! line of the page is written in its place, and nothing is allocated.

use second::lengths::{self, fits};
use second::lines::LISTED;
use second::page::LINE_LENGTH;
use second::refusal::{Refusal, BAD_LIST, BROKEN_TEXT};

use crate::single_pass::{load, Digits, Loaded, MOST_EDGES, ONE_BYTE, TWO_BYTES};

const LISTED_LINE: usize = LISTED.line_length();

/// A line without numbers.
const BLANK: [u8; LINE_LENGTH] = blank();
/// Where the edge, its ends and its cost end on a line.
const EDGE_END: usize = 6;
const LOW_END: usize = 12;
const HIGH_END: usize = 18;
const COST_END: usize = 36;

/// Characters of an edge or an end: there are fewer than a thousand.
const SMALL: usize = 3;
/// Each small number, right-aligned.
const SMALL_NUMBERS: [[u8; SMALL]; MOST_EDGES] = small_numbers();
/// Both digits of each number below a hundred.
const PAIRS: [[u8; 2]; 100] = pairs();

const fn blank() -> [u8; LINE_LENGTH] {
    let mut line = [b' '; LINE_LENGTH];
    line[LINE_LENGTH - 1] = b'\n';
    line
}

const fn small_numbers() -> [[u8; SMALL]; MOST_EDGES] {
    let mut numbers = [[b' '; SMALL]; MOST_EDGES];
    let mut number = 0;
    while number < MOST_EDGES {
        let mut rest = number;
        let mut place = SMALL;
        loop {
            place -= 1;
            numbers[number][place] = digit(rest % 10);
            rest /= 10;
            if rest == 0 {
                break;
            }
        }
        number += 1;
    }
    numbers
}

const fn pairs() -> [[u8; 2]; 100] {
    let mut pairs = [[0; 2]; 100];
    let mut number = 0;
    while number < 100 {
        pairs[number] = [digit(number / 10), digit(number % 10)];
        number += 1;
    }
    pairs
}

const fn digit(value: usize) -> u8 {
    b'0' + value as u8
}

/// Prints a list over a network text into the start of a buffer, and gives the page's length: refusals 1 to 5, 14 and
/// 13. The buffer keeps its bytes if anything is refused.
pub fn print(network: &[u8], list: &[u8], page: &mut [u8]) -> Result<usize, Refusal> {
    let loaded = load(network)?;
    let mut edges = [0; MOST_EDGES];
    let count = read_list(list, 2 * loaded.vertices, &mut edges)?;
    let due = lengths::page(count);
    fits(due, page.len())?;
    let (lines, _) = page[..due].as_chunks_mut();
    print_lines(&loaded, &edges[..count], lines);
    Ok(due)
}

/// Reads a list of edges below a count, and gives how many there are.
fn read_list(text: &[u8], count: usize, edges: &mut [u16; MOST_EDGES]) -> Result<usize, Refusal> {
    let (lines, left_over) = text.as_chunks();
    let mut next = 0;
    for (place, line) in lines.iter().enumerate() {
        let edge = read_listed(line)?;
        if edge < next || count <= edge {
            return Err(BAD_LIST);
        }
        edges[place] = edge as u16;
        next = edge + 1;
    }
    if left_over.is_empty() {
        Ok(lines.len())
    } else {
        Err(BROKEN_TEXT)
    }
}

#[inline(always)]
fn read_listed(line: &[u8; LISTED_LINE]) -> Result<usize, Refusal> {
    let mut digits = Digits::new(line);
    let kind = digits.take(ONE_BYTE);
    let edge = digits.take(TWO_BYTES) as usize;
    if digits.end_the_line() && kind == u64::from(LISTED.kind) {
        Ok(edge)
    } else {
        Err(BROKEN_TEXT)
    }
}

/// A line for each edge, and one for the sum.
fn print_lines(network: &Loaded, edges: &[u16], lines: &mut [[u8; LINE_LENGTH]]) {
    let mut sum = 0;
    let (last, above) = lines.split_last_mut().expect("the sum has a line");
    for (line, &edge) in above.iter_mut().zip(edges) {
        let place = usize::from(edge);
        let cost = network.cost[place];
        sum += cost;
        *line = BLANK;
        put_small(line, EDGE_END, edge);
        put_small(line, LOW_END, network.low[place]);
        put_small(line, HIGH_END, network.high[place]);
        put_cost(line, cost);
    }
    *last = BLANK;
    put_cost(last, sum);
}

/// Puts an edge or an end on a line, right-aligned to where it ends.
#[inline(always)]
fn put_small(line: &mut [u8; LINE_LENGTH], end: usize, number: u16) {
    line[end - SMALL..end].copy_from_slice(&SMALL_NUMBERS[usize::from(number)]);
}

/// Puts a cost or a sum on a line: two digits at a time, from the last ones on.
#[inline(always)]
fn put_cost(line: &mut [u8; LINE_LENGTH], cost: i64) {
    let mut start = COST_END;
    let mut rest = cost.unsigned_abs();
    while rest >= 100 {
        start -= 2;
        line[start..start + 2].copy_from_slice(&PAIRS[(rest % 100) as usize]);
        rest /= 100;
    }
    if rest >= 10 {
        start -= 2;
        line[start..start + 2].copy_from_slice(&PAIRS[rest as usize]);
    } else {
        start -= 1;
        line[start] = digit(rest as usize);
    }
    if cost < 0 {
        line[start - 1] = b'-';
    }
}

#[cfg(test)]
mod tests {
    use second::generate::{self, ListStyle, NetworkAim, PrintedCosts, Rng};
    use second::lengths::LONGEST_PAGE;
    use second::{print_page, write_list};

    use super::*;

    const ROUNDS: u64 = 300;

    /// The second program prints the same page or gives the same refusal, with room for every page, with just enough
    /// and with a byte less.
    fn assert_printed_alike(network: &[u8], list: &[u8]) {
        let due = print_page(network, list);
        let exact = due.as_ref().map_or(0, Vec::len);
        for length in [LONGEST_PAGE, exact, exact.saturating_sub(1)] {
            let mut page = vec![7; length];
            let answer = print(network, list, &mut page);
            let due = due.as_ref().map_err(|&refusal| refusal);
            let due = due.and_then(|due| fits(due.len(), length).map(|()| due));
            assert_eq!(answer, due.map(Vec::len));
            let due = due.map_or(&[][..], |due| due);
            assert_eq!(page[..due.len()], *due);
            assert!(page[due.len()..].iter().all(|&byte| byte == 7));
        }
    }

    #[test]
    fn lists_of_every_style_and_width() {
        for seed in 0..ROUNDS {
            let mut rng = Rng::new(seed);
            let vertices = rng.pick(&[2, 3, 10, 60, 256]);
            let mut network = generate::loose_network(&mut rng, vertices);
            let vertices = network.vertices;
            let costs = rng.pick(&PrintedCosts::ALL);
            let all: Vec<u16> = (0..).take(network.edges.len()).collect();
            costs.give(&mut rng, &mut network, &all);
            let text = generate::text(&network);
            for style in ListStyle::all(&mut rng, &network) {
                let edges = generate::list_of(&mut rng, &network, style);
                let list = write_list(vertices, &edges).expect("the list rises");
                assert_printed_alike(&text, &list);
            }
        }
    }

    #[test]
    fn aimed_and_broken_texts() {
        for seed in 0..ROUNDS {
            let mut rng = Rng::new(seed);
            let vertices = generate::size(&mut rng).max(4);
            let network = generate::network(&mut rng, vertices);
            let text = generate::text(&network);
            let edges = generate::list(&mut rng, &network);
            let list = write_list(vertices, &edges).expect("the list rises");
            let lists = [
                generate::broken_list(&mut rng, &network).0,
                generate::aimed_list(&mut rng, &network).0,
                generate::damage(&mut rng, &list),
                list,
            ];
            let mut networks = vec![
                generate::broken_network(&mut rng, vertices).0,
                generate::damage(&mut rng, &text),
                text,
            ];
            for aim in NetworkAim::ALL {
                networks.push(generate::aimed_network(&mut rng, aim, vertices).0);
            }
            for network in &networks {
                for list in &lists {
                    assert_printed_alike(network, list);
                }
            }
        }
    }
}
