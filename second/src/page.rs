//! The printed page of a list: a line for each listed edge, and one for the sum of their costs.

use std::fmt::Write;

use crate::refusal::Refusal;
use crate::texts::{read_list, read_network, Edge, Network};

/// Bytes of a line: 36 characters and a line feed.
pub const LINE_LENGTH: usize = 37;
/// Characters of an edge's number, and of each of its ends.
const NUMBER_WIDTH: usize = 6;
/// Characters before a cost or the sum.
const BEFORE_COST: usize = 18;

/// Prints a list over the network of a text, which need not be accepted.
pub fn print_page(network_text: &[u8], list_text: &[u8]) -> Result<Vec<u8>, Refusal> {
    let network = read_network(network_text)?;
    let list = read_list(network.vertices, list_text)?;
    Ok(print_list(&network, &list))
}

/// Prints a list of edges, all below the network's count.
pub fn print_list(network: &Network, list: &[u16]) -> Vec<u8> {
    let mut page = String::with_capacity((list.len() + 1) * LINE_LENGTH);
    let mut sum = 0;
    for &number in list {
        let Edge { low, high, cost } = network.edges[usize::from(number)];
        sum += cost;
        writeln!(page, "{number:>6}{low:>6}{high:>6}{cost:>18}").expect("a string has room");
    }
    writeln!(page, "{:>18}{sum:>18}", "").expect("a string has room");
    page.into_bytes()
}

/// What a page says.
#[derive(Clone, Debug, PartialEq, Eq)]
pub struct Page {
    /// The printed edges in their order, each behind its number.
    pub edges: Vec<(u16, Edge)>,
    /// The sum on the last line.
    pub sum: i64,
}

/// Reads a page from its bytes alone, if each line has its form. Whether the sum is that of the
/// costs above it isn't looked at.
pub fn read_page(page: &[u8]) -> Option<Page> {
    let (lines, left_over) = page.as_chunks::<LINE_LENGTH>();
    let (last, above) = lines.split_last()?;
    if !left_over.is_empty() {
        return None;
    }
    let edges = above.iter().map(read_line).collect::<Option<_>>()?;
    let sum = last.strip_prefix(&[b' '; BEFORE_COST])?;
    let sum = number(sum.strip_suffix(b"\n")?)?;
    Some(Page { edges, sum })
}

/// The edge on a line, behind its number.
fn read_line(line: &[u8; LINE_LENGTH]) -> Option<(u16, Edge)> {
    let (numbers, cost) = line.strip_suffix(b"\n")?.split_at(BEFORE_COST);
    let mut numbers = numbers.chunks(NUMBER_WIDTH).map(small_number);
    let [place, low, high] = [numbers.next()??, numbers.next()??, numbers.next()??];
    let cost = number(cost)?;
    Some((place, Edge { low, high, cost }))
}

fn small_number(characters: &[u8]) -> Option<u16> {
    u16::try_from(number(characters)?).ok()
}

/// The number that stands right-aligned behind spaces, in the one way in which it is written.
fn number(characters: &[u8]) -> Option<i64> {
    let start = characters.iter().position(|&character| character != b' ')?;
    let written = str::from_utf8(&characters[start..]).ok()?;
    let number: i64 = written.parse().ok()?;
    (number.to_string() == written).then_some(number)
}

#[cfg(test)]
mod tests {
    use super::*;

    const LINE: &str = "     5     1     2                 3\n";
    const LAST: &str = "                                  -4\n";

    fn edge(low: u16, high: u16, cost: i64) -> Edge {
        Edge { low, high, cost }
    }

    #[test]
    fn a_page_is_read_by_its_bytes() {
        let page = [LINE, LAST].concat();
        let edges = vec![(5, edge(1, 2, 3))];
        let sum = -4;
        assert_eq!(read_page(page.as_bytes()), Some(Page { edges, sum }));
        let edges = Vec::new();
        assert_eq!(read_page(LAST.as_bytes()), Some(Page { edges, sum }));
    }

    #[test]
    fn a_line_of_another_form_is_not_read() {
        let lines = [
            // Leading zeros, a plus, a minus before zero or before spaces, no number.
            "    05     1     2                 3\n",
            "     5    +1     2                 3\n",
            "     5     1     2                -0\n",
            "     5     1     2               - 3\n",
            "     5           2                 3\n",
            "     5     1     2                  \n",
            // A number that isn't at the right, or doesn't stand in one field.
            "     5     1     2                3 \n",
            "     5    1      2                 3\n",
            "     5     1    20 3                \n",
            // A negative number or a high one, where none can be.
            "    -5     1     2                 3\n",
            " 65536     1     2                 3\n",
            // Characters of no number, and a line that ends elsewhere.
            "     5     1     a                 3\n",
            "     5     1     2               0x3\n",
            "\t    5     1     2                 3\n",
            "     5     1     2                3\n\n",
            "     5     1     2                 3\r",
            "\n     5     1     2                 3",
        ];
        for line in lines {
            assert_eq!(line.len(), LINE_LENGTH);
            assert_eq!(read_page([line, LAST].concat().as_bytes()), None, "{line}");
        }
    }

    #[test]
    fn a_page_ends_with_its_sum() {
        let pages = [
            "",
            LINE,
            &LAST[1..],
            &LAST[..LINE_LENGTH - 1],
            &[LAST, "\n"].concat(),
            &[LAST, LINE].concat(),
            &[LAST, LAST].concat(),
            &[LINE, LINE].concat(),
        ];
        for page in pages {
            assert_eq!(read_page(page.as_bytes()), None, "{page}");
        }
    }
}
