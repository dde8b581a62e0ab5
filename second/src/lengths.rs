//! How long texts and columns are, and when a buffer is too short for them.

use crate::lines::{EDGE, ENDING, HEAD, LISTED, REASON, REFUSED, SPAN, STEP, SUMS, TABLE_HEAD};
use crate::page::LINE_LENGTH;
use crate::refusal::{Refusal, SHORT_BUFFER};
use crate::texts::MOST_VERTICES;

/// Bytes of a network text of so many vertices.
pub const fn network_text(vertices: usize) -> usize {
    HEAD.line_length() + edge_column(vertices) * EDGE.line_length()
}

/// Bytes of a chain text for so many vertices, which are at least two.
pub const fn chain_text(vertices: usize) -> usize {
    step_column(vertices) * STEP.line_length() + ENDING.line_length()
}

/// Bytes of an audit list of so many edges.
pub const fn list_text(edges: usize) -> usize {
    edges * LISTED.line_length()
}

/// Bytes of a kept text of so many edges.
pub const fn kept_text(edges: usize) -> usize {
    edges * LISTED.line_length() + SUMS.line_length()
}

/// Bytes of the frames 06 of so many candidates.
pub const fn candidates_text(candidates: usize) -> usize {
    candidates * SUMS.line_length()
}

/// Bytes of the reasons for so many vertices: a frame 0a for each edge.
pub const fn reasons_text(vertices: usize) -> usize {
    edge_column(vertices) * REASON.line_length()
}

/// Bytes of the page of so many edges: a line for each, and one for the sum.
pub const fn page(edges: usize) -> usize {
    (edges + 1) * LINE_LENGTH
}

/// Bytes of a table text of so many spans.
pub const fn table_text(spans: usize) -> usize {
    TABLE_HEAD.line_length() + spans * SPAN.line_length()
}

/// Bytes of a 0f line.
pub const fn refusal_line() -> usize {
    REFUSED.line_length()
}

/// Entries of each column that holds a network's edges.
pub const fn edge_column(vertices: usize) -> usize {
    2 * vertices
}

/// Entries of each column that holds a chain's steps, for at least two vertices.
pub const fn step_column(vertices: usize) -> usize {
    vertices - 2
}

/// Bytes of the longest network text.
pub const LONGEST_NETWORK_TEXT: usize = network_text(MOST_VERTICES);
/// Bytes of the longest chain text.
pub const LONGEST_CHAIN_TEXT: usize = chain_text(MOST_VERTICES);
/// Bytes of the longest audit list.
pub const LONGEST_LIST_TEXT: usize = list_text(edge_column(MOST_VERTICES));
/// Bytes of the longest reasons.
pub const LONGEST_REASONS_TEXT: usize = reasons_text(MOST_VERTICES);
/// Bytes of the longest page.
pub const LONGEST_PAGE: usize = page(edge_column(MOST_VERTICES));
/// Bytes of the longest table text, whose spans stand for one edge each.
pub const LONGEST_TABLE_TEXT: usize = table_text(edge_column(MOST_VERTICES));

/// Whether a buffer of `lent` entries takes the `due` ones.
pub fn fits(due: usize, lent: usize) -> Result<(), Refusal> {
    if lent < due {
        Err(SHORT_BUFFER)
    } else {
        Ok(())
    }
}

#[cfg(test)]
mod tests {
    use super::*;

    #[test]
    fn longest_texts() {
        assert_eq!(LONGEST_NETWORK_TEXT, 15_883);
        assert_eq!(LONGEST_CHAIN_TEXT, 8_897);
        assert_eq!([2, 3].map(chain_text), [7, 42]);
        assert_eq!(LONGEST_LIST_TEXT, 3_584);
        assert_eq!(LONGEST_REASONS_TEXT, 6_656);
        assert_eq!([2, 3].map(reasons_text), [52, 78]);
        assert_eq!(LONGEST_PAGE, 18_981);
        assert_eq!(LONGEST_TABLE_TEXT, 14_863);
        assert_eq!(kept_text(0), 35);
        assert_eq!([0, 1, 40].map(candidates_text), [0, 35, 1_400]);
        assert_eq!(page(0), 37);
        assert_eq!(refusal_line(), 5);
    }

    #[test]
    fn only_a_shorter_buffer_is_short() {
        assert_eq!(fits(7, 7), Ok(()));
        assert_eq!(fits(7, 8), Ok(()));
        assert_eq!(fits(7, 6), Err(SHORT_BUFFER));
        assert_eq!(fits(0, 0), Ok(()));
    }
}
