//! The service that says what put each edge in or out.

use crate::meanings::written;
use crate::{raw, Refusal, REASONS_TEXT};

/// The bytes of each edge's frame.
const FRAME: usize = 13;

/// What puts an edge in or out: how it left the network, whether or not it was a step's z before.
#[derive(Clone, Copy, Debug, PartialEq, Eq, PartialOrd, Ord, Hash)]
#[repr(u8)]
pub enum Rule {
    /// It is the reserved edge.
    Reserved = 0,
    /// It was a step's y, and is kept.
    KeptAsY = 1,
    /// It was a step's x, and is kept, since that step's z is not.
    KeptAsX = 2,
    /// It was a step's x, and is out, since that step's z is kept.
    OutAsX = 3,
    /// It was one of the last three, and is kept.
    KeptAtEnding = 4,
    /// It was one of the last three, and is dropped.
    DroppedAtEnding = 5,
}

impl Rule {
    /// Every rule, by its number.
    pub const ALL: [Rule; 6] = [
        Rule::Reserved,
        Rule::KeptAsY,
        Rule::KeptAsX,
        Rule::OutAsX,
        Rule::KeptAtEnding,
        Rule::DroppedAtEnding,
    ];

    /// The number that a frame has for it.
    pub fn number(self) -> u8 {
        self as u8
    }

    /// Whether an edge of this rule is kept.
    pub fn keeps(self) -> bool {
        match self {
            Rule::KeptAsY | Rule::KeptAsX | Rule::KeptAtEnding => true,
            Rule::Reserved | Rule::OutAsX | Rule::DroppedAtEnding => false,
        }
    }
}

impl TryFrom<u8> for Rule {
    type Error = u8;

    /// The rule of a number from 0 to 5; any other number comes back as the error.
    fn try_from(number: u8) -> Result<Rule, u8> {
        Rule::ALL
            .into_iter()
            .find(|rule| rule.number() == number)
            .ok_or(number)
    }
}

/// Why an edge is kept or not.
#[derive(Clone, Copy, Debug, PartialEq, Eq)]
pub struct Reason {
    /// The edge.
    pub edge: u16,
    /// What put it in or out.
    pub rule: Rule,
    /// The step of which it was x or y, the first one being 1; 0 if it was neither.
    pub step: u16,
}

/// Checks any bytes as a chain over a network text, and gives the reason of each edge, in the order of their numbers:
/// refusals 1 to 12 and 17, as in the chain's check.
pub fn reasons(network: &[u8], chain: &[u8]) -> Result<Vec<Reason>, Refusal> {
    let frames = written(REASONS_TEXT, |reasons, length| {
        raw::reasons(network, chain, reasons, length)
    })?;
    Ok(frames.chunks_exact(FRAME).map(reason).collect())
}

/// The reason in a frame 0a of the core's: 2 digits of its kind, 4 of the edge, 2 of the rule, 4 of the step and a line
/// feed.
fn reason(frame: &[u8]) -> Reason {
    let rule = u8::try_from(number(&frame[6..8])).expect("two digits are a byte");
    Reason {
        edge: number(&frame[2..6]),
        rule: Rule::try_from(rule).expect("the core writes rules 0 to 5"),
        step: number(&frame[8..12]),
    }
}

/// The number that at most 4 digits have.
fn number(digits: &[u8]) -> u16 {
    let digits = str::from_utf8(digits).expect("the core writes digits");
    u16::from_str_radix(digits, 16).expect("the core writes digits")
}

#[cfg(test)]
mod tests {
    use super::*;

    #[test]
    fn numbers_and_rules_agree() {
        for (place, rule) in (0..).zip(Rule::ALL) {
            assert_eq!(rule.number(), place);
            assert_eq!(Rule::try_from(place), Ok(rule));
            assert_eq!(rule.keeps(), [1, 2, 4].contains(&place));
        }
        for none in [6, 255] {
            assert_eq!(Rule::try_from(none), Err(none));
        }
    }

    #[test]
    fn reasons_are_read_at_both_ends_of_their_fields() {
        let cases: [(&[u8; FRAME], u16, Rule, u16); 4] = [
            (b"0a0000000000\n", 0, Rule::Reserved, 0),
            (b"0a0005010001\n", 5, Rule::KeptAsY, 1),
            (b"0a01ff0300fe\n", 511, Rule::OutAsX, 254),
            (b"0affff05ffff\n", 65_535, Rule::DroppedAtEnding, 65_535),
        ];
        for (frame, edge, rule, step) in cases {
            assert_eq!(reason(frame), Reason { edge, rule, step });
        }
    }
}
