//! The service that plans one network for a list of candidates, each of which would be the reserved edge.

use crate::meanings::written;
use crate::{raw, Refusal, COSTS_TEXT};

/// What a network costs with a candidate as its reserved edge.
#[derive(Clone, Copy, Debug, PartialEq, Eq)]
pub struct Costs {
    /// The cost of the edges that its plan keeps.
    pub kept: i64,
    /// The cost of all edges but the reserved one.
    pub total: i64,
}

/// Plans a network text with each edge of a list reserved, in place of the one that its head names, and gives the costs
/// in the order of the list, which may repeat an edge: refusals 1 to 7 of the network, then 3 if any number of the list
/// is none of its edges.
pub fn plan_candidates(network: &[u8], reserved: &[u16]) -> Result<Vec<Costs>, Refusal> {
    let frames = written(COSTS_TEXT * reserved.len(), |costs, length| {
        raw::plan_candidates(network, reserved, costs, length)
    })?;
    Ok(frames.chunks_exact(COSTS_TEXT).map(costs).collect())
}

/// The costs in a frame 06 of the core's: 2 digits of its kind, 16 of each cost and a line feed.
fn costs(frame: &[u8]) -> Costs {
    Costs {
        kept: cost(&frame[2..18]),
        total: cost(&frame[18..34]),
    }
}

/// The number that 16 digits have in two's complement.
fn cost(digits: &[u8]) -> i64 {
    let digits = str::from_utf8(digits).expect("the core writes digits");
    let bits = u64::from_str_radix(digits, 16).expect("the core writes digits");
    bits.cast_signed()
}

#[cfg(test)]
mod tests {
    use super::*;

    #[test]
    fn costs_are_read_on_both_sides_of_zero() {
        let cases = [
            (b"0600000000000000080000000000000010\n", 8, 16),
            (b"06ffffffffffffffff0000000000000000\n", -1, 0),
            (
                b"060001d1a94a200000fffe2e56b5e00000\n",
                512_000_000_000_000,
                -512_000_000_000_000,
            ),
        ];
        for (frame, kept, total) in cases {
            assert_eq!(costs(frame), Costs { kept, total });
        }
    }
}
