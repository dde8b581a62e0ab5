//! The services on tables of spans, each of which stands for a network.

use crate::meanings::written;
use crate::texts::planned;
use crate::{raw, Plan, Refusal, NETWORK_TEXT};

/// Checks a table text: refusals 1 to 5, 15 and 16, then 6 and 7 of the network that it stands for.
pub fn check_table(table: &[u8]) -> Result<(), Refusal> {
    Refusal::judge(raw::check_table(table))
}

/// Plans a table text as the network that it stands for: refusals as in its check.
pub fn plan_table(table: &[u8]) -> Result<Plan, Refusal> {
    planned(|chain, kept, chain_written, kept_written| {
        raw::plan_table(table, chain, kept, chain_written, kept_written)
    })
}

/// Writes the network text that a table text stands for: refusals 1 to 5, 15 and 16. Degrees and cuts are not looked
/// at.
pub fn table_network(table: &[u8]) -> Result<Vec<u8>, Refusal> {
    written(NETWORK_TEXT, |network, length| {
        raw::table_network(table, network, length)
    })
}
