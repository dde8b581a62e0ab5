//! Thinning of four-port networks: a second program to compare a verified core with.
//!
//! It follows the same rules as the core, but shares no code with it. Cuts are judged by
//! counting across every one of them in small networks and by maximum flows in larger
//! ones. Every service takes texts as bytes and gives a refusal's number as the error;
//! buffers don't occur, so [`lengths`] says what would be due to them.
//!
//! ```
//! let network = b"0100020000\n\
//!     020000000000010000000000000005\n\
//!     02000100000001ffffffffffffffff\n\
//!     020002000000010000000000000003\n\
//!     020003000000010000000000000003\n";
//! let plan = second::plan(network).unwrap();
//! assert_eq!(plan.chain, b"040003\n");
//! assert_eq!(second::check_chain(network, &plan.chain), Ok(plan.kept));
//! ```

pub mod audit;
pub mod candidates;
pub mod chain;
pub mod columns;
pub mod cuts;
pub mod flow;
pub mod generate;
pub mod lengths;
pub mod lines;
pub mod network;
pub mod page;
pub mod properties;
pub mod reasons;
pub mod refusal;
pub mod tables;
pub mod texts;
pub mod working;

pub use audit::{audit, Audit};
pub use candidates::{plan_candidates_by, read_candidates, Sums};
pub use chain::{check_chain_by, plan_by, Plan};
pub use network::Method;
pub use page::{print_page, read_page, Page};
pub use reasons::{read_reasons, reasons_by, Reason, Rule};
pub use refusal::Refusal;
pub use tables::{
    check_table_by, plan_table_by, read_table, table_network, write_table, Span, Table,
};
pub use texts::{
    read_chain, read_kept, read_list, read_network, write_chain, write_kept, write_list,
    write_network, write_refusal, Chain, Edge, Kept, Network, Step,
};

/// Checks a network text: refusals 1 to 7.
pub fn check_network(text: &[u8]) -> Result<(), Refusal> {
    check_network_by(text, Method::Mixed)
}

/// Checks a network text with cuts judged by the given method.
pub fn check_network_by(text: &[u8], method: Method) -> Result<(), Refusal> {
    network::read_accepted(text, method).map(|_| ())
}

/// Plans a network text: chain and kept text, or refusals 1 to 7.
pub fn plan(text: &[u8]) -> Result<Plan, Refusal> {
    plan_by(text, Method::Mixed)
}

/// Plans a network text with each listed edge reserved in turn: a frame 06 for each, or refusals
/// 1 to 7, then 3 for the list.
pub fn plan_candidates(network: &[u8], reserved: &[u16]) -> Result<Vec<u8>, Refusal> {
    plan_candidates_by(network, reserved, Method::Mixed)
}

/// Checks any bytes as a chain over a network text: the kept text, or refusals 1 to 12 and 17.
pub fn check_chain(network: &[u8], chain: &[u8]) -> Result<Vec<u8>, Refusal> {
    check_chain_by(network, chain, Method::Mixed)
}

/// What put each edge in or out, for any bytes that pass as a chain over a network text: a frame 0a
/// for each edge, or the refusals of the chain's check.
pub fn reasons(network: &[u8], chain: &[u8]) -> Result<Vec<u8>, Refusal> {
    reasons_by(network, chain, Method::Mixed)
}

/// Checks a table text: refusals 1 to 5, 15 and 16, then 6 and 7 of its network.
pub fn check_table(text: &[u8]) -> Result<(), Refusal> {
    check_table_by(text, Method::Mixed)
}

/// Plans a table text as the network it stands for, or refuses it as its check does.
pub fn plan_table(text: &[u8]) -> Result<Plan, Refusal> {
    plan_table_by(text, Method::Mixed)
}

/// What the plan program writes for a network text: chain and kept text, or a 0f line.
pub fn plan_output(text: &[u8], method: Method) -> Vec<u8> {
    match plan_by(text, method) {
        Ok(plan) => [plan.chain, plan.kept].concat(),
        Err(refusal) => write_refusal(refusal),
    }
}
