//! Thinning of four-port networks: safe functions over the verified services of libthinning.a.
//!
//! Here every answer comes in vectors of its own. [`raw`] has the same services over slices that the caller lends.
//!
//! [`plan`], [`plan_candidates`], [`plan_table`], [`check_chain`] and [`reasons()`] go as deep as there are vertices: a
//! thread that calls them needs 1.5 MB of stack for 256 vertices, which the threads of the standard library have.
//!
//! ```
//! let network = b"0100020000\n\
//!     020000000000010000000000000005\n\
//!     02000100000001ffffffffffffffff\n\
//!     020002000000010000000000000003\n\
//!     020003000000010000000000000003\n";
//! let plan = thinning::plan(network).unwrap();
//! assert_eq!(plan.chain, b"040003\n");
//! assert_eq!(thinning::check_chain(network, &plan.chain), Ok(plan.kept));
//! ```
//!
//! A chain that passes has a reason for each edge: the rule that put it in or out, and the step of which it was x or y.
//! The chain of that plan has no steps, only an ending, which drops edge 3.
//!
//! ```
//! # let network = b"0100020000\n\
//! #     020000000000010000000000000005\n\
//! #     02000100000001ffffffffffffffff\n\
//! #     020002000000010000000000000003\n\
//! #     020003000000010000000000000003\n";
//! use thinning::{Reason, Rule};
//!
//! let reasons = thinning::reasons(network, b"040003\n").unwrap();
//! assert_eq!(reasons[0].rule, Rule::Reserved);
//! assert_eq!(reasons[3], Reason { edge: 3, rule: Rule::DroppedAtEnding, step: 0 });
//! let kept = reasons.iter().filter(|reason| reason.rule.keeps());
//! assert!(kept.map(|reason| reason.edge).eq([1, 2]));
//! ```
//!
//! Candidates for the reserved edge are tried on one network, here edges 3 and 0 of that one. Each gets the cost of
//! what its plan keeps and the cost of all edges but it.
//!
//! ```
//! # let network = b"0100020000\n\
//! #     020000000000010000000000000005\n\
//! #     02000100000001ffffffffffffffff\n\
//! #     020002000000010000000000000003\n\
//! #     020003000000010000000000000003\n";
//! let costs = thinning::plan_candidates(network, &[3, 0]).unwrap();
//! assert_eq!((costs[0].kept, costs[0].total), (2, 7));
//! assert_eq!((costs[1].kept, costs[1].total), (2, 5));
//! ```
//!
//! A page has a line for each listed edge, here for two of that network's, and their sum on its last line.
//!
//! ```
//! # let network = b"0100020000\n\
//! #     020000000000010000000000000005\n\
//! #     02000100000001ffffffffffffffff\n\
//! #     020002000000010000000000000003\n\
//! #     020003000000010000000000000003\n";
//! let page = thinning::print_page(network, b"050001\n050002\n").unwrap();
//! let page = String::from_utf8(page).unwrap();
//! let lines: Vec<&str> = page.lines().collect();
//! assert_eq!(lines[0], "     1     0     1                -1");
//! assert_eq!(lines[1], "     2     0     1                 3");
//! assert_eq!(lines[2], "                                   2");
//! ```
//!
//! A table stands for a network, here by one span of doubled weight 4: four edges between two vertices, at cost 3 each.
//!
//! ```
//! let table = b"08000200000001\n0900000001040000000000000003\n";
//! let network = thinning::table_network(table).unwrap();
//! assert!(network.starts_with(b"0100020000\n020000000000010000000000000003\n"));
//! assert_eq!(thinning::plan_table(table), thinning::plan(&network));
//! ```

#![deny(unsafe_code)]

mod candidates;
mod meanings;
#[allow(unsafe_code)]
pub mod raw;
mod reasons;
mod refusal;
mod tables;
mod texts;

pub use candidates::{plan_candidates, Costs};
pub use meanings::{
    read_chain, read_list, read_network, write_chain, write_list, write_network, Chain, Network,
};
pub use reasons::{reasons, Reason, Rule};
pub use refusal::Refusal;
pub use tables::{check_table, plan_table, table_network};
pub use texts::{audit, check_chain, check_network, plan, print_page, Audit, Plan};

/// The most vertices of a network.
pub const VERTICES: usize = 256;
/// The most edges of a network.
pub const EDGES: usize = 512;
/// The most steps of a chain.
pub const STEPS: usize = 254;
/// The most bytes of a network text.
pub const NETWORK_TEXT: usize = 15_883;
/// The most bytes of a chain text.
pub const CHAIN_TEXT: usize = 8_897;
/// The most bytes of a kept text.
pub const KEPT_TEXT: usize = 3_612;
/// The most bytes of a chain's reasons.
pub const REASONS_TEXT: usize = 6_656;
/// The most bytes of an audit list.
pub const LIST_TEXT: usize = 3_584;
/// The most bytes of a page.
pub const PAGE_TEXT: usize = 18_981;
/// The most bytes of a table text.
pub const TABLE_TEXT: usize = 14_863;
/// The bytes of each candidate's frame.
pub const COSTS_TEXT: usize = 35;
