//! Pseudo-random networks, texts, chains, lists, candidates, tables and costs to print, to compare
//! answers on.
//!
//! Everything follows from the seed of a [`Rng`].

mod candidates;
mod chains;
mod costs;
mod crowded;
mod damage;
mod lists;
mod meanings;
mod networks;
mod pages;
mod rng;
mod shapes;
mod steps;
mod tables;

pub use candidates::{
    aimed_candidates, candidates, candidates_of, CandidateStyle, WrongPlace, MANY_CANDIDATES,
};
pub use chains::{aimed_chain, chain_by_rule, changed_chain, Aim, Aimed};
pub use costs::{CostAim, CostStyle};
pub use crowded::{crowded_network, faulty_text, Crowd, FrameFault, FEWEST_CROWDING};
pub use damage::{damage, Damage};
pub use lists::{aimed_list, broken_list, list, list_of, ListStyle};
pub use meanings::{
    chain_columns, list_meaning, network_columns, whole_chain_columns, ChainColumns,
    NetworkColumns, StepColumn,
};
pub use networks::{
    aimed_network, broken_network, dress, frames, loose_network, network, network_of, size, text,
    Family, NetworkAim, Shapeless,
};
pub use pages::PrintedCosts;
pub use rng::Rng;
pub use shapes::{
    EDGE_AS_SPAN, NARROW_EDGE, NARROW_SPAN, NARROW_STEP, SHORT_STEP, SPAN_AS_EDGE, STEP_COST_FIRST,
    STEP_WITHOUT_COST, STEP_WITHOUT_Z,
};
pub use steps::{faulty_chain, StepFault, StepPlace};
pub use tables::{aimed_table, loose_table, table, table_frames, table_of, table_text, TableAim};
