//! The Rust's planner, schedule.rs unchanged, from query text, and table text, to plan text. build.rs says where its files come from; the modules under
//! standins/ take the place of what is not at hand. Their names are those that schedule.rs uses, so they lie at the crate's root.
#[path = "standins/canon.rs"]
mod canon;
#[path = "standins/config.rs"]
mod config;
#[path = "standins/containers.rs"]
mod containers;
#[path = "standins/foldhash.rs"]
mod foldhash;
#[path = "standins/index_store.rs"]
mod index_store;
#[path = "standins/registry.rs"]
mod registry;
#[path = "standins/saturate.rs"]
mod saturate;

include!(concat!(env!("OUT_DIR"), "/modules.rs"));

pub mod generate;
mod index_sampler;
mod parse;
mod plan;
mod prepare;
mod query;
pub mod random;
mod sheets;
mod table;
mod watched;

pub use index_sampler::IndexSampler;
pub use parse::{decode, parse};
pub use plan::{Answer, Cost, Run, answer, costs, plan_text};
pub use prepare::Prepared;
pub use query::{Atom, Operand, Query, Settings, frames, line, to_text};
pub use table::{Row, Table};
pub use watched::{Asked, Probe};
