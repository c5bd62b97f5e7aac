//! The planner ibcplan for relayers in Rust.
//!
//! A [`Planner`] starts the program. It plans whole scripts, and starts a [`Follower`], which answers turns as they
//! come and goes on after a crash. Scripts and turns are TOML: texts, or tables that [`table!`] makes.
//!
//! ```
//! let turn = ibcplan::table! {
//!     from: "2025-03-01T12:11:00Z",
//!     until: "2025-03-01T12:15:00Z",
//!     goal: [ibcplan::table! { client: "zone-on-hub", at_least: 58 }],
//! };
//! assert!(turn.to_string().contains(r#""goal" = [{"client" = "zone-on-hub", "at_least" = 58}]"#));
//! ```
//!
//! The project's docs/FORMATS.md has the keys of scripts and reports, docs/EMBEDDING.md a whole relayer.
mod error;
mod follower;
mod json;
mod planner;
mod report;
mod toml;

pub use error::{Error, Fault};
pub use follower::{Follower, Stopper};
pub use json::Json;
pub use planner::{Planner, Verdict};
pub use report::{
    Batch, Client, Expiry, Goal, Health, Kind, Label, Message, Outcome, Plan, Refusal, RefusedEvent, Report, Sending,
    Settlement, Total, Transaction, Turn, Update, Votes,
};
pub use toml::{Data, Table};
