//! A client of a bracha cluster.
//!
//! Up to t of the n members lie, so a client believes only what more than t of them say: one of
//! any t + 1 members is correct, and a correct member tells only decisions that it has saved.
//! `README.md` says where that is proved.
//!
//! A question is a number below [`Settings::questions`]. If the members run a chain of epochs, which
//! `client.toml` says by `chain = true`, it is a *slot*, any `u64`, and there is always a next one.
//!
//! ```no_run
//! use bracha_client::{Cluster, PATIENCE};
//! use std::time::Duration;
//!
//! # fn main() -> Result<(), bracha_client::Error> {
//! let cluster = Cluster::open("client.toml")?;
//! let bit = cluster.decide(7, true, Duration::from_secs(60))?;
//! assert_eq!(cluster.ask(7, PATIENCE)?, Some(bit));
//! for decision in cluster.follow()? {
//!     println!("question {} is decided: {}", decision.question, decision.bit);
//! }
//! # Ok(())
//! # }
//! ```

mod board;
mod cluster;
mod course;
mod error;
mod follow;
mod follower;
mod guarded;
mod halt;
mod line;
mod reading;
mod reply;
mod settings;
mod window;
mod wire;
mod workers;

pub use cluster::{Cluster, PATIENCE};
pub use error::Error;
pub use follow::{Follow, FollowMember};
pub use reading::Reading;
pub use reply::{Answer, Decision, Refusal, Stage, State, Status};
pub use settings::Settings;

/// The example of the README, which the tests of the documentation compile.
#[cfg(doctest)]
#[doc = include_str!("../README.md")]
struct Readme;
