//! The comparison of the library, the model and the unchanged Rust.

pub mod compare;
pub mod cuts;
mod forecast_side;
mod index_side;
pub mod large;
#[cfg(feature = "linked")]
pub mod linked;
mod model_side;
mod oracle_side;
mod plan;
pub mod report;
pub mod shrink;
mod side;
pub mod stand_in;
pub mod watch;
pub mod widening;
