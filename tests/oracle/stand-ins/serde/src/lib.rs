//! Stand-in for serde: the two derive names, nothing behind them.

pub use serde_derive::{Deserialize, Serialize};
