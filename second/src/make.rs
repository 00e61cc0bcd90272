//! Making inputs: random slot logs and call files from a seed, and fixed sheets of calls and reports.

mod answers;
mod calls;
mod drops;
mod log_sheet;
mod logs;
mod parts;
mod records;
mod rng;
mod sdus;
mod sheets;
mod stats;
mod transport_sheet;
mod transports;

pub use calls::{calls, reports};
pub use log_sheet::slots;
pub use logs::{log, long_log};
pub use sheets::{blocks, builds};
pub use stats::stats;
pub use transport_sheet::transports;
pub use transports::transport;
