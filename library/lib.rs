//! The library, and the recorders, as one crate: `evc::check` and `evc::check_calls` judge bytes in memory, `evc_calls`
//! records calls and `evc_record` steps, and `evc_stress` runs rounds, which the library judges in the same process.
mod evc;
#[path = "../recorder/evc_calls.rs"]
pub mod evc_calls;
#[path = "../recorder/evc_monitor.rs"]
pub mod evc_monitor;
#[path = "../recorder/evc_record.rs"]
pub mod evc_record;
#[path = "../recorder/evc_stress.rs"]
pub mod evc_stress;

pub use evc::*;
