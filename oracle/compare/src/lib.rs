//! ctsim and the library in one process.

pub mod arguments;
pub mod check;
pub mod clock;
pub mod exact;
pub mod file_checks;
pub mod files;
pub mod library;
pub mod packets;
pub mod pairs;
pub mod previews;
pub mod sweeps;
pub mod tally;
