//! The modules of ctsim that the pipeline and the capture rounds use.

pub mod config;
pub mod event;
pub mod metrics;
pub mod network;
pub mod node;
pub mod phy;
pub mod protocol;
pub mod sim;
