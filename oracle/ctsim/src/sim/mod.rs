pub mod paxos_pipeline;
pub mod pipeline;
