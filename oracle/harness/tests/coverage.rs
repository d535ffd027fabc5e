//! A flood of ctsim by itself, outside a run.

use ctsim::config::CiConfig;
use ctsim::metrics::MetricsCollector;
use ctsim::network::NetworkGraph;
use ctsim::node::{Node, NodeState};
use ctsim::phy::ci::flood_identical_round;
use rand::SeedableRng;
use rand_chacha::ChaCha8Rng;

/// Two nodes without a link hold the packet that node 0 floods. Node 1 hears nothing and took no
/// part, and is covered by what it held.
#[test]
fn a_kept_packet_is_covered() {
    let mut nodes = [0, 1].map(Node::new);
    for node in &mut nodes {
        node.payload = b"a packet".to_vec();
    }
    let graph = NetworkGraph::from_rows(&[0, 0]);
    let config = CiConfig {
        flood_repeats: 1,
        round_slots: None,
    };
    let mut rng = ChaCha8Rng::seed_from_u64(7);
    let mut metrics = MetricsCollector::new();
    let mut next = 0;
    flood_identical_round(
        0,
        0,
        &mut nodes,
        &graph,
        &config,
        &mut rng,
        0.0,
        &mut metrics,
        &mut next,
        1,
    );
    let states = nodes.map(|node| node.state);
    assert_eq!(states, [NodeState::Sleep, NodeState::Listen]);
    assert_eq!(metrics.flood_nodes_covered, 2);
}
