//! Graphs from rows: one set of neighbours a node, bit j for node j.

use super::NetworkGraph;

impl NetworkGraph {
    pub fn from_rows(rows: &[u32]) -> Self {
        let neighbours = |row: &u32| (0..32).filter(|j| row >> j & 1 == 1).collect();
        Self {
            adj: rows.iter().map(neighbours).collect(),
        }
    }
}
