//! Reads the two heaps, which the published disseminator keeps private.
use std::collections::BinaryHeap;

use super::{Disseminator, GossipHeapEntry};
use crate::pb::Gossip;

/// An entry of a heap: the gossip, its sends and its size.
type HeldGossip = (Gossip, usize, usize);

impl Disseminator {
    /// The alive heap in array order.
    pub(crate) fn alive_entries(&self) -> Vec<HeldGossip> {
        in_array_order(&self.nodes_alive.try_read().expect("no call is under way"))
    }

    /// The deceased heap in array order.
    pub(crate) fn deceased_entries(&self) -> Vec<HeldGossip> {
        in_array_order(
            &self
                .nodes_deceased
                .try_read()
                .expect("no call is under way"),
        )
    }

    /// The lengths of the alive and the deceased heap.
    pub(crate) fn heap_lengths(&self) -> (usize, usize) {
        let alive = self.nodes_alive.try_read().expect("no call is under way");
        let deceased = self
            .nodes_deceased
            .try_read()
            .expect("no call is under way");
        (alive.len(), deceased.len())
    }
}

fn in_array_order(heap: &BinaryHeap<GossipHeapEntry>) -> Vec<HeldGossip> {
    heap.iter()
        .map(|entry| (entry.gossip.clone(), entry.num_send, entry.size))
        .collect()
}
