//! 01's driver, over the Rust's own groups, prefix and collapse.

use crate::events::{AffixSubgraph, CollapseEventTracker};
use crate::handle::*;
use crate::lines::Loaded;
use crate::{collapse, enumerate_branch, get_shared_prefix};
use std::collections::BTreeSet;

fn barred(members: &[Handle], protected: &BTreeSet<u64>) -> bool {
    let ids: BTreeSet<u64> = members.iter().map(|v| v.unpack_number()).collect();
    ids.len() < members.len() || !ids.is_disjoint(protected)
}

/// The groups of v by their first met member: neighbours are met in handle order.
fn groups(world: &Loaded, v: Handle) -> Vec<(Vec<Handle>, Vec<Handle>)> {
    let branch = enumerate_branch(&world.graph, &world.deleted, &v);
    let mut all: Vec<(Vec<Handle>, Vec<Handle>)> =
        branch.into_iter().map(|((_, parents), group)| (group.into(), parents)).collect();
    all.sort_by_key(|group| group.0.iter().min().copied());
    all
}

fn next(world: &Loaded, protected: &BTreeSet<u64>) -> Option<AffixSubgraph> {
    let live = world.graph.handles().filter(|v| !world.deleted.node_deleted(v));
    for v in live.flat_map(|v| [v, v.flip()]) {
        for (members, parents) in groups(world, v) {
            if members.len() < 2 || barred(&members, protected) {
                continue;
            }
            let sequence = get_shared_prefix(&members, &world.graph).expect("letters");
            if !sequence.is_empty() {
                return Some(AffixSubgraph { sequence, parents, shared_prefix_nodes: members });
            }
        }
    }
    None
}

/// Collapses until no group is left, or until `most` collapses are made.
pub fn drive(
    world: &mut Loaded,
    events: &mut CollapseEventTracker,
    protected: &BTreeSet<u64>,
    most: u64,
) -> u64 {
    let mut made = 0;
    while made < most {
        match next(world, protected) {
            None => break,
            Some(group) => collapse(&mut world.graph, &group, &mut world.deleted, events),
        };
        made += 1;
    }
    made
}
