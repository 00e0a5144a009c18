//! The event tracker and the group record, by 01's rules on events and expansion.

use crate::handle::*;
use crate::plain::{FxHashMap, FxIndexSet};
use crate::{Node, OrientedNode};

/// More steps than any table may have; a list beyond it is not expanded here.
pub const STEP_CAP: usize = 1 << 20;

pub struct AffixSubgraph {
    pub sequence: String,
    pub parents: Vec<Handle>,
    pub shared_prefix_nodes: Vec<Handle>,
}

/// What the Rust hands over for a member: id, direction, length before, its prefix as
/// split off, and its suffix with length if it has one.
type Member = (usize, Direction, usize, Handle, Option<(Handle, usize)>);

#[derive(Default)]
pub struct CollapseEventTracker {
    pub dont_collapse_nodes: FxIndexSet<Node>,
    pub dont_collapse_nodes_lastorig: Option<Node>,
    pub list: Vec<(Node, Vec<OrientedNode>)>,
}

pub fn turned(walk: &[OrientedNode]) -> Vec<OrientedNode> {
    let other = |d| if d == Direction::Left { Direction::Right } else { Direction::Left };
    walk.iter().rev().map(|&(id, d, len)| (id, other(d), len)).collect()
}

fn oriented(v: Handle, len: usize) -> OrientedNode {
    let side = if v.is_reverse() { Direction::Left } else { Direction::Right };
    (v.unpack_number() as usize, side, len)
}

impl CollapseEventTracker {
    pub fn report(&mut self, shared: Handle, p: usize, members: &[Member]) {
        for (at, &(id, side, before, _, suffix)) in members.iter().enumerate() {
            if at == 0 && suffix.is_none() {
                continue;
            }
            let mut walk = vec![oriented(shared, p)];
            walk.extend(suffix.map(|(u, len)| oriented(u, len)));
            let walk = if side == Direction::Left { turned(&walk) } else { walk };
            self.list.push(((id, before), walk));
        }
    }

    /// De-collapse is left aside by 01, so nothing is kept for it.
    pub fn retain_dont_collapse_edges(&mut self, _edges: Vec<(OrientedNode, Vec<OrientedNode>)>) {}

    pub fn get_expanded_transformation(&self) -> FxHashMap<Node, Vec<OrientedNode>> {
        self.list.iter().map(|(key, walk)| (*key, self.expand_walk(walk))).collect()
    }

    fn expand_walk(&self, walk: &[OrientedNode]) -> Vec<OrientedNode> {
        let all: Vec<OrientedNode> = walk.iter().flat_map(|&step| self.expand_node(step)).collect();
        assert!(all.len() <= STEP_CAP, "a table far above every limit");
        all
    }

    fn expand_node(&self, step: OrientedNode) -> Vec<OrientedNode> {
        match self.rule((step.0, step.2)) {
            None => vec![step],
            Some(at) => {
                let walk = self.expand_walk(&self.list[at].1);
                if step.1 == Direction::Left { turned(&walk) } else { walk }
            }
        }
    }

    pub fn rule(&self, key: Node) -> Option<usize> {
        self.list.iter().position(|event| event.0 == key)
    }

    /// 01's number 12: some step's own rule does not come later. Such a list has no end.
    pub fn out_of_order(&self) -> bool {
        let late = |at: usize, step: &OrientedNode| {
            self.rule((step.0, step.2)).map_or(false, |rule| rule <= at)
        };
        self.list.iter().enumerate().any(|(at, event)| event.1.iter().any(|s| late(at, s)))
    }
}
