//! The graph store and the deleted set, by 01's link and split rules.

use crate::gfa::GFA;
use crate::handle::*;
use std::cell::RefCell;
use std::collections::{BTreeMap, BTreeSet};
use std::rc::Rc;

type Marked = Rc<RefCell<BTreeSet<Edge>>>;

/// `right[u]` holds every v with a link u to v; each link stands there under both of
/// its readings. Sets are sorted, so neighbours come as 01 wants them met.
#[derive(Default)]
pub struct HashGraph {
    letters: BTreeMap<u64, Vec<u8>>,
    right: BTreeMap<Handle, BTreeSet<Handle>>,
    marked: Marked,
}

fn complement(letter: u8) -> u8 {
    let pairs = [(b'A', b'T'), (b'C', b'G'), (b'G', b'C'), (b'T', b'A'), (b'N', b'N')];
    let upper = letter.to_ascii_uppercase();
    let other = pairs.iter().find(|pair| pair.0 == upper).expect("a letter").1;
    if letter == upper { other } else { other.to_ascii_lowercase() }
}

impl HashGraph {
    pub fn from_gfa(gfa: &GFA<usize, ()>) -> HashGraph {
        let mut graph = HashGraph::default();
        for (id, letters) in &gfa.segments {
            graph.add_node(*id as u64, letters);
        }
        for (u, v) in &gfa.links {
            graph.create_edge(Edge::edge_handle(*u, *v));
        }
        graph
    }

    pub fn add_node(&mut self, id: u64, letters: &[u8]) {
        let before = self.letters.insert(id, letters.to_vec());
        assert!(before.is_none(), "node {} stands twice", id);
    }

    pub fn has_node(&self, id: NodeId) -> bool {
        self.letters.contains_key(&id.0)
    }

    fn stored(&self, v: Handle) -> &Vec<u8> {
        self.letters.get(&v.id().0).expect("a node of the graph")
    }

    pub fn node_len(&self, v: Handle) -> usize {
        self.stored(v).len()
    }

    pub fn sequence_vec(&self, v: Handle) -> Vec<u8> {
        let forward = self.stored(v);
        if v.is_reverse() {
            forward.iter().rev().map(|&letter| complement(letter)).collect()
        } else {
            forward.clone()
        }
    }

    pub fn base(&self, v: Handle, at: usize) -> Option<u8> {
        self.sequence_vec(v).get(at).copied()
    }

    pub fn handles(&self) -> std::vec::IntoIter<Handle> {
        let all: Vec<Handle> = self.letters.keys().map(|&id| Handle::pack(id, false)).collect();
        all.into_iter()
    }

    pub fn edges(&self) -> std::vec::IntoIter<Edge> {
        let mut all = BTreeSet::new();
        for (&u, ends) in &self.right {
            all.extend(ends.iter().map(|&v| Edge::edge_handle(u, v)));
        }
        all.into_iter().collect::<Vec<Edge>>().into_iter()
    }

    pub fn neighbors(&self, v: Handle, side: Direction) -> std::vec::IntoIter<Handle> {
        self.stored(v); // an absent node has no neighbours to ask for
        let ends = |from: Handle| self.right.get(&from).cloned().unwrap_or_default();
        let mut met: Vec<Handle> = match side {
            Direction::Right => ends(v).into_iter().collect(),
            Direction::Left => ends(v.flip()).into_iter().map(|u| u.flip()).collect(),
        };
        met.sort();
        met.into_iter()
    }

    pub fn has_edge(&self, u: Handle, v: Handle) -> bool {
        self.right.get(&u).map_or(false, |ends| ends.contains(&v))
    }

    /// A link already stored is not made again, and keeps its mark.
    pub fn create_edge(&mut self, Edge(u, v): Edge) {
        assert!(self.has_node(u.id()) && self.has_node(v.id()), "both ends stand");
        self.right.entry(u).or_default().insert(v);
        self.right.entry(v.flip()).or_default().insert(u.flip());
    }

    fn remove_edge(&mut self, u: Handle, v: Handle) {
        self.right.get_mut(&u).map(|ends| ends.remove(&v));
        self.right.get_mut(&v.flip()).map(|ends| ends.remove(&u.flip()));
    }

    /// 01's split: v keeps k letters, a fresh node has the rest and v's right side.
    pub fn split_handle(&mut self, v: Handle, k: usize) -> (Handle, Handle) {
        assert!(!v.is_reverse() && 0 < k && k < self.node_len(v), "a split inside a node");
        let largest = *self.letters.keys().next_back().expect("v stands");
        let fresh = Handle::pack(largest + 1, false);
        let rest = self.letters.get_mut(&v.id().0).expect("v stands").split_off(k);
        self.add_node(largest + 1, &rest);
        for y in self.neighbors(v, Direction::Right) {
            let end = if y == v.flip() { fresh.flip() } else { y };
            self.remove_edge(v, y);
            self.create_edge(Edge::edge_handle(fresh, end));
            self.move_mark(Edge::edge_handle(v, y), Edge::edge_handle(fresh, end));
        }
        self.create_edge(Edge::edge_handle(v, fresh));
        (v, fresh)
    }

    fn move_mark(&self, from: Edge, to: Edge) {
        let mut marked = self.marked.borrow_mut();
        if marked.remove(&from) {
            marked.insert(to);
        }
    }
}

/// Marks. Those of links are shared with the graph: 01 lets a mark travel with a link
/// that a split moves, and the Rust tells only the graph of a split.
pub struct DeletedSubGraph {
    nodes: BTreeSet<u64>,
    links: Marked,
}

impl DeletedSubGraph {
    pub fn of(graph: &HashGraph) -> DeletedSubGraph {
        DeletedSubGraph { nodes: BTreeSet::new(), links: graph.marked.clone() }
    }

    pub fn add_node(&mut self, v: Handle) {
        self.nodes.insert(v.id().0);
    }

    pub fn add_edge(&mut self, u: Handle, v: Handle) {
        self.links.borrow_mut().insert(Edge::edge_handle(u, v));
    }

    pub fn node_deleted(&self, v: &Handle) -> bool {
        self.nodes.contains(&v.id().0)
    }

    pub fn edge_marked(&self, u: Handle, v: Handle) -> bool {
        self.links.borrow().contains(&Edge::edge_handle(u, v))
    }

    pub fn edge_deleted(&self, u: &Handle, v: &Handle) -> bool {
        self.node_deleted(u) || self.node_deleted(v) || self.edge_marked(*u, *v)
    }
}
