//! Oriented nodes, directions and links, under the names that the Rust calls them by.

#[derive(Clone, Copy, PartialEq, Eq, PartialOrd, Ord, Hash, Debug)]
pub struct NodeId(pub u64);

impl From<usize> for NodeId {
    fn from(id: usize) -> NodeId {
        NodeId(id as u64)
    }
}

impl From<u64> for NodeId {
    fn from(id: u64) -> NodeId {
        NodeId(id)
    }
}

/// An id and a direction in one number, id * 2 + direction. The derived order is
/// therefore 01's: by rising id, forward before reverse.
#[derive(Clone, Copy, PartialEq, Eq, PartialOrd, Ord, Hash, Debug)]
pub struct Handle(pub u64);

impl Handle {
    pub fn pack<I: Into<NodeId>>(id: I, reverse: bool) -> Handle {
        Handle(id.into().0 * 2 + reverse as u64)
    }

    pub fn id(&self) -> NodeId {
        NodeId(self.0 / 2)
    }

    pub fn unpack_number(&self) -> u64 {
        self.0 / 2
    }

    pub fn is_reverse(&self) -> bool {
        self.0 % 2 == 1
    }

    pub fn flip(&self) -> Handle {
        Handle(self.0 ^ 1)
    }

    pub fn forward(&self) -> Handle {
        Handle(self.0 & !1)
    }
}

#[derive(Clone, Copy, PartialEq, Eq, Hash, Debug)]
pub enum Direction {
    Left,
    Right,
}

#[derive(Clone, Copy, PartialEq, Eq, Debug)]
pub enum Orientation {
    Forward,
    Backward,
}

/// A link in a form that it shares with its other reading: of the two the one whose
/// first end is smaller. This is not 01's written form (a both-forward link can stand
/// here both-reverse), so that the Rust's own turning before it prints is put to use.
#[derive(Clone, Copy, PartialEq, Eq, PartialOrd, Ord, Hash, Debug)]
pub struct Edge(pub Handle, pub Handle);

impl Edge {
    pub fn edge_handle(u: Handle, v: Handle) -> Edge {
        std::cmp::min(Edge(u, v), Edge(v.flip(), u.flip()))
    }
}
