//! The line format: numbers in, and the plain form of what the Rust holds out.

use crate::events::CollapseEventTracker;
use crate::handle::*;
use crate::plain::FxHashMap;
use crate::store::*;
use crate::{Node, OrientedNode};
use std::collections::BTreeSet;

/// `undefined` where the arguments have no meaning for the Rust, `bad` for a bad line.
pub type Asked<T> = Result<T, &'static str>;

pub const UNDEFINED: &str = "undefined";
const BAD: &str = "bad line";
const MAX_ID: u64 = u32::MAX as u64;

pub struct Loaded {
    pub graph: HashGraph,
    pub deleted: DeletedSubGraph,
    pub marks: bool,
}

pub struct Line<'a> {
    words: std::str::SplitAsciiWhitespace<'a>,
}

fn hold(well_formed: bool) -> Asked<()> {
    if well_formed { Ok(()) } else { Err(UNDEFINED) }
}

fn in_use(array: &[u64], count: u64, stride: u64, limit: u64) -> Asked<Vec<&[u64]>> {
    hold(count <= limit && count * stride <= array.len() as u64)?;
    Ok(array.chunks(stride as usize).take(count as usize).collect())
}

fn range(array: &[u64], start: u64, length: u64) -> Asked<&[u64]> {
    let end = start.checked_add(length).ok_or(UNDEFINED)?;
    hold(end <= array.len() as u64)?;
    Ok(&array[start as usize..end as usize])
}

impl<'a> Line<'a> {
    pub fn new(line: &'a str) -> Line<'a> {
        Line { words: line.split_ascii_whitespace() }
    }

    pub fn word(&mut self) -> Asked<&'a str> {
        self.words.next().ok_or(BAD)
    }

    pub fn number(&mut self) -> Asked<u64> {
        self.word()?.parse().map_err(|_| BAD)
    }

    pub fn array(&mut self) -> Asked<Vec<u64>> {
        let length = self.number()?;
        (0..length).map(|_| self.number()).collect()
    }

    pub fn bytes(&mut self) -> Asked<Vec<u8>> {
        self.array()?.into_iter().map(|n| u8::try_from(n).map_err(|_| BAD)).collect()
    }

    pub fn handles(&mut self) -> Asked<Vec<Handle>> {
        Ok(self.array()?.into_iter().map(Handle).collect())
    }

    pub fn graph(&mut self) -> Asked<Loaded> {
        let (nodes, letters, links) = (self.array()?, self.array()?, self.array()?);
        let counts = [self.number()?, self.number()?, self.number()?];
        let letters: Vec<u64> = in_use(&letters, counts[1], 1, 1 << 24)?.concat();
        let graph = HashGraph::default();
        let deleted = DeletedSubGraph::of(&graph);
        let mut loaded = Loaded { graph, deleted, marks: false };
        for node in in_use(&nodes, counts[0], 4, 1 << 16)? {
            loaded.take_node(node, &letters)?;
        }
        for link in in_use(&links, counts[2], 3, 1 << 17)? {
            loaded.take_link(link)?;
        }
        Ok(loaded)
    }

    /// A graph that is to be an old one: 01 allows it no marks, the Rust has none for it.
    pub fn old_graph(&mut self) -> Asked<HashGraph> {
        let loaded = self.graph()?;
        hold(!loaded.marks)?;
        Ok(loaded.graph)
    }

    pub fn table(&mut self) -> Asked<CollapseEventTracker> {
        let (rules, steps) = (self.array()?, self.array()?);
        let counts = [self.number()?, self.number()?];
        let steps = in_use(&steps, counts[1], 2, 1 << 18)?.concat();
        hold(steps.chunks(2).all(|step| 2 <= step[0] && step[0] / 2 <= MAX_ID))?;
        let mut tracker = CollapseEventTracker::default();
        for rule in in_use(&rules, counts[0], 4, 1 << 16)? {
            hold(1 <= rule[0] && rule[0] <= MAX_ID && rule[2] <= 1 << 18 && rule[3] <= 1 << 18)?;
            let walk = range(&steps, rule[2] * 2, rule[3] * 2)?.chunks(2);
            let key = (rule[0] as usize, rule[1] as usize);
            hold(tracker.rule(key).is_none())?;
            tracker.list.push((key, walk.map(|step| oriented(Handle(step[0]), step[1])).collect()));
        }
        Ok(tracker)
    }

    /// A table that is to be an event list: 01 allows no event without steps.
    pub fn events(&mut self) -> Asked<CollapseEventTracker> {
        let tracker = self.table()?;
        hold(tracker.list.iter().all(|event| !event.1.is_empty()))?;
        Ok(tracker)
    }
}

impl Loaded {
    fn take_node(&mut self, node: &[u64], letters: &[u64]) -> Asked<()> {
        let span: Vec<u8> = range(letters, node[1], node[2])?.iter().map(|&n| n as u8).collect();
        hold(1 <= node[0] && node[0] <= MAX_ID && node[3] <= 1 && !span.is_empty())?;
        hold(span.iter().all(|letter| b"ACGTNacgtn".contains(letter)))?;
        hold(!self.graph.has_node(NodeId(node[0])))?;
        self.graph.add_node(node[0], &span);
        if node[3] == 1 {
            self.marks = true;
            self.deleted.add_node(Handle::pack(node[0], false));
        }
        Ok(())
    }

    fn take_link(&mut self, link: &[u64]) -> Asked<()> {
        let (u, v) = (Handle(link[0]), Handle(link[1]));
        hold(self.graph.has_node(u.id()) && self.graph.has_node(v.id()) && link[2] <= 1)?;
        hold(written(u, v) == (u, v) && !self.graph.has_edge(u, v))?;
        self.graph.create_edge(Edge::edge_handle(u, v));
        if link[2] == 1 {
            self.marks = true;
            self.deleted.add_edge(u, v);
        }
        Ok(())
    }

    pub fn show(&self) -> String {
        let mark = |deleted: bool| deleted as u64;
        let nodes = self.graph.handles().map(|v| {
            let letters = String::from_utf8(self.graph.sequence_vec(v)).expect("letters");
            format!("{}:{}:{}", v.unpack_number(), letters, mark(self.deleted.node_deleted(&v)))
        });
        let links: BTreeSet<(Handle, Handle)> = self.graph.edges().map(|e| written(e.0, e.1)).collect();
        let links = links.into_iter().map(|(u, v)| {
            format!("{}>{}:{}", u.0, v.0, mark(self.deleted.edge_marked(u, v)))
        });
        format!("{} | {}", joined(nodes), joined(links))
    }
}

/// 01's written form of a link.
fn written(u: Handle, v: Handle) -> (Handle, Handle) {
    let turn = match (u.is_reverse(), v.is_reverse()) {
        (false, false) => false,
        (true, true) => true,
        _ => v.id() < u.id(),
    };
    if turn { (v.flip(), u.flip()) } else { (u, v) }
}

pub fn oriented(v: Handle, length: u64) -> OrientedNode {
    let side = if v.is_reverse() { Direction::Left } else { Direction::Right };
    (v.unpack_number() as usize, side, length as usize)
}

pub fn packed(id: usize, side: Direction) -> u64 {
    Handle::pack(id, side == Direction::Left).0
}

pub fn joined<I: Iterator<Item = String>>(parts: I) -> String {
    parts.collect::<Vec<String>>().join(" ")
}

pub fn show_rules<'a, I: Iterator<Item = (&'a Node, &'a Vec<OrientedNode>)>>(rules: I) -> String {
    joined(rules.map(|(key, walk)| {
        let steps: Vec<String> =
            walk.iter().map(|&(id, side, len)| format!("{}:{}", packed(id, side), len)).collect();
        format!("{}:{}={}", key.0, key.1, steps.join(","))
    }))
}

/// Bytes as one quoted word, so that an answer stays one line.
pub fn quoted(bytes: &[u8]) -> String {
    let plain = |&byte: &u8| match byte {
        b'"' | b'\\' | 0..=32 | 127..=255 => format!("\\x{:02x}", byte),
        _ => (byte as char).to_string(),
    };
    format!("\"{}\"", bytes.iter().map(plain).collect::<String>())
}
