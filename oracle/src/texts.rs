//! Answers that are texts: reading, writing, and a whole run.

use crate::answers::{as_map, lengths, protect};
use crate::driver::drive;
use crate::events::CollapseEventTracker;
use crate::gfa::GFA;
use crate::lines::*;
use crate::plain::FxHashMap;
use crate::store::*;
use crate::{check_transform, parse_and_transform_paths, parse_gfa_v12, parse_header};
use crate::{print_active_subgraph, print_transformations, Node, OrientedNode};
use std::collections::BTreeSet;
use std::io::{self, BufReader, BufWriter, Write};

type Walks = FxHashMap<Vec<u8>, Vec<u8>>;
type Table = FxHashMap<Node, Vec<OrientedNode>>;

fn load(gfa: &GFA<usize, ()>) -> Loaded {
    let graph = HashGraph::from_gfa(gfa);
    let deleted = DeletedSubGraph::of(&graph);
    Loaded { graph, deleted, marks: false }
}

/// The Rust iterates hash maps: lines are held as a multiset, but for the headings.
fn sorted(text: &[u8], headings: usize) -> Vec<u8> {
    let mut lines: Vec<&[u8]> = text.split_inclusive(|&byte| byte == b'\n').collect();
    lines[headings..].sort();
    lines.concat()
}

fn graph_text(world: &Loaded) -> Vec<u8> {
    let mut out = BufWriter::new(Vec::new());
    print_active_subgraph(&world.graph, &world.deleted, &mut out).unwrap();
    out.into_inner().unwrap()
}

fn table_text(table: &Table, lens: &FxHashMap<usize, usize>) -> Vec<u8> {
    let mut out = BufWriter::new(Vec::new());
    print_transformations(table, lens, &mut out).unwrap();
    out.into_inner().unwrap()
}

fn path_text(gfa: &GFA<usize, ()>, walks: &Walks, table: &Table, lens: &FxHashMap<usize, usize>) -> Vec<u8> {
    let mut out = BufWriter::new(Vec::new());
    parse_and_transform_paths(gfa, lens, table, walks, &mut out).unwrap();
    out.into_inner().unwrap()
}

/// The header as the Rust's main writes it, with the fallback handed in for its own.
fn header_text(text: &[u8], fallback: &[u8]) -> Vec<u8> {
    let header = parse_header(BufReader::new(text)).unwrap();
    if header.is_empty() {
        return fallback.to_vec();
    }
    std::str::from_utf8(&header[..]).unwrap().as_bytes().to_vec()
}

pub fn read(line: &mut Line) -> Asked<String> {
    let text = line.bytes()?;
    let (gfa, _) = parse_gfa_v12(BufReader::new(&text[..]));
    Ok(load(&gfa).show())
}

pub fn graph(line: &mut Line) -> Asked<String> {
    Ok(quoted(&sorted(&graph_text(&line.graph()?), 0)))
}

pub fn table(line: &mut Line) -> Asked<String> {
    let (old, table) = (line.old_graph()?, as_map(&line.table()?));
    Ok(quoted(&sorted(&table_text(&table, &lengths(&old)), 1)))
}

pub fn paths(line: &mut Line) -> Asked<String> {
    let (text, old, table) = (line.bytes()?, line.old_graph()?, as_map(&line.table()?));
    let (gfa, walks) = parse_gfa_v12(BufReader::new(&text[..]));
    Ok(quoted(&path_text(&gfa, &walks, &table, &lengths(&old))))
}

pub fn header(line: &mut Line) -> Asked<String> {
    let (text, fallback) = (line.bytes()?, line.bytes()?);
    Ok(quoted(&header_text(&text, &fallback)))
}

/// Read, collapse, expand, check, write: header, graph, paths and table.
fn whole(text: &[u8], ids: &[u64]) -> [Vec<u8>; 4] {
    let (gfa, walks) = parse_gfa_v12(BufReader::new(text));
    let (mut world, old) = (load(&gfa), HashGraph::from_gfa(&gfa));
    let lens = lengths(&old);
    let mut tracker = CollapseEventTracker::default();
    protect(&mut tracker, ids, &lens);
    drive(&mut world, &mut tracker, &ids.iter().copied().collect(), u64::MAX);
    let table = tracker.get_expanded_transformation();
    check_transform(&old, &world.graph, &tracker, &table, &world.deleted);
    let paths = path_text(&gfa, &walks, &table, &lens);
    [header_text(text, b"H\tVN:Z:1.1"), graph_text(&world), paths, table_text(&table, &lens)]
}

pub fn run(line: &mut Line) -> Asked<String> {
    let (text, ids) = (line.bytes()?, line.array()?);
    let [header, graph, paths, table] = whole(&text, &ids);
    let parts = [header, sorted(&graph, 0), paths, sorted(&table, 1)];
    Ok(joined(parts.iter().map(|part| quoted(part))))
}

/// `oracle file NAME [ID..]`: the texts themselves, the table last.
pub fn run_file(words: &[String]) -> io::Result<()> {
    let name = words.first().ok_or(io::Error::other("oracle file NAME [ID..]"))?;
    let text = std::fs::read(name)?;
    let ids: Vec<u64> = words[1..].iter().map(|word| word.parse().expect("an id")).collect();
    let [header, graph, paths, table] = whole(&text, &ids);
    let mut out = io::stdout().lock();
    out.write_all(&header)?;
    out.write_all(b"\n")?;
    for part in [graph, paths, table] {
        out.write_all(&part)?;
    }
    Ok(())
}
