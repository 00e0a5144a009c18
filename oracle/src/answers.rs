//! One answer a case line, by the operation's name.

use crate::driver::drive;
use crate::events::*;
use crate::handle::*;
use crate::lines::*;
use crate::plain::FxHashMap;
use crate::store::*;
use crate::texts;
use crate::{check_transform, collapse, enumerate_branch, get_shared_prefix, spell_walk, transform_node};
use crate::{Node, OrientedNode};
use std::collections::BTreeSet;

pub fn ask(line: &str) -> Asked<String> {
    let mut line = Line::new(line);
    let answer = match line.word()? {
        "live_letters" => live_letters(&mut line),
        "get_shared_prefix" => shared_prefix(&mut line),
        "enumerate_branch" => groups(&mut line),
        "collapse" => one_collapse(&mut line),
        "collapse_all" => whole_driver(&mut line, u64::MAX),
        // Ours alone: the driver, ended after so many collapses.
        "collapse_some" => line.number().and_then(|most| whole_driver(&mut line, most)),
        "expand" => expansion(&mut line),
        "transform_walk" => rewriting(&mut line),
        "spell_walk" => spelling(&mut line),
        "check_transform" => check(&mut line),
        "read_gfa" => texts::read(&mut line),
        "print_active_subgraph" => texts::graph(&mut line),
        "print_transformations" => texts::table(&mut line),
        "parse_and_transform_paths" => texts::paths(&mut line),
        "parse_header" => texts::header(&mut line),
        "run" => texts::run(&mut line),
        _ => Err("bad operation"),
    }?;
    Ok(format!("ok {}", answer))
}

pub fn lengths(graph: &HashGraph) -> FxHashMap<usize, usize> {
    graph.handles().map(|v| (v.unpack_number() as usize, graph.node_len(v))).collect()
}

pub fn as_map(tracker: &CollapseEventTracker) -> FxHashMap<Node, Vec<OrientedNode>> {
    tracker.list.iter().cloned().collect()
}

/// Protected ids as the Rust keeps them: with their old lengths, each once.
pub fn protect(tracker: &mut CollapseEventTracker, ids: &[u64], old: &FxHashMap<usize, usize>) {
    for &id in ids {
        let node = (id as usize, *old.get(&(id as usize)).unwrap());
        if tracker.dont_collapse_nodes.insert(node) {
            tracker.dont_collapse_nodes_lastorig = Some(node);
        }
    }
}

fn live_letters(line: &mut Line) -> Asked<String> {
    let world = line.graph()?;
    let live = world.graph.handles().filter(|v| !world.deleted.node_deleted(v));
    Ok(live.map(|v| world.graph.node_len(v)).sum::<usize>().to_string())
}

fn shared_prefix(line: &mut Line) -> Asked<String> {
    let world = line.graph()?;
    Ok(quoted(get_shared_prefix(&line.handles()?, &world.graph).unwrap().as_bytes()))
}

fn groups(line: &mut Line) -> Asked<String> {
    let world = line.graph()?;
    let v = Handle(line.number()?);
    let branch = enumerate_branch(&world.graph, &world.deleted, &v);
    let mut all: Vec<Vec<u64>> = branch.values().map(|g| g.iter().map(|u| u.0).collect()).collect();
    all.sort();
    let text = |group: Vec<u64>| joined_by_comma(&group);
    Ok(joined(all.into_iter().map(text)))
}

fn joined_by_comma(numbers: &[u64]) -> String {
    numbers.iter().map(|n| n.to_string()).collect::<Vec<String>>().join(",")
}

fn show_state(world: &Loaded, events: &CollapseEventTracker) -> String {
    format!("{} | {}", world.show(), show_rules(events.list.iter().map(|e| (&e.0, &e.1))))
}

fn one_collapse(line: &mut Line) -> Asked<String> {
    let (mut world, mut events) = (line.graph()?, line.events()?);
    let (members, p) = (line.handles()?, line.number()?);
    if p > 1 << 24 {
        return Err(UNDEFINED); // no string is that long
    }
    // Only the length of the sequence is looked at.
    let sequence = "?".repeat(p as usize);
    let group = AffixSubgraph { sequence, parents: Vec::new(), shared_prefix_nodes: members };
    let shared = collapse(&mut world.graph, &group, &mut world.deleted, &mut events);
    Ok(format!("{} | {}", shared.0, show_state(&world, &events)))
}

fn whole_driver(line: &mut Line, most: u64) -> Asked<String> {
    let (mut world, mut events) = (line.graph()?, line.events()?);
    let protected = line.array()?;
    // The ids only bar groups here, so the tracker is not told of them.
    protect(&mut CollapseEventTracker::default(), &protected, &lengths(&world.graph));
    let ids: BTreeSet<u64> = protected.into_iter().collect();
    let made = drive(&mut world, &mut events, &ids, most);
    Ok(format!("{} | {}", made, show_state(&world, &events)))
}

fn expansion(line: &mut Line) -> Asked<String> {
    let events = line.events()?;
    if events.out_of_order() {
        return Err(UNDEFINED); // expanding such a list has no end
    }
    let table = events.get_expanded_transformation();
    Ok(show_rules(events.list.iter().map(|event| (&event.0, &table[&event.0]))))
}

fn rewriting(line: &mut Line) -> Asked<String> {
    let (old, table) = (line.old_graph()?, as_map(&line.table()?));
    let lens = lengths(&old);
    let mut walk = Vec::new();
    for step in line.handles()? {
        let id = step.unpack_number() as usize;
        let way = if step.is_reverse() { Orientation::Backward } else { Orientation::Forward };
        walk.extend(transform_node(id, way, *lens.get(&id).unwrap(), &table));
    }
    Ok(joined(walk.into_iter().map(|(id, side)| packed(id, side).to_string())))
}

fn spelling(line: &mut Line) -> Asked<String> {
    let world = line.graph()?;
    let walk: Vec<OrientedNode> = line.handles()?.into_iter().map(|v| oriented(v, 0)).collect();
    Ok(quoted(&spell_walk(&world.graph, &walk)))
}

fn check(line: &mut Line) -> Asked<String> {
    let (old, new, mut tracker) = (line.old_graph()?, line.graph()?, line.table()?);
    protect(&mut tracker, &line.array()?, &lengths(&old));
    check_transform(&old, &new.graph, &tracker, &as_map(&tracker), &new.deleted);
    Ok("yes".to_string())
}
