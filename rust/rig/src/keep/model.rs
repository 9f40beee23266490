//! A model of the move, from the sentences of document 02: each container that is met for the first time has its chain walked, then its
//! children are met in order. The path from the node to where the visit stands is kept, with the child that comes next on each level.
use super::{Answer, Ask, refused};
use crate::reading::NODE_WIDTH;
use sillgarland_sys::Kept;
use sillgarland_sys::refusals::{ACCEPTED, BAD_TABLE, MOST_RECORDS, NO_ROOM, NOTHING};
use std::collections::{HashMap, HashSet};

const MOST: usize = MOST_RECORDS as usize;

/// How long the stack must be: three numbers a node and two an entry, of those that count as used.
pub fn need(used: [u32; 2]) -> usize {
    let [nodes, entries] = used.map(|used| (used as usize).min(MOST));
    3 * nodes + 2 * entries
}

struct Visit<'a> {
    nodes: Vec<&'a [u32]>,
    entries: Vec<&'a [u32]>,
    /// Each visited node's new number, and the children of each in the order of visit.
    numbers: HashMap<u32, u32>,
    visited: Vec<(u32, Vec<u32>)>,
    met: HashSet<u32>,
}

impl Visit<'_> {
    /// The children of a node that is visited now; or none where the number or its chain is bad.
    fn first_visit(&mut self, node: u32) -> Option<Vec<u32>> {
        let record = *self.nodes.get(node as usize)?;
        let (mut entry, mut children) = (record[3], Vec::new());
        for _ in 0..record[4] {
            let link = *self.entries.get(entry as usize)?;
            if !self.met.insert(entry) {
                return None;
            }
            children.push(link[0]);
            entry = link[1];
        }
        self.numbers.insert(node, self.visited.len() as u32);
        self.visited.push((node, children.clone()));
        Some(children)
    }

    fn from(&mut self, root: u32) -> Result<(), u32> {
        let mut path = vec![vec![root].into_iter()];
        while let Some(level) = path.last_mut() {
            match level.next() {
                None => drop(path.pop()),
                Some(node) if self.numbers.contains_key(&node) => {}
                Some(node) => path.push(self.first_visit(node).ok_or(node)?.into_iter()),
            }
        }
        Ok(())
    }
}

pub fn by_the_model(ask: &Ask) -> Answer {
    if ask.stack < need(ask.used) {
        return refused(ask, NO_ROOM, ask.stack as u32);
    }
    let [nodes, entries, slots] = &ask.stores;
    let capacities = [nodes.len() / NODE_WIDTH, entries.len() / 2].map(|records| records.min(MOST));
    let [many, links] = [0, 1].map(|i| capacities[i].min(ask.used[i] as usize));
    let mut visit = Visit {
        nodes: nodes.chunks_exact(NODE_WIDTH).take(many).collect(),
        entries: entries.chunks_exact(2).take(links).collect(),
        numbers: HashMap::new(),
        visited: Vec::new(),
        met: HashSet::new(),
    };
    if let Err(place) = visit.from(ask.node) {
        return refused(ask, BAD_TABLE, place);
    }
    let (mut after, mut linked) = (vec![0; nodes.len()], vec![0; entries.len()]);
    let mut next = 0;
    for (number, (node, children)) in visit.visited.iter().enumerate() {
        let moved = &mut after[NODE_WIDTH * number..][..NODE_WIDTH];
        moved.copy_from_slice(visit.nodes[*node as usize]);
        moved[3] = if children.is_empty() { NOTHING } else { next };
        for (at, child) in children.iter().enumerate() {
            let follows = if at + 1 < children.len() { next + 1 } else { NOTHING };
            linked[2 * next as usize..][..2].copy_from_slice(&[visit.numbers[child], follows]);
            next += 1;
        }
    }
    let kept = visit.visited.len() as u32;
    let [free_nodes, free_entries] = [capacities[0] as u32 - kept, capacities[1] as u32 - next];
    let kept = Kept { refusal: ACCEPTED, place: 0, nodes: kept, entries: next, free_nodes, free_entries };
    Answer { kept, stores: [after, linked, vec![0; slots.len()]] }
}
