//! Compact Safra trees and their step, with marks on edges (Safra 1988; with names that close up, Piterman 2007).
//!
//! The nodes of a tree have the names 0, 1 and on; the root is 0, and a name is higher than that of its parent and those of
//! its older siblings. What a node holds is what is at home there and below it.

use crate::bytes::Fault;

const MOST_NODES: usize = 100;

/// A tree as one list of numbers: how many nodes there are, the parent of each, and then each state with its home, the
/// deepest node that holds it, in the order of the states.
#[derive(Clone, Copy)]
pub struct Tree<'a> {
    parents: &'a [u32],
    homes: &'a [u32],
}

impl<'a> Tree<'a> {
    pub fn of(list: &'a [u32]) -> Tree<'a> {
        let (parents, homes) = list[1..].split_at(list[0] as usize);
        Tree { parents, homes }
    }

    pub fn nodes(self) -> u32 {
        self.parents.len() as u32
    }

    /// The states, each with its home.
    pub fn homes(self) -> impl Iterator<Item = (u32, u32)> + 'a {
        self.homes.chunks_exact(2).map(|pair| (pair[0], pair[1]))
    }
}

/// The tree before a word: one node with the starts, or no node where there are none.
pub fn first_tree(starts: &[u32]) -> Vec<u32> {
    if starts.is_empty() {
        return vec![0];
    }
    let mut tree = vec![1, 0];
    tree.extend(starts.iter().flat_map(|state| [*state, 0]));
    tree
}

/// A state that nothing claims.
const UNCLAIMED: u32 = u32::MAX;

/// A node of the tree in hand.
struct Node {
    parent: u32,
    /// How many nodes there are at this one and below it.
    size: u32,
    /// The first turn below it that no child has yet.
    free: u32,
    /// The turn in which it claims: children before their parents, older siblings and all below them before younger ones.
    turn: u32,
}

/// What a step finds of a node, or of the fresh child of one.
#[derive(Clone, Copy, Default)]
struct Name {
    parent: u32,
    is_home: bool,
    holds: bool,
    /// Whether it is covered, or below a covered node, so that all nodes below it go.
    is_closed: bool,
    /// The node that is home to its states afterwards, and the new name if it stays.
    heir: u32,
    renamed: u32,
}

/// Takes the steps of one tree after the other. All it holds is room that is used again.
pub struct Stepper {
    /// The tree in hand, and its names in the order of their turns.
    nodes: Vec<Node>,
    order: Vec<u32>,
    /// The nodes in hand, and behind them a fresh child for each.
    names: Vec<Name>,
    /// Of each state of the automaton twice the turn of the node that claims it, and one more unless it is for the fresh
    /// child; then the name of its home.
    claims: Vec<u32>,
    /// The states that are claimed.
    goals: Vec<u32>,
    /// The tree that the last step gave.
    pub made: Vec<u32>,
}

impl Stepper {
    pub fn new(states: usize) -> Stepper {
        let (nodes, order, names, goals, made) = Default::default();
        Stepper { nodes, order, names, claims: vec![UNCLAIMED; states], goals, made }
    }

    /// Takes a tree in hand.
    pub fn take(&mut self, tree: Tree) {
        self.nodes.clear();
        self.nodes.extend(tree.parents.iter().map(|parent| Node { parent: *parent, size: 1, free: 0, turn: 0 }));
        for name in (1..self.nodes.len()).rev() {
            let parent = self.nodes[name].parent as usize;
            self.nodes[parent].size += self.nodes[name].size;
        }
        self.order.clear();
        self.order.resize(self.nodes.len(), 0);
        for name in 0..self.nodes.len() {
            let Node { parent, size, .. } = self.nodes[name];
            let mut first = 0;
            if name > 0 {
                let parent = &mut self.nodes[parent as usize];
                first = parent.free;
                parent.free += size;
            }
            let turn = first + size - 1;
            self.order[turn as usize] = name as u32;
            self.nodes[name].free = first;
            self.nodes[name].turn = turn;
        }
    }

    /// Takes the step of the tree in hand under these moves. Each is told by the home of the state that it leaves, by the
    /// state to which it leads, and by whether it is accepting. Answers the priority, if there is one: the least of 2f for
    /// the names f that went and 2g + 1 for the names g that gave up their children.
    pub fn step(&mut self, moves: impl Iterator<Item = (u32, u32, bool)>) -> Result<Option<u32>, Fault> {
        self.claim(moves);
        self.settle();
        let old_count = self.nodes.len();
        let mut priority = None;
        self.made.clear();
        self.made.push(0);
        for place in 0..self.names.len() {
            let mut name = self.names[place];
            let parent = self.names[name.parent as usize];
            let goes_up = place > 0 && parent.is_closed;
            let is_covered = name.holds && !name.is_home;
            name.heir = if goes_up { parent.heir } else { place as u32 };
            name.is_closed = goes_up || is_covered;
            name.renamed = self.made[0];
            self.names[place] = name;
            let stays = name.holds && !goes_up;
            if stays {
                self.made.push(parent.renamed);
                self.made[0] += 1;
            }
            // Names rise, so the first priority is the least.
            if stays && is_covered {
                priority = priority.or(Some(2 * place as u32 + 1));
            } else if !stays && place < old_count {
                priority = priority.or(Some(2 * place as u32));
            }
        }
        if self.made[0] as usize > MOST_NODES {
            return Err("limit exceeded: nodes".into());
        }
        for goal in self.goals.drain(..) {
            let home = std::mem::replace(&mut self.claims[goal as usize], UNCLAIMED);
            let heir = self.names[home as usize].heir;
            self.made.extend([goal, self.names[heir as usize].renamed]);
        }
        Ok(priority)
    }

    /// Lets each goal be claimed by the first of those that may, and puts the goals in order.
    fn claim(&mut self, moves: impl Iterator<Item = (u32, u32, bool)>) {
        for (home, goal, is_accepting) in moves {
            let claim = 2 * self.nodes[home as usize].turn + u32::from(!is_accepting);
            let known = &mut self.claims[goal as usize];
            if *known == UNCLAIMED {
                self.goals.push(goal);
            }
            *known = claim.min(*known);
        }
        self.goals.sort_unstable();
    }

    /// Finds the home of each goal, and which names hold some.
    fn settle(&mut self) {
        let count = self.nodes.len() as u32;
        let parents = self.nodes.iter().map(|node| node.parent).chain(0..count);
        self.names.clear();
        self.names.extend(parents.map(|parent| Name { parent, ..Name::default() }));
        for goal in &self.goals {
            let claim = &mut self.claims[*goal as usize];
            let node = self.order[(*claim / 2) as usize];
            *claim = if *claim % 2 == 0 { count + node } else { node };
            self.names[*claim as usize].is_home = true;
        }
        for place in (0..self.names.len()).rev() {
            let Name { parent, is_home, holds, .. } = self.names[place];
            self.names[place].holds = holds || is_home;
            self.names[parent as usize].holds |= holds || is_home;
        }
    }
}
