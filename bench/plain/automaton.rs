//! An automaton with explicit labels and sets on edges.

use crate::labels::{Label, Labels, FALSE};

/// An acceptance condition, in the shape in which it was written.
#[derive(Clone, Default, PartialEq, Eq)]
pub enum Condition {
    #[default]
    True,
    False,
    Atom(Atom),
    /// Two parts or more.
    Joined(Join, Vec<Condition>),
}

#[derive(Clone, Copy, PartialEq, Eq)]
pub enum Join {
    And,
    Or,
}

impl Join {
    pub fn sign(self) -> u8 {
        if self == Join::And {
            b'&'
        } else {
            b'|'
        }
    }
}

/// `Inf(set)` or `Fin(set)`, or with `!set` the same of the edges that aren't in the set.
#[derive(Clone, Copy, PartialEq, Eq)]
pub struct Atom {
    pub fin: bool,
    pub set: u32,
    pub negated: bool,
}

impl Atom {
    /// Whether an edge with these marks is one that has to come again and again, or not.
    pub fn counts(self, marks: &[u32]) -> bool {
        marks.contains(&self.set) != self.negated
    }
}

#[derive(Clone)]
pub struct Edge {
    pub from: u32,
    pub to: u32,
    pub label: Label,
    /// Where its marks stand in the automaton's list of marks.
    marks: (u32, u32),
}

#[derive(Clone, Default)]
pub struct Automaton {
    pub name: Option<Vec<u8>>,
    pub states: u32,
    pub starts: Vec<u32>,
    pub names: Vec<Vec<u8>>,
    pub sets: u32,
    pub condition: Condition,
    pub labels: Labels,
    marks: Vec<u32>,
    edges: Vec<Edge>,
    /// The place of each state's first edge, and the number of edges at the end.
    firsts: Vec<u32>,
}

impl Automaton {
    /// Adds an edge. Its marks rise, and each stands once.
    pub fn push_edge(&mut self, from: u32, label: Label, to: u32, marks: impl Iterator<Item = u32>) {
        let start = self.marks.len() as u32;
        self.marks.extend(marks);
        let end = u32::try_from(self.marks.len()).expect("fewer than 2^32 marks");
        self.edges.push(Edge { from, to, label, marks: (start, end) });
    }

    /// Brings the edges into the order of the states that they leave. To be called once all states and edges are there.
    pub fn close(&mut self) {
        if !self.edges.windows(2).all(|pair| pair[0].from <= pair[1].from) {
            self.edges.sort_by_key(|edge| edge.from);
        }
        self.firsts = firsts(self.states as usize, self.edges.iter().map(|edge| edge.from));
    }

    /// Gives each edge another label.
    pub fn relabel(&mut self, mut other: impl FnMut(Label) -> Label) {
        for edge in &mut self.edges {
            edge.label = other(edge.label);
        }
    }

    pub fn edges(&self) -> &[Edge] {
        &self.edges
    }

    pub fn edges_of(&self, state: u32) -> &[Edge] {
        let state = state as usize;
        &self.edges[self.firsts[state] as usize..self.firsts[state + 1] as usize]
    }

    pub fn marks_of(&self, edge: &Edge) -> &[u32] {
        &self.marks[edge.marks.0 as usize..edge.marks.1 as usize]
    }

    /// Of each state whether it is reached from a start by edges that some letter meets.
    pub fn reached(&self) -> Vec<bool> {
        let mut reached = vec![false; self.states as usize];
        let mut waiting = self.starts.clone();
        for start in &self.starts {
            reached[*start as usize] = true;
        }
        while let Some(state) = waiting.pop() {
            for edge in self.edges_of(state) {
                if edge.label != FALSE && !reached[edge.to as usize] {
                    reached[edge.to as usize] = true;
                    waiting.push(edge.to);
                }
            }
        }
        reached
    }
}

/// Of edges that are sorted by the node that they leave: the place of each node's first, and the number of all.
pub fn firsts(nodes: usize, leaving: impl Iterator<Item = u32>) -> Vec<u32> {
    let mut firsts = vec![0; nodes + 1];
    for node in leaving {
        firsts[node as usize + 1] += 1;
    }
    for node in 0..nodes {
        firsts[node + 1] += firsts[node];
    }
    firsts
}
