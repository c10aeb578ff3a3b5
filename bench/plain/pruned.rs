//! The Büchi form without the states that aren't reached or from which nothing is accepted, and lists of what is made of
//! its states.

use crate::automaton::Automaton;
use crate::buchi::to_buchi;
use crate::bytes::Fault;
use crate::emptiness::live_states;
use crate::labels::{Label, QuickMap, FALSE};
use crate::letters::Letters;
use std::rc::Rc;

/// An edge between states that are left, and whether it is in the set.
pub struct Move {
    pub label: Label,
    pub to: u32,
    pub is_marked: bool,
}

pub struct Pruned {
    pub names: Vec<Vec<u8>>,
    /// In order.
    pub starts: Vec<u32>,
    /// Of each state the edges from it that some letter meets, to states that are left.
    pub moves: Vec<Vec<Move>>,
    pub letters: Letters,
}

pub fn pruned(a: Automaton) -> Result<Pruned, Fault> {
    let mut b = to_buchi(a)?;
    let is_live = live_states(&b);
    let mut starts: Vec<u32> = b.starts.iter().copied().filter(|start| is_live[*start as usize]).collect();
    starts.sort_unstable();
    let moves_of = |state| {
        let left = b.edges_of(state).iter().filter(|edge| edge.label != FALSE && is_live[edge.to as usize]);
        left.map(|edge| Move { label: edge.label, to: edge.to, is_marked: !b.marks_of(edge).is_empty() }).collect()
    };
    let moves = (0..b.states).map(moves_of).collect();
    let letters = Letters::of(std::mem::take(&mut b.labels));
    Ok(Pruned { names: std::mem::take(&mut b.names), starts, moves, letters })
}

/// Lists of numbers that were met, in order, and the number of each.
pub struct Listed {
    met: Vec<Rc<[u32]>>,
    numbers: QuickMap<Rc<[u32]>, u32>,
    most: usize,
    /// What is told where there are more.
    word: &'static str,
}

impl Listed {
    pub fn new(most: usize, word: &'static str) -> Listed {
        Listed { met: Vec::new(), numbers: QuickMap::default(), most, word }
    }

    pub fn get(&self, number: u32) -> Option<Rc<[u32]>> {
        self.met.get(number as usize).cloned()
    }

    pub fn number(&mut self, list: &[u32]) -> Result<u32, Fault> {
        if let Some(number) = self.numbers.get(list) {
            return Ok(*number);
        }
        if self.met.len() == self.most {
            return Err(format!("limit exceeded: {}", self.word).into());
        }
        let (number, list) = (self.met.len() as u32, Rc::<[u32]>::from(list));
        self.met.push(list.clone());
        self.numbers.insert(list, number);
        Ok(number)
    }
}
