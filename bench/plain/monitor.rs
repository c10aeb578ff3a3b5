//! The monitor: the subset construction of the Büchi form, without the states from which nothing is accepted.

use crate::automaton::Automaton;
use crate::bytes::Fault;
use crate::labels::Labels;
use crate::pruned::{pruned, Listed, Move, Pruned};

const MOST_SETS: usize = 32_768;

pub fn to_monitor(a: Automaton) -> Result<Automaton, Fault> {
    let Pruned { names, starts, moves, mut letters } = pruned(a)?;
    let mut made = Automaton::default();
    made.names = names;
    let mut sets = Listed::new(MOST_SETS, "subsets");
    if !starts.is_empty() {
        made.starts.push(sets.number(&starts)?);
    }
    while let Some(set) = sets.get(made.states) {
        let here: Vec<&Move> = set.iter().flat_map(|state| &moves[*state as usize]).collect();
        for class in letters.classes(here.iter().map(|m| m.label))?.iter() {
            let goals = goals(&here, &letters.labels, class.least);
            if !goals.is_empty() {
                made.push_edge(made.states, class.label, sets.number(&goals)?, [].into_iter());
            }
        }
        made.states += 1;
    }
    made.labels = letters.labels;
    made.close();
    Ok(made)
}

/// Where these edges lead at a letter, each state once and in order.
fn goals(moves: &[&Move], labels: &Labels, letter: u32) -> Vec<u32> {
    let mut goals: Vec<u32> = moves.iter().filter(|m| labels.is_met(m.label, letter)).map(|m| m.to).collect();
    goals.sort_unstable();
    goals.dedup();
    goals
}
