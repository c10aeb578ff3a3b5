//! The deterministic parity automaton: the trees that the Büchi form, pruned, leads to, in breadth-first order.

use crate::automaton::{Atom, Automaton, Condition, Join};
use crate::bytes::Fault;
use crate::pruned::{pruned, Listed, Move, Pruned};
use crate::trees::{first_tree, Stepper, Tree};

const MOST_TREES: usize = 32_768;

pub fn to_parity(a: Automaton) -> Result<Automaton, Fault> {
    let Pruned { names, starts, moves, mut letters } = pruned(a)?;
    let mut made = Automaton::default();
    made.names = names;
    made.starts.push(0);
    let mut trees = Listed::new(MOST_TREES, "trees");
    trees.number(&first_tree(&starts))?;
    let mut stepper = Stepper::new(moves.len());
    // The edges, with the priorities of their steps: how many there may be is known behind the last step.
    let (mut edges, mut most_nodes) = (Vec::new(), 1);
    while let Some(list) = trees.get(made.states) {
        let tree = Tree::of(&list);
        let moves_of = |(state, home): (u32, u32)| moves[state as usize].iter().map(move |m| (home, m));
        let here: Vec<(u32, &Move)> = tree.homes().flat_map(moves_of).collect();
        stepper.take(tree);
        for class in letters.classes(here.iter().map(|(_, m)| m.label))?.iter() {
            let labels = &letters.labels;
            let allowed = here.iter().filter(|(_, m)| labels.is_met(m.label, class.least));
            let priority = stepper.step(allowed.map(|(home, m)| (*home, m.to, m.is_marked)))?;
            edges.push((made.states, class.label, trees.number(&stepper.made)?, priority));
        }
        most_nodes = most_nodes.max(tree.nodes());
        made.states += 1;
    }
    for (from, label, to, priority) in edges {
        made.push_edge(from, label, to, [priority.unwrap_or(2 * most_nodes)].into_iter());
    }
    made.sets = 2 * most_nodes + 1;
    made.condition = least_is_odd(made.sets);
    made.labels = letters.labels;
    made.close();
    Ok(made)
}

/// That the least of so many sets that is met again and again is odd. Their number is odd.
fn least_is_odd(sets: u32) -> Condition {
    let atom = |set| Condition::Atom(Atom { fin: set % 2 == 0, set, negated: false });
    let mut condition = atom(sets - 1);
    for set in (0..sets - 1).rev() {
        let join = if set % 2 == 0 { Join::And } else { Join::Or };
        condition = Condition::Joined(join, vec![atom(set), condition]);
    }
    condition
}
