//! The product of two automata: the pairs of states that are reached, in breadth-first order, under both conditions.

use crate::automaton::{Atom, Automaton, Condition, Join};
use crate::bytes::Fault;
use crate::labels::{QuickMap, FALSE};

const MOST_NAMES: usize = 32;
pub const MOST_PAIRS: usize = 1_000_000;

/// The pairs that were met, in order, and the number of each.
#[derive(Default)]
struct Pairs {
    met: Vec<(u32, u32)>,
    numbers: QuickMap<(u32, u32), u32>,
}

impl Pairs {
    fn number(&mut self, pair: (u32, u32)) -> Result<u32, Fault> {
        let fresh = self.met.len() as u32;
        let number = *self.numbers.entry(pair).or_insert(fresh);
        if number == fresh {
            if self.met.len() == MOST_PAIRS {
                return Err("limit exceeded: pairs".into());
            }
            self.met.push(pair);
        }
        Ok(number)
    }
}

/// Takes the labels of the first.
pub fn product(a: &mut Automaton, b: &Automaton) -> Result<Automaton, Fault> {
    let mut made = Automaton::default();
    made.sets = a.sets + b.sets;
    made.names = a.names.clone();
    let mut vars = Vec::new();
    for name in &b.names {
        let place = made.names.iter().position(|known| known == name).unwrap_or(made.names.len());
        if place == made.names.len() {
            made.names.push(name.clone());
        }
        vars.push(place as u32);
    }
    if made.names.len() > MOST_NAMES {
        return Err("limit exceeded: names".into());
    }
    made.condition = both(a.condition.clone(), raised(&b.condition, a.sets));
    made.labels = std::mem::take(&mut a.labels);
    let brought = made.labels.bring(&b.labels, &vars);

    let mut pairs = Pairs::default();
    for first in &a.starts {
        for second in &b.starts {
            made.starts.push(pairs.number((*first, *second))?);
        }
    }
    while let Some(&(first, second)) = pairs.met.get(made.states as usize) {
        for edge in a.edges_of(first) {
            for other in b.edges_of(second) {
                let label = made.labels.and(edge.label, brought[other.label as usize]);
                if label != FALSE {
                    let to = pairs.number((edge.to, other.to))?;
                    let raised = b.marks_of(other).iter().map(|mark| mark + a.sets);
                    made.push_edge(made.states, label, to, a.marks_of(edge).iter().copied().chain(raised));
                }
            }
        }
        made.states += 1;
    }
    made.close();
    Ok(made)
}

/// A condition with the number of each set raised.
pub fn raised(condition: &Condition, by: u32) -> Condition {
    match condition {
        Condition::Atom(atom) => Condition::Atom(Atom { set: atom.set + by, ..*atom }),
        Condition::Joined(join, parts) => Condition::Joined(*join, parts.iter().map(|part| raised(part, by)).collect()),
        constant => constant.clone(),
    }
}

/// Both conditions. `t` and `f` are taken away where they say nothing, and an And gives its parts.
pub fn both(f: Condition, g: Condition) -> Condition {
    let conjuncts = |condition| match condition {
        Condition::Joined(Join::And, parts) => parts,
        part => vec![part],
    };
    match (f, g) {
        (Condition::False, _) | (_, Condition::False) => Condition::False,
        (Condition::True, other) | (other, Condition::True) => other,
        (f, g) => Condition::Joined(Join::And, [conjuncts(f), conjuncts(g)].concat()),
    }
}
