//! The Büchi form: one set, which an accepting run meets again and again.
//!
//! Where the condition is a conjunction of Inf, a run waits for each of them in turn, on a level for each. Else there is a
//! main copy of the automaton, in which a run waits for nothing and which it leaves once, and a copy for each term of the
//! condition, which has the edges that keep the term's Fin and waits for its Inf in turn.

use crate::automaton::{Atom, Automaton, Condition, Join};
use crate::bytes::Fault;

const MOST_TERMS: usize = 1_024;
const MOST_STATES: usize = 4_096;

/// A copy of the automaton: the Fin that its edges keep, and the Inf that a run waits for.
#[derive(Default)]
struct Copy {
    fins: Vec<Atom>,
    infs: Vec<Atom>,
}

impl Copy {
    fn of(term: Vec<Atom>) -> Copy {
        let (fins, infs) = term.into_iter().partition(|atom| atom.fin);
        Copy { fins, infs }
    }

    fn levels(&self) -> usize {
        self.infs.len().max(1)
    }

    fn keeps(&self, marks: &[u32]) -> bool {
        self.fins.iter().all(|fin| !fin.counts(marks))
    }

    /// The level behind an edge with these marks, and whether a round of levels ends with it.
    fn after(&self, level: usize, marks: &[u32]) -> (usize, bool) {
        let is_met = self.infs.get(level).map_or(true, |inf| inf.counts(marks));
        match (is_met, level + 1 == self.levels()) {
            (false, _) => (level, false),
            (true, false) => (level + 1, false),
            (true, true) => (0, true),
        }
    }
}

pub fn to_buchi(mut a: Automaton) -> Result<Automaton, Fault> {
    let terms = terms_of(&a.condition)?;
    let needs_main = !is_generalised_buchi(&a.condition);
    let copies: Vec<Copy> = terms.into_iter().map(Copy::of).collect();
    let levels = copies.iter().map(Copy::levels).max().unwrap_or(1);
    let main = usize::from(needs_main);
    let count = (main + copies.len()) * a.states as usize * levels;
    if count > MOST_STATES {
        return Err("limit exceeded: buchi-states".into());
    }
    let at =
        |copy: usize, state: u32, level: usize| ((copy * a.states as usize + state as usize) * levels + level) as u32;
    let mut made = Automaton::default();
    (made.states, made.sets) = (count as u32, 1);
    made.names = std::mem::take(&mut a.names);
    made.starts = a.starts.iter().map(|start| at(0, *start, 0)).collect();
    made.condition = Condition::Atom(Atom { fin: false, set: 0, negated: false });
    made.labels = std::mem::take(&mut a.labels);
    if needs_main {
        for edge in a.edges() {
            for copy in 0..=copies.len() {
                made.push_edge(at(0, edge.from, 0), edge.label, at(copy, edge.to, 0), [].into_iter());
            }
        }
    }
    for (number, copy) in (main..).zip(&copies) {
        for state in 0..a.states {
            for level in 0..copy.levels() {
                for edge in a.edges_of(state).iter().filter(|edge| copy.keeps(a.marks_of(edge))) {
                    let (next, ends_round) = copy.after(level, a.marks_of(edge));
                    let mark = ends_round.then(|| 0);
                    made.push_edge(at(number, state, level), edge.label, at(number, edge.to, next), mark.into_iter());
                }
            }
        }
    }
    made.close();
    Ok(made)
}

/// Whether it is `t`, an Inf or a conjunction of Inf alone.
fn is_generalised_buchi(condition: &Condition) -> bool {
    let is_inf = |part: &Condition| matches!(part, Condition::Atom(atom) if !atom.fin);
    match condition {
        Condition::Joined(Join::And, parts) => parts.iter().all(is_inf),
        part => *part == Condition::True || is_inf(part),
    }
}

/// The terms of a condition: it holds where all atoms of some term do. None are merged or dropped.
fn terms_of(condition: &Condition) -> Result<Vec<Vec<Atom>>, Fault> {
    let mut terms = Vec::new();
    match condition {
        Condition::True => terms.push(Vec::new()),
        Condition::False => {}
        Condition::Atom(atom) => terms.push(vec![*atom]),
        Condition::Joined(Join::Or, parts) => {
            for part in parts {
                terms.append(&mut terms_of(part)?);
            }
        }
        Condition::Joined(Join::And, parts) => {
            terms.push(Vec::new());
            for part in parts {
                let others = terms_of(part)?;
                let with_others = |term: Vec<Atom>| -> Vec<Vec<Atom>> {
                    others.iter().map(|other| [term.as_slice(), other].concat()).collect()
                };
                terms = terms.into_iter().flat_map(with_others).collect();
            }
        }
    }
    if terms.len() > MOST_TERMS {
        Err("limit exceeded: terms".into())
    } else {
        Ok(terms)
    }
}
