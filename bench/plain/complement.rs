//! Deterministic automata, complements, and what two automata have in common.

use crate::automaton::{Atom, Automaton, Condition, Join};
use crate::bytes::Fault;
use crate::emptiness::is_empty;
use crate::labels::{Label, FALSE, TRUE};
use crate::parity::to_parity;
use crate::product::{both, product};

/// An automaton to compare with, and its complement from when it is needed.
pub struct Compared {
    automaton: Automaton,
    complement: Option<Automaton>,
}

impl Compared {
    pub fn with(automaton: Automaton) -> Compared {
        Compared { automaton, complement: None }
    }

    /// Whether it accepts each word that this one accepts. Labels may be added to the store of that.
    pub fn includes(&mut self, a: &mut Automaton) -> Result<bool, Fault> {
        if self.complement.is_none() {
            self.complement = Some(complement(self.automaton.clone())?);
        }
        are_apart(a, self.complement.as_ref().expect("it was made"))
    }

    /// Whether both accept the same words.
    pub fn equals(&mut self, a: &mut Automaton) -> Result<bool, Fault> {
        Ok(self.includes(a)? && are_apart(&mut complement(a.clone())?, &self.automaton)?)
    }
}

/// Whether both accept no word together. Takes the labels of the first for a while.
pub fn are_apart(a: &mut Automaton, b: &Automaton) -> Result<bool, Fault> {
    let mut made = product(a, b)?;
    let answer = is_empty(&made);
    a.labels = std::mem::take(&mut made.labels);
    Ok(answer)
}

pub fn to_deterministic(mut a: Automaton) -> Result<Automaton, Fault> {
    if !is_deterministic(&mut a) {
        return to_parity(a);
    }
    a.name = None;
    Ok(a)
}

/// The dual of the automaton made deterministic and complete.
pub fn complement(mut a: Automaton) -> Result<Automaton, Fault> {
    let mut made = if is_deterministic(&mut a) { complete(a) } else { to_parity(a)? };
    made.condition = dual(&made.condition);
    Ok(made)
}

fn is_deterministic(a: &mut Automaton) -> bool {
    let mut labels = std::mem::take(&mut a.labels);
    let mut are_apart = |state| {
        let mut met = FALSE;
        a.edges_of(state).iter().all(|edge| {
            let is_apart = labels.and(met, edge.label) == FALSE;
            met = labels.or(met, edge.label);
            is_apart
        })
    };
    let answer = a.starts.len() <= 1 && (0..a.states).all(&mut are_apart);
    a.labels = labels;
    answer
}

/// The automaton with a sink as its last state, unless it is complete.
fn complete(mut a: Automaton) -> Automaton {
    a.name = None;
    let mut labels = std::mem::take(&mut a.labels);
    let mut gap_of = |state| {
        let met = a.edges_of(state).iter().fold(FALSE, |met, edge| labels.or(met, edge.label));
        (state, labels.not(met))
    };
    let gaps: Vec<(u32, Label)> = (0..a.states).map(&mut gap_of).filter(|(_, gap)| *gap != FALSE).collect();
    a.labels = labels;
    if gaps.is_empty() && !a.starts.is_empty() {
        return a;
    }
    let sink = a.states;
    a.states += 1;
    if a.starts.is_empty() {
        a.starts.push(sink);
    }
    for (state, gap) in gaps {
        a.push_edge(state, gap, sink, [].into_iter());
    }
    let mut mark = None;
    if is_met_unmarked(&a.condition) {
        mark = Some(a.sets);
        let never = Condition::Atom(Atom { fin: true, set: a.sets, negated: false });
        a.condition = both(std::mem::take(&mut a.condition), never);
        a.sets += 1;
    }
    a.push_edge(sink, TRUE, sink, mark.into_iter());
    a.close();
    a
}

/// Whether a cycle of edges in no set meets the condition.
fn is_met_unmarked(condition: &Condition) -> bool {
    match condition {
        Condition::True => true,
        Condition::False => false,
        Condition::Atom(atom) => atom.fin != atom.negated,
        Condition::Joined(Join::And, parts) => parts.iter().all(is_met_unmarked),
        Condition::Joined(Join::Or, parts) => parts.iter().any(is_met_unmarked),
    }
}

fn dual(condition: &Condition) -> Condition {
    match condition {
        Condition::True => Condition::False,
        Condition::False => Condition::True,
        Condition::Atom(atom) => Condition::Atom(Atom { fin: !atom.fin, ..*atom }),
        Condition::Joined(join, parts) => {
            let other = if *join == Join::And { Join::Or } else { Join::And };
            Condition::Joined(other, parts.iter().map(dual).collect())
        }
    }
}
