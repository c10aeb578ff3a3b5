//! Whether an automaton is unambiguous: whether no word has two accepting runs along different edges. They would be an
//! accepted run of its square with a flag, which says whether the edges gone in both have differed so far.

use crate::automaton::{Atom, Automaton, Condition};
use crate::bytes::Fault;
use crate::emptiness::is_empty;
use crate::labels::{QuickMap, FALSE};
use crate::product::{both, raised, MOST_PAIRS};

/// Two states, and whether the edges that led there have differed.
type Flagged = (u32, u32, bool);

/// The number of a flagged pair that wasn't met.
const NEW: u32 = u32::MAX;

/// The flagged pairs that were met, in order, and of each pair its two numbers, without the flag and with it.
#[derive(Default)]
struct Pairs {
    met: Vec<Flagged>,
    numbers: QuickMap<(u32, u32), [u32; 2]>,
}

impl Pairs {
    fn number(&mut self, (first, second, differ): Flagged) -> Result<u32, Fault> {
        let numbers = self.numbers.entry((first, second)).or_insert([NEW; 2]);
        let number = &mut numbers[usize::from(differ)];
        if *number == NEW {
            *number = self.met.len() as u32;
            self.met.push((first, second, differ));
        }
        let number = *number;
        if self.numbers.len() > MOST_PAIRS {
            return Err("limit exceeded: pairs".into());
        }
        Ok(number)
    }
}

/// Takes the automaton's labels for a while.
pub fn is_unambiguous(a: &mut Automaton) -> Result<bool, Fault> {
    let mut square = flagged_square(a)?;
    let answer = is_empty(&square);
    a.labels = std::mem::take(&mut square.labels);
    Ok(answer)
}

fn flagged_square(a: &mut Automaton) -> Result<Automaton, Fault> {
    let mut made = Automaton::default();
    made.sets = 2 * a.sets + 1;
    let differs = Condition::Atom(Atom { fin: false, set: 2 * a.sets, negated: false });
    made.condition = both(both(a.condition.clone(), raised(&a.condition, a.sets)), differs);
    made.labels = std::mem::take(&mut a.labels);
    let mut pairs = Pairs::default();
    for first in &a.starts {
        for second in &a.starts {
            made.starts.push(pairs.number((*first, *second, false))?);
        }
    }
    while let Some(&flagged) = pairs.met.get(made.states as usize) {
        spread(a, flagged, &mut pairs, &mut made)?;
        made.states += 1;
    }
    made.close();
    Ok(made)
}

/// Adds the edges from a flagged pair, which is the next state.
fn spread(a: &Automaton, from: Flagged, pairs: &mut Pairs, made: &mut Automaton) -> Result<(), Fault> {
    let (first, second, has_differed) = from;
    for (place, edge) in a.edges_of(first).iter().enumerate() {
        for (other_place, other) in a.edges_of(second).iter().enumerate() {
            let label = made.labels.and(edge.label, other.label);
            if label == FALSE {
                continue;
            }
            let differ = has_differed || first != second || place != other_place;
            let to = pairs.number((edge.to, other.to, differ))?;
            let raised = a.marks_of(other).iter().map(|mark| mark + a.sets);
            let flag = differ.then(|| 2 * a.sets);
            made.push_edge(made.states, label, to, a.marks_of(edge).iter().copied().chain(raised).chain(flag));
        }
    }
    Ok(())
}
