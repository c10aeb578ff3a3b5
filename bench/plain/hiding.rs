//! A proposition hidden: the labels say of the others what is left, and the edges stay.

use crate::automaton::Automaton;
use crate::labels::{Label, Labels, TRUE};

/// What is said of a hidden proposition.
#[derive(Clone, Copy)]
pub enum Hide {
    /// At each letter it may hold or not.
    Any,
    Absent,
    Present,
}

pub struct Hiding {
    name: Vec<u8>,
    how: Hide,
}

impl Hiding {
    /// Reads `NAME`, `NAME=0` or `NAME=1`, where the name may stand in quotes.
    pub fn of(word: &str) -> Hiding {
        let (name, how) = match (word.strip_suffix("=0"), word.strip_suffix("=1")) {
            (Some(name), _) => (name, Hide::Absent),
            (_, Some(name)) => (name, Hide::Present),
            _ => (word, Hide::Any),
        };
        let bare = name.strip_prefix('"').and_then(|name| name.strip_suffix('"')).unwrap_or(name);
        Hiding { name: bare.into(), how }
    }
}

pub fn hide(mut a: Automaton, hiding: &Hiding) -> Automaton {
    a.name = None;
    if let Some(place) = a.names.iter().position(|name| *name == hiding.name) {
        a.names.remove(place);
        let given = std::mem::take(&mut a.labels);
        let done = vec![None; given.len()];
        let mut projection = Projection { var: place as u32, how: hiding.how, given, made: Labels::default(), done };
        a.relabel(|label| projection.of(label));
        a.labels = projection.made;
    }
    a
}

/// Labels brought into a store without the hidden proposition. The order of the others is the same there.
struct Projection {
    var: u32,
    how: Hide,
    given: Labels,
    made: Labels,
    /// What became of each label that was asked for, so that each is worked out once.
    done: Vec<Option<Label>>,
}

impl Projection {
    fn of(&mut self, label: Label) -> Label {
        if label <= TRUE {
            return label;
        }
        if let Some(found) = self.done[label as usize] {
            return found;
        }
        let found = self.work_out(label);
        self.done[label as usize] = Some(found);
        found
    }

    fn work_out(&mut self, label: Label) -> Label {
        let (var, lo, hi) = self.given.parts(label);
        match (var == self.var, self.how) {
            (true, Hide::Absent) => self.of(lo),
            (true, Hide::Present) => self.of(hi),
            (is_hidden, _) => {
                let (lo, hi) = (self.of(lo), self.of(hi));
                if is_hidden {
                    self.made.or(lo, hi)
                } else {
                    self.made.node(var - u32::from(var > self.var), lo, hi)
                }
            }
        }
    }
}
