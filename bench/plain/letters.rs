//! Classes of letters: labels tell letters apart, and what they don't tell apart has one edge.

use crate::bytes::Fault;
use crate::labels::{Label, Labels, QuickMap, FALSE, TRUE};
use std::rc::Rc;

const MOST_CLASSES: usize = 2_000_000;

/// The letters that meet the same labels of a list, and the least of them. Bit k of a letter tells of proposition k.
#[derive(Clone, Copy)]
pub struct Class {
    pub label: Label,
    pub least: u32,
}

/// The labels, and what was found of letters: many sets have edges under the same ones.
pub struct Letters {
    pub labels: Labels,
    classes: QuickMap<Vec<Label>, Rc<[Class]>>,
    leasts: QuickMap<Label, u32>,
    /// How many classes there may be yet.
    left: usize,
}

impl Letters {
    pub fn of(labels: Labels) -> Letters {
        Letters { labels, classes: QuickMap::default(), leasts: QuickMap::default(), left: MOST_CLASSES }
    }

    /// The classes that these labels tell apart, in the order of their least letters. They are counted, over all calls.
    pub fn classes(&mut self, labels: impl Iterator<Item = Label>) -> Result<Rc<[Class]>, Fault> {
        let mut told: Vec<Label> = labels.collect();
        told.sort_unstable();
        told.dedup();
        let classes = match self.classes.get(&told) {
            Some(known) => known.clone(),
            None => self.split(&told)?.into(),
        };
        self.left = self.left.checked_sub(classes.len()).ok_or("limit exceeded: classes")?;
        self.classes.entry(told).or_insert_with(|| classes.clone());
        Ok(classes)
    }

    /// Splits all letters by one label after the other.
    fn split(&mut self, told: &[Label]) -> Result<Vec<Class>, Fault> {
        let mut parts = vec![TRUE];
        for label in told {
            // Parts that are split stand at their places, and what is left of them behind all.
            for place in 0..parts.len() {
                let part = parts[place];
                let met = self.labels.and(part, *label);
                if met != FALSE && met != part {
                    let others = self.labels.not(*label);
                    parts[place] = met;
                    parts.push(self.labels.and(part, others));
                }
            }
            if parts.len() > self.left {
                return Err("limit exceeded: classes".into());
            }
        }
        let class_of = |label| Class { label, least: self.least(label) };
        let mut classes: Vec<Class> = parts.into_iter().map(class_of).collect();
        classes.sort_unstable_by_key(|class| class.least);
        Ok(classes)
    }

    /// The least letter that meets this label, which isn't false.
    fn least(&mut self, label: Label) -> u32 {
        if label == TRUE {
            return 0;
        }
        if let Some(least) = self.leasts.get(&label) {
            return *least;
        }
        let (var, lo, hi) = self.labels.parts(label);
        let least = match (lo, hi) {
            (lo, FALSE) => self.least(lo),
            (FALSE, hi) => self.least(hi) | 1 << var,
            (lo, hi) => self.least(lo).min(self.least(hi) | 1 << var),
        };
        self.leasts.insert(label, least);
        least
    }
}
