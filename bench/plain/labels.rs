//! Labels as shared decision diagrams: labels of one truth are one number.

use crate::writer::push_number;
use std::collections::HashMap;
use std::hash::{BuildHasherDefault, Hasher};

/// A label: the place of its top node in the store.
pub type Label = u32;

pub const FALSE: Label = 0;
pub const TRUE: Label = 1;

/// Go on at `lo` where proposition `var` doesn't hold, and at `hi` where it does.
#[derive(Clone, Copy, PartialEq, Eq, Hash)]
struct Node {
    var: u32,
    lo: Label,
    hi: Label,
}

/// A quick hash of a few numbers, for tables whose keys this program numbers itself.
#[derive(Default)]
pub struct Mix(u64);

impl Hasher for Mix {
    fn write(&mut self, bytes: &[u8]) {
        for part in bytes.chunks(4) {
            let mut number = [0; 4];
            number[..part.len()].copy_from_slice(part);
            self.write_u32(u32::from_ne_bytes(number));
        }
    }

    fn write_u32(&mut self, number: u32) {
        self.0 = (self.0.rotate_left(5) ^ u64::from(number)).wrapping_mul(0x517c_c1b7_2722_0a95);
    }

    fn finish(&self) -> u64 {
        self.0.rotate_left(26)
    }
}

pub type QuickMap<K, V> = HashMap<K, V, BuildHasherDefault<Mix>>;

/// The store of an automaton's labels.
#[derive(Clone)]
pub struct Labels {
    nodes: Vec<Node>,
    places: QuickMap<Node, Label>,
    chosen: QuickMap<(Label, Label, Label), Label>,
}

impl Default for Labels {
    fn default() -> Labels {
        // The variable of the constants is behind all others.
        let constant = |label| Node { var: u32::MAX, lo: label, hi: label };
        let nodes = vec![constant(FALSE), constant(TRUE)];
        Labels { nodes, places: QuickMap::default(), chosen: QuickMap::default() }
    }
}

impl Labels {
    /// `lo` where proposition `var` doesn't hold, and `hi` where it does. Both ask for later propositions alone.
    pub fn node(&mut self, var: u32, lo: Label, hi: Label) -> Label {
        if lo == hi {
            return lo;
        }
        let node = Node { var, lo, hi };
        let fresh = self.nodes.len() as Label;
        let place = *self.places.entry(node).or_insert(fresh);
        if place == fresh {
            self.nodes.push(node);
        }
        place
    }

    /// The label that this proposition holds.
    pub fn literal(&mut self, var: u32) -> Label {
        self.node(var, FALSE, TRUE)
    }

    /// The label that is true at one letter alone, bit k of whose number tells of proposition k.
    pub fn letter(&mut self, vars: u32, number: u64) -> Label {
        (0..vars).rev().fold(TRUE, |label, var| match number >> var & 1 {
            0 => self.node(var, label, FALSE),
            _ => self.node(var, FALSE, label),
        })
    }

    pub fn and(&mut self, a: Label, b: Label) -> Label {
        self.choose(a, b, FALSE)
    }

    pub fn or(&mut self, a: Label, b: Label) -> Label {
        self.choose(a, TRUE, b)
    }

    pub fn not(&mut self, a: Label) -> Label {
        self.choose(a, FALSE, TRUE)
    }

    /// `yes` where `test` holds, else `no`. As deep as there are propositions.
    fn choose(&mut self, test: Label, yes: Label, no: Label) -> Label {
        match (test, yes, no) {
            (TRUE, _, _) => return yes,
            (FALSE, _, _) => return no,
            (_, TRUE, FALSE) => return test,
            _ if yes == no => return yes,
            _ => {}
        }
        if let Some(found) = self.chosen.get(&(test, yes, no)) {
            return *found;
        }
        let [test_node, yes_node, no_node] = [test, yes, no].map(|label| self.nodes[label as usize]);
        let top = test_node.var.min(yes_node.var).min(no_node.var);
        let lo = |node: Node, label| if node.var == top { node.lo } else { label };
        let hi = |node: Node, label| if node.var == top { node.hi } else { label };
        let without = self.choose(lo(test_node, test), lo(yes_node, yes), lo(no_node, no));
        let with = self.choose(hi(test_node, test), hi(yes_node, yes), hi(no_node, no));
        let made = self.node(top, without, with);
        self.chosen.insert((test, yes, no), made);
        made
    }

    /// What a label asks for first, and what is left of it where that doesn't hold and where it does.
    pub fn parts(&self, label: Label) -> (u32, Label, Label) {
        let node = self.nodes[label as usize];
        (node.var, node.lo, node.hi)
    }

    /// How many labels there are: each is below this number.
    pub fn len(&self) -> usize {
        self.nodes.len()
    }

    /// Whether a letter meets the label. Bit k of it tells of proposition k.
    pub fn is_met(&self, mut label: Label, letter: u32) -> bool {
        while label > TRUE {
            let node = self.nodes[label as usize];
            label = if letter >> node.var & 1 == 0 { node.lo } else { node.hi };
        }
        label == TRUE
    }

    /// Brings all labels of another store into this one, its proposition k as `vars[k]`, and answers where each came to.
    pub fn bring(&mut self, others: &Labels, vars: &[u32]) -> Vec<Label> {
        let mut places = vec![FALSE, TRUE];
        for node in &others.nodes[2..] {
            // What a node leads to was made before it.
            let (lo, hi) = (places[node.lo as usize], places[node.hi as usize]);
            let test = self.literal(vars[node.var as usize]);
            places.push(self.choose(test, hi, lo));
        }
        places
    }

    /// Adds the canonical text: a cube for each way to `t`, those where a proposition doesn't hold first.
    pub fn write(&self, out: &mut Vec<u8>, label: Label) {
        match label {
            FALSE => out.push(b'f'),
            TRUE => out.push(b't'),
            _ => {
                self.write_cubes(out, label, &mut Vec::new());
                // Each cube has ` | ` behind it.
                out.truncate(out.len() - 3);
            }
        }
    }

    fn write_cubes(&self, out: &mut Vec<u8>, label: Label, way: &mut Vec<(u32, bool)>) {
        match label {
            FALSE => {}
            TRUE => {
                for (var, holds) in way.iter() {
                    out.extend_from_slice(if *holds { b"" } else { b"!" });
                    push_number(out, *var);
                    out.push(b'&');
                }
                out.pop();
                out.extend_from_slice(b" | ");
            }
            _ => {
                let node = self.nodes[label as usize];
                for (next, holds) in [(node.lo, false), (node.hi, true)] {
                    way.push((node.var, holds));
                    self.write_cubes(out, next, way);
                    way.pop();
                }
            }
        }
    }
}
