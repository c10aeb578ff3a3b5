//! Whether an automaton accepts no word: a search for a closed path that meets the condition, component by component.

use crate::automaton::{firsts, Atom, Automaton, Condition, Join};
use crate::labels::FALSE;

/// An edge between nodes that are numbered for one search; `edge` is its place in the automaton.
#[derive(Clone, Copy)]
struct Arc {
    from: u32,
    to: u32,
    edge: u32,
}

/// What all edges of a component together say of a condition.
#[derive(Clone, Copy)]
enum Verdict {
    Met,
    /// No closed path of some of them meets it.
    Missed,
    /// It depends on this Fin, which some of them break.
    Depends(Atom),
}

pub fn is_empty(a: &Automaton) -> bool {
    let arcs = reached_arcs(a);
    let number = vec![0; a.states as usize];
    let mut search = Search { a, given_up: Vec::new(), number, counts: vec![0; a.sets as usize] };
    !search.finds(a.states as usize, arcs)
}

/// Of each state of a Büchi automaton whether it is reached and some word is accepted from it.
pub fn live_states(a: &Automaton) -> Vec<bool> {
    let mut arcs = reached_arcs(a);
    let component = components(a.states as usize, &arcs);
    // A component has a greater number than those behind it, so what is said of these is known first.
    arcs.sort_by_key(|arc| component[arc.from as usize]);
    let mut accepts = vec![false; a.states as usize];
    for arc in arcs {
        let (from, to) = (component[arc.from as usize] as usize, component[arc.to as usize] as usize);
        let is_marked = !a.marks_of(&a.edges()[arc.edge as usize]).is_empty();
        accepts[from] |= accepts[to] || from == to && is_marked;
    }
    // A state without such edges may have no component.
    component.iter().map(|own| accepts.get(*own as usize) == Some(&true)).collect()
}

/// The edges from reached states that some letter meets.
fn reached_arcs(a: &Automaton) -> Vec<Arc> {
    let reached = a.reached();
    let mut arcs = Vec::new();
    for (place, edge) in a.edges().iter().enumerate() {
        if edge.label != FALSE && reached[edge.from as usize] {
            arcs.push(Arc { from: edge.from, to: edge.to, edge: place as u32 });
        }
    }
    arcs
}

struct Search<'a> {
    a: &'a Automaton,
    /// The Fin that are taken as false.
    given_up: Vec<Atom>,
    /// Room for a number of each node, and for the number of edges in each set.
    number: Vec<u32>,
    counts: Vec<usize>,
}

impl Search<'_> {
    /// Whether some closed path of these arcs meets the condition. They are sorted by `from`.
    fn finds(&mut self, nodes: usize, arcs: Vec<Arc>) -> bool {
        let component = components(nodes, &arcs);
        let inside = |arc: &Arc| component[arc.from as usize] == component[arc.to as usize];
        let mut arcs: Vec<Arc> = arcs.into_iter().filter(inside).collect();
        arcs.sort_by_key(|arc| component[arc.from as usize]);
        let mut rest = arcs.as_slice();
        while let Some(first) = rest.first() {
            let own = component[first.from as usize];
            let (group, others) = rest.split_at(rest.partition_point(|arc| component[arc.from as usize] <= own));
            if self.finds_in(group) {
                return true;
            }
            rest = others;
        }
        false
    }

    /// The same of all arcs inside of one component.
    fn finds_in(&mut self, group: &[Arc]) -> bool {
        let given_up = self.given_up.len();
        let found = loop {
            match self.judge(group) {
                Verdict::Met => break true,
                Verdict::Missed => break false,
                Verdict::Depends(fin) => {
                    // First without the edges that break it, then with all of them, as if it could not hold.
                    let (nodes, kept) = self.keeping(group, fin);
                    if self.finds(nodes, kept) {
                        break true;
                    }
                    self.given_up.push(fin);
                }
            }
        };
        self.given_up.truncate(given_up);
        found
    }

    /// The arcs that keep this Fin, their nodes numbered anew, and how many numbers that takes.
    fn keeping(&mut self, group: &[Arc], fin: Atom) -> (usize, Vec<Arc>) {
        let mut nodes = 0;
        for (place, arc) in group.iter().enumerate() {
            // Each node of a component has an arc that leaves it, and these stand together.
            if place == 0 || group[place - 1].from != arc.from {
                self.number[arc.from as usize] = nodes;
                nodes += 1;
            }
        }
        let mut kept = Vec::new();
        for arc in group {
            if !fin.counts(self.marks(arc)) {
                let (from, to) = (self.number[arc.from as usize], self.number[arc.to as usize]);
                kept.push(Arc { from, to, edge: arc.edge });
            }
        }
        (nodes as usize, kept)
    }

    fn marks(&self, arc: &Arc) -> &[u32] {
        self.a.marks_of(&self.a.edges()[arc.edge as usize])
    }

    fn judge(&mut self, group: &[Arc]) -> Verdict {
        let mut counts = std::mem::take(&mut self.counts);
        counts.fill(0);
        for arc in group {
            for mark in self.marks(arc) {
                counts[*mark as usize] += 1;
            }
        }
        self.counts = counts;
        self.judge_condition(&self.a.condition, group.len())
    }

    fn judge_condition(&self, condition: &Condition, arcs: usize) -> Verdict {
        match condition {
            Condition::True => Verdict::Met,
            Condition::False => Verdict::Missed,
            Condition::Atom(atom) => self.judge_atom(*atom, arcs),
            Condition::Joined(join, parts) => {
                let verdicts = parts.iter().map(|part| self.judge_condition(part, arcs));
                verdicts.reduce(|all, next| all.joined(next, *join)).expect("some parts")
            }
        }
    }

    fn judge_atom(&self, atom: Atom, arcs: usize) -> Verdict {
        let marked = self.counts[atom.set as usize];
        let counted = if atom.negated { arcs - marked } else { marked };
        match (atom.fin, counted > 0) {
            (false, true) | (true, false) => Verdict::Met,
            (false, false) => Verdict::Missed,
            (true, true) if self.given_up.contains(&atom) => Verdict::Missed,
            (true, true) => Verdict::Depends(atom),
        }
    }
}

impl Verdict {
    fn joined(self, other: Verdict, join: Join) -> Verdict {
        match (self, other, join) {
            (Verdict::Missed, _, Join::And) | (_, Verdict::Missed, Join::And) => Verdict::Missed,
            (Verdict::Met, _, Join::Or) | (_, Verdict::Met, Join::Or) => Verdict::Met,
            (Verdict::Depends(fin), _, _) => Verdict::Depends(fin),
            (_, verdict, _) => verdict,
        }
    }
}

/// Of each node the number of its component, by the algorithm of Tarjan with a list in place of the call stack.
fn components(nodes: usize, arcs: &[Arc]) -> Vec<u32> {
    const NEW: u32 = u32::MAX;
    let firsts = firsts(nodes, arcs.iter().map(|arc| arc.from));
    let mut next = firsts.clone();
    let (mut component, mut order, mut lowest) = (vec![NEW; nodes], vec![NEW; nodes], vec![NEW; nodes]);
    let (mut met, mut count) = (0, 0);
    let (mut path, mut waiting) = (Vec::new(), Vec::new());
    for root in (0..nodes).filter(|node| firsts[*node] < firsts[node + 1]) {
        if order[root] == NEW {
            path.push(root);
        }
        while let Some(&node) = path.last() {
            if order[node] == NEW {
                (order[node], lowest[node]) = (met, met);
                met += 1;
                waiting.push(node);
            }
            if next[node] < firsts[node + 1] {
                let to = arcs[next[node] as usize].to as usize;
                next[node] += 1;
                if order[to] == NEW {
                    path.push(to);
                } else if component[to] == NEW {
                    lowest[node] = lowest[node].min(order[to]);
                }
                continue;
            }
            path.pop();
            if let Some(&before) = path.last() {
                lowest[before] = lowest[before].min(lowest[node]);
            }
            if lowest[node] == order[node] {
                while component[node] == NEW {
                    component[waiting.pop().expect("it has the node itself")] = count;
                }
                count += 1;
            }
        }
    }
    component
}
