//! Automata read from a stream, one at a time: those with `States:`, without a label at a state, and without aliases and
//! comments.

use crate::automaton::{Atom, Automaton, Condition, Join};
use crate::bytes::{Bytes, Fault};
use crate::labels::{Label, FALSE, TRUE};
use std::io::Read;

const MOST_NAMES: usize = 32;
const MOST_SETS: u32 = 512;
const MOST_STATES: u32 = 100_000;
const MOST_EDGES: usize = 1_000_000;
const MOST_OPEN: usize = 512;

pub struct Reader {
    bytes: Bytes,
    /// How many `(` and `!` are open.
    open: usize,
    /// The automaton, as far as it is read, and which items of its header there were that may stand once.
    made: Automaton,
    items: Vec<&'static str>,
}

impl Reader {
    pub fn new(input: Box<dyn Read>) -> Reader {
        let (bytes, made) = (Bytes::new(input), Automaton::default());
        Reader { bytes, open: 0, made, items: Vec::new() }
    }

    /// The next automaton, or None where only blanks are left. Nothing behind its `--END--` is looked at.
    pub fn next(&mut self) -> Result<Option<Automaton>, Fault> {
        if self.bytes.is_over() {
            return Ok(None);
        }
        self.bytes.take_all(b"HOA:")?;
        if self.bytes.word()? || self.bytes.text != b"v1" {
            return invalid(1);
        }
        self.header()?;
        self.bytes.take_all(b"--BODY--")?;
        self.body()?;
        self.bytes.take_all(b"--END--")?;
        self.made.close();
        Ok(Some(std::mem::take(&mut self.made)))
    }

    fn header(&mut self) -> Result<(), Fault> {
        self.items.clear();
        let mut says_nothing = false;
        while let Some(byte) = self.bytes.front().filter(|byte| *byte != b'-') {
            match byte {
                b'"' if says_nothing => self.bytes.string()?,
                b'0'..=b'9' if says_nothing => self.bytes.number().map(|_| ())?,
                _ if self.bytes.word()? => says_nothing = !self.item()?,
                _ if says_nothing => {}
                _ => return self.bytes.stray(),
            }
        }
        if !self.items.contains(&"Acceptance") {
            return invalid(2);
        }
        if !self.items.contains(&"States") {
            return Err("automata without States: are not supported".into());
        }
        if self.made.starts.iter().any(|start| *start >= self.made.states) {
            return invalid(6);
        }
        Ok(())
    }

    /// Reads what stands behind the name of an item, or answers false where its values say nothing.
    fn item(&mut self) -> Result<bool, Fault> {
        match self.bytes.text.as_slice() {
            b"States" => {
                self.once("States")?;
                self.made.states = within(self.bytes.number()?, MOST_STATES, "states")?;
            }
            b"Start" => {
                let start = self.bytes.number()?;
                if !self.made.starts.contains(&start) {
                    self.made.starts.push(start);
                }
            }
            b"AP" => {
                self.once("AP")?;
                self.names()?;
            }
            b"Acceptance" => {
                self.once("Acceptance")?;
                self.made.sets = within(self.bytes.number()?, MOST_SETS, "sets")?;
                self.made.condition = self.condition()?;
            }
            b"name" => {
                self.once("name")?;
                self.bytes.string()?;
                self.made.name = Some(self.bytes.text.clone());
            }
            b"tool" | b"acc-name" | b"properties" => return Ok(false),
            _ => return self.bytes.stray(),
        }
        Ok(true)
    }

    fn once(&mut self, item: &'static str) -> Result<(), Fault> {
        if self.items.contains(&item) {
            return invalid(2);
        }
        self.items.push(item);
        Ok(())
    }

    fn names(&mut self) -> Result<(), Fault> {
        let count = within(self.bytes.number()? as usize, MOST_NAMES, "names")?;
        while self.bytes.front() == Some(b'"') {
            self.bytes.string()?;
            if self.made.names.len() == count || self.made.names.contains(&self.bytes.text) {
                return invalid(4);
            }
            self.made.names.push(self.bytes.text.clone());
        }
        if self.made.names.len() == count {
            Ok(())
        } else {
            invalid(4)
        }
    }

    fn condition(&mut self) -> Result<Condition, Fault> {
        self.parts(Join::Or, |reader| reader.parts(Join::And, Reader::atom))
    }

    fn parts(&mut self, join: Join, part: fn(&mut Reader) -> Result<Condition, Fault>) -> Result<Condition, Fault> {
        let first = part(self)?;
        if self.bytes.front() != Some(join.sign()) {
            return Ok(first);
        }
        let mut parts = vec![first];
        while self.bytes.takes(join.sign()) {
            parts.push(part(self)?);
        }
        Ok(Condition::Joined(join, parts))
    }

    fn atom(&mut self) -> Result<Condition, Fault> {
        if self.bytes.front() == Some(b'(') {
            return self.inside(Reader::condition);
        }
        let has_colon = self.bytes.word()?;
        let fin = match self.bytes.text.as_slice() {
            b"t" if !has_colon => return Ok(Condition::True),
            b"f" if !has_colon => return Ok(Condition::False),
            b"Fin" => true,
            b"Inf" => false,
            _ => return self.bytes.stray(),
        };
        self.bytes.take(b'(')?;
        let negated = self.bytes.takes(b'!');
        let set = self.below(self.made.sets, 9)?;
        self.bytes.take(b')')?;
        Ok(Condition::Atom(Atom { fin, set, negated }))
    }

    /// What stands in parentheses.
    fn inside<T>(&mut self, part: fn(&mut Reader) -> Result<T, Fault>) -> Result<T, Fault> {
        self.bytes.take(b'(')?;
        self.open = within(self.open + 1, MOST_OPEN, "depth")?;
        let found = part(self)?;
        self.open -= 1;
        self.bytes.take(b')')?;
        Ok(found)
    }

    /// A number that has to be below a bound, by a rule of the format.
    fn below(&mut self, bound: u32, rule: u32) -> Result<u32, Fault> {
        let number = self.bytes.number()?;
        if number < bound {
            Ok(number)
        } else {
            invalid(rule)
        }
    }

    fn body(&mut self) -> Result<(), Fault> {
        let mut has_line = vec![false; self.made.states as usize];
        let (mut on_state, mut marks) = (Vec::new(), Vec::new());
        while self.bytes.front() != Some(b'-') {
            self.bytes.take_all(b"State:")?;
            let state = self.below(self.made.states, 6)?;
            if std::mem::replace(&mut has_line[state as usize], true) {
                return invalid(10);
            }
            on_state.clear();
            self.add_marks(&mut on_state)?;
            let mut letter = 0;
            while let Some(sign @ (b'[' | b'0'..=b'9')) = self.bytes.front() {
                let label = self.label_of_edge(sign, letter)?;
                letter += 1;
                let to = self.below(self.made.states, 6)?;
                marks.clone_from(&on_state);
                self.add_marks(&mut marks)?;
                within(self.made.edges().len() + 1, MOST_EDGES, "edges")?;
                self.made.push_edge(state, label, to, marks.iter().copied());
            }
        }
        Ok(())
    }

    /// Adds the marks between braces, if they stand here. All of them rise then, each once.
    fn add_marks(&mut self, marks: &mut Vec<u32>) -> Result<(), Fault> {
        if self.bytes.takes(b'{') {
            while !self.bytes.takes(b'}') {
                marks.push(self.below(self.made.sets, 9)?);
            }
            marks.sort_unstable();
            marks.dedup();
        }
        Ok(())
    }

    /// The label that is written, or that of the letter of this number where none is.
    fn label_of_edge(&mut self, sign: u8, letter: u64) -> Result<Label, Fault> {
        if sign != b'[' {
            return Ok(self.made.labels.letter(self.made.names.len() as u32, letter));
        }
        self.bytes.take(b'[')?;
        let label = self.label()?;
        self.bytes.take(b']')?;
        Ok(label)
    }

    fn label(&mut self) -> Result<Label, Fault> {
        let mut some = self.cube()?;
        while self.bytes.takes(b'|') {
            let other = self.cube()?;
            some = self.made.labels.or(some, other);
        }
        Ok(some)
    }

    fn cube(&mut self) -> Result<Label, Fault> {
        let mut all = self.literal()?;
        while self.bytes.takes(b'&') {
            let other = self.literal()?;
            all = self.made.labels.and(all, other);
        }
        Ok(all)
    }

    fn literal(&mut self) -> Result<Label, Fault> {
        match self.bytes.front() {
            Some(b'(') => self.inside(Reader::label),
            Some(b'!') => {
                self.bytes.take(b'!')?;
                self.open = within(self.open + 1, MOST_OPEN, "depth")?;
                let part = self.literal()?;
                self.open -= 1;
                Ok(self.made.labels.not(part))
            }
            Some(b'0'..=b'9') => {
                let var = self.below(self.made.names.len() as u32, 8)?;
                Ok(self.made.labels.literal(var))
            }
            _ => match (self.bytes.word()?, self.bytes.text.as_slice()) {
                (false, b"t") => Ok(TRUE),
                (false, b"f") => Ok(FALSE),
                _ => self.bytes.stray(),
            },
        }
    }
}

fn within<T: PartialOrd>(number: T, most: T, word: &str) -> Result<T, Fault> {
    if number <= most {
        Ok(number)
    } else {
        Err(format!("limit exceeded: {word}").into())
    }
}

fn invalid<T>(rule: u32) -> Result<T, Fault> {
    Err(format!("invalid automaton (V{rule})").into())
}
