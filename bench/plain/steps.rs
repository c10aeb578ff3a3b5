//! Steps one tree after the other, as `crates/tree_rows` does when it is given two numbers, with the same output. Its arguments are
//! the first number of a sequence, and how many steps are taken.

/// What the trees need of the module of this name.
mod bytes {
    pub type Fault = Box<dyn std::error::Error>;
}
mod trees;

use bytes::Fault;
use std::process::ExitCode;
use trees::{first_tree, Stepper, Tree};

const STATES: u32 = 64;
const LETTERS: u32 = 64;

/// The sizes of the trees that are stepped, and that of the first.
const LEAST_NODES: u32 = 10;
const MOST_NODES: u32 = 40;
const FIRST_NODES: u32 = 31;

/// More than any priority.
const NO_PRIORITY: u32 = 1000;

/// A state that doesn't stand in the tree.
const NO_HOME: u32 = u32::MAX;

struct Move {
    from: u32,
    to: u32,
    is_accepting: bool,
}

/// Numbers that follow one another by a rule (a linear congruential generator).
struct Sequence(u32);

impl Sequence {
    fn next(&mut self, bound: u32) -> u32 {
        self.0 = self.0.wrapping_mul(1_664_525).wrapping_add(1_013_904_223);
        (self.0 >> 8) % bound
    }
}

/// What a walk has seen.
struct Seen {
    least: u32,
    most: u32,
    red: u32,
    green: u32,
    checksum: u32,
}

impl Seen {
    fn add(&mut self, tree: Tree, priority: Option<u32>) {
        if is_stepped(tree) {
            self.least = self.least.min(tree.nodes());
            self.most = self.most.max(tree.nodes());
        }
        match priority {
            Some(priority) if priority % 2 == 0 => self.red += 1,
            Some(_) => self.green += 1,
            None => {}
        }
        for number in [tree.nodes(), tree.homes().count() as u32, priority.unwrap_or(NO_PRIORITY)] {
            self.checksum = self.checksum.wrapping_mul(31).wrapping_add(number);
        }
    }
}

/// A tree, and room for its steps.
struct Walk {
    tree: Vec<u32>,
    stepper: Stepper,
    /// Of each state its home in the tree.
    homes: Vec<u32>,
}

impl Walk {
    fn new() -> Walk {
        Walk { tree: first_tree(&[0]), stepper: Stepper::new(STATES as usize), homes: vec![NO_HOME; STATES as usize] }
    }

    /// The step of the tree, which stays as it is.
    fn step(&mut self, letter: &[Move]) -> Result<Option<u32>, Fault> {
        let tree = Tree::of(&self.tree);
        self.homes.fill(NO_HOME);
        for (state, home) in tree.homes() {
            self.homes[state as usize] = home;
        }
        self.stepper.take(tree);
        let homes = &self.homes;
        let moves = letter.iter().map(|m| (homes[m.from as usize], m.to, m.is_accepting));
        self.stepper.step(moves.filter(|(home, ..)| *home != NO_HOME))
    }

    /// The tree that the last step gave.
    fn made(&self) -> Tree<'_> {
        Tree::of(&self.stepper.made)
    }

    /// Goes on to that tree.
    fn go_on(&mut self) {
        std::mem::swap(&mut self.tree, &mut self.stepper.made);
    }
}

fn is_stepped(tree: Tree) -> bool {
    (LEAST_NODES..=MOST_NODES).contains(&tree.nodes())
}

/// Each state stays with 97 chances in 100, goes on to the next by an accepting move with five, and with three to some state.
fn letter_by_chance(sequence: &mut Sequence) -> Vec<Move> {
    let mut moves = Vec::new();
    for from in 0..STATES {
        if sequence.next(100) < 97 {
            moves.push(Move { from, to: from, is_accepting: false });
        }
        if sequence.next(100) < 5 {
            moves.push(Move { from, to: (from + 1) % STATES, is_accepting: true });
        }
        if sequence.next(100) < 3 {
            let to = sequence.next(STATES);
            moves.push(Move { from, to, is_accepting: sequence.next(5) == 0 });
        }
    }
    moves
}

/// Each state stays, and all but the last go on to the next by an accepting move.
fn growing_letter() -> Vec<Move> {
    let both = |from| [(from, false), (from + 1, true)].map(|(to, is_accepting)| Move { from, to, is_accepting });
    (0..STATES - 1).flat_map(both).collect()
}

fn walk(mut sequence: Sequence, steps: u32) -> Result<Seen, Fault> {
    let letters: Vec<_> = (0..LETTERS).map(|_| letter_by_chance(&mut sequence)).collect();
    let mut walk = Walk::new();
    let growing = growing_letter();
    for _ in 1..FIRST_NODES {
        walk.step(&growing)?;
        walk.go_on();
    }
    let mut seen = Seen { least: FIRST_NODES, most: FIRST_NODES, red: 0, green: 0, checksum: 0 };
    for _ in 0..steps {
        let priority = walk.step(&letters[sequence.next(LETTERS) as usize])?;
        seen.add(walk.made(), priority);
        if is_stepped(walk.made()) {
            walk.go_on();
        }
    }
    Ok(seen)
}

fn main() -> ExitCode {
    let numbers: Vec<u32> = std::env::args().skip(1).flat_map(|word| word.parse()).collect();
    let [first, steps] = numbers[..] else {
        eprintln!("steps: bad arguments");
        return ExitCode::from(2);
    };
    match walk(Sequence(first), steps) {
        Ok(Seen { least, most, red, green, checksum }) => {
            println!("steps={steps} of trees of {least} to {most} nodes\nred={red} green={green} checksum={checksum}");
            ExitCode::SUCCESS
        }
        Err(fault) => {
            eprintln!("steps: {fault}");
            ExitCode::from(2)
        }
    }
}
