//! A filter of omega-automata in plain Rust, to measure `autfilt` by: on the workloads of `bench/run` it does the same work,
//! with the same output and status. It leaves out what they don't need.

mod automaton;
mod buchi;
mod bytes;
mod complement;
mod emptiness;
mod hiding;
mod labels;
mod letters;
mod monitor;
mod parity;
mod product;
mod pruned;
mod reader;
mod square;
mod trees;
mod writer;

use automaton::Automaton;
use bytes::Fault;
use complement::Compared;
use hiding::Hiding;
use reader::Reader;
use std::fs::File;
use std::io::{self, Read, Write};
use std::process::ExitCode;

/// What the words ask for.
#[derive(Default)]
struct Plan {
    is_empty: bool,
    intersect: Option<String>,
    included_in: Option<String>,
    equivalent_to: Option<String>,
    is_unambiguous: bool,
    product: Option<String>,
    hiding: Option<Hiding>,
    complement: bool,
    deterministic: bool,
    parity: bool,
    buchi: bool,
    monitor: bool,
    count: bool,
    /// Whether the number of reached states is printed, and not the automaton.
    states: bool,
    streams: Vec<String>,
}

/// The first automata of the files that stand with options.
struct Operands {
    intersect: Option<Automaton>,
    included_in: Option<Compared>,
    equivalent_to: Option<Compared>,
    product: Option<Automaton>,
}

fn main() -> ExitCode {
    match read_plan().and_then(|plan| run(&plan)) {
        Ok(0) => ExitCode::from(1),
        Ok(_) => ExitCode::SUCCESS,
        Err(fault) => {
            eprintln!("plain: {fault}");
            ExitCode::from(2)
        }
    }
}

fn read_plan() -> Result<Plan, Fault> {
    let mut plan = Plan::default();
    for word in std::env::args().skip(1) {
        match word.split_once('=').unwrap_or((&word, "")) {
            ("--intersect", file) => plan.intersect = Some(file.to_string()),
            ("--included-in", file) => plan.included_in = Some(file.to_string()),
            ("--equivalent-to", file) => plan.equivalent_to = Some(file.to_string()),
            ("--product", file) => plan.product = Some(file.to_string()),
            ("--remove-ap", name) => plan.hiding = Some(Hiding::of(name)),
            ("--stats", "%s") => plan.states = true,
            ("-c", "") => plan.count = true,
            ("--is-empty", "") => plan.is_empty = true,
            ("--is-unambiguous", "") => plan.is_unambiguous = true,
            ("--complement", "") => plan.complement = true,
            ("-D", "") => plan.deterministic = true,
            ("--parity", "") => plan.parity = true,
            ("--buchi", "") => plan.buchi = true,
            ("-M", "") => plan.monitor = true,
            (option, _) if option.starts_with('-') && option != "-" => return Err("bad arguments".into()),
            _ => plan.streams.push(word),
        }
    }
    Ok(plan)
}

/// Reads all streams, and answers how many automata were kept.
fn run(plan: &Plan) -> Result<u64, Fault> {
    let mut operands = Operands {
        intersect: operand(&plan.intersect)?,
        included_in: operand(&plan.included_in)?.map(Compared::with),
        equivalent_to: operand(&plan.equivalent_to)?.map(Compared::with),
        product: operand(&plan.product)?,
    };
    let mut kept = 0;
    for name in &plan.streams {
        let note = |fault: Fault| format!("{name}: {fault}");
        let mut reader = open(name)?;
        while let Some(mut a) = reader.next().map_err(note)? {
            if !keeps(plan, &mut operands, &mut a).map_err(note)? {
                continue;
            }
            kept += 1;
            if !plan.count {
                write(&printed(plan, &operands, a).map_err(note)?)?;
            }
        }
    }
    if plan.count {
        write(format!("{kept}\n").as_bytes())?;
    }
    Ok(kept)
}

/// The automaton of a file, if one is named.
fn operand(name: &Option<String>) -> Result<Option<Automaton>, Fault> {
    match name {
        Some(name) => Ok(Some(open(name)?.next()?.ok_or("unexpected end of input")?)),
        None => Ok(None),
    }
}

fn open(name: &str) -> Result<Reader, Fault> {
    let input: Box<dyn Read> = match name {
        "-" => Box::new(io::stdin().lock()),
        _ => Box::new(File::open(name).map_err(|_| format!("cannot open {name}"))?),
    };
    Ok(Reader::new(input))
}

/// Whether all filters hold. Labels may be added to the store of the automaton.
fn keeps(plan: &Plan, operands: &mut Operands, a: &mut Automaton) -> Result<bool, Fault> {
    if plan.is_empty && !emptiness::is_empty(a) {
        return Ok(false);
    }
    if let Some(other) = &operands.intersect {
        if complement::are_apart(a, other)? {
            return Ok(false);
        }
    }
    if let Some(other) = &mut operands.included_in {
        if !other.includes(a)? {
            return Ok(false);
        }
    }
    if let Some(other) = &mut operands.equivalent_to {
        if !other.equals(a)? {
            return Ok(false);
        }
    }
    Ok(!plan.is_unambiguous || square::is_unambiguous(a)?)
}

/// What is printed of an automaton. Its name stays only where nothing is made of it.
fn printed(plan: &Plan, operands: &Operands, a: Automaton) -> Result<Vec<u8>, Fault> {
    let mut made = a;
    if let Some(operand) = &operands.product {
        made = product::product(&mut made, operand)?;
    }
    if let Some(hiding) = &plan.hiding {
        made = hiding::hide(made, hiding);
    }
    if plan.complement {
        made = complement::complement(made)?;
    }
    if plan.deterministic {
        made = complement::to_deterministic(made)?;
    }
    if plan.parity {
        made = parity::to_parity(made)?;
    }
    if plan.buchi {
        made = buchi::to_buchi(made)?;
    }
    if plan.monitor {
        made = monitor::to_monitor(made)?;
    }
    if plan.states {
        let count = made.reached().iter().filter(|reached| **reached).count();
        return Ok(format!("{count}\n").into_bytes());
    }
    Ok(writer::text_of(&made))
}

/// Writes a text in one piece, before anything behind its automaton is read.
fn write(text: &[u8]) -> Result<(), Fault> {
    let mut out = io::stdout().lock();
    out.write_all(text)?;
    Ok(out.flush()?)
}
