//! The canonical text.

use crate::automaton::{Automaton, Condition};

/// The canonical text of an automaton.
pub fn text_of(a: &Automaton) -> Vec<u8> {
    let mut out = b"HOA: v1\n".to_vec();
    if let Some(name) = &a.name {
        out.extend_from_slice(b"name: ");
        push_quoted(&mut out, name);
        out.push(b'\n');
    }
    push_line(&mut out, "States: ", a.states);
    for start in &a.starts {
        push_line(&mut out, "Start: ", *start);
    }
    out.extend_from_slice(b"AP: ");
    push_number(&mut out, a.names.len() as u32);
    for name in &a.names {
        out.push(b' ');
        push_quoted(&mut out, name);
    }
    out.extend_from_slice(b"\nAcceptance: ");
    push_number(&mut out, a.sets);
    out.push(b' ');
    push_condition(&mut out, &a.condition);
    out.extend_from_slice(b"\nproperties: trans-labels explicit-labels trans-acc\n--BODY--\n");
    for state in 0..a.states {
        push_line(&mut out, "State: ", state);
        for edge in a.edges_of(state) {
            out.push(b'[');
            a.labels.write(&mut out, edge.label);
            out.extend_from_slice(b"] ");
            push_number(&mut out, edge.to);
            push_marks(&mut out, a.marks_of(edge));
            out.push(b'\n');
        }
    }
    out.extend_from_slice(b"--END--\n");
    out
}

fn push_line(out: &mut Vec<u8>, word: &str, number: u32) {
    out.extend_from_slice(word.as_bytes());
    push_number(out, number);
    out.push(b'\n');
}

pub fn push_number(out: &mut Vec<u8>, mut number: u32) {
    let mut digits = [0; 10];
    let mut first = digits.len();
    loop {
        first -= 1;
        digits[first] = b'0' + (number % 10) as u8;
        number /= 10;
        if number == 0 {
            break;
        }
    }
    out.extend_from_slice(&digits[first..]);
}

fn push_quoted(out: &mut Vec<u8>, bytes: &[u8]) {
    out.push(b'"');
    for byte in bytes {
        if matches!(byte, b'"' | b'\\') {
            out.push(b'\\');
        }
        out.push(*byte);
    }
    out.push(b'"');
}

fn push_marks(out: &mut Vec<u8>, marks: &[u32]) {
    let mut before: &[u8] = b" {";
    for mark in marks {
        out.extend_from_slice(before);
        push_number(out, *mark);
        before = b" ";
    }
    if !marks.is_empty() {
        out.push(b'}');
    }
}

fn push_condition(out: &mut Vec<u8>, condition: &Condition) {
    match condition {
        Condition::True => out.push(b't'),
        Condition::False => out.push(b'f'),
        Condition::Atom(atom) => {
            out.extend_from_slice(if atom.fin { b"Fin(" } else { b"Inf(" });
            out.extend_from_slice(if atom.negated { b"!" } else { b"" });
            push_number(out, atom.set);
            out.push(b')');
        }
        Condition::Joined(join, parts) => {
            for (place, part) in parts.iter().enumerate() {
                if place > 0 {
                    out.extend_from_slice(&[b' ', join.sign(), b' ']);
                }
                let is_joined = matches!(part, Condition::Joined(..));
                out.extend_from_slice(if is_joined { b"(" } else { b"" });
                push_condition(out, part);
                out.extend_from_slice(if is_joined { b")" } else { b"" });
            }
        }
    }
}
