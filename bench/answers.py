#!/usr/bin/env python3
"""Times a million sets, and a million sets each undone, and shows the memory of the history. Nothing is judged.

    bench/answers.py

The program's start, about a millisecond, is counted.
"""
import sys

from building import built
from timing import words_of

PROGRAM = r"""//! Sets a slot a million times, and keeps or undoes each set.
#![tactic(auto)]

ghost use Rattle.std.specs.Prelude.{IfOk};
ghost use Rattle.answers.specs.Change.{Fits};
ghost use Rattle.answers.specs.Meaning.{answered, change};

use answers::{Answers, Edit, Unapplied};
use fact_values::{Slot, Value, Whole};
use session_undo::History;
use std::alloc::Global;
use std::env;
use std::process::ExitCode;

const ROUNDS: i64 = 1_000_000;

/// Sets one of a thousand slots.
fn set(answers: &mut Answers, n: i64) -> Result<Edit, Unapplied>
    ensures { IfOk result (λ back. Fits (change back) (answered answers.new)) }
{
    let fact = n.unsigned_abs() % 1000;
    let slot = Slot {
        fact: fact as u32,
        member: 0,
    };
    answers.apply(Edit::Value(slot, Whole::new(n).map(Value::Int)))
}

fn set_and_keep(answers: &mut Answers, history: &mut History, n: i64) -> bool {
    match set(answers, n) {
        Ok(back) => history.push(back).is_ok(),
        Err(_) => false,
    }
}

fn set_and_undo(answers: &mut Answers, history: &mut History, n: i64) -> bool {
    match set(answers, n) {
        Ok(back) => history.push(back).is_ok() && history.back(answers).is_ok(),
        Err(_) => false,
    }
}

fn sets(alloc: Global) -> bool {
    let mut answers = Answers::new(alloc);
    let mut history = History::new(alloc);
    for n in 0..ROUNDS {
        if !set_and_keep(&mut answers, &mut history, n) {
            return false;
        }
    }
    true
}

fn undos(alloc: Global) -> bool {
    let mut answers = Answers::new(alloc);
    let mut history = History::new(alloc);
    for n in 0..ROUNDS {
        if !set_and_undo(&mut answers, &mut history, n) {
            return false;
        }
    }
    true
}

fn is_done(rt: &HostRuntime) -> bool {
    let Ok(mut words) = env::args(rt) else {
        return false;
    };
    match words.nth(1) {
        Some(word) => match word.as_str() {
            "sets" => sets(rt.alloc()),
            "undos" => undos(rt.alloc()),
            _ => true,
        },
        None => true,
    }
}

fn main(rt: HostRuntime) -> ExitCode {
    if is_done(&rt) {
        ExitCode::from(0)
    } else {
        ExitCode::from(1)
    }
}
"""


def main(argv: list[str]) -> int:
    """Builds the program and times it."""
    words_of(__doc__).parse_args(argv)
    with built("sets_and_undos", "fact_values answers session_undo", PROGRAM) as it:
        print("1,000,000 edits")
        it.show("sets, each kept", "sets")
        it.show("sets, each undone", "undos")
        it.show_peak("at most, for a million kept sets", "sets")
    return 0


if __name__ == "__main__":
    sys.exit(main(sys.argv[1:]))
