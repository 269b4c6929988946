#!/usr/bin/env python3
"""Times the whole table of two dictionaries of 1,902 facts, of which 1,900 add 20 things up for each of 100 members: a
table has 190,101 slots that stand, and takes 3,990,100 visits of nodes. In one dictionary the things are constants, and
in the other a field of the same member is read. Each table is computed once, and eleven times. Nothing is judged.

    bench/plain_table.py

Reading the dictionary is done once and counted.
"""
import sys

from building import built
from timing import words_of

PROGRAM = r"""//! Computes the whole table of a dictionary, so many times over.
#![tactic(auto)]

use answers::{Answers, Edit};
use dictionary::{Dictionary, FactEngine, accept};
use fact_values::Slot;
use plain_table::PlainTable;
use std::alloc::{AllocError, Global};
use std::env;
use std::process::ExitCode;
use text_checks::CheckTable;

const FACTS: u32 = 1_900;

// A fact of the members that adds 20 of these up.
fn sum_of(alloc: Global, fact: u32, thing: &str) -> Result<String, AllocError> {
    let mut text = format!(in alloc; r#",{{"path":"/c/*/m{fact}","derived":"Int","is":["Add""#)?;
    for _ in 0..20 {
        text.push_str(",")?;
        text.push_str(thing)?;
    }
    text.push_str("]}")?;
    Ok(text)
}

fn text(alloc: Global, thing: &str) -> Result<String, AllocError> {
    let mut text = String::from_str(alloc, r#"{"version":"1","facts":["#)?;
    text.push_str(r#"{"path":"/c","writable":"Collection"}"#)?;
    text.push_str(r#",{"path":"/c/*/one","derived":"Int","is":["Int","1"]}"#)?;
    for fact in 1..=FACTS {
        let item = sum_of(alloc, fact, thing)?;
        text.push_str(item.as_str())?;
    }
    text.push_str("]}")?;
    Ok(text)
}

fn dictionary(alloc: Global, thing: &str) -> Option<Dictionary> {
    let text = text(alloc, thing).ok()?;
    accept(alloc, text.as_bytes(), &CheckTable::new(alloc)).ok()
}

fn add(answers: &mut Answers, list: u32) -> bool {
    let is_short = match answers.members(list) {
        Some(members) => members.len() < 100,
        None => true,
    };
    is_short && answers.next_number() <= 1_000_000 && answers.apply(Edit::AddNew(list)).is_ok()
}

fn members(alloc: Global, count: u32) -> Option<Answers> {
    let mut answers = Answers::new(alloc);
    for _ in 0..count {
        if !add(&mut answers, 1) {
            return None;
        }
    }
    Some(answers)
}

// Whether the last slot has a result.
fn is_full(alloc: Global, dict: &Dictionary, answers: &Answers) -> bool {
    let _number = answers.next_number();
    let last = Slot {
        fact: FACTS + 2,
        member: 100,
    };
    match PlainTable::begin(alloc, dict, answers) {
        Ok(table) => table.result(last).is_some(),
        Err(_) => false,
    }
}

fn tables(alloc: Global, thing: &str, rounds: u32) -> Option<()> {
    let dict = dictionary(alloc, thing)?;
    let answers = members(alloc, 100)?;
    for _ in 0..rounds {
        if !is_full(alloc, &dict, &answers) {
            return None;
        }
    }
    Some(())
}

const CONSTANT: &str = r#"["Int","1"]"#;

const FIELD: &str = r#"["Dependency","../one"]"#;

fn worked(rt: &HostRuntime) -> Option<()> {
    let word = env::args(rt).ok()?.nth(1)?;
    match word.as_str() {
        "constants-0" => tables(rt.alloc(), CONSTANT, 0),
        "constants-1" => tables(rt.alloc(), CONSTANT, 1),
        "constants-11" => tables(rt.alloc(), CONSTANT, 11),
        "fields-0" => tables(rt.alloc(), FIELD, 0),
        "fields-1" => tables(rt.alloc(), FIELD, 1),
        "fields-11" => tables(rt.alloc(), FIELD, 11),
        _ => Some(()),
    }
}

fn main(rt: HostRuntime) -> ExitCode {
    match worked(&rt) {
        Some(()) => ExitCode::from(0),
        None => ExitCode::from(1),
    }
}
"""


def main(argv: list[str]) -> int:
    """Builds the program and times it."""
    words_of(__doc__).parse_args(argv)
    with built("whole_tables", "fact_values steps answers text_checks dictionary plain_table", PROGRAM) as it:
        for things in ("constants", "fields"):
            it.show(f"a dictionary of {things} is only read", f"{things}-0")
            it.show("its table is computed once", f"{things}-1")
            it.show("its table is computed 11 times", f"{things}-11")
        it.show_peak("at most", "fields-1")
    return 0


if __name__ == "__main__":
    sys.exit(main(sys.argv[1:]))
