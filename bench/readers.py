#!/usr/bin/env python3
"""Times the readers of a dictionary of 1,702 facts with 40,000 mentions: 1,600 of them add up twelve sums of a field over the
members of a collection, and one whole number. They are built ten times, and a hundred and ten times. Nothing is judged.

    bench/readers.py

Accepting the dictionary is done once and counted; how long it takes alone is shown too.
"""
import sys

from building import built
from timing import words_of

PROGRAM = r"""//! Builds the readers of a dictionary, so many times over.
#![tactic(auto)]

use dep_index::build;
use dictionary::{Dictionary, accept};
use std::alloc::{AllocError, Global};
use std::env;
use std::process::ExitCode;
use text_checks::CheckTable;

const FIELDS: u32 = 100;

// A fact that adds up the sums of twelve fields, one after the other from one of them, and a number.
fn sum_of(alloc: Global, fact: u32) -> Result<String, AllocError> {
    let mut text = format!(in alloc; r#",{{"path":"/s{fact}","derived":"Int","is":["Add""#)?;
    for k in 0..12u32 {
        let field = (fact % FIELDS + 7 * k) % FIELDS;
        let operand = format!(in alloc; r#",["CollectionSum","/c/*/n{field}"]"#)?;
        text.push_str(operand.as_str())?;
    }
    text.push_str(r#",["Dependency","/a"]]}"#)?;
    Ok(text)
}

fn text(alloc: Global) -> Result<String, AllocError> {
    let mut text = String::from_str(alloc, r#"{"version":"1","facts":["#)?;
    text.push_str(r#"{"path":"/c","writable":"Collection"},{"path":"/a","writable":"Int"}"#)?;
    for field in 0..FIELDS {
        let item = format!(in alloc; r#",{{"path":"/c/*/n{field}","writable":"Int"}}"#)?;
        text.push_str(item.as_str())?;
    }
    for fact in 0..1_600u32 {
        let item = sum_of(alloc, fact)?;
        text.push_str(item.as_str())?;
    }
    text.push_str("]}")?;
    Ok(text)
}

fn dictionary(alloc: Global) -> Option<Dictionary> {
    let text = text(alloc).ok()?;
    accept(alloc, text.as_bytes(), &CheckTable::new(alloc)).ok()
}

fn are_built(alloc: Global, rounds: u32) -> Option<()> {
    let dict = dictionary(alloc)?;
    for _ in 0..rounds {
        if build(alloc, &dict).is_err() {
            return None;
        }
    }
    Some(())
}

fn worked(rt: &HostRuntime) -> Option<()> {
    let word = env::args(rt).ok()?.nth(1)?;
    match word.as_str() {
        "0" => are_built(rt.alloc(), 0),
        "10" => are_built(rt.alloc(), 10),
        "110" => are_built(rt.alloc(), 110),
        _ => Some(()),
    }
}

fn main(rt: HostRuntime) -> ExitCode {
    match worked(&rt) {
        Some(()) => ExitCode::from(0),
        None => ExitCode::from(1),
    }
}
"""


def main(argv: list[str]) -> int:
    """Builds the program and times it."""
    words_of(__doc__).parse_args(argv)
    with built("readers_bench", "text_checks dictionary dep_index", PROGRAM) as it:
        it.show("a dictionary of 40,000 mentions is accepted", "0")
        it.show("its readers are built 10 times", "10")
        it.show("its readers are built 110 times", "110")
    return 0


if __name__ == "__main__":
    sys.exit(main(sys.argv[1:]))
