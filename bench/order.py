#!/usr/bin/env python3
"""Times the order of a graph of 2,000 facts with 40,000 mentions, a thousand times over, and of the same facts with a
cycle at the very end, ten times; and that of a dictionary of 2,000 facts with 38,000 mentions, a hundred times.
Nothing is judged.

    bench/order.py

Making the graph, or reading the dictionary, is done once and counted; how long the dictionary's reading takes alone is
shown too.
"""
import sys

from building import built
from timing import words_of

PROGRAM = r"""//! Orders one graph or dictionary many times.
#![tactic(auto)]

ghost use Rattle.std.specs.Prelude.{◌<◌};

use dict_order::{OrderFault, mentions_facts, order, order_graph};
use dict_tree::read;
use std::alloc::{AllocError, Global};
use std::env;
use std::process::ExitCode;

const FACTS: u32 = 2_000;

// Each fact mentions 20 of the facts above it, the next one first, and the last mentions this.
fn falling(alloc: Global, last: &[u32]) -> Result<Vec<Vec<u32>>, AllocError> {
    let mut graph = Vec::new(alloc);
    for fact in 1..FACTS {
        let mut list = Vec::new(alloc);
        for k in 0..20 {
            list.push(fact + 1 + k % (FACTS - fact))?;
        }
        graph.push(list)?;
    }
    graph.push(Vec::from_slice(alloc, last)?)?;
    Ok(graph)
}

// A number of each answer goes into what is printed, so that no order is left out.
fn seen(answer: Result<Vec<u32>, OrderFault>) -> u64 {
    match answer {
        Ok(ranks) => ranks.len() as u64,
        Err(OrderFault::Cycle(fact)) => u64::from(fact),
        Err(OrderFault::NoMemory) => 0,
    }
}

fn ordered(alloc: Global, rounds: u32, last: &[u32]) -> Option<u64> {
    let graph = falling(alloc, last).ok()?;
    if graph.len() > 2_000 {
        return None;
    }
    if !mentions_facts(graph.as_slice()) {
        return None;
    }
    let mut sum = 0u64;
    for _ in 0..rounds {
        sum = sum.wrapping_add(seen(order_graph(alloc, graph.as_slice())));
    }
    Some(sum)
}

// A fact that adds up 19 of the facts above it, the next one first.
fn sum_of(alloc: Global, fact: u32) -> Result<String, AllocError>
    requires { fact < 2000 }
{
    let mut text = format!(in alloc; r#"{{"path":"/f{fact}","derived":"Int","is":["Add""#)?;
    for k in 0..19 {
        let next = fact + 1 + k % (FACTS - fact);
        let operand = format!(in alloc; r#",["Dependency","/f{next}"]"#)?;
        text.push_str(operand.as_str())?;
    }
    text.push_str("]},")?;
    Ok(text)
}

fn dictionary(alloc: Global) -> Result<String, AllocError> {
    let mut text = String::from_str(alloc, r#"{"version":"1","facts":["#)?;
    for fact in 1..FACTS {
        let item = sum_of(alloc, fact)?;
        text.push_str(item.as_str())?;
    }
    text.push_str(r#"{"path":"/f2000","writable":"Int"}]}"#)?;
    Ok(text)
}

fn ordered_dictionary(alloc: Global, rounds: u32) -> Option<u64> {
    let text = dictionary(alloc).ok()?;
    let source = read(alloc, text.as_bytes()).ok()?;
    let mut sum = 0u64;
    for _ in 0..rounds {
        sum = sum.wrapping_add(seen(order(alloc, &source)));
    }
    Some(sum)
}

fn worked(rt: &HostRuntime) -> Option<u64> {
    let word = env::args(rt).ok()?.nth(1)?;
    match word.as_str() {
        "ranks" => ordered(rt.alloc(), 1_000, &[]),
        "cycle" => ordered(rt.alloc(), 10, &[FACTS]),
        "dictionary" => ordered_dictionary(rt.alloc(), 100),
        "reading" => ordered_dictionary(rt.alloc(), 0),
        _ => Some(0),
    }
}

fn main(rt: HostRuntime) -> ExitCode {
    let Some(sum) = worked(&rt) else {
        return ExitCode::from(1);
    };
    let _ = println!(rt; "{sum}");
    ExitCode::from(0)
}
"""


def main(argv: list[str]) -> int:
    """Builds the program and times it."""
    words_of(__doc__).parse_args(argv)
    with built("order_bench", "dict_tree dict_order", PROGRAM) as it:
        it.show("a graph's ranks, 1,000 times", "ranks")
        it.show("a graph whose last fact mentions itself, 10 times", "cycle")
        it.show("a dictionary that is only read", "reading")
        it.show("a dictionary's ranks, 100 times", "dictionary")
    return 0


if __name__ == "__main__":
    sys.exit(main(sys.argv[1:]))
