#!/usr/bin/env python3
"""Times the evaluation of compiled nodes over cells in a vector: 1,900 sums of 20 things, each at 100 members, and one
constant at each of them, which is 3,990,100 visits of nodes. The things are constants, or a field of the same member.
Each load is evaluated once, and eleven times: it is the one of bench/plain_table. Nothing is judged.

    bench/node_eval.py
"""
import sys

from building import built
from timing import words_of

# The steps are counted for nobody.
PROOFS = {
    "worked": """\
use Rattle.evaluated_nodes.proofs.worked.Given as goal

abbrev pub ghosts-loads : goal.ghosts-loads
ghosts-loads a = record { name = a.blank.name; parts = a.blank.parts }
""",
}

PROGRAM = r"""//! Evaluates nodes over cells, so many times over.
#![tactic(auto)]

ghost use Rattle.std.specs.Prelude.{◌≡◌, ◌<◌};

use dict_source::ManyOp;
use fact_values::{NoMemory, Slot, Value, Whole};
use node_eval::{Cells, Node, NodeRead, Reader, eval};
use std::alloc::Global;
use std::env;
use std::marker::Brand;
use std::process::ExitCode;
use std::sync::ledger::{Blank, Ledger};
use steps::Steps;
use three_state::Res;

const SUMS: u32 = 1_900;

const MEMBERS: u32 = 100;

/// The results of one fact, by its members.
#[derive(Drop)]
struct Column {
    cells: Vec<Res>,
}

impl Cells for Column {
    ghost use Rattle.std.specs.Prelude.{slice_get, option_copied, ◌≡◌};

    ghost look = { λ c s. slice_get c.cells.items s.member };

    fn cell(&self, slot: Slot) -> Option<&Res>
        ensures { option_copied result ≡ slice_get self.now.cells.items slot.member }
    {
        self.cells.get(slot.member as usize)
    }
}

fn one() -> Value {
    Value::Int(Whole::new(1).unwrap())
}

fn full_column(alloc: Global) -> Result<Column, NoMemory> {
    let mut cells = Vec::new(alloc);
    for _ in 0..MEMBERS {
        cells.push(Res::Complete(one()))?;
    }
    Ok(Column { cells })
}

fn thing(is_field: bool) -> Node {
    if is_field {
        Node::Read(NodeRead::Dependency, Reader::Same(1))
    } else {
        Node::Const(one())
    }
}

fn sum_of(alloc: Global, is_field: bool) -> Result<Node, NoMemory> {
    let mut operands = Vec::new(alloc);
    for _ in 0..20 {
        operands.push(thing(is_field))?;
    }
    Ok(Node::Many(ManyOp::Add, operands))
}

fn is_complete(res: &Res) -> bool {
    match res {
        Res::Complete(_) => true,
        _ => false,
    }
}

// Whether the node is complete at each member.
fn at_members<L: Ledger>(
    alloc: Global,
    node: &Node,
    cells: &Column,
    steps: &mut Steps<L>,
) -> Result<bool, NoMemory> {
    for member in 0..MEMBERS {
        let res = eval(alloc, node, cells, member, 0, steps)?;
        if !is_complete(&res) {
            return Ok(false);
        }
    }
    Ok(true)
}

fn one_load<L: Ledger>(
    alloc: Global,
    sum: &Node,
    cells: &Column,
    steps: &mut Steps<L>,
) -> Result<bool, NoMemory> {
    if !at_members(alloc, &Node::Const(one()), cells, steps)? {
        return Ok(false);
    }
    for _ in 0..SUMS {
        if !at_members(alloc, sum, cells, steps)? {
            return Ok(false);
        }
    }
    Ok(true)
}

fn loads<L: Ledger>(
    alloc: Global,
    is_field: bool,
    rounds: u32,
    blank: Blank,
) -> Result<bool, NoMemory>
    requires name { blank.name ≡ L.name }
    requires parts { blank.parts ≡ L.parts }
    requires some { 0 < blank.parts }
{
    let mut steps = Steps::<L>::new(blank);
    let cells = full_column(alloc)?;
    let sum = sum_of(alloc, is_field)?;
    for _ in 0..rounds {
        if !one_load(alloc, &sum, &cells, &mut steps)? {
            return Ok(false);
        }
    }
    Ok(true)
}

fn worked(rt: &HostRuntime) -> Option<bool> {
    let word = env::args(rt).ok()?.nth(1)?;
    let alloc = rt.alloc();
    match word.as_str() {
        "constants-0" => loads::<Brand>(alloc, false, 0, Blank::new(1)).ok(),
        "constants-1" => loads::<Brand>(alloc, false, 1, Blank::new(1)).ok(),
        "constants-11" => loads::<Brand>(alloc, false, 11, Blank::new(1)).ok(),
        "fields-0" => loads::<Brand>(alloc, true, 0, Blank::new(1)).ok(),
        "fields-1" => loads::<Brand>(alloc, true, 1, Blank::new(1)).ok(),
        "fields-11" => loads::<Brand>(alloc, true, 11, Blank::new(1)).ok(),
        _ => Some(true),
    }
}

fn main(rt: HostRuntime) -> ExitCode {
    match worked(&rt) {
        Some(true) => ExitCode::from(0),
        _ => ExitCode::from(1),
    }
}
"""


def main(argv: list[str]) -> int:
    """Builds the program and times it."""
    words_of(__doc__).parse_args(argv)
    with built("evaluated_nodes", "fact_values steps dict_source three_state node_eval", PROGRAM, PROOFS) as it:
        for things in ("constants", "fields"):
            it.show(f"sums of {things}, none evaluated", f"{things}-0")
            it.show("evaluated once", f"{things}-1")
            it.show("evaluated 11 times", f"{things}-11")
    return 0


if __name__ == "__main__":
    sys.exit(main(sys.argv[1:]))
