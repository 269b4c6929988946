#!/usr/bin/env python3
"""Times a million sets, each kept, and a million sets, each undone, in a session over the plain table and a dictionary of
three facts, and shows the memory of the history. Nothing is judged.

    bench/session.py

The program's start, about a millisecond, is counted.
"""
import sys

from building import built
from timing import words_of

# The steps are counted for nobody.
PROOFS = {
    "are_done": """\
use Rattle.session_bench.proofs.are_done.Given as goal

abbrev pub ghosts-carry_out_often : goal.ghosts-carry_out_often
ghosts-carry_out_often a = record { name = a.blank.name; parts = a.blank.parts }
""",
}

PROGRAM = r"""//! Sets a fact a million times, and keeps each set; where a word is given, undoes it.
#![tactic(auto)]

ghost use Rattle.std.specs.Prelude.{◌≡◌, ◌<◌};

use dictionary::accept;
use graph_session::Session;
use plain_table::PlainTable;
use script_lines::{Command, command_of};
use std::alloc::Global;
use std::env;
use std::marker::Brand;
use std::process::ExitCode;
use std::sync::ledger::{Blank, Ledger};
use steps::Steps;
use text_checks::CheckTable;

const ROUNDS: u32 = 1_000_000;

const FACTS: &str =
    r#"{"version":"1","facts":[{"path":"/a","writable":"Dollar"},{"path":"/b","writable":"Dollar"},{"path":"/s","derived":"Dollar","is":["Add",["Dependency","/a"],["Dependency","/b"]]}]}"#;

fn session(alloc: Global, checks: &CheckTable) -> Option<Session<PlainTable>> {
    match accept(alloc, FACTS.as_bytes(), checks) {
        Err(_) => None,
        Ok(dict) => Session::new(alloc, dict).ok(),
    }
}

fn set(alloc: Global) -> Option<Command> {
    match command_of(alloc, b"set /a 5.00") {
        Ok(command) => command,
        Err(_) => None,
    }
}

fn carry_out<L: Ledger>(
    session: &mut Session<PlainTable>,
    command: &Command,
    checks: &CheckTable,
    steps: &mut Steps<L>,
) -> bool {
    if session.changes() >= 10_000_000 {
        return false;
    }
    if !session.dict().same_checks(checks) {
        return false;
    }
    match session.command(command, checks, steps) {
        Ok(_) => true,
        Err(_) => false,
    }
}

fn carry_out_each<L: Ledger>(
    session: &mut Session<PlainTable>,
    commands: &[Command],
    checks: &CheckTable,
    steps: &mut Steps<L>,
) -> bool {
    for command in commands {
        if !carry_out(session, command, checks, steps) {
            return false;
        }
    }
    true
}

fn carry_out_often<L: Ledger>(
    session: &mut Session<PlainTable>,
    commands: &[Command],
    checks: &CheckTable,
    blank: Blank,
) -> bool
    requires name { blank.name ≡ L.name }
    requires parts { blank.parts ≡ L.parts }
    requires some { 0 < blank.parts }
{
    let mut steps = Steps::<L>::new(blank);
    for _ in 0..ROUNDS {
        if !carry_out_each(session, commands, checks, &mut steps) {
            return false;
        }
    }
    true
}

fn are_done(alloc: Global, commands: &[Command]) -> bool {
    let checks = CheckTable::new(alloc);
    match session(alloc, &checks) {
        None => false,
        Some(mut session) => {
            carry_out_often::<Brand>(&mut session, commands, &checks, Blank::new(1))
        }
    }
}

// What is done in a round: a set, and where a word is given, an undo.
fn commands(alloc: Global, undone: bool) -> Option<Vec<Command>> {
    let mut commands = Vec::new(alloc);
    let command = set(alloc)?;
    commands.push(command).ok()?;
    if undone {
        commands.push(Command::Undo).ok()?;
    }
    Some(commands)
}

fn has_word(rt: &HostRuntime) -> bool {
    match env::args(rt) {
        Ok(mut words) => words.nth(1).is_some(),
        Err(_) => false,
    }
}

fn main(rt: HostRuntime) -> ExitCode {
    match commands(rt.alloc(), has_word(&rt)) {
        Some(commands) if are_done(rt.alloc(), commands.as_slice()) => ExitCode::from(0),
        _ => ExitCode::from(1),
    }
}
"""


def main(argv: list[str]) -> int:
    """Builds the program and times it."""
    words_of(__doc__).parse_args(argv)
    with built("session_bench", "steps text_checks script_lines dictionary plain_table graph_session", PROGRAM, PROOFS) as it:
        print("1,000,000 sets in a session over three facts")
        it.show("each kept")
        it.show("each undone", "undone")
        it.show_peak("at most, where each is kept")
    return 0


if __name__ == "__main__":
    sys.exit(main(sys.argv[1:]))
