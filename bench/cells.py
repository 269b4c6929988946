#!/usr/bin/env python3
"""Times a store of 190,000 cells, of 1,900 facts at each of 100 members: it is filled, and then a million cells are got, or put
anew with another stamp. The store is made for no facts, so that each cell is found as those of members are. Beside it stand the
same turns over std's HashMap in plain Rust (baseline/cells.rs); the ratios are those of the turns alone. Nothing is judged.

    bench/cells.py
"""
import subprocess
import sys
from pathlib import Path

from building import built
from timing import TOP, least, tool, words_of

RUNS = 25
PROGRAM = r"""//! Gets or puts cells of a full store, so many times over.
#![tactic(auto)]

ghost use Rattle.std.specs.Prelude.{◌<◌, IsTrue};

use cell_store::Store;
use fact_values::{NoMemory, Slot};
use std::alloc::Global;
use std::env;
use std::process::ExitCode;
use three_state::Res;

const TURNS: u32 = 1_000_000;

fn put(store: &mut Store, slot: Slot, stamp: u64) -> bool {
    if store.reserve(1).is_err() {
        return false;
    }
    store.put(slot, Res::Incomplete, stamp).cell.is_some()
}

fn get(store: &Store, slot: Slot) -> bool {
    matches!(store.get(slot), Some(Res::Incomplete))
}

fn full(alloc: Global) -> Result<Store, NoMemory> {
    let mut store = Store::new(alloc);
    let _ = store.reserve(190_000);
    for fact in 0..1_900u32 {
        for member in 0..100u32 {
            put(&mut store, Slot { fact, member }, 0);
        }
    }
    Ok(store)
}

// A slot of those that are there, in no order.
fn slot_at(x: u32) -> Slot {
    Slot {
        fact: (x >> 8) % 1_900,
        member: (x >> 20) % 100,
    }
}

fn next(x: u32) -> u32 {
    x.wrapping_mul(1_664_525).wrapping_add(1_013_904_223)
}

fn gets(store: &Store) -> bool {
    let mut found = 0u32;
    let mut x = 1u32;
    for _ in 0..TURNS {
        x = next(x);
        if get(store, slot_at(x)) {
            found = found.wrapping_add(1);
        }
    }
    found == TURNS
}

fn puts(store: &mut Store) -> bool {
    let mut found = 0u32;
    let mut x = 1u32;
    for n in 0..TURNS {
        x = next(x);
        if put(store, slot_at(x), u64::from(n)) {
            found = found.wrapping_add(1);
        }
    }
    found == TURNS
}

fn is_done(rt: &HostRuntime) -> bool {
    let Ok(mut words) = env::args(rt) else {
        return false;
    };
    let Ok(mut store) = full(rt.alloc()) else {
        return false;
    };
    match words.nth(1) {
        Some(word) => match word.as_str() {
            "gets" => gets(&store),
            "puts" => puts(&mut store),
            _ => true,
        },
        None => true,
    }
}

fn main(rt: HostRuntime) -> ExitCode {
    if is_done(&rt) {
        ExitCode::from(0)
    } else {
        ExitCode::from(1)
    }
}
"""


def main(argv: list[str]) -> int:
    """Builds both programs and times them."""
    words_of(__doc__).parse_args(argv)
    rustc = tool("rustc")
    with built("cell_turns", "fact_values three_state cell_store", PROGRAM) as it:
        plain = it.folder / "plain"
        subprocess.run([rustc, "-O", "--edition", "2021", TOP / "bench/baseline/cells.rs", "-o", plain], check=True)

        def times(word: str) -> tuple[float, float]:
            store, beside = (least([program, word], Path(it.folder), runs=RUNS).user for program in (it.program, plain))
            return store, beside

        filled = times("filled")
        print(f"{'seconds':<28} {'store':>8} {'plain':>8} {'ratio':>8}")
        print(f"{'190,000 cells are filled':<28} {filled[0]:8.3f} {filled[1]:8.3f}")
        for what, word in (("and a million are got", "gets"), ("and a million are put", "puts")):
            store, beside = times(word)
            print(f"{what:<28} {store:8.3f} {beside:8.3f} {(store - filled[0]) / (beside - filled[1]):8.2f}", flush=True)
    return 0


if __name__ == "__main__":
    sys.exit(main(sys.argv[1:]))
