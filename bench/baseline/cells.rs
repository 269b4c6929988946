// The same gets and puts over std's HashMap.
use std::collections::HashMap;

#[allow(dead_code)]
enum Value {
    Boolean(bool),
    Int(i64),
    Dollar(i64),
    Rational(i64, u64),
    Day(i64),
    Text(String),
    Choice(u32, u32),
    Members(Vec<u32>),
    Item(u32),
}

#[allow(dead_code)]
enum Res {
    Complete(Value),
    Placeholder(Value),
    Incomplete,
    Fault(u8),
}

struct Cell {
    res: Res,
    #[allow(dead_code)]
    stamp: u64,
}

#[derive(Clone, Copy, PartialEq, Eq, Hash)]
struct Slot {
    fact: u32,
    member: u32,
}

type Store = HashMap<Slot, Cell>;

const TURNS: u32 = 1_000_000;

fn put(store: &mut Store, slot: Slot, stamp: u64) -> bool {
    store.insert(slot, Cell { res: Res::Incomplete, stamp }).is_some()
}

fn get(store: &Store, slot: Slot) -> bool {
    matches!(store.get(&slot), Some(Cell { res: Res::Incomplete, .. }))
}

fn full() -> Store {
    let mut store = HashMap::with_capacity(190_000);
    for fact in 0..1_900u32 {
        for member in 0..100u32 {
            put(&mut store, Slot { fact, member }, 0);
        }
    }
    store
}

fn slot_at(x: u32) -> Slot {
    Slot { fact: (x >> 8) % 1_900, member: (x >> 20) % 100 }
}

fn next(x: u32) -> u32 {
    x.wrapping_mul(1_664_525).wrapping_add(1_013_904_223)
}

fn gets(store: &Store) -> bool {
    let mut found = 0u32;
    let mut x = 1u32;
    for _ in 0..TURNS {
        x = next(x);
        found += u32::from(get(store, slot_at(x)));
    }
    found == TURNS
}

fn puts(store: &mut Store) -> bool {
    let mut found = 0u32;
    let mut x = 1u32;
    for n in 0..TURNS {
        x = next(x);
        found += u32::from(put(store, slot_at(x), u64::from(n)));
    }
    found == TURNS
}

fn main() {
    let mut store = full();
    let is_done = match std::env::args().nth(1).as_deref() {
        Some("gets") => gets(&store),
        Some("puts") => puts(&mut store),
        _ => true,
    };
    std::process::exit(i32::from(!is_done));
}
