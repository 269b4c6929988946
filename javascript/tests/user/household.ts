// The same in TypeScript: what has no such type isn't compiled.

import { DictionaryRefused, Engine, Explanation, Missing, Refused, Result, Session, Value, amountText } from "fact-graph";

export async function yearly(dictionary: string, rent: bigint): Promise<string | null> {
  const engine: Engine = await Engine.load(undefined, { maxMemory: 1 << 26 });
  const session: Session = await Session.open(dictionary, { engine });
  session.set("/rent", rent);
  const result: Result = session.get("/yearly");
  const value: Value | null = result.value;
  // @ts-expect-error a symbol is no value
  session.set("/rent", Symbol("rent"));
  // @ts-expect-error sessions are made by open, load and carry
  new Session();
  return typeof value === "bigint" ? amountText(value) : null;
}

export function wantedBy(session: Session, slot: string): string[] {
  const missing: Missing = session.missing(slot);
  const why: Explanation = session.why(slot, { depth: 2 });
  // @ts-expect-error a tree is of one moment
  why.result = missing.tree.result;
  return missing.length > 0 ? [...missing] : why.children.map((it: Explanation) => `${it.slot} ${it.type.name} ${it.said}`);
}

export function placeOf(wrong: unknown): number | null {
  if (wrong instanceof DictionaryRefused) return wrong.fact;
  return wrong instanceof Refused ? wrong.place : null;
}
