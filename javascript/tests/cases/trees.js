// node trees.js MODULE: reads cases from standard input, one behind another, and writes the trees of each slot behind the lines of each.

import { readFileSync } from "node:fs";
import { Engine, Session } from "../../src/index.js";
import { casesFrom, written } from "./stream.js";

const engine = await Engine.load(readFileSync(process.argv[2]));

/** The trees of each slot that stands, and what they say beside their texts. */
function* shown(session) {
  for (const slot of session.slots()) {
    const why = session.why(slot), missing = session.missing(slot);
    yield* [String(why), String(session.why(slot, { depth: 1 })), String(missing), [...missing].join(" ")];
    for (const { slot: at, type, result, below } of why) yield `${at} ${type.name} ${result.kind} ${result.fault ?? "-"} ${below.join(" ")}`;
  }
}

for await (const { dictionary, script } of casesFrom(process.stdin)) {
  const session = await Session.open(dictionary, { engine });
  for (const line of new TextDecoder().decode(script).split("\n")) session.line(line);
  await written(() => ({ status: 0, text: new TextEncoder().encode([...shown(session)].join("\n")) }));
  session.close();
}
