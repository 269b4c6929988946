// What bench/webassembly.py times of the JavaScript package, in Node and on a page alike.

import { Engine, Session } from "../../javascript/src/index.js";

const ROUNDS = 200, CALLS = 500;
const NUMBERS = ["123456789", "123456780"];

/**
 * By name, the least time of a call in microseconds; the calls take turns.
 * @param {Record<string, (k: number) => unknown>} calls each is told how many came before it
 */
function least(calls) {
  /** @type {Record<string, number>} */
  const found = {};
  for (let round = 0; round < ROUNDS; round++) {
    for (const [name, call] of Object.entries(calls)) {
      const begun = performance.now();
      for (let k = 0; k < CALLS; k++) call(k);
      found[name] = Math.min(found[name] ?? Infinity, ((performance.now() - begun) * 1e3) / CALLS);
    }
  }
  return found;
}

/**
 * The times of calls over the screener, answered so far that the help is known.
 * @param {string} dictionary
 * @param {string} script
 */
export async function calls(dictionary, script) {
  const session = await Session.open(dictionary);
  for (const line of String(script.split("remove")[0]).split("\n")) session.line(line);
  const number = (/** @type {number} */ k) => String(NUMBERS[k % 2]);
  session.set("/caseNumber", number(1));
  session.set("/caseNumber", number(0));
  if (session.touched() !== 2) throw new Error(`the set touches ${session.touched()} slots`);
  return least({
    "get of an amount": () => session.get("/help"),
    "get of a member's day": () => session.get("/people/#1/born"),
    "line of the first get": () => session.line("get /help"),
    "final": () => session.final("/help"),
    "line of missing": () => session.line("missing /help"),
    "missing with its tree": () => session.missing("/help"),
    "why": () => session.why("/help"),
    "set that touches two slots": (k) => session.set("/caseNumber", number(k)),
    "line of that set": (k) => session.line(`set /caseNumber ${number(k)}`),
    "set to the amount that stands": () => session.set("/bill", 124050n),
  });
}

/** The milliseconds of a start with a tax year, in its parts. */
export async function start() {
  const begun = performance.now();
  const engine = await Engine.load();
  const loaded = performance.now();
  const session = await Session.builtIn("year 2023", { engine });
  const opened = performance.now();
  if (session.line("get /filingStatus") !== "incomplete\n") throw new Error("another reply");
  const said = performance.now();
  return { "the module read and compiled": loaded - begun, "the session opened": opened - loaded, "the first reply": said - opened };
}
