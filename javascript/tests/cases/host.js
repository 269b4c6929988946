// node host.js MODULE: reads cases from standard input, one behind another, and writes the outcome of each. A machine that stopped is replaced.

import { readFileSync } from "node:fs";
import { Machine } from "../../src/machine.js";
import { runCase } from "./run_case.js";
import { casesFrom, written } from "./stream.js";

const module = await WebAssembly.compile(readFileSync(process.argv[2]));
const begun = async () => new Machine(await WebAssembly.instantiate(module, {}));
let machine = await begun();

for await (const one of casesFrom(process.stdin)) {
  await written(() => runCase(machine, one));
  if (machine.hasStopped) machine = await begun();
}
