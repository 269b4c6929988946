// Runs the cases that the runner hands out, on the page, and then in a worker: the page asks for a case until there is none.

import { Machine } from "../../src/machine.js";
import { bytesOf, caseOf, runCase } from "./run_case.js";

const isPage = typeof document !== "undefined";
const lane = isPage ? "page" : "worker";

async function anew(module) {
  return new Machine(await WebAssembly.instantiate(module, {}));
}

async function runAll() {
  const module = await WebAssembly.compile(await (await fetch("/fact_graph.wasm")).arrayBuffer());
  let machine = await anew(module);
  for (;;) {
    const next = await fetch(`/next/${lane}`);
    if (next.status === 204) return;
    const one = caseOf(new Uint8Array(await next.arrayBuffer()));
    await fetch(`/outcome/${lane}`, { method: "POST", body: bytesOf(() => runCase(machine, one)) });
    if (machine.hasStopped) machine = await anew(module);
  }
}

const said = (how) => fetch(`/end/${lane}`, { method: "POST", body: how });

try {
  await runAll();
  await said("");
  if (isPage) new Worker("browser.js", { type: "module" }).onerror = (wrong) => said(`no worker: ${wrong.message}`);
} catch (wrong) {
  await said(String(wrong));
}
