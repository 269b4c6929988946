// How an engine and its sessions end without a call of close: where JavaScript's stack is too small, and where nothing refers to a session.

import assert from "node:assert/strict";
import { execFile } from "node:child_process";
import { test } from "node:test";
import { promisify } from "node:util";

const SOURCE = new URL("../src/index.js", import.meta.url).href;

/** Runs a module in a Node of its own, and tells what it writes. */
async function ran(words, code) {
  const { stdout } = await promisify(execFile)(process.execPath, [...words, "--input-type=module", "--eval", code]);
  return stdout.trim();
}

test("an engine that stops says so, and sessions that are opened from then on have another", async () => {
  const said = await ran(["--stack-size=130"], `
    import { EngineStopped, Session } from "${SOURCE}";
    const nested = (depth) => depth ? ["Not", nested(depth - 1)] : ["True"];
    const deep = JSON.stringify({ version: "1", facts: [{ path: "/x", derived: "Boolean", is: nested(47) }] });
    const flat = JSON.stringify({ version: "1", facts: [{ path: "/x", writable: "Int" }] });
    const before = await Session.open(flat);
    // each frame takes some of the stack, until the engine has too little
    const within = (depth, call) => depth ? within(depth - 1, call) : call();
    const told = (call) => { try { return call(); } catch (wrong) { return wrong; } };
    let reply;
    for (let depth = 0; depth < 10_000 && !(reply instanceof EngineStopped); depth++) {
      const deep = told(() => within(depth, () => before.line("get /x")));
      if (typeof deep !== "string" && !(deep instanceof RangeError || deep instanceof EngineStopped)) throw deep;
      reply = told(() => before.line("get /x"));
    }
    console.log(reply.name);
    before.close();
    console.log((await Session.open(flat)).get("/x").kind);
    console.log((await Session.open(deep).catch((wrong) => wrong)).constructor.name);
  `);
  assert.match(said, /^EngineStopped\nincomplete\n(Session|EngineStopped)$/);
});

test("a session that nothing refers to gives its memory back", async () => {
  const size = Number(await ran(["--expose-gc"], `
    import { Engine, Session } from "${SOURCE}";
    const engine = await Engine.load();
    const dictionary = JSON.stringify({ version: "1", facts: [{ path: "/x", writable: "Int" }] });
    for (let k = 0; k < 400; k++) {
      await Session.open(dictionary, { engine });
      if (k % 20 === 0) { gc(); await new Promise((done) => setTimeout(done)); }
    }
    console.log(engine.memorySize);
  `));
  // (each has over a quarter of a megabyte)
  assert.ok(size < 40_000_000, `${size} bytes`);
});
