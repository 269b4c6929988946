// The runtime as WebAssembly, in the module that TESTING_MODULE names: its arithmetic against BigInt, its heap, and the engine when each
// allocation fails in turn.

import assert from "node:assert/strict";
import { readFileSync, readdirSync } from "node:fs";
import { test } from "node:test";
import { OutOfMemory } from "../../src/errors.js";
import { Machine, textOfBytes } from "../../src/machine.js";

const file = process.env.TESTING_MODULE;
assert.ok(file, "TESTING_MODULE names the module with the tests' functions");
const module = await WebAssembly.compile(readFileSync(file));
const instance = () => WebAssembly.instantiate(module, {});

/** Random numbers of 32 bits, the same in each run. */
function randomOf(seed) {
  return (bound) => {
    seed = (Math.imul(seed, 1664525) + 1013904223) >>> 0;
    return Math.floor((seed / 2 ** 32) * bound);
  };
}

test("arithmetic of 128 bits is that of BigInt", async () => {
  const { memory, allocate, calculate } = (await instance()).exports;
  const at = allocate(16 * 9);
  const view = new DataView(memory.buffer);
  const random = randomOf(7);
  const all = (1n << 128n) - 1n, word = (1n << 64n) - 1n;
  const put = (n, number) => [0, 1].forEach((half) => view.setBigUint64(at + 16 * n + 8 * half, (number >> BigInt(64 * half)) & word, true));
  const got = (n) => view.getBigUint64(at + 16 * n, true) | (view.getBigUint64(at + 16 * n + 8, true) << 64n);
  const bits = () => [0, 1, 2, 3].reduce((number) => (number << 32n) | BigInt(random(2 ** 32)), 0n);
  const number = () => {
    const size = BigInt(random(129));
    const any = bits() & ((1n << size) - 1n);
    return [(1n << size) - BigInt(random(3)), all ^ any, any | (BigInt(random(4)) << 126n), any][random(4)] & all;
  };
  for (let k = 0; k < 50_000; k++) {
    const a = number();
    // (in every fifth case the guess of a quotient's digit is off)
    const b = (k % 5 ? number() : a / ((number() & 0xffffn) + 1n) + BigInt(random(3))) & all || 1n;
    const by = BigInt(random(128));
    [a, b, by].forEach((it, n) => put(n, it));
    calculate(at);
    const due = [a / b, a % b, a * b, a << by, a >> by, BigInt.asIntN(128, a) >> by].map((it) => BigInt.asUintN(128, it));
    due.forEach((it, n) => assert.equal(got(3 + n), it, `result ${n} of ${a}, ${b} and ${by}`));
  }
});

test("blocks keep their bytes, and all memory comes back", async () => {
  const { memory, allocate, release, resize, in_use: inUse } = (await instance()).exports;
  const random = randomOf(1);
  const someSize = () => (random(20) ? random(200) : random(8) ? random(20_000) : random(2_000_000));
  const bytes = (block) => new Uint8Array(memory.buffer, block.at, block.size);
  const look = (block, size) => size && [0, size >> 1, size - 1].forEach((k) => assert.equal(bytes(block)[k], block.mark));
  const blocks = [];
  for (let step = 0; step < 60_000; step++) {
    const what = random(10), takes = step % 20_000 < 10_000 ? 6 : 3;
    if (what < takes || !blocks.length) {
      const block = { size: someSize(), mark: random(256) };
      block.at = allocate(block.size) >>> 0;
      assert.ok(block.at && block.at % 16 === 0);
      bytes(block).fill(block.mark);
      blocks.push(block);
      continue;
    }
    const k = random(blocks.length), block = blocks[k];
    look(block, block.size);
    if (what === 9) {
      const size = someSize();
      block.at = resize(block.at, size) >>> 0;
      look(block, Math.min(size, block.size));
      block.size = size;
      bytes(block).fill(block.mark);
    } else {
      release(block.at);
      blocks[k] = blocks.at(-1);
      blocks.pop();
    }
    if (step % 500 === 0) assert.ok(inUse() >= 0n, `the heap is sound at step ${step}`);
  }
  blocks.forEach((block) => release(block.at));
  assert.equal(inUse(), 0n);
});

const EXAMPLES = new URL("../../../examples/", import.meta.url);
const examples = readdirSync(EXAMPLES).filter((name) => name.endsWith(".script")).map((name) => name.replace(".script", ""));

for (const name of examples) {
  const read = (ending) => readFileSync(new URL(`${name}.${ending}`, EXAMPLES));
  let texts;
  try {
    texts = ["json", "script", "replies"].map(read);
  } catch {
    continue; // (an example of another command)
  }
  test(`each allocation fails in turn over ${name}: it is said, and the call made again answers as ever`, async () => {
    const [dictionary, script, due] = texts;
    const engine = await instance();
    const machine = new Machine(engine);
    const fail = engine.exports.fail_allocation;
    let failures = 0;
    /** The nth allocation of a call fails, for n from 1 on, until the call ends well with none left to fail. */
    function tried(call, takeBack) {
      for (let n = 1; ; n++) {
        fail(n);
        try {
          const answer = call();
          // a call may end well in spite of a failure: it is taken back where it can be, and else it stands
          if (fail(0) !== 0 || !takeBack) return answer;
          takeBack(answer);
        } catch (wrong) {
          if (!(wrong instanceof OutOfMemory)) throw wrong;
          fail(0);
          failures++;
        }
      }
    }
    const block = tried(() => machine.begin("open", dictionary), (it) => machine.end(it));
    let said = "";
    for (const line of textOfBytes(script).split("\n").slice(0, -1)) {
      const reply = tried(() => machine.answer(block, line));
      if (reply === null) break;
      said += textOfBytes(reply);
    }
    assert.equal(said, textOfBytes(due));
    assert.ok(failures > 50, `${failures} failures`);
    machine.end(block);
  });
}
