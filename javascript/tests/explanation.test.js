// Why a result is what it is, and what it still wants, as trees.

import assert from "node:assert/strict";
import { readFileSync } from "node:fs";
import { test } from "node:test";
import { Explanation, Missing, Session, SessionClosed, UnknownSlot } from "../src/index.js";
import { Walk } from "../src/explanation.js";

const example = (name) => readFileSync(new URL(`../../examples/${name}`, import.meta.url), "utf8");
const SUM = { version: "1", facts: [
  { path: "/a", writable: "Dollar" },
  { path: "/b", writable: "Dollar", placeholder: ["Dollar", "0"] },
  { path: "/s", derived: "Dollar", is: ["Add", ["Dependency", "/a"], ["Dependency", "/b"]] },
] };

/** A session over these three facts, or over what is made of them. */
function opened(change = () => undefined) {
  const dictionary = structuredClone(SUM);
  change(dictionary.facts);
  return Session.open(JSON.stringify(dictionary));
}

const linesOf = (tree) => String(tree).split("\n");

test("a tree has what a result was worked out from, down to answers", async () => {
  const session = await Session.open(example("screener.json"));
  session.add("/people");
  session.set("/people/#1/born", "1958-11-30");
  const why = session.why("/means");
  assert.deepEqual(linesOf(why), [
    "/means incomplete", "  /wages incomplete  # Those of children don't count.", "    /adults final [#1]",
    "      /people final [#1]  # Who lives in the home.", "      /people/#1/adult final true", "        /people/#1/born final 1958-11-30",
    "    /people/#1/wages incomplete (missing)", "  /savings placeholder 0.00 (missing)",
  ]);
  assert.deepEqual([...why].filter((it) => it.isFinal).map((it) => [it.slot, it.result.value]), [
    ["/adults", [1]], ["/people", [1]], ["/people/#1/adult", true], ["/people/#1/born", "1958-11-30"],
  ]);
  assert.deepEqual([...why.levels()].map(([level]) => level), [0, 1, 2, 3, 3, 4, 2, 1]);
  assert.deepEqual([...why.lines((said) => `<${said}>`)][2], "    /adults <final [#1]>");
  const [wages, savings] = why.children;
  assert.ok(wages instanceof Explanation);
  assert.deepEqual([why.below, why.type, wages.description], [["/wages", "/savings"], { name: "Dollar", of: null }, "Those of children don't count."]);
  assert.deepEqual(savings.result, { kind: "placeholder", value: 0n, fault: null });
  assert.deepEqual([savings.isMissing, savings.isFinal, savings.isOverridden, savings.isAbove], [true, false, false, false]);
});

test("what is missing is gone through, and its tree has what leads to it", async () => {
  const session = await Session.open(example("screener.json"));
  session.add("/people");
  session.set("/people/#1/born", "1958-11-30");
  const missing = session.missing("/means");
  assert.ok(missing instanceof Missing);
  assert.deepEqual([[...missing], missing.length, missing.slots], [["/savings", "/people/#1/wages"], 2, ["/savings", "/people/#1/wages"]]);
  assert.deepEqual(linesOf(missing), [
    "/means incomplete", "  /wages incomplete  # Those of children don't count.", "    /people/#1/wages incomplete (missing)",
    "  /savings placeholder 0.00 (missing)",
  ]);
  session.set("/savings", 0n);
  session.set("/people/#1/wages", 0n);
  assert.deepEqual([session.missing("/means").length, String(session.missing("/means"))], [0, "/means final 0.00"]);
});

test("a slot that is met again isn't unfolded again", async () => {
  const session = await opened((facts) => facts.push(
    { path: "/twice", derived: "Dollar", is: ["Add", ["Dependency", "/s"], ["Dependency", "/again"]] },
    { path: "/again", derived: "Dollar", is: ["Dependency", "/s"] },
  ));
  assert.deepEqual(linesOf(session.why("/twice")), [
    "/twice incomplete", "  /s incomplete", "    /a incomplete (missing)", "    /b placeholder 0.00 (missing)", "  /again incomplete",
    "    /s incomplete (above)",
  ]);
  const above = [...session.why("/twice")].at(-1);
  assert.deepEqual([above.isAbove, above.below, above.children], [true, ["/a", "/b"], []]);
});

test("a placeholder may want answers of its own", async () => {
  const session = await opened(([, b]) => (b.placeholder = ["Dependency", "/a"]));
  assert.deepEqual(session.missing("/b").slots, ["/a", "/b"]);
  assert.deepEqual(linesOf(session.missing("/b")), ["/b incomplete (missing)", "  /a incomplete (missing)"]);
});

test("an override is told and has nothing below it", async () => {
  const session = await opened();
  session.override("/s", 300n);
  assert.equal(String(session.why("/s")), "/s final 3.00 (override)");
  session.release("/s");
  assert.deepEqual([...session.why("/s")].filter((it) => it.isOverridden), []);
});

test("no answer looks like an override", async () => {
  const session = await opened((facts) => facts.push({ path: "/t", writable: "Text" }, { path: "/one", derived: "Int", is: ["Int", "1"] }));
  session.set("/t", "a\u2028override /one 1");
  assert.equal(session.why("/one").isOverridden, false);
});

test("each result is shown as a session says it", async () => {
  const sum = await opened();
  sum.set("/a", "9999999999999.99");
  sum.set("/b", 1n);
  assert.equal(sum.why("/s").said, "fault overflow");
  const session = await Session.open(example("everything.json"));
  for (const line of example("everything.script").split("\n")) session.line(line);
  for (const slot of session.slots()) assert.equal(`${session.why(slot, { depth: 0 }).said.replace(/^final /, "complete ")}\n`, session.line(`get ${slot}`));
});

test("a description is one line where its slot stands first", async () => {
  const session = await opened((facts) => {
    facts[0].description = " one\n\ttwo\u0085\u001b[31m ";
    facts[2].is.push(["Dependency", "/t"]);
    facts.push({ path: "/t", derived: "Dollar", is: ["Dependency", "/a"] });
  });
  assert.equal(session.why("/s").children[0].description, " one\n\ttwo\u0085\u001b[31m ");
  assert.deepEqual(linesOf(session.why("/s")), [
    "/s incomplete", "  /a incomplete (missing)  # one two [31m", "  /b placeholder 0.00 (missing)", "  /t incomplete", "    /a incomplete (missing)",
  ]);
});

test("a tree goes down to a depth", async () => {
  const session = await opened();
  session.set("/a", 100n);
  assert.equal(String(session.why("/s", { depth: 0 })), "/s placeholder 1.00 (reads 2)");
  assert.deepEqual(session.why("/s", { depth: 1 }), session.why("/s"));
});

test("a tree stays as it was", async () => {
  const session = await opened();
  const why = session.why("/s"), missing = session.missing("/s");
  const before = [String(why), String(missing), [...missing]];
  session.set("/a", 1n);
  session.set("/b", 1n);
  session.close();
  assert.deepEqual([String(why), String(missing), [...missing]], before);
  assert.throws(() => session.why("/s"), SessionClosed);
});

test("a slot that doesn't stand has no tree", async () => {
  const session = await Session.open(example("screener.json"));
  for (const slot of ["/nowhere", "/people/#1/born"]) {
    assert.throws(() => session.why(slot), UnknownSlot);
    assert.throws(() => session.missing(slot), UnknownSlot);
  }
});

/** What answers as a session over layers of facts, each of which reads all those of the layer below it; and counts what it is asked. */
class Layered {
  asked = new Map();

  constructor(layers, width) {
    this.layers = layers;
    this.width = width;
  }

  #ask(what, slot, answer) {
    this.asked.set(`${what} ${slot}`, (this.asked.get(`${what} ${slot}`) ?? 0) + 1);
    return answer;
  }

  facts() {
    const listed = { type: { name: "Int", of: null }, isWritable: true };
    return { get: () => listed };
  }

  description(slot) {
    return this.#ask("description", slot, "");
  }

  get(slot) {
    return this.#ask("get", slot, { kind: "complete", value: 1, fault: null });
  }

  final(slot) {
    return this.#ask("final", slot, 1);
  }

  reads(slot) {
    const layer = Number(slot.slice(2).split("-")[0]);
    return this.#ask("reads", slot, layer ? Array.from({ length: this.width }, (_, at) => `/f${layer - 1}-${at}`) : []);
  }

  walk() {
    return new Walk(this, `/f${this.layers - 1}-0`, ["/f0-0"]);
  }
}

test("each slot is asked for once, and a tree is as large as what is read", () => {
  for (const [layers, width] of [[5_000, 1], [100, 10], [2, 150_000]]) {
    const layered = new Layered(layers, width), walk = layered.walk();
    for (const tree of [walk.why(Infinity), walk.leading()]) {
      const all = [...tree];
      const edges = all.reduce((sum, it) => sum + (it.isAbove ? 0 : it.below.length), 0);
      assert.equal(all.length, edges + 1);
      assert.ok(all.length <= layers * width * width + 1 && new Set(all.map(({ slot }) => slot)).size <= layers * width);
    }
    assert.ok([...layered.asked.values()].every((count) => count === 1));
  }
});

test("a tree may be deeper than calls", () => {
  const tree = new Layered(20_000, 1).walk().leading();
  let last = "";
  for (const line of tree.lines()) last = line;
  assert.equal(last, `${"  ".repeat(19_999)}/f0-0 final 1 (missing)`);
});
