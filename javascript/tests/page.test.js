// The engine of a page that stands without a server: answers in a storage, two windows, saved texts.

import assert from "node:assert/strict";
import { cpSync, mkdtempSync, rmSync, writeFileSync } from "node:fs";
import { tmpdir } from "node:os";
import { join } from "node:path";
import { after, test } from "node:test";
import { pathToFileURL } from "node:url";

// The page's folder as it is served, but for the page itself.
const folder = mkdtempSync(join(tmpdir(), "page."));
after(() => rmSync(folder, { recursive: true }));
cpSync(new URL("../src", import.meta.url), join(folder, "engine"), { recursive: true });
cpSync(new URL("../page", import.meta.url), join(folder, "page"), { recursive: true });
writeFileSync(join(folder, "package.json"), '{"type":"module"}');
writeFileSync(join(folder, "page", "session.js"), "export class Unreachable extends Error {}\nexport class TextRefused extends Error {}\n");
const { engineOver } = await import(pathToFileURL(join(folder, "page", "browser_engine.js")).href);

const DICTIONARY = JSON.stringify({
  version: "1",
  facts: [
    { path: "/rent", writable: "Dollar", limits: [["Max", "5000"]] },
    { path: "/heating", writable: "Dollar", placeholder: ["Dollar", "0"] },
    { path: "/housing", derived: "Dollar", is: ["Add", ["Dependency", "/rent"], ["Dependency", "/heating"]] },
  ],
});
const FORM = { id: "housing" };

/** A storage as browsers have it. */
class Store extends Map {
  isFull = false;
  getItem(name) {
    return this.get(name) ?? null;
  }
  setItem(name, text) {
    if (this.isFull) throw new Error("full");
    this.set(name, text);
  }
  removeItem(name) {
    this.delete(name);
  }
}

let count = 0;
const change = (line) => ({ id: `id-${(count += 1)}`, line });

test("a change is made, and questions are answered over what stands behind it", async () => {
  const engine = await engineOver(FORM, DICTIONARY, new Store());
  const first = await engine.answer(null, ["get /housing", "missing /housing", "set /rent 1"]);
  assert.deepEqual(first.replies, ["incomplete", "missing 2\n/rent\n/heating", "refused 1 BadLine"]);
  assert.equal(first.seconds, null);
  const told = await engine.answer(change("set /rent 800"), ["get /housing", "final /housing"]);
  assert.deepEqual([told.reply, told.stale, told.replies], ["ok", false, ["placeholder 800.00", "open"]]);
  assert.ok(told.revision > first.revision);
  const refused = await engine.answer(change("set /rent 6000"), ["get /rent"]);
  assert.deepEqual([refused.reply, refused.replies, refused.revision], ["refused 7 Limit 1", ["complete 800.00"], told.revision]);
  assert.equal((await engine.answer(change("override /housing 1"), [])).reply, "refused 1 BadLine");
  assert.equal((await engine.answer(change("set /rent 1\nset /rent 2"), [])).reply, "refused 1 BadLine");
});

test("a change that is sent again with its id isn't made again", async () => {
  const engine = await engineOver(FORM, DICTIONARY, new Store());
  const one = change("set /rent 800");
  const first = await engine.answer(one, []);
  const again = await engine.answer(one, []);
  assert.deepEqual(again, first);
  assert.equal((await engine.answer(change("undo"), ["get /rent"])).replies[0], "incomplete");
  assert.equal((await engine.answer(change("undo"), [])).reply, "refused 13 NothingToUndo");
});

test("a page that is opened again goes on, and undo reaches back", async () => {
  const store = new Store();
  const before = await engineOver(FORM, DICTIONARY, store);
  await before.answer(change("set /rent 800"), []);
  await before.answer(change("set /rent 900"), []);
  const engine = await engineOver(FORM, DICTIONARY, store);
  assert.equal((await engine.answer(null, ["get /rent"])).replies[0], "complete 900.00");
  assert.equal((await engine.answer(change("undo"), ["get /rent"])).replies[0], "complete 800.00");
  await engine.end();
  assert.equal(store.size, 0);
  assert.equal((await engine.answer(null, ["get /rent"])).replies[0], "incomplete");
});

test("a window whose answers were moved by another makes no change over them", async () => {
  const store = new Store();
  const one = await engineOver(FORM, DICTIONARY, store), other = await engineOver(FORM, DICTIONARY, store);
  await one.answer(change("set /rent 800"), []);
  const stale = await other.answer(change("set /rent 1"), ["get /rent"]);
  assert.deepEqual([stale.reply, stale.stale, stale.replies], [null, true, ["complete 800.00"]]);
  assert.equal((await other.answer(change("set /rent 2"), [])).reply, "ok");
  // also where the answers were erased, and as many changes made since
  await other.end();
  await other.answer(change("set /rent 3"), []);
  assert.equal((await one.answer(change("set /heating 1"), ["get /rent"])).stale, true);
});

test("a change that can't be kept isn't made", async () => {
  const store = new Store();
  const engine = await engineOver(FORM, DICTIONARY, store);
  await engine.answer(change("set /rent 800"), []);
  store.isFull = true;
  await assert.rejects(engine.answer(change("set /rent 900"), []), { message: "Error: full" });
  store.isFull = false;
  assert.equal((await engine.answer(null, ["get /rent"])).replies[0], "complete 800.00");
});

test("a long history is kept as the answers that stand", async () => {
  const store = new Store();
  const engine = await engineOver(FORM, DICTIONARY, store);
  await engine.answer(change("watch changed /housing"), []);
  const kept = JSON.parse(store.getItem("fact-graph housing"));
  kept.lines.push(...Array.from({ length: 62_000 }, () => "set /heating 5"));
  store.setItem("fact-graph housing", JSON.stringify(kept));
  const again = await engineOver(FORM, DICTIONARY, store);
  const told = await again.answer(change("set /rent 6"), ["get /housing"]);
  assert.deepEqual(told.replies, ["complete 11.00"]);
  const after = await engineOver(FORM, DICTIONARY, store);
  assert.ok(store.getItem("fact-graph housing").length < 1000);
  assert.equal((await after.answer(change("set /rent 7"), [])).reply, "ok\nwatch changed /housing");
});

test("a saved text is gone on from without overrides, and each answer that is dropped has its reason", async () => {
  const engine = await engineOver(FORM, DICTIONARY, new Store());
  await engine.answer(change("set /rent 800"), []);
  assert.equal(await engine.save(), "saved 1\nnext 1\nvalue /rent 800.00\nend\n");
  const told = await engine.resume("saved 1\nnext 1\nvalue /heating 5.00\nvalue /other 1\nvalue /rent 6000.00\noverride /housing 9.00\nend\n");
  assert.deepEqual(told.dropped.map(({ slot, why }) => [slot, why]), [
    ["/other", "refused 3 UnknownFact"], ["/rent", "refused 7 Limit 1"], ["/housing", "override"],
  ]);
  assert.deepEqual((await engine.answer(null, ["get /heating", "get /rent"])).replies, ["complete 5.00", "incomplete"]);
  await assert.rejects(engine.resume("no saved text"), (wrong) => wrong.constructor.name === "TextRefused");
  assert.deepEqual((await engine.answer(null, ["get /heating"])).replies, ["complete 5.00"]);
});
