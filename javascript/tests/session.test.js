// The calls of a session: values, refusals, watches, saved texts, and how it ends.

import assert from "node:assert/strict";
import { readFileSync } from "node:fs";
import { createServer } from "node:http";
import { test } from "node:test";
import {
  DictionaryRefused, Engine, EngineMissing, FactGraphError, OutOfMemory, Rational, Refused, SavedRefused, Session, SessionClosed, UnknownDictionary, UnknownSlot,
  amountText, centsOf,
} from "../src/index.js";

const DICTIONARY = JSON.stringify({
  version: "1",
  description: "a household",
  enums: [{ name: "tenure", options: ["rents", "owns"] }],
  facts: [
    { path: "/rent", writable: "Dollar", limits: [["Min", "0"], ["Max", "5000"]], description: "The rent of a month" },
    { path: "/heating", writable: "Dollar", placeholder: ["Dollar", "0"] },
    { path: "/housing", derived: "Dollar", is: ["Add", ["Dependency", "/rent"], ["Dependency", "/heating"]] },
    { path: "/tenure", writable: "Enum(tenure)" },
    { path: "/share", writable: "Rational" },
    { path: "/rooms", writable: "Int" },
    { path: "/pays", writable: "Boolean" },
    { path: "/note", writable: "Text" },
    { path: "/people", writable: "Collection" },
    { path: "/people/*/born", writable: "Day" },
    { path: "/people/*/isOld", derived: "Boolean", is: ["LessThan", ["Dependency", "../born"], ["Day", "1960-01-01"]] },
    { path: "/old", derived: "Collection(/people)", is: ["Filter", "/people", ["Dependency", "isOld"]] },
    { path: "/eldest", derived: "Item(/people)", is: ["Find", "/people", ["Dependency", "isOld"]] },
    { path: "/each", derived: "Rational", is: ["Divide", ["Dependency", "/housing"], ["Dependency", "/rent"]] },
  ],
});

const opened = () => Session.open(DICTIONARY);
const complete = (value) => ({ kind: "complete", value, fault: null });

test("a value of each type is set and comes back as JavaScript has it", async () => {
  const session = await opened();
  for (const [slot, value] of [
    ["/rent", 124050n], ["/tenure", "owns"], ["/rooms", -3], ["/pays", false], ["/note", "4 € \u{1F600}\ufeff"],
  ]) {
    session.set(slot, value);
    assert.deepEqual(session.get(slot), complete(value), slot);
    assert.deepEqual(session.final(slot), value, slot);
  }
  session.set("/share", new Rational(4, -1 * -6));
  assert.deepEqual(session.get("/share"), complete(new Rational(2, 3)));
  assert.equal(session.add("/people"), 1);
  assert.equal(session.add("/people"), 2);
  session.set("/people/#1/born", "1950-02-28");
  session.set("/people/#2/born", "1990-12-31");
  assert.deepEqual(session.get("/people/#1/born"), complete("1950-02-28"));
  assert.deepEqual(session.get("/people"), complete([1, 2]));
  assert.deepEqual(session.get("/old"), complete([1]));
  assert.deepEqual(session.get("/eldest"), complete(1));
});

test("what a fact comes to has one of four kinds", async () => {
  const session = await opened();
  assert.deepEqual(session.get("/housing"), { kind: "incomplete", value: null, fault: null });
  assert.equal(session.final("/housing"), null);
  session.set("/rent", "0");
  assert.deepEqual(session.get("/housing"), { kind: "placeholder", value: 0n, fault: null });
  session.set("/heating", 100n);
  assert.deepEqual(session.get("/each"), { kind: "fault", value: null, fault: "zero-divide" });
});

test("a text is a value of any type, and a value of another type isn't set", async () => {
  const session = await opened();
  session.set("/rent", "12.5".concat("0"));
  assert.deepEqual(session.get("/rent"), complete(1250n));
  assert.throws(() => session.set("/rent", 12), /is an amount/);
  assert.throws(() => session.set("/rooms", 12n), /a BigInt is an amount/);
  assert.throws(() => session.set("/rooms", 1.5), /isn't a whole number/);
  assert.throws(() => session.set("/rooms", NaN), TypeError);
  assert.throws(() => session.set("/note", new Date()), TypeError);
  assert.throws(() => session.set("/note", null), TypeError);
  assert.throws(() => session.set("/note", "\ud800"), /half a surrogate pair/);
  assert.deepEqual(session.get("/rent"), complete(1250n));
  assert.equal(session.get("/note").kind, "incomplete");
});

test("a refusal is thrown with its number, and changes nothing", async () => {
  const session = await opened();
  session.set("/rent", 1n);
  const refused = (number, code, place) => (wrong) =>
    wrong instanceof Refused && wrong instanceof FactGraphError && wrong.name === "Refused" && wrong.number === number &&
    wrong.code === code && wrong.place === place;
  assert.throws(() => session.set("/rent", 500001n), refused(7, "Limit", 2));
  assert.throws(() => session.set("/housing", 1n), refused(5, "WrongKind", null));
  assert.throws(() => session.set("/note 1", "2"), refused(1, "BadLine", null));
  assert.throws(() => session.get("/nowhere"), { name: "UnknownSlot", message: "refused 3 UnknownFact" });
  assert.throws(() => session.get("/people/#1/born"), (wrong) => wrong instanceof UnknownSlot && wrong instanceof Refused && wrong.number === 4);
  session.undo();
  assert.throws(() => session.undo(), refused(13, "NothingToUndo", null));
  session.redo();
  assert.deepEqual(session.get("/rent"), complete(1n));
});

test("a dictionary with a fault is refused with its place", async () => {
  const wrong = { version: "1", facts: [{ path: "/x", derived: "Int", is: ["Add", ["Int", "1"], ["Dollar", "1"]] }] };
  await assert.rejects(Session.open(JSON.stringify(wrong)), (it) => {
    assert.ok(it instanceof DictionaryRefused);
    assert.deepEqual([it.number, it.code, it.fact, it.node, it.what], [12, "IllTyped", 1, 1, null]);
    assert.equal(it.message, "dictionary refused 12 IllTyped fact 1 node 1");
    return true;
  });
  await assert.rejects(Session.open(""), { message: "dictionary refused 2 NotJson" });
  await assert.rejects(Session.open(" ".repeat(8_388_609)), { number: 1 });
  await assert.rejects(Session.open(" ".repeat(8_388_608)), { number: 2 });
});

test("a number of JSON is none where it rounds to more than the greatest double", async () => {
  const at = (/** @type {string} */ number) => `{"version":${number},"facts":[]}`;
  for (const number of ["1.7976931348623158e308", "0.00017976931348623158e312", "17976931348623158e292", "4.9e-324", "1e-400"])
    await assert.rejects(Session.open(at(number)), { code: "Shape", fact: 0 }, number);
  for (const number of ["1.7976931348623159e308", "0.00017976931348623159e312", "17976931348623159e292", "1e309"])
    await assert.rejects(Session.open(at(number)), { code: "NotJson" }, number);
});

test("lists, overrides, undo and redo", async () => {
  const session = await opened();
  session.openList("/people");
  assert.deepEqual(session.get("/people"), complete([]));
  session.add("/people");
  session.remove("/people", 1);
  session.override("/housing", 777n);
  assert.deepEqual(session.get("/housing"), complete(777n));
  session.undo();
  assert.equal(session.get("/housing").kind, "incomplete");
  session.redo();
  session.release("/housing");
  session.set("/rent", 5n);
  session.clear("/rent");
  assert.equal(session.get("/rent").kind, "incomplete");
});

test("changes in a block stand together", async () => {
  const session = await opened();
  session.set("/rooms", 1);
  assert.throws(() => session.changes(() => {
    session.set("/rooms", 2);
    session.add("/people");
    session.changes(() => session.set("/pays", true));
    session.line("set /share 1/2");
    session.undo();
    session.set("/tenure", "leases");
  }), { message: "refused 6 BadValue" });
  assert.deepEqual(session.get("/rooms"), complete(1));
  assert.equal(session.get("/people").kind, "incomplete");
  assert.equal(session.changes(() => {
    session.set("/rooms", 3);
    session.undo();
    assert.throws(() => session.undo(), { number: 13 });
    assert.equal(session.line("undo\r"), "refused 13 NothingToUndo\n");
    session.set("/rooms", 4);
    return 5;
  }), 5);
  assert.throws(() => session.changes(async () => session.set("/rooms", 6)), TypeError);
  assert.deepEqual(session.get("/rooms"), complete(4));
  session.undo();
  assert.deepEqual(session.get("/rooms"), complete(1));
});

test("slots and members are those that stand", async () => {
  const session = await opened();
  assert.deepEqual(session.members("/people"), []);
  session.add("/people");
  session.add("/people");
  assert.deepEqual(session.members("/people"), [1, 2]);
  assert.ok(session.has("/rent") && session.has("/people/#2/born"));
  assert.ok(!session.has("/nowhere") && !session.has("/people/#3/born"));
  assert.deepEqual(session.slots().filter((slot) => slot.endsWith("born")), ["/people/#1/born", "/people/#2/born"]);
  assert.equal(session.slots().length, 12 + 2 * 2);
});

test("what is missing, and what a change touched", async () => {
  const session = await opened();
  assert.deepEqual([...session.missing("/each")], ["/rent", "/heating"]);
  assert.equal(session.touched(), 0);
  session.set("/rent", 5n);
  assert.equal(session.touched(), 3);
  assert.equal(session.stamp("/housing"), 1);
  assert.deepEqual([...session.missing("/rent")], []);
});

test("watches that fire stand in fired", async () => {
  const session = await opened();
  session.watch("changed", "/housing");
  session.watch("completed", "/rent");
  session.set("/rent", 5n);
  assert.deepEqual(session.fired, [{ name: "changed", slot: "/housing" }, { name: "completed", slot: "/rent" }]);
  session.unwatch("changed", "/housing");
  session.set("/rent", 6n);
  assert.deepEqual(session.fired, []);
});

test("saved text is loaded and carried", async () => {
  const session = await opened();
  session.set("/rent", 5n);
  session.set("/note", "€");
  const saved = session.save();
  const again = await Session.load(DICTIONARY, saved);
  assert.equal(again.save(), saved);
  assert.deepEqual(again.get("/note"), complete("€"));
  await assert.rejects(Session.load(DICTIONARY, "no saved text"), (wrong) => wrong instanceof SavedRefused && wrong.line === 1);
  const other = JSON.parse(DICTIONARY);
  other.facts = other.facts.filter(({ path }) => path !== "/note");
  const carried = await Session.carry(JSON.stringify(other), saved);
  assert.deepEqual(carried.dropped, [{ kind: "value", slot: "/note", refused: null }]);
  assert.deepEqual(carried.get("/rent"), complete(5n));
  const kept = await Session.carry(DICTIONARY, new TextEncoder().encode(saved));
  assert.deepEqual(kept.dropped, []);
});

test("a further session shares the dictionary alone", async () => {
  const session = await opened();
  session.set("/rent", 500n);
  session.watch("changed", "/rent");
  const other = session.further({ undo: 1 });
  const third = other.further();
  assert.deepEqual([other.get("/rent").kind, other.touched(), session.get("/rent")], ["incomplete", 0, complete(500n)]);
  assert.throws(() => other.undo(), { number: 13 });
  assert.deepEqual([...other.facts().keys()], [...session.facts().keys()]);
  assert.equal(other.source, session.source);
  other.set("/rent", 700n);
  other.set("/rent", 800n);
  assert.deepEqual([other.fired, session.get("/rent"), third.get("/rent").kind], [[], complete(500n), "incomplete"]);
  session.close();
  other.undo();
  assert.throws(() => other.undo(), { number: 13 });
  assert.deepEqual(other.get("/rent"), complete(700n));
  other.close();
  third.set("/rent", 900n);
  assert.deepEqual(third.get("/rent"), complete(900n));
  assert.throws(() => other.further(), SessionClosed);
  assert.throws(() => third.further({ undo: -1 }), RangeError);
});

test("a text that came from outside is resumed without overrides, and each value that isn't taken has its refusal", async () => {
  const text = "saved 1\nnext 1\nlist /nowhere\nvalue /rent 6000.00\nvalue /rooms 3\nvalue /other 1\noverride /housing 9.00\nend\n";
  const session = await Session.resume(DICTIONARY, text, { undo: 1 });
  assert.deepEqual(session.dropped.map(({ kind, slot, refused }) => [kind, slot, refused && [refused.name, refused.message]]), [
    ["list", "/nowhere", null], ["value", "/rent", ["Refused", "refused 7 Limit 2"]], ["value", "/other", ["UnknownSlot", "refused 3 UnknownFact"]],
    ["override", "/housing", null],
  ]);
  assert.throws(() => session.set("/rent", "6000.00"), { number: 7, place: 2 });
  assert.equal(session.save(), "saved 1\nnext 1\nvalue /rooms 3\nend\n");
  assert.throws(() => session.undo(), { number: 13 });
  assert.deepEqual((await Session.resume(DICTIONARY, new TextEncoder().encode(session.save()))).dropped, []);
  await assert.rejects(Session.resume(DICTIONARY, text.replace("next 1\n", "")), (wrong) => wrong instanceof SavedRefused && wrong.line === 2);
  await assert.rejects(Session.resume("{", text), { message: "dictionary refused 2 NotJson" });
});

test("what is dropped of a long text is told in whole", async () => {
  const facts = Array.from({ length: 2000 }, (_, k) => ({ path: `/a${k}`, writable: "Int", limits: [["Max", "9"]] }));
  const values = facts.map(({ path }) => `value ${path} 10\n`).join("");
  const session = await Session.resume(JSON.stringify({ version: "1", facts }), `saved 1\nnext 1\n${values}end\n`);
  assert.deepEqual(session.dropped.map(({ slot }) => slot), facts.map(({ path }) => path));
  assert.ok(session.dropped.every(({ refused }) => refused.number === 7));
});

test("the engine lists the facts", async () => {
  const session = await opened();
  const facts = session.facts();
  assert.deepEqual([...facts.keys()], [...session.dictionary.facts.keys()]);
  for (const { path, isWritable, type, collection } of session.dictionary.facts.values())
    assert.deepEqual(facts.get(path), { path, isWritable, type, collection });
  facts.clear();
  assert.equal(session.facts().get("/people/*/born").collection, "/people");
  session.close();
  assert.equal(session.facts().get("/housing").isWritable, false);
});

test("the engine says descriptions", async () => {
  const session = await opened();
  for (const [path, fact] of session.dictionary.facts) assert.equal(session.description(path), fact.description);
  assert.equal(session.description("/rent"), "The rent of a month");
  for (const slot of ["/nowhere", "/people/#2/nowhere", "/rent ", ""]) assert.throws(() => session.description(slot), UnknownSlot);
  const facts = [{ path: "/a", writable: "Text", description: "refused 1 \0\n\u20ac" }];
  assert.equal((await Session.open(JSON.stringify({ version: "1", facts }))).description("/a"), "refused 1 \0\n\u20ac");
  session.close();
  assert.throws(() => session.description("/rent"), SessionClosed);
});

test("the dictionary tells its facts", async () => {
  const { dictionary, source } = await opened();
  assert.equal(source, DICTIONARY);
  assert.equal((await Session.open(new TextEncoder().encode(DICTIONARY))).source, DICTIONARY);
  assert.equal(dictionary.description, "a household");
  assert.deepEqual(dictionary.options.get("tenure"), ["rents", "owns"]);
  assert.deepEqual(dictionary.factAt("/rent"), {
    path: "/rent", type: { name: "Dollar", of: null }, isWritable: true, hasPlaceholder: false, collection: null,
    limits: [{ name: "Min", text: "0" }, { name: "Max", text: "5000" }], description: "The rent of a month",
  });
  assert.equal(dictionary.factAt("/people/#2/born").collection, "/people");
  assert.deepEqual(dictionary.factAt("/old").type, { name: "Collection", of: "/people" });
  assert.equal(dictionary.factAt("/nowhere"), undefined);
});

test("a line has the reply of the program, whatever its length", async () => {
  const session = await opened();
  const long = "refused 2 LongLine\n";
  const comment = (size) => `#${"x".repeat(size - 1)}`;
  for (const [line, due] of [
    ["", ""], ["get /rent\n", "incomplete\n"], ["get /rent\r", "incomplete\n"], ["set /rent 1", "ok\n"],
    [comment(4096), ""], [`${comment(4095)}\r`, ""], [`${comment(4096)}\r`, long], [comment(4097), long], [`${comment(4097)}\r`, long],
    [`${comment(4096)}\r\r`, long], [comment(100_000), long], [`#${"€".repeat(1365)}`, ""], [`#${"€".repeat(1366)}`, long],
    [`#${"\u{1F600}".repeat(2100)}`, long],
  ]) assert.equal(session.line(line), due, `${line.slice(0, 20)}.. of ${line.length}`);
  assert.throws(() => session.line("get /rent\nget /rent"), TypeError);
});

test("after quit and close no call goes through", async () => {
  const session = await opened();
  assert.equal(session.line("quit"), "");
  assert.equal(session.line("get /rent"), "");
  assert.throws(() => session.get("/rent"), SessionClosed);
  session.close();
  session.close();
  assert.throws(() => session.line("get /rent"), SessionClosed);
  assert.throws(() => session.save(), SessionClosed);
  assert.throws(() => new Session(), TypeError);
});

test("many sessions stand side by side, and their memory is used again", async () => {
  const engine = await Engine.load();
  const sessions = await Promise.all(Array.from({ length: 200 }, () => Session.open(DICTIONARY, { engine })));
  sessions.forEach((session, k) => session.set("/rooms", k));
  sessions.forEach((session, k) => assert.deepEqual(session.get("/rooms"), complete(k)));
  sessions.forEach((session) => session.close());
  const size = engine.memorySize;
  for (let k = 0; k < 1000; k++) (await Session.open(DICTIONARY, { engine })).close();
  assert.equal(engine.memorySize, size);
});

test("memory that is capped ends in OutOfMemory, and the sessions go on", async () => {
  const engine = await Engine.load(undefined, { maxMemory: 4_194_304 });
  const first = await Session.open(DICTIONARY, { engine });
  let rent = 0n;
  first.set("/rent", rent);
  const sessions = [first];
  await assert.rejects(async () => {
    for (;;) sessions.push(await Session.open(DICTIONARY, { engine }));
  }, OutOfMemory);
  assert.ok(sessions.length > 2 && engine.memorySize <= 4_194_304);
  assert.throws(() => {
    for (;; rent++) first.set("/rent", rent + 1n);
  }, OutOfMemory);
  // what half of them had is memory for the changes of the others
  for (const session of sessions.splice(sessions.length / 2)) session.close();
  assert.deepEqual(first.get("/rent"), complete(rent));
  for (const session of sessions) {
    session.set("/rent", 7n);
    assert.deepEqual(session.get("/rent"), complete(7n));
  }
  (await Session.open(DICTIONARY, { engine })).close();
});

test("an engine is loaded of a compiled module, of bytes and of a file", async () => {
  const file = new URL("../src/fact_graph.wasm", import.meta.url);
  for (const source of [file, file.href, readFileSync(file), await WebAssembly.compile(readFileSync(file))]) {
    const session = await Session.open(DICTIONARY, { engine: await Engine.load(source) });
    assert.equal(session.get("/rent").kind, "incomplete");
  }
  const isMissing = (wrong) => wrong instanceof EngineMissing && wrong instanceof FactGraphError;
  await assert.rejects(Engine.load(new Uint8Array(8)), (wrong) => isMissing(wrong) && wrong.cause instanceof WebAssembly.CompileError);
  await assert.rejects(Engine.load(new URL("nowhere.wasm", file)), (wrong) => isMissing(wrong) && wrong.cause.code === "ENOENT" && /nowhere\.wasm/.test(wrong.message));
  // a module of another package: one without anything
  await assert.rejects(Engine.load(new Uint8Array([0, 97, 115, 109, 1, 0, 0, 0])), isMissing);
});

test("an engine is loaded from a host, whatever type it gives", async () => {
  const module = readFileSync(new URL("../src/fact_graph.wasm", import.meta.url));
  const host = createServer(({ url }, response) => {
    const types = { "/typed": "application/wasm", "/untyped": "application/octet-stream" };
    response.writeHead(url in types ? 200 : 404, { "Content-Type": types[url] ?? "text/plain" }).end(module);
  });
  await new Promise((listening) => host.listen(0, "127.0.0.1", listening));
  const address = `http://127.0.0.1:${host.address().port}`;
  try {
    for (const path of ["/typed", "/untyped"]) {
      const session = await Session.open(DICTIONARY, { engine: await Engine.load(address + path) });
      assert.equal(session.get("/rent").kind, "incomplete");
    }
    await assert.rejects(Engine.load(`${address}/nowhere`), (wrong) => wrong instanceof EngineMissing && /404/.test(wrong.message));
  } finally {
    host.close();
    host.closeAllConnections();
  }
});

test("amounts are printed and read exactly", () => {
  for (const [cents, text] of [[0n, "0.00"], [5n, "0.05"], [-5n, "-0.05"], [124050n, "1240.50"], [-123456789012345n, "-1234567890123.45"]]) {
    assert.equal(amountText(cents), text);
    assert.equal(centsOf(text), cents);
  }
  assert.equal(centsOf("12"), 1200n);
  for (const text of ["", "1.5", "1,000", " 1", "1.234", "x"]) assert.throws(() => centsOf(text), SyntaxError);
});

// ---- calls beside lines

test("a slot reads the slots that its result is worked out from", async () => {
  const session = await opened();
  assert.deepEqual(session.reads("/housing"), ["/rent", "/heating"]);
  assert.deepEqual(session.reads("/rent"), []);
  session.add("/people");
  assert.deepEqual(session.reads("/people/#1/isOld"), ["/people/#1/born"]);
  session.override("/housing", 3n);
  assert.deepEqual(session.reads("/housing"), []);
  for (const [slot, message] of [
    ["/nowhere", "refused 3 UnknownFact"], ["/people/#2/born", "refused 4 NoMember"], ["", "refused 1 BadLine"], ["/rent\r", "refused 1 BadLine"],
    ["x".repeat(1_001), "refused 1 BadLine"], ["x".repeat(9_000), "refused 1 BadLine"],
  ]) {
    assert.throws(() => session.reads(slot), { message });
  }
  assert.throws(() => session.reads("/nowhere"), UnknownSlot);
  session.close();
  assert.throws(() => session.reads("/rent"), SessionClosed);
});

function undone(session) {
  for (let count = 0; ; count++) if (session.line("undo") !== "ok\n") return count;
}

test("the newest changes are kept for undo", async () => {
  for (const [undo, due] of [[undefined, 5], [0, 0], [1, 1], [2.5, 2], [5, 5], [2 ** 40, 5], [Infinity, 5]]) {
    const session = await Session.open(DICTIONARY, { undo });
    for (let rent = 1n; rent <= 5n; rent++) session.set("/rent", rent);
    assert.equal(undone(session), due);
    assert.equal(session.get("/rent").value, due === 5 ? null : BigInt(5 - due));
    for (let k = 0; k < due; k++) session.redo();
    assert.equal(session.get("/rent").value, 5n);
    session.close();
  }
  for (const undo of [-1, NaN]) await assert.rejects(Session.open(DICTIONARY, { undo }), RangeError);
});

test("a function of changes keeps all of its own until it ends", async () => {
  const session = await Session.load(DICTIONARY, "saved 1\nnext 1\nend\n", { undo: 2 });
  session.set("/rent", 1n);
  const fill = () => {
    for (let rooms = 0; rooms < 10; rooms++) session.set("/rooms", rooms);
  };
  assert.throws(() => session.changes(() => { fill(); throw new Error("stop"); }), /stop/);
  assert.equal(session.get("/rooms").value, null);
  assert.equal(session.get("/rent").value, 1n);
  session.changes(fill);
  assert.equal(undone(session), 2);
  assert.equal(session.get("/rooms").value, 7);
});

test("a dictionary comes with the engine", async () => {
  for (const [words, script] of [["year 2023", "years/2023"], ["income 2023", "income/2023"]]) {
    const session = await Session.builtIn(words);
    const read = (ending) => readFileSync(new URL(`../../examples/${script}.${ending}`, import.meta.url), "utf8");
    assert.equal(read("script").split("\n").map((line) => session.line(line)).join(""), read("replies"));
    assert.equal(session.get("/standardDeduction").value, 3_070_000n);
    assert.ok(session.slots().every((slot) => session.has(slot)));
  }
  const year = await Session.builtIn("year 2024");
  assert.equal(year.dictionary.facts.size, 45);
  assert.equal((await Session.open(year.source)).dictionary.facts.size, 45);
  year.close();
  assert.equal(year.dictionary.facts.size, 45);
  await assert.rejects(Session.builtIn("year 2022"), UnknownDictionary);
});
