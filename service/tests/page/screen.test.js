// What stands on the screen, of the form and of what the engine replies.
import assert from "node:assert/strict";
import { test } from "node:test";
import { progressOf } from "../../fact_graph_service/page/questions.js";
import { groupsOf, reasonsOf, screenOf, stepsOf } from "../../fact_graph_service/page/screen.js";
import { TEXTS } from "../../fact_graph_service/page/texts.js";
import { Words } from "../../fact_graph_service/page/words.js";

/** @typedef {import("../../fact_graph_service/page/screen.js").Form} Form */

/** A fact that a person answers. */
const asked = (type = "Int", more = {}) => ({ type, of: null, collection: null, isWritable: true, hasPlaceholder: false, purpose: "", limits: [], mentions: [], ...more });
/** @param {string[]} mentions */
const derived = (mentions, more = {}) => ({ ...asked("Int", more), isWritable: false, mentions });

/** @param {Record<string, any>} facts @param {Partial<Form>} more @returns {Form} */
function formOf(facts, more = {}) {
  const words = Object.fromEntries(Object.keys(facts).map((path) => [path, { label: path.slice(1), help: "", source: "" }]));
  const english = { title: "", introduction: [], headings: {}, facts: words, members: {}, options: {} };
  return { layout: "all", figures: [], questions: [], groups: [], facts, languages: { en: english, es: english }, ...more };
}

/** An engine that replies so, and "incomplete", "open" or "missing 0" otherwise. @param {Record<string, string>} replies */
const replying = (replies) => (/** @type {string} */ line) => replies[line] ?? { get: "incomplete", final: "open", missing: "missing 0" }[line.split(" ")[0]];

/** @param {Form} form @param {Record<string, string>} replies */
const said = (form, replies) => progressOf(screenOf(form, replying(replies)), new Words(form, "en", () => []));

test("nothing is asked for a figure that is final", () => {
  const form = formOf({ "/a": asked("Boolean"), "/b": asked("Boolean"), "/any": derived(["/a", "/b"], { type: "Boolean" }) }, { figures: ["/any"] });
  const replies = { "get /any": "complete true", "final /any": "final true", "missing /any": "missing 1\n/b", "get /a": "complete true" };
  const screen = screenOf(form, replying(replies));
  assert.deepEqual(screen.questions.map((it) => it.slot), ["/a"]);
  assert.equal(said(form, replies), "All questions are answered.");
});

test("an answer is needed where a figure can't be had without it, and else not", () => {
  const form = formOf({ "/a": asked(), "/b": asked("Int", { hasPlaceholder: true }), "/s": derived(["/a", "/b"]) }, { figures: ["/s"] });
  const open = screenOf(form, replying({ "missing /s": "missing 2\n/a\n/b", "get /b": "placeholder 0" }));
  assert.deepEqual(open.questions.map((it) => [it.slot, it.isRequired]), [["/a", true], ["/b", false]]);
  assert.deepEqual([open.required, open.optional], [1, 1]);
  assert.equal(said(form, { "get /s": "placeholder 5", "get /a": "complete 5", "missing /s": "missing 1\n/b", "get /b": "placeholder 0" }), "All needed answers are there. 1 more could make the estimates exact.");
});

test("a dictionary with only writable facts has questions", () => {
  const form = formOf({ "/a": asked(), "/b": asked("Text") }, { questions: ["/a", "/b"] });
  const screen = screenOf(form, replying({}));
  assert.deepEqual(screen.questions.map((it) => it.slot), ["/a", "/b"]);
  assert.equal(said(form, {}), "2 needed answers are still missing.");
});

test("it is never said that all is answered beside a figure that isn't there", () => {
  const form = formOf({ "/a": asked(), "/s": derived(["/a"]) }, { figures: ["/s"] });
  const answered = { "get /a": "complete 5" };
  assert.equal(said(form, { ...answered, "get /s": "fault overflow" }), "These results can't be worked out, because a number is too large or would be divided by zero: s.");
  assert.equal(said(form, answered), "Your answers are there, but these results can't be worked out from them: s.");
  assert.equal(said(form, { ...answered, "get /s": "complete 5", "final /s": "final 5" }), "All questions are answered.");
});

test("questions stand in their groups, a member's with its collection, and those of no group behind", () => {
  const facts = { "/people": asked("Collection"), "/people/*/age": asked("Int", { collection: "/people" }), "/a": asked(), "/b": asked() };
  const form = formOf(facts, { questions: Object.keys(facts), groups: [["none", []], ["one", ["/b"]], ["home", ["/people"]]] });
  const steps = stepsOf(screenOf(form, replying({ "get /people": "complete [#1]" })));
  const seen = groupsOf(form, steps).map(({ group, steps }) => [group, steps.map((it) => it.slot)]);
  assert.deepEqual(seen, [["one", ["/b"]], ["home", ["/people", "/people/#1/age"]], [null, ["/a"]]]);
});

test("members' questions come behind their collection, member by member", () => {
  const facts = { "/c": asked("Collection", { of: "/c" }), "/c/*/a": asked("Int", { collection: "/c" }), "/c/*/b": asked("Int", { collection: "/c" }), "/z": asked() };
  const form = formOf(facts, { questions: Object.keys(facts) });
  const screen = screenOf(form, replying({ "get /c": "complete [#1 #3]" }));
  assert.deepEqual(screen.questions.map((it) => it.slot), ["/c", "/c/#1/a", "/c/#3/a", "/c/#1/b", "/c/#3/b", "/z"]);
  assert.deepEqual(stepsOf(screen).map((it) => it.slot), ["/c", "/c/#1/a", "/c/#1/b", "/c/#3/a", "/c/#3/b", "/z"]);
});

test("a figure's reasons are those of the same member", () => {
  const facts = { "/c": asked("Collection", { of: "/c" }), "/c/*/a": asked("Int", { collection: "/c" }), "/x": asked(), "/c/*/s": derived(["/c/*/a", "/x"], { collection: "/c" }), "/sum": derived(["/c/*/s"]) };
  const form = formOf(facts);
  const ask = replying({ "get /c": "complete [#1 #2]", "get /c/#2/a": "complete 5" });
  assert.deepEqual(reasonsOf(form, ask, "/c/#2/s").map((it) => [it.slot, it.result.text]), [["/c/#2/a", "5"], ["/x", ""]]);
  assert.deepEqual(reasonsOf(form, ask, "/sum").map((it) => it.slot), ["/c/#1/s", "/c/#2/s"]);
});

test("a refusal is told in plain words", () => {
  const limits = [["Min", "0"], ["Max", "5000.00"]];
  const form = formOf({ "/bill": asked("Dollar", { limits }), "/number": asked("Text", { limits: [["MaxLength", "9"], ["Check", "nine-digits"]] }), "/day": asked("Day", { limits: [["Min", "1900-01-01"]] }) });
  const words = new Words(form, "en", () => []);
  assert.equal(words.refusal("/bill", "refused 7 Limit 2"), "Enter $5,000.00 or less.");
  assert.equal(words.refusal("/number", "refused 8 Check 2"), "Enter exactly nine digits, without blanks or dashes.");
  assert.equal(words.refusal("/number", "refused 7 Limit 1"), "Enter at most 9 characters.");
  assert.equal(words.refusal("/day", "refused 7 Limit 1"), "Enter January 1, 1900 or a later date.");
  assert.equal(new Words(form, "es", () => []).refusal("/bill", "refused 7 Limit 2"), "Escriba $5,000.00 o menos.");
});

test("both languages have the same texts, with the same places to be filled", () => {
  const places = (/** @type {string} */ text) => [...text.matchAll(/\{\w+\}/g)].map(String).sort();
  assert.deepEqual(Object.keys(TEXTS.es), Object.keys(TEXTS.en));
  for (const [name, text] of Object.entries(TEXTS.en)) {
    assert.deepEqual(places(TEXTS.es[/** @type {import("../../fact_graph_service/page/texts.js").Name} */ (name)]), places(text), name);
  }
});
