// Changes on their way: in order, each until it is answered.
import assert from "node:assert/strict";
import { test } from "node:test";
import { Outbox } from "../../fact_graph_service/page/outbox.js";
import { Session, Unreachable } from "../../fact_graph_service/page/session.js";

test("changes are sent in their order, one at a time, and again with their id until they are answered", async () => {
  /** @type {string[]} */
  const sent = [];
  /** @type {string[]} */
  const states = [];
  let failures = 2;
  const outbox = new Outbox(async (change) => {
    sent.push(`${change.line} ${change.id}`);
    if (failures > 0) {
      failures -= 1;
      throw new Unreachable("down", 0.001);
    }
  }, (state) => states.push(state));
  const first = outbox.put("set /a 1", "/a");
  const second = outbox.put("set /b 2", "/b");
  assert.ok(outbox.has("/a") && outbox.has("/b"));
  await Promise.all([first, second]);
  assert.equal(sent.length, 4);
  assert.equal(new Set(sent.slice(0, 3)).size, 1, "the same id");
  assert.match(sent[3], /^set \/b 2/);
  assert.deepEqual(states, ["sending", "waiting", "sending", "waiting", "sending", "sending", "idle"]);
  assert.ok(!outbox.has("/a"));
});

test("what was let go of isn't sent", async () => {
  let calls = 0;
  const outbox = new Outbox(async () => {
    calls += 1;
    throw new Unreachable("down", 60);
  }, () => {});
  const sent = outbox.put("set /a 1", "/a");
  await new Promise((done) => setTimeout(done, 5));
  outbox.drop();
  await sent;
  assert.equal(calls, 1);
});

test("the replies of a screen are of one revision", async () => {
  let revision = 1;
  const values = ["old", "new"];
  /** @type {any} */
  const engine = {
    form: {},
    answer: async (/** @type {any} */ _, /** @type {string[]} */ questions) => {
      const told = { reply: null, stale: false, revision, seconds: 9, replies: questions.map((line) => `${line} ${values[revision - 1]}`) };
      revision = 2; // another window changes the answers between the calls
      return told;
    },
  };
  const session = new Session(engine);
  const { value } = await session.settled(() => {
    const first = session.ask("get /a");
    return [first, first && session.ask("get /b")];
  });
  assert.deepEqual(value, ["get /a new", "get /b new"]);
});
