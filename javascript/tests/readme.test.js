// The examples of README.md: each value behind `//` is what the expression before it gives, and a text behind an example is what that prints.

import assert from "node:assert/strict";
import { readFileSync } from "node:fs";
import { test } from "node:test";

const README = readFileSync(new URL("../README.md", import.meta.url), "utf8");
const SOURCE = new URL("../src/index.js", import.meta.url).href;
const examples = [...README.matchAll(/^```js\n(.*?)^```(?:\n\n```text\n(.*?)^```)?/gms)];
const AsyncFunction = (async () => {}).constructor;

/** An example as the body of a function: what it imports is a parameter, and each shown value is compared. */
function bodyOf(code) {
  return code
    .replace(/^import \{ (.*) \} from "fact-graph";$/gm, "const { $1 } = library;")
    .replace(/^(\s*)(\S.*); \/\/ (.*)$/gm, "$1same($2, ($3));");
}

test("README has examples", () => assert.ok(examples.length >= 3));

examples.forEach(([, code, printed = ""], number) => {
  test(`example ${number + 1} of README`, async () => {
    let compared = 0, said = "";
    const same = (came, due) => {
      compared++;
      assert.deepEqual(came, due);
    };
    const console = { log: (text) => (said += `${text}\n`) };
    await new AsyncFunction("library", "same", "console", bodyOf(code))(await import(SOURCE), same, console);
    assert.ok(compared > 0);
    assert.equal(said, printed);
  });
});
