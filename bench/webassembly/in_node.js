// node in_node.js calls DICTIONARY SCRIPT, or node in_node.js start: prints what was timed as JSON.

import { readFileSync } from "node:fs";
import { calls, start } from "./calls.js";

const [what, ...files] = process.argv.slice(2);
const [dictionary = "", script = ""] = files.map((file) => readFileSync(file, "utf8"));
console.log(JSON.stringify(await (what === "start" ? start() : calls(dictionary, script))));
