// A case of the program, run over the engine: its word, dictionary, saved text and script; and the text and the status that it ends with.
// Of `built-in` the dictionary is the words of one that comes with the engine.

import { DictionaryRefused, SavedRefused } from "../../src/errors.js";

const encoder = new TextEncoder();
const WORDS = ["run", "save", "load", "carry", "built-in"];
const BEGINNINGS = { run: "open", save: "open", "built-in": "open_built_in" };
const DONE = 0, DICTIONARY_REFUSED = 1, SAVED_REFUSED = 8;

/** The lines of a script, each without its newline; the last one only where it isn't empty. */
function* lines(script) {
  for (let at = 0; at < script.length; ) {
    const found = script.indexOf(10, at);
    const end = found < 0 ? script.length : found;
    yield script.subarray(at, end);
    at = end + 1;
  }
}

function joined(parts) {
  const all = new Uint8Array(parts.reduce((size, part) => size + part.length, 0));
  let at = 0;
  for (const part of parts) {
    all.set(part, at);
    at += part.length;
  }
  return all;
}

/** What a session writes over a script. */
function text(machine, block, word, script) {
  const said = word === "carry" ? [machine.text(block).slice()] : [];
  for (const line of lines(script)) {
    const reply = machine.answer(block, line);
    if (reply === null) break;
    said.push(reply.slice());
  }
  return word === "save" ? machine.save(block).slice() : joined(said);
}

/** Runs a case, and returns its text and its status. */
export function runCase(machine, { word, dictionary, saved, script }) {
  if (!WORDS.includes(word)) throw new Error(`no case of ${word}`);
  let block;
  try {
    block = word in BEGINNINGS ? machine.begin(BEGINNINGS[word], dictionary) : machine.begin(word, dictionary, saved);
  } catch (wrong) {
    if (wrong instanceof DictionaryRefused) return { status: DICTIONARY_REFUSED, text: encoder.encode(`${wrong.message}\n`) };
    if (wrong instanceof SavedRefused) return { status: SAVED_REFUSED, text: encoder.encode(`${wrong.message}\n`) };
    throw wrong;
  }
  try {
    return { status: DONE, text: text(machine, block, word, script) };
  } finally {
    machine.end(block);
  }
}

/** A case as the runner sends it: four sizes, and behind them the bytes. */
export function caseOf(bytes) {
  const view = new DataView(bytes.buffer, bytes.byteOffset);
  let at = 16;
  const [word, dictionary, saved, script] = [0, 4, 8, 12].map((place) => {
    const size = view.getUint32(place, true);
    at += size;
    return bytes.subarray(at - size, at);
  });
  return { word: new TextDecoder().decode(word), dictionary, saved, script };
}

/** How many bytes a case has, of which the first 16 are given. */
export function sizeOf(head) {
  const view = new DataView(head.buffer, head.byteOffset);
  return 16 + [0, 4, 8, 12].reduce((size, place) => size + view.getUint32(place, true), 0);
}

/** An outcome as the runner reads it: the status, the size of the text, and the text; 255 and why where the case couldn't be run. */
export function bytesOf(run) {
  let outcome;
  try {
    outcome = run();
  } catch (wrong) {
    outcome = { status: 255, text: encoder.encode(String(wrong)) };
  }
  const head = new DataView(new ArrayBuffer(8));
  head.setUint32(0, outcome.status, true);
  head.setUint32(4, outcome.text.length, true);
  return joined([new Uint8Array(head.buffer), outcome.text]);
}
