// Sessions: answers over a dictionary, and the results that follow from them.

import { Dictionary, listedFact, pathOf } from "./dictionary.js";
import { Engine, machineOf } from "./engine.js";
import { Refused, SessionClosed, UnknownSlot } from "./errors.js";
import { Missing, Walk } from "./explanation.js";
import { bytesOf, textOfBytes } from "./machine.js";
import { READERS, textOf } from "./values.js";

/** @typedef {import("./dictionary.js").ListedFact} ListedFact */
/** @typedef {import("./machine.js").Beginning} Beginning */
/** @typedef {import("./machine.js").Machine} Machine */
/** @typedef {import("./values.js").Answer} Answer */
/** @typedef {import("./values.js").Kind} Kind */
/** @typedef {import("./values.js").Result} Result */
/** @typedef {import("./values.js").Value} Value */

/**
 * A watch: `changed`, `completed`, `lost` or `raised`, and the slot whose result is watched.
 * @typedef {{ name: string, slot: string }} Watch
 */
/**
 * A line of a saved text that isn't kept: `list`, `value` or `override`, and what it names. Of a value that `resume` doesn't take, `refused` is
 * what `set` refuses it with; else that is null.
 * @typedef {{ kind: string, slot: string, refused: Refused | null }} Dropped
 */
/**
 * The engine that the session is opened in; where none is given, one that all such sessions share. And how many changes at most are kept for
 * `undo`, the newest; where that isn't given, all are. A function of `changes` keeps all of its own until it ends.
 * @typedef {{ engine?: Engine, undo?: number }} Options
 */

/**
 * The engine that sessions share.
 * @type {Promise<Engine> | null}
 */
let shared = null;

/** @returns {Promise<Engine>} */
async function sharedEngine() {
  const loading = (shared ??= Engine.load());
  try {
    const engine = await loading;
    if (!engine.hasStopped) return engine;
  } catch (wrong) {
    if (shared === loading) shared = null; // (a fetch may fail once)
    throw wrong;
  }
  if (shared === loading) shared = null;
  return sharedEngine();
}

/**
 * By how many changes a command goes forth.
 * @type {Readonly<Record<string, number>>}
 */
const STEPS = { set: 1, clear: 1, open: 1, add: 1, remove: 1, override: 1, release: 1, redo: 1, undo: -1 };
const NOTHING_TO_UNDO = "refused 13 NothingToUndo\n";

/** @param {string} line */
function stepOf(line) {
  const blank = line.indexOf(" ");
  return STEPS[blank < 0 ? line.replace(/\r$/, "") : line.slice(0, blank)] ?? 0;
}

/** @type {(machine: Machine, block: number, source: string | null, undo: number, dropped: Dropped[]) => Session} */
let created;

/**
 * How many changes are kept that can be undone.
 * @param {{ undo?: number } | undefined} options
 */
function mostKept(options) {
  const undo = options?.undo ?? Infinity;
  if (!(undo >= 0)) throw new RangeError(`undo is how many changes are kept, from 0 on, and no ${undo}`);
  return Math.floor(undo);
}

/**
 * @param {Beginning} how
 * @param {string | Uint8Array} dictionary
 * @param {string | Uint8Array | undefined} saved
 * @param {Options} [options]
 */
async function begun(how, dictionary, saved, options) {
  const undo = mostKept(options);
  const text = bytesOf(dictionary);
  const kept = saved === undefined ? undefined : bytesOf(saved);
  const machine = machineOf(options?.engine ?? (await sharedEngine()));
  const block = machine.begin(how, text, kept);
  try {
    const dropped = linesOf(machine.text(block)).map(droppedOf);
    const source = how === "open_built_in" ? null : typeof dictionary === "string" ? dictionary : textOfBytes(text);
    return created(machine, block, source, undo, dropped);
  } catch (wrong) {
    machine.end(block); // there was no memory for its texts
    throw wrong;
  }
}

/**
 * An interview over a dictionary, which is a string or bytes of UTF-8.
 *
 * A slot is `/rent`, a fact that stands once, or `/people/#2/age`, that of a collection's member. `close` frees a session's memory at once;
 * one that nothing refers to any more is closed in time.
 */
export class Session {
  #machine;
  #block;
  #undo;
  #source;
  /** @type {Dictionary | null} */
  #dictionary = null;
  #facts;
  #numbers;
  #isOpen = true;
  // how many changes could be undone, but for those before the session, and how many of them stand before the block of changes
  #depth = 0;
  #floor = -Infinity;

  /**
   * What `carry` or `resume` didn't keep.
   * @type {readonly Dropped[]}
   */
  dropped;

  /**
   * The watches that fired at the last accepted change that a method other than `line` made, in the order in which they were put.
   * @type {readonly Watch[]}
   */
  fired = [];

  static {
    created = (machine, block, source, undo, dropped) => new Session(machine, block, source, undo, dropped);
  }

  /**
   * @private
   * @param {Machine} machine
   * @param {number} block
   * @param {string | null} source the dictionary's text, unless it comes with the engine
   * @param {number} undo
   * @param {Dropped[]} dropped
   */
  constructor(machine, block, source, undo, dropped) {
    this.#machine = machine;
    this.#block = block;
    this.#source = source;
    this.#undo = undo;
    this.dropped = dropped;
    this.#facts = new Map(linesOf(machine.facts(block)).map((line) => [line.slice(0, line.indexOf(" ")), listedFact(line)]));
    this.#numbers = new Map([...this.#facts.keys()].map((path, at) => [path, at + 1]));
    machine.closeWith(this, block);
  }

  /**
   * A session without answers. Throws DictionaryRefused where the dictionary has a fault.
   * @param {string | Uint8Array} dictionary
   * @param {Options} [options]
   */
  static async open(dictionary, options) {
    return begun("open", dictionary, undefined, options);
  }

  /**
   * A session without answers over a dictionary that comes with the engine, as `year 2023`. Throws UnknownDictionary for other words.
   * @param {string} words
   * @param {Options} [options]
   */
  static async builtIn(words, options) {
    return begun("open_built_in", words, undefined, options);
  }

  /**
   * A session that goes on from what `save` gave over the same dictionary. Throws SavedRefused for another text.
   * @param {string | Uint8Array} dictionary
   * @param {string | Uint8Array} saved
   * @param {Options} [options]
   */
  static async load(dictionary, saved, options) {
    return begun("load", dictionary, saved, options);
  }

  /**
   * A session that goes on from what `save` gave over another dictionary, as far as its answers may stand over this one; `dropped` has the
   * others. Throws SavedRefused for what is no such text.
   * @param {string | Uint8Array} dictionary
   * @param {string | Uint8Array} saved
   * @param {Options} [options]
   */
  static async carry(dictionary, saved, options) {
    return begun("carry", dictionary, saved, options);
  }

  /**
   * A session that goes on from a saved text which came from outside, as from a person's upload: as `carry`, but it takes no override, and each
   * value of `dropped` has what `set` refuses it with.
   * @param {string | Uint8Array} dictionary
   * @param {string | Uint8Array} saved
   * @param {Options} [options]
   */
  static async resume(dictionary, saved, options) {
    return begun("resume", dictionary, saved, options);
  }

  // ---- changes

  /**
   * Answers a writable fact.
   * @param {string} slot
   * @param {Answer} value
   */
  set(slot, value) {
    this.#put("set", slot, value);
  }

  /**
   * Takes an answer away.
   * @param {string} slot
   */
  clear(slot) {
    this.#change(`clear ${slot}`);
  }

  /**
   * Opens a collection that has no members yet: that there are none is then an answer.
   * @param {string} slot
   */
  openList(slot) {
    this.#change(`open ${slot}`);
  }

  /**
   * Adds a member to a collection, which is opened where it isn't. Returns the member's number.
   * @param {string} slot
   */
  add(slot) {
    return Number(this.#change(`add ${slot}`).slice(4));
  }

  /**
   * Takes a member out of a collection, with its answers and overrides.
   * @param {string} slot
   * @param {number} member
   */
  remove(slot, member) {
    this.#change(`remove ${slot} #${member}`);
  }

  /**
   * Gives a derived fact this value, whatever follows for it.
   * @param {string} slot
   * @param {Answer} value
   */
  override(slot, value) {
    this.#put("override", slot, value);
  }

  /**
   * Takes an override away.
   * @param {string} slot
   */
  release(slot) {
    this.#change(`release ${slot}`);
  }

  /** Goes back to the answers before the last change. */
  undo() {
    this.#change("undo", -1);
  }

  /** Goes forth again. */
  redo() {
    this.#change("redo");
  }

  /**
   * Runs a function whose changes stand together: where it throws, all of them are undone. Returns what it returns. Such calls may stand in
   * each other. Within one, `undo` goes back to its beginning and no further. The function can't wait for anything.
   * @template T
   * @param {() => T} block
   * @returns {T}
   */
  changes(block) {
    this.#hold();
    const outer = this.#floor;
    this.#floor = this.#depth;
    try {
      const answer = block();
      if (answer instanceof Promise) throw new TypeError("a function of changes can't wait");
      return answer;
    } catch (wrong) {
      while (this.#isOpen && this.#depth > this.#floor && this.#said("undo", -1)) continue;
      throw wrong;
    } finally {
      this.#floor = outer;
      this.#forget();
    }
  }

  // ---- questions

  /**
   * The result of a fact.
   * @param {string} slot
   * @returns {Result}
   */
  get(slot) {
    const said = this.#ask(`get ${slot}`);
    const blank = said.indexOf(" ");
    const kind = /** @type {Kind} */ (said.slice(0, blank)); // (of `incomplete`, all but its newline)
    if (blank < 0) return { kind, value: null, fault: null };
    const text = said.slice(blank + 1, -1);
    return kind === "fault" ? { kind, value: null, fault: text } : { kind, value: this.#reader(slot)(text), fault: null };
  }

  /**
   * The value of a fact that no further answer can change; null where one can, or where there is none yet.
   * @param {string} slot
   * @returns {Value | null}
   */
  final(slot) {
    const said = this.#ask(`final ${slot}`);
    return said.startsWith("final ") ? this.#reader(slot)(said.slice(6, -1)) : null;
  }

  /**
   * The slots whose answers a result still wants, in the order of the dictionary, and the tree of what leads to them.
   * @param {string} slot
   */
  missing(slot) {
    const slots = this.#missing(slot);
    return new Missing(slots, new Walk(this, slot, slots).leading());
  }

  /**
   * A result with all that it was worked out from, as a tree: down to answers, or so many levels and no further.
   * @param {string} slot
   * @param {{ depth?: number }} options
   */
  why(slot, { depth = Infinity } = {}) {
    return new Walk(this, slot, this.#missing(slot)).why(depth);
  }

  /** @param {string} slot */
  #missing(slot) {
    return this.#ask(`missing ${slot}`).split("\n").slice(1, -1);
  }

  /**
   * The slots that a result itself is worked out from, each once, in the order in which they are first read; `why` goes on from each of them. A
   * slot with an answer of its own, or with an override, reads none; one that has none reads what its placeholder does.
   * @param {string} slot
   */
  reads(slot) {
    this.#hold();
    const said = textOfBytes(this.#machine.reads(this.#block, asLine(slot)));
    if (said.startsWith("refused ")) throw Refused.ofReply(said);
    return said.split("\n").slice(0, -1);
  }

  /**
   * The numbers of a collection's members, or of those that a Filter finds; none while there is no such list.
   * @param {string} slot
   */
  members(slot) {
    const { value } = this.get(slot);
    return Array.isArray(value) ? value : [];
  }

  /**
   * Whether a slot stands: a fact that stands once, or that of a member who is there.
   * @param {string} slot
   */
  has(slot) {
    return !this.#said(`get ${slot}`, 0)?.startsWith("refused ");
  }

  /**
   * The facts of the dictionary by their paths, in its order, as the engine lists them: of which kind and type each is.
   * @returns {ReadonlyMap<string, ListedFact>}
   */
  facts() {
    return new Map(this.#facts);
  }

  /**
   * What a fact is, in words for people, by its path or by a slot of it; empty where its dictionary doesn't say it.
   * @param {string} slot
   */
  description(slot) {
    this.#hold();
    const number = this.#numbers.get(slot) ?? this.#numbers.get(pathOf(slot));
    if (number === undefined) throw new UnknownSlot(3, "UnknownFact");
    return textOfBytes(this.#machine.description(this.#block, number));
  }

  /** What the dictionary's text says of its facts: placeholders, limits, options and descriptions, too. */
  get dictionary() {
    return (this.#dictionary ??= new Dictionary(this.source));
  }

  /** The dictionary's text as it was given, or as the engine says that of one that comes with it. */
  get source() {
    return (this.#source ??= this.#printed());
  }

  // the text of a dictionary that comes with the engine
  #printed() {
    this.#hold();
    return textOfBytes(this.#machine.dictionary(this.#block));
  }

  /** The slots that stand now, in the order of the dictionary, and of a fact in the order of its members. */
  slots() {
    return [...this.#facts.values()].flatMap(({ path, collection }) =>
      collection === null ? [path] : this.members(collection).map((member) => path.replace("*", `#${member}`)),
    );
  }

  /**
   * The number of the last change that touched a slot, or 0. Changes, undo and redo among them, are numbered from 1.
   * @param {string} slot
   */
  stamp(slot) {
    return Number(this.#ask(`stamp ${slot}`).slice(6));
  }

  /** How many slots the last change touched, or 0 before the first. */
  touched() {
    return Number(this.#ask("touched").slice(8));
  }

  /**
   * Asks for a place in `fired` when the slot's result moves so: `changed`, `completed`, `lost` or `raised`.
   * @param {string} name
   * @param {string} slot
   */
  watch(name, slot) {
    this.#ask(`watch ${name} ${slot}`);
  }

  /**
   * Ends a watch.
   * @param {string} name
   * @param {string} slot
   */
  unwatch(name, slot) {
    this.#ask(`unwatch ${name} ${slot}`);
  }

  // ---- the whole

  /**
   * A further session over the same dictionary, without answers. The two share the dictionary and what was made of it, so it is there at
   * once; each has its own answers, and may be closed before the other.
   * @param {{ undo?: number }} [options]
   */
  further(options) {
    const undo = mostKept(options);
    this.#hold();
    const block = this.#machine.further(this.#block);
    try {
      return new Session(this.#machine, block, this.#source, undo, []);
    } catch (wrong) {
      this.#machine.end(block); // there was no memory for its texts
      throw wrong;
    }
  }

  /** The answers that stand, as a text for `load`, `carry` and `resume`. */
  save() {
    this.#hold();
    return textOfBytes(this.#machine.save(this.#block));
  }

  /**
   * Answers a line of a script, and returns its reply as the program writes it: all lines of it, with their newlines. A line without a reply,
   * and each one from `quit` on, has an empty text. A refusal is a reply, and isn't thrown.
   * @param {string} line
   */
  line(line) {
    const given = line.endsWith("\n") ? line.slice(0, -1) : line;
    if (given.includes("\n")) throw new TypeError("a line of a script has no newline within");
    return this.#said(given, stepOf(given)) ?? "";
  }

  /** Ends the session, and frees its memory. All other calls throw SessionClosed from then on. */
  close() {
    if (!this.#isOpen) return;
    this.#isOpen = false;
    this.#machine.close(this, this.#block);
  }

  // ---- how a line is said

  /**
   * @param {"set" | "override"} verb
   * @param {string} slot
   * @param {Answer} value
   */
  #put(verb, slot, value) {
    // the value is all behind the second blank, so one in the slot would become a part of it
    if (slot.includes(" ")) throw new Refused(1, "BadLine");
    const isAmount = typeof value === "bigint";
    if (isAmount || typeof value === "number") {
      const type = this.#factAt(slot)?.type.name;
      if (type !== undefined && isAmount !== (type === "Dollar"))
        throw new TypeError(isAmount ? `a BigInt is an amount in cents, and ${slot} is of the type ${type}` : `${slot} is an amount: give its cents as a BigInt, or its text`);
    }
    this.#change(`${verb} ${slot} ${textOf(value)}`);
  }

  /**
   * The first line of the reply to a change, which goes forth by a step, or back by one.
   * @param {string} line
   */
  #change(line, step = 1) {
    const reply = this.#ask(line, step);
    const end = reply.indexOf("\n") + 1;
    this.fired = end === reply.length ? [] : reply.slice(end, -1).split("\n").map(watchOf);
    return reply.slice(0, end - 1);
  }

  /**
   * The reply to a command that isn't refused.
   * @param {string} line
   */
  #ask(line, step = 0) {
    const said = this.#said(asLine(line), step);
    if (said === null) throw new SessionClosed("the session was quit");
    if (said.startsWith("refused ")) throw Refused.ofReply(said);
    return said;
  }

  /**
   * The text of a line, or null where the script is over.
   * @param {string} line
   * @param {number} step by how many changes it goes forth
   */
  #said(line, step) {
    this.#hold();
    if (step < 0 && this.#depth <= this.#floor) return NOTHING_TO_UNDO;
    const said = this.#machine.reply(this.#block, line);
    if (step && said?.startsWith("ok")) {
      this.#depth += step;
      this.#forget();
    }
    return said;
  }

  // forgets the changes that are more than are to be kept, unless a function of changes runs, which may take back all of its own
  #forget() {
    if (!this.#isOpen || this.#depth <= this.#undo || this.#floor !== -Infinity) return;
    this.#machine.keepChanges(this.#block, this.#undo);
    this.#depth = this.#undo;
  }

  #hold() {
    if (!this.#isOpen) throw new SessionClosed("the session is closed");
  }

  /** @param {string} slot */
  #factAt(slot) {
    return this.#facts.get(slot) ?? this.#facts.get(pathOf(slot));
  }

  /** @param {string} slot */
  #reader(slot) {
    const { type } = /** @type {ListedFact} */ (this.#factAt(slot));
    return /** @type {(text: string) => Value} */ (READERS[type.name]);
  }
}

// where the language has `using`, it closes a session
if ("dispose" in Symbol) Object.defineProperty(Session.prototype, /** @type {any} */ (Symbol).dispose, { value: Session.prototype.close });

/**
 * A text as a line, of which one last byte 13 is dropped.
 * @param {string} text
 */
function asLine(text) {
  return text.endsWith("\r") ? `${text}\r` : text;
}

/**
 * The lines of a text, without their newlines.
 * @param {Uint8Array} text
 */
function linesOf(text) {
  return textOfBytes(text).split("\n").slice(0, -1);
}

/**
 * Of a line such as `dropped override /size`, or `dropped value /people/#2/born refused 7 Limit 1`.
 * @param {string} line
 * @returns {Dropped}
 */
function droppedOf(line) {
  const [, kind = "", slot = "", ...reply] = line.split(" ");
  return { kind, slot, refused: reply.length ? Refused.ofReply(reply.join(" ")) : null };
}

/**
 * Of a line such as `watch lost /s`.
 * @param {string} line
 * @returns {Watch}
 */
function watchOf(line) {
  const [, name = "", slot = ""] = line.split(" ");
  return { name, slot };
}
