// Why a result is what it is, and by way of which slots it wants answers: trees of what was read for it.

import { pathOf } from "./dictionary.js";
import { said } from "./values.js";

/** @typedef {import("./dictionary.js").FactType} FactType */
/** @typedef {import("./dictionary.js").ListedFact} ListedFact */
/** @typedef {import("./session.js").Session} Session */
/** @typedef {import("./values.js").Result} Result */

/**
 * What a tree says of a slot wherever it stands there.
 * @typedef {{
 *   slot: string, type: FactType, result: Result, isFinal: boolean, isOverridden: boolean, isMissing: boolean, description: string,
 * }} Told
 */

// What no line of a tree has within: a description may be of several lines.
const BLANKS = /[\x00-\x20\x7f-\xa0\u1680\u2000-\u200a\u2028\u2029\u202f\u205f\u3000]+/g;

/**
 * A slot with its result, and below it those that were read for it: as `why` and `missing` of a session give it.
 *
 * A slot is unfolded where it stands first; where it is met again it has no children, and `isAbove`. So a tree is as large as what was read,
 * however often each was. It is of the moment at which it was asked for, and no later change moves it. Going through it gives all that stands
 * in it, each slot before those below it.
 */
export class Explanation {
  /**
   * @param {Told} told
   * @param {readonly string[]} below
   * @param {boolean} isAbove
   * @param {readonly Explanation[]} children
   */
  constructor(told, below, isAbove, children) {
    /** @readonly */
    this.slot = told.slot;
    /**
     * The type of its fact.
     * @readonly
     */
    this.type = told.type;
    /** @readonly */
    this.result = told.result;
    /**
     * Whether no further answer changes the result: what `final` of a session says.
     * @readonly
     */
    this.isFinal = told.isFinal;
    /**
     * Whether it has its value by `override`, and not by what it would read.
     * @readonly
     */
    this.isOverridden = told.isOverridden;
    /**
     * Whether it is an answer that is missing, also where a placeholder stands in for it.
     * @readonly
     */
    this.isMissing = told.isMissing;
    /**
     * What the dictionary says of its fact, which may be nothing.
     * @readonly
     */
    this.description = told.description;
    /**
     * The slots that belong below it, in the order in which they were first read, also where they don't stand here as children.
     * @readonly
     */
    this.below = below;
    /**
     * Whether these stand below the same slot further above.
     * @readonly
     */
    this.isAbove = isAbove;
    /**
     * What stands below it here, in the order of `below`: all of these, or none where `isAbove`, or where the depth ends.
     * @readonly
     */
    this.children = children;
  }

  /** The result as a session says it, with the word `final` for a complete one that is final: `placeholder 0.00`. */
  get said() {
    const reply = said(this.result, this.type.name);
    return this.isFinal ? reply.replace("complete", "final") : reply;
  }

  /** All that stands in the tree, each slot before those below it. */
  *[Symbol.iterator]() {
    for (const [, it] of this.levels()) yield it;
  }

  /**
   * The same, each with its level, which is 0 here.
   * @returns {Generator<[number, Explanation], void>}
   */
  *levels() {
    /** @type {[number, Explanation][]} */
    const ahead = [[0, this]];
    for (let next; (next = ahead.pop()); ) {
      yield next;
      const [level, { children }] = next;
      for (const it of [...children].reverse()) ahead.push([level + 1, it]);
    }
  }

  /**
   * The lines of the text, indented by their levels. `shown` is applied to each result.
   * @param {(said: string) => string} [shown]
   */
  *lines(shown = String) {
    const told = new Set();
    for (const [level, it] of this.levels()) {
      const description = told.has(it.slot) ? "" : it.description.replace(BLANKS, " ").replace(/^ | $/g, "");
      told.add(it.slot);
      yield `${"  ".repeat(level)}${it.slot} ${shown(it.said)}${notes(it)}${description && `  # ${description}`}`;
    }
  }

  /** The text, a line for each slot in the tree. */
  toString() {
    return [...this.lines()].join("\n");
  }
}

/**
 * What a line says behind the result.
 * @param {Explanation} it
 */
function notes({ isOverridden, isMissing, isAbove, below, children }) {
  const ends = below.length > 0 && children.length === 0 && !isAbove;
  const all = Object.entries({ override: isOverridden, missing: isMissing, above: isAbove, [`reads ${below.length}`]: ends });
  return all.map(([note, isSo]) => (isSo ? ` (${note})` : "")).join("");
}

/**
 * The answers that a result still wants, in the order of the dictionary; and the tree of what leads to them.
 * @implements {Iterable<string>}
 */
export class Missing {
  /**
   * @param {readonly string[]} slots
   * @param {Explanation} tree
   */
  constructor(slots, tree) {
    /**
     * The slots that are to be answered.
     * @readonly
     */
    this.slots = slots;
    /**
     * The slot that was asked for, and below it, of what `why` gives, that by way of which answers are missing. What has nothing below it
     * there is missing, or stands above; an unanswered slot whose placeholder wants other answers is missing, too.
     * @readonly
     */
    this.tree = tree;
  }

  /** How many they are. */
  get length() {
    return this.slots.length;
  }

  [Symbol.iterator]() {
    return this.slots[Symbol.iterator]();
  }

  /** The text of the tree. */
  toString() {
    return String(this.tree);
  }
}

/** What is read for the result of a slot, as a session says it that nobody changes meanwhile. Each slot is asked for once. */
export class Walk {
  #session;
  #slot;
  #missing;
  #facts;
  /** @type {Map<string, readonly string[]>} */
  #reads = new Map();
  /** @type {Map<string, Told>} */
  #told = new Map();
  /** @type {Set<string> | null} */
  #overridden = null;

  /**
   * @param {Pick<Session, "facts" | "description" | "get" | "final" | "reads" | "save">} session
   * @param {string} slot
   * @param {readonly string[]} missing
   */
  constructor(session, slot, missing) {
    this.#session = session;
    this.#slot = slot;
    this.#missing = new Set(missing);
    this.#facts = session.facts();
  }

  /**
   * The tree of all that is read, or of the levels down to this depth.
   * @param {number} depth
   */
  why(depth) {
    return this.#tree((slot) => this.#below(slot), depth);
  }

  /** The tree of what leads to the answers that are missing. */
  leading() {
    const leading = this.#leading();
    return this.#tree((slot) => this.#below(slot).filter((it) => leading.has(it)), Infinity);
  }

  /**
   * The tree in which these slots belong below a slot.
   * @param {(slot: string) => readonly string[]} below
   * @param {number} depth
   */
  #tree(below, depth) {
    const unfolded = new Set();
    /** @type {Explanation[]} */
    const trees = [];
    const ahead = [{ slot: this.#slot, level: 0, among: trees }];
    for (let next; (next = ahead.pop()); ) {
      const { slot, level, among } = next;
      const slots = below(slot), isAbove = unfolded.has(slot);
      /** @type {Explanation[]} */
      const children = [];
      among.push(new Explanation(this.#toldOf(slot), slots, isAbove, children));
      if (isAbove || level >= depth || slots.length === 0) continue;
      unfolded.add(slot);
      for (const it of [...slots].reverse()) ahead.push({ slot: it, level: level + 1, among: children });
    }
    return /** @type {Explanation} */ (trees[0]);
  }

  /** The slots by way of which an answer is missing, and those answers. */
  #leading() {
    /** @type {Map<string, string[]>} */
    const readers = new Map();
    if (this.#missing.size > 0) {
      for (const slot of reached([this.#slot], (it) => this.#below(it))) {
        for (const it of this.#below(slot)) known(readers, it, () => []).push(slot);
      }
    }
    return reached(this.#missing, (slot) => readers.get(slot) ?? []);
  }

  /** @param {string} slot */
  #below(slot) {
    return known(this.#reads, slot, () => this.#session.reads(slot));
  }

  /** @param {string} slot */
  #toldOf(slot) {
    return known(this.#told, slot, () => {
      const path = pathOf(slot), result = this.#session.get(slot);
      const { type, isWritable } = /** @type {ListedFact} */ (this.#facts.get(path));
      const isFinal = result.kind === "complete" && this.#session.final(slot) !== null;
      // a slot that is overridden reads none
      const isOverridden = !isWritable && this.#below(slot).length === 0 && this.#overrides().has(slot);
      const description = this.#session.description(path);
      return { slot, type, result, isFinal, isOverridden, isMissing: this.#missing.has(slot), description };
    });
  }

  #overrides() {
    const lines = () => this.#session.save().split("\n").filter((line) => line.startsWith("override "));
    return (this.#overridden ??= new Set(lines().map((line) => String(line.split(" ")[1]))));
  }
}

/**
 * These slots, and all that are reached from them.
 * @param {Iterable<string>} slots
 * @param {(slot: string) => readonly string[]} onward
 */
function reached(slots, onward) {
  const found = new Set(slots);
  for (const slot of found) onward(slot).forEach((it) => found.add(it)); // (which the loop comes to, too)
  return found;
}

/**
 * What is known of a slot, or is found now.
 * @template T
 * @param {Map<string, T>} all
 * @param {string} slot
 * @param {() => T} found
 * @returns {T}
 */
function known(all, slot, found) {
  const before = all.get(slot);
  if (before !== undefined) return before;
  const now = found();
  all.set(slot, now);
  return now;
}
