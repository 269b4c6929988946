// A page's session with its engine: it makes a change and asks what the screen needs, in as few calls as that takes.

import { screenOf } from "./screen.js";

/**
 * @typedef {{ id: string, line: string }} Change
 * @typedef {{ kind: string, slot: string, why: string }} Dropped
 * @typedef {{ reply: string | null, stale: boolean, replies: string[], revision: number, seconds: number | null, dropped?: Dropped[] }} Answered
 * @typedef {{ form: import("./screen.js").Form, answer: (change: Change | null, questions: string[]) => Promise<Answered>,
 *   save: () => Promise<string>, resume: (text: string) => Promise<Answered>, stay: () => Promise<Answered>, end: () => Promise<void> }} Engine
 */

/** The engine can't be asked now. What was asked may have been done: it is to be asked again, with the same id. */
export class Unreachable extends Error {
  /** @param {string} message @param {number} [wait] seconds to wait, where the engine says so */
  constructor(message, wait) {
    super(message);
    this.wait = wait;
  }
}

/** The answers are gone, and nothing can be sent any more. */
export class Ended extends Error {}

/** A text is none that was saved here. */
export class TextRefused extends Error {}

export class Session {
  /** @param {Engine} engine */
  constructor(engine) {
    this.engine = engine;
    /** @type {Map<string, string>} */
    this.known = new Map();
    this.revision = -1;
    /** @type {Set<string>} */
    this.used = new Set();
    /**
     * The lines that the screen needed last.
     * @type {string[]}
     */
    this.lines = [];
    this.shown = -1;
  }

  /**
   * What was replied to a line, at the revision that the screen shows.
   * @type {import("./screen.js").Ask}
   */
  ask = (line) => {
    this.used.add(line);
    return this.known.get(line);
  };

  /**
   * Makes a change, if one is given, and says what stands on the screen behind it.
   * @param {Change | null} change
   */
  async screen(change = null) {
    const told = await this.call(change, this.lines);
    const { value, lines } = await this.settled((form) => screenOf(form, this.ask));
    this.lines = lines;
    this.shown = this.revision;
    return { value, told };
  }

  /** Whether the answers have moved since the screen was asked for, as by another window. */
  hasMoved() {
    return this.revision !== this.shown;
  }

  /**
   * What `worked` gives once it is told all that it asks for by `ask`, and the lines that it asked.
   * @template T
   * @param {(form: import("./screen.js").Form) => T} worked
   */
  async settled(worked) {
    for (;;) {
      this.used = new Set();
      const value = worked(this.engine.form);
      const lines = [...this.used];
      const wanted = lines.filter((line) => !this.known.has(line));
      if (wanted.length === 0) return { value, lines };
      await this.call(null, wanted);
    }
  }

  /** @param {Change | null} change @param {string[]} questions */
  async call(change, questions) {
    const told = await this.engine.answer(change, questions);
    // replies of another revision speak of other answers
    if (told.revision !== this.revision) this.known.clear();
    this.revision = told.revision;
    questions.forEach((line, at) => this.known.set(line, told.replies[at]));
    return told;
  }
}
