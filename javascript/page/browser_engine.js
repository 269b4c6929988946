// The engine of an interview's page within the page: the answers stay in the browser's storage, and nothing is sent.
//
// What is kept is the saved text that the interview went on from, if any, and the lines that were accepted since: they are said again when
// the page is opened, so that `undo` reaches as far back as before.

import { SavedRefused, Session } from "../engine/index.js";
import { TextRefused, Unreachable } from "./session.js";

/** @typedef {import("./session.js").Answered} Answered */
/** @typedef {import("./session.js").Change} Change */
/** @typedef {import("./session.js").Engine} Engine */
/** @typedef {import("./screen.js").Form} Form */
/**
 * What is kept, and the change that was made last.
 * @typedef {{ saved: string | null, lines: string[], revision: number, last: { id: string, reply: string } | null }} Kept
 */

const CHANGES = new Set(["set", "clear", "open", "add", "remove", "undo", "redo", "watch", "unwatch"]);
const QUESTIONS = new Set(["get", "final", "missing", "stamp", "touched"]);
const BAD_LINE = "refused 1 BadLine";
const NOTHING = { saved: null, lines: [], revision: 0, last: null };
// Over so many characters the answers that stand are kept in place of the lines; undo doesn't reach back over them then.
const MOST = 1_000_000;

/** @returns {Promise<Engine>} */
export async function openEngine() {
  const [form, dictionary] = await Promise.all(["form.json", "dictionary.json"].map(async (name) => (await fetch(name)).text()));
  return engineOver(JSON.parse(String(form)), String(dictionary), window.localStorage);
}

/**
 * An engine over a form and its dictionary, which keeps the answers in a storage.
 * @param {Form & { id: string }} form
 * @param {string} dictionary
 * @param {Storage} storage
 * @returns {Promise<Engine>}
 */
export async function engineOver(form, dictionary, storage) {
  const engine = new BrowserEngine(form, dictionary, storage);
  await engine.begin();
  return engine;
}

/** An engine over one form. */
class BrowserEngine {
  /** @type {Session | null} */
  #session = null;
  #revision = 0;

  /**
   * @param {Form & { id: string }} form
   * @param {string} dictionary
   * @param {Storage} storage
   */
  constructor(form, dictionary, storage) {
    this.form = form;
    this.dictionary = dictionary;
    this.storage = storage;
    this.name = `fact-graph ${form.id}`;
  }

  /**
   * What the storage has: that of another window, where one is open.
   * @returns {Kept}
   */
  kept() {
    return JSON.parse(this.storage.getItem(this.name) ?? JSON.stringify(NOTHING));
  }

  /**
   * Keeps what is to be said again.
   * @param {Kept} kept
   */
  keep(kept) {
    kept.revision = kept.revision ? kept.revision + 1 : firstRevision();
    try {
      this.storage.setItem(this.name, JSON.stringify(kept));
    } catch (wrong) {
      // what can't be kept isn't made: the next call begins anew from what is kept
      this.#close();
      throw new Unreachable(String(wrong));
    }
    this.#revision = kept.revision;
  }

  #close() {
    this.#session?.close();
    this.#session = null;
  }

  /** The session over what is kept. */
  async begin() {
    const kept = this.kept();
    if (this.#session && kept.revision === this.#revision) return this.#session;
    this.#close();
    const session = await (kept.saved === null ? Session.open(this.dictionary) : Session.load(this.dictionary, kept.saved));
    kept.lines.forEach((line) => session.line(line));
    this.#revision = kept.revision;
    this.#session = session;
    return session;
  }

  /**
   * Makes a change, and answers questions.
   * @param {Change | null} change
   * @param {string[]} questions
   * @returns {Promise<Answered>}
   */
  answer(change, questions) {
    return this.#alone(async () => {
      const known = this.#revision;
      const session = await this.begin();
      const isStale = change !== null && known !== this.#revision && this.kept().last?.id !== change.id;
      const reply = change === null || isStale ? null : this.#made(session, change);
      return { reply, stale: isStale, replies: questions.map((line) => told(session, line, QUESTIONS)), ...this.#now() };
    });
  }

  /**
   * @param {Session} session
   * @param {Change} change
   */
  #made(session, { id, line }) {
    const kept = this.kept();
    if (kept.last?.id === id) return kept.last.reply;
    const reply = told(session, line, CHANGES);
    if (!reply.startsWith("ok")) return reply;
    const next = { ...kept, lines: [...kept.lines, line], last: { id, reply } };
    if (JSON.stringify(next.lines).length > MOST) {
      next.lines = next.lines.filter((it) => /^(un)?watch /.test(it));
      next.saved = session.save();
    }
    this.keep(next);
    return reply;
  }

  #now() {
    return { revision: this.#revision, seconds: null };
  }

  /** The saved text. */
  save() {
    return this.#alone(async () => (await this.begin()).save());
  }

  /**
   * Goes on from a saved text, as a person may bring it: without overrides, and with those answers alone that `set` would take.
   * @param {string} text
   * @returns {Promise<Answered>}
   */
  resume(text) {
    return this.#alone(async () => {
      const session = await resumed(this.dictionary, text);
      const { revision } = this.kept();
      this.#close();
      this.#session = session;
      this.keep({ saved: session.save(), lines: [], revision, last: null });
      const dropped = session.dropped.map((line) => ({ kind: line.kind, slot: line.slot, why: why(line) }));
      return { reply: null, stale: false, replies: [], dropped, ...this.#now() };
    });
  }

  /**
   * Nothing ends the answers.
   * @returns {Promise<Answered>}
   */
  async stay() {
    return { reply: null, stale: false, replies: [], ...this.#now() };
  }

  /** Erases the answers. */
  end() {
    return this.#alone(async () => {
      this.#close();
      this.storage.removeItem(this.name);
      this.#revision = 0;
    });
  }

  /**
   * Runs a call while no other window runs one, where the browser can tell.
   * @template T
   * @param {() => Promise<T>} call
   * @returns {Promise<T>}
   */
  #alone(call) {
    const locks = globalThis.navigator?.locks;
    return locks ? locks.request(this.name, call) : call();
  }
}

/** Where revisions begin, at random of 52 bits: new answers don't pass for those that were erased. */
function firstRevision() {
  const [high = 0, low = 0] = crypto.getRandomValues(new Uint32Array(2));
  return (high >>> 12) * 2 ** 32 + low + 1;
}

/**
 * The reply to a line of these verbs, without the last newline.
 * @param {Session} session
 * @param {string} line
 * @param {Set<string>} verbs
 */
function told(session, line, verbs) {
  if (!verbs.has(String(line.split(" ", 1)[0])) || line.includes("\n")) return BAD_LINE;
  return session.line(line).replace(/\n$/, "");
}

/**
 * A session that goes on from a saved text, as a person may bring it.
 * @param {string} dictionary
 * @param {string} text
 */
async function resumed(dictionary, text) {
  try {
    return await Session.resume(dictionary, text);
  } catch (wrong) {
    if (wrong instanceof SavedRefused) throw new TextRefused();
    throw wrong;
  }
}

/**
 * Why a line isn't kept: the refusal of its answer, `override`, or `unknown` where the dictionary has no such list.
 * @param {import("../engine/index.js").Dropped} line
 */
function why({ kind, refused }) {
  return refused?.message ?? (kind === "override" ? "override" : "unknown");
}
