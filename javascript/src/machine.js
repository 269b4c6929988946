// The module and its memory: the functions of fact_graph.h, and the texts that go in and come out.

import { DictionaryRefused, EngineStopped, OutOfMemory, SavedRefused, UnknownDictionary } from "./errors.js";

const SAID = 0, OVER = 1;
const FAULT_MEMORY = 15, FAULT_SAVED = 16, FAULT_UNKNOWN = 17;
const ABSENT = 0xffffffff;
// One byte more than the engine takes is refused as all that is longer, so no more is handed over.
const LINE = 4_097, DICTIONARY = 8_388_609, SAVED = 67_108_865;
// A session has a block of the memory: its handle, the size of its text, and its fault of five numbers.
const HANDLE = 0, SIZE = 8, FAULT = 16, BLOCK = 40;
// The room for replies, of which a longer one is read in pieces: once a line is answered, no memory is wanting.
const ROOM = 65_536;
// A line of so many characters, or a reply of so many bytes, is short: it is written and read in less time by its numbers.
const SHORT = 100;
// The bits of four bytes that no character of ASCII has.
const NOT_ASCII = 0x80808080;

const encoder = new TextEncoder();
const decoder = new TextDecoder("utf-8", { fatal: true, ignoreBOM: true });

/** @typedef {(...numbers: number[]) => number} Call */
/** @typedef {"open" | "load" | "carry" | "resume" | "open_built_in"} Beginning */

/**
 * The bytes of a text. Throws TypeError where it isn't well formed.
 * @param {string | Uint8Array} text
 */
export function bytesOf(text) {
  if (typeof text !== "string") return text;
  if (/\p{Surrogate}/u.test(text)) throw new TypeError("the text has half a surrogate pair");
  return encoder.encode(text);
}

/**
 * The text of bytes, which are UTF-8.
 * @param {Uint8Array} bytes
 */
export function textOfBytes(bytes) {
  return decoder.decode(bytes);
}

/** An instance of the module, whose sessions share its memory. Each call of it ends before the next begins. */
export class Machine {
  /** @type {Record<string, Call>} */
  #calls;
  #answer;
  #read;
  #memory;
  #bytes;
  #numbers;
  /** @type {unknown} */
  #stopped = null;
  #input;
  #output;
  // sessions that nobody closed, nor can
  #abandoned = new FinalizationRegistry((/** @type {number} */ block) => this.end(block));

  /**
   * @param {WebAssembly.Instance} instance
   */
  constructor(instance) {
    this.#calls = /** @type {Record<string, Call>} */ (/** @type {unknown} */ (instance.exports));
    // each line calls these two, and not by `call`, which makes a list of the numbers
    this.#answer = /** @type {Call} */ (this.#calls.fact_graph_answer);
    this.#read = /** @type {Call} */ (this.#calls.fact_graph_read);
    this.#memory = /** @type {WebAssembly.Memory} */ (instance.exports.memory);
    this.#bytes = new Uint8Array(this.#memory.buffer);
    this.#numbers = new DataView(this.#memory.buffer);
    this.#input = this.#taken(LINE);
    this.#output = this.#taken(ROOM);
  }

  /** The bytes of the memory. It never becomes less. */
  get memorySize() {
    return this.#memory.buffer.byteLength;
  }

  /** Whether a call trapped, so that none can be made any more. */
  get hasStopped() {
    return this.#stopped !== null;
  }

  /**
   * Keeps the memory below so many bytes.
   * @param {number} bytes
   */
  keepBelow(bytes) {
    this.call("keep_below", Math.min(bytes, ABSENT));
  }

  /**
   * Calls a function of the module.
   * @param {string} name
   * @param {...number} numbers
   */
  call(name, ...numbers) {
    this.#hold();
    try {
      return /** @type {Call} */ (this.#calls[name])(...numbers) >>> 0;
    } catch (cause) {
      this.#stopped = cause; // (first, since little of the stack may be left)
      throw stopped(cause);
    } finally {
      this.#look();
    }
  }

  #hold() {
    if (this.#stopped) throw stopped(this.#stopped);
  }

  /** Looks at the memory anew where it grew: the views of before have nothing then. */
  #look() {
    if (this.#bytes.length) return;
    this.#bytes = new Uint8Array(this.#memory.buffer);
    this.#numbers = new DataView(this.#memory.buffer);
  }

  /**
   * A number of 32 bits in the memory.
   * @param {number} at
   */
  number(at) {
    return this.#numbers.getUint32(at, true);
  }

  /** @param {number} size */
  #taken(size) {
    const at = this.call("allocate", size);
    if (!at) throw new OutOfMemory("no memory");
    return at;
  }

  /**
   * Puts bytes into a block of their own.
   * @param {Uint8Array} bytes
   * @returns {[number, number]} where it is, and its size
   */
  #put(bytes) {
    const at = this.#taken(bytes.length);
    this.#bytes.set(bytes, at);
    return [at, bytes.length];
  }

  /**
   * Puts a line into the room for lines, and tells its size.
   * @param {string | Uint8Array} line
   */
  #putLine(line) {
    const bytes = this.#bytes, at = this.#input;
    if (typeof line === "string" && line.length <= SHORT) {
      let size = 0;
      for (let code; size < line.length && (code = line.charCodeAt(size)) < 128; size++) bytes[at + size] = code;
      if (size === line.length) return size;
    }
    const whole = bytesOf(line);
    const given = whole.length > LINE ? whole.subarray(0, LINE) : whole;
    bytes.set(given, at);
    return given.length;
  }

  /**
   * Begins a session: `open` over a dictionary, `load`, `carry` or `resume` with a saved text, or `open_built_in` over the dictionary of these
   * words that comes with the engine. Returns its block. What `carry` and `resume` don't keep is the session's text.
   * @param {Beginning} how
   * @param {Uint8Array} dictionary
   * @param {Uint8Array} [saved]
   */
  begin(how, dictionary, saved) {
    return this.#blockOf((block) => {
      /** @type {number[]} */
      const taken = [];
      try {
        const texts = [dictionary.subarray(0, DICTIONARY), ...(saved ? [saved.subarray(0, SAVED)] : [])].flatMap((bytes) => {
          const [at, size] = this.#put(bytes);
          taken.push(at);
          return [at, size];
        });
        const places = [block + HANDLE, ...(how === "carry" || how === "resume" ? [block + SIZE] : []), block + FAULT];
        return this.call(`fact_graph_${how}`, ...texts, ...places);
      } finally {
        if (!this.#stopped) taken.forEach((at) => this.call("release", at));
      }
    });
  }

  /**
   * Begins a further session over the dictionary of the one in a block. Returns its block.
   * @param {number} of
   */
  further(of) {
    return this.#blockOf((block) => this.call("fact_graph_further", this.number(of + HANDLE), block + HANDLE, block + FAULT, of + HANDLE));
  }

  /**
   * A block with the session that begins in it. Where none does, the block is given back.
   * @param {(block: number) => number} begin returns the number of the fault
   */
  #blockOf(begin) {
    const block = this.#taken(BLOCK);
    this.#bytes.fill(0, block, block + BLOCK);
    let hasBegun = false;
    try {
      const number = begin(block);
      if (number) throw this.#fault(number, block + FAULT);
      hasBegun = true;
      return block;
    } finally {
      if (!hasBegun && !this.#stopped) this.call("release", block);
    }
  }

  /**
   * @param {number} number
   * @param {number} at
   */
  #fault(number, at) {
    if (number === FAULT_MEMORY) return new OutOfMemory("no memory for a session");
    if (number === FAULT_SAVED) return new SavedRefused(this.number(at + 16));
    if (number === FAULT_UNKNOWN) return new UnknownDictionary("no dictionary of these words comes with the engine");
    const [fact, node, what] = [4, 8, 12].map((from) => this.number(at + from)).map((place) => (place === ABSENT ? null : place));
    return new DictionaryRefused(number, fact ?? null, node ?? null, what ?? null);
  }

  /**
   * Has a session closed once nothing refers to its owner any more.
   * @param {object} owner
   * @param {number} block
   */
  closeWith(owner, block) {
    this.#abandoned.register(owner, block, owner);
  }

  /**
   * Ends a session that its owner closes.
   * @param {object} owner
   * @param {number} block
   */
  close(owner, block) {
    this.#abandoned.unregister(owner);
    this.end(block);
  }

  /**
   * Ends a session.
   * @param {number} block
   */
  end(block) {
    if (this.#stopped) return;
    this.call("fact_graph_close", this.number(block + HANDLE));
    this.call("release", block);
  }

  /**
   * Answers a line of a session, and returns the bytes of its reply, which the next call ends; null from `quit` on.
   * @param {number} block
   * @param {string | Uint8Array} line
   */
  answer(block, line) {
    return this.#says(block, line) ? this.text(block) : null;
  }

  /**
   * Answers a line of a session, and returns its reply; null from `quit` on.
   * @param {number} block
   * @param {string} line
   */
  reply(block, line) {
    return this.#says(block, line) ? this.#said(block) : null;
  }

  /**
   * Answers a line, and tells whether the script goes on.
   * @param {number} block
   * @param {string | Uint8Array} line
   */
  #says(block, line) {
    const size = this.#putLine(line);
    this.#hold();
    let how;
    try {
      how = this.#answer(this.number(block + HANDLE), this.#input, size, block + SIZE, block + HANDLE);
    } catch (cause) {
      this.#stopped = cause;
      throw stopped(cause);
    }
    this.#look();
    if (how !== SAID && how !== OVER) throw new OutOfMemory("no memory for the reply");
    return how === SAID;
  }

  /**
   * The bytes of what a call says that changes nothing, which the next call ends.
   * @param {"save" | "reads" | "dictionary" | "facts" | "description"} name
   * @param {number} block
   * @param {...number} given
   */
  #saidBy(name, block, ...given) {
    const how = this.call(`fact_graph_${name}`, this.number(block + HANDLE), ...given, block + SIZE, block + HANDLE);
    if (how !== SAID) throw new OutOfMemory("no memory for the text");
    const text = this.text(block);
    if (text.length > ROOM) this.call("fact_graph_trim", this.number(block + HANDLE), block + HANDLE);
    return text;
  }

  /**
   * The bytes of the paths of the slots that a slot reads, each with its newline, or of a refusal; the next call ends them.
   * @param {number} block
   * @param {string} slot
   */
  reads(block, slot) {
    return this.#saidBy("reads", block, this.#input, this.#putLine(slot));
  }

  /**
   * The bytes of a session's dictionary as JSON, which the next call ends.
   * @param {number} block
   */
  dictionary(block) {
    return this.#saidBy("dictionary", block);
  }

  /**
   * The bytes of the list of its facts, which the next call ends.
   * @param {number} block
   */
  facts(block) {
    return this.#saidBy("facts", block);
  }

  /**
   * The bytes of the description of the fact with this number, from 1, which the next call ends.
   * @param {number} block
   * @param {number} fact
   */
  description(block, fact) {
    return this.#saidBy("description", block, fact);
  }

  /**
   * Forgets all changes of a session that can be undone but the newest.
   * @param {number} block
   * @param {number} most
   */
  keepChanges(block, most) {
    this.call("fact_graph_keep_changes", this.number(block + HANDLE), Math.min(most, ABSENT), block + HANDLE);
  }

  /**
   * The bytes of a session's saved text, which the next call ends.
   * @param {number} block
   */
  save(block) {
    return this.#saidBy("save", block);
  }

  /**
   * The bytes of what a session said last, which the next call ends.
   * @param {number} block
   */
  text(block) {
    const size = this.number(block + SIZE);
    if (size <= ROOM) return this.#piece(block, 0);
    const whole = new Uint8Array(size);
    for (let from = 0; from < size; from += ROOM) whole.set(this.#piece(block, from), from);
    return whole;
  }

  /**
   * What a session said last.
   * @param {number} block
   */
  #said(block) {
    const size = this.number(block + SIZE);
    if (size > SHORT) return textOfBytes(this.text(block));
    this.#copy(block, 0);
    const numbers = this.#numbers, end = this.#output + size;
    let text = "", at = this.#output;
    for (; at + 16 <= end; at += 16) {
      const a = numbers.getUint32(at, true), b = numbers.getUint32(at + 4, true), c = numbers.getUint32(at + 8, true), d = numbers.getUint32(at + 12, true);
      if ((a | b | c | d) & NOT_ASCII) return textOfBytes(this.text(block));
      text += String.fromCharCode(
        a & 127, (a >> 8) & 127, (a >> 16) & 127, a >> 24, b & 127, (b >> 8) & 127, (b >> 16) & 127, b >> 24,
        c & 127, (c >> 8) & 127, (c >> 16) & 127, c >> 24, d & 127, (d >> 8) & 127, (d >> 16) & 127, d >> 24,
      );
    }
    for (; at + 4 <= end; at += 4) {
      const a = numbers.getUint32(at, true);
      if (a & NOT_ASCII) return textOfBytes(this.text(block));
      text += String.fromCharCode(a & 127, (a >> 8) & 127, (a >> 16) & 127, a >> 24);
    }
    for (; at < end; at++) {
      const byte = numbers.getUint8(at);
      if (byte > 127) return textOfBytes(this.text(block));
      text += String.fromCharCode(byte);
    }
    return text;
  }

  /**
   * The bytes of what a session said last, from one on, as far as there is room for them.
   * @param {number} block
   * @param {number} from
   */
  #piece(block, from) {
    const count = this.#copy(block, from);
    return this.#bytes.subarray(this.#output, this.#output + count);
  }

  /**
   * Copies what a session said last, from a byte on, into the room for replies. Returns how many bytes were copied.
   * @param {number} block
   * @param {number} from
   */
  #copy(block, from) {
    this.#hold();
    try {
      return this.#read(this.number(block + HANDLE), from, this.#output, ROOM, block + HANDLE);
    } catch (cause) {
      this.#stopped = cause;
      throw stopped(cause);
    }
  }
}

/** @param {unknown} cause */
function stopped(cause) {
  return new EngineStopped(`the engine stopped: ${cause}`, { cause });
}
