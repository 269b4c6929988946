// Changes on their way to the engine: one at a time, in the order in which they were made. One that can't be sent stays here, and is
// sent again with its id until the engine has answered it.

import { Unreachable } from "./session.js";

const FIRST_WAIT = 1;
const LONGEST_WAIT = 15;

/**
 * @typedef {import("./session.js").Change & { slot: string | null }} Waiting
 * @typedef {"idle" | "sending" | "waiting"} State
 */

export class Outbox {
  /**
   * @param {(change: Waiting) => Promise<void>} send sends a change, and is over once it is answered; throws `Unreachable`
   * @param {(state: State) => void} tell is told each state
   */
  constructor(send, tell) {
    this.send = send;
    this.tell = tell;
    /** @type {Waiting[]} */
    this.waiting = [];
    this.isRunning = false;
    this.wake = () => {};
    globalThis.addEventListener?.("online", () => this.wake());
  }

  /**
   * Takes a change. What comes is settled once it is answered.
   * @param {string} line @param {string | null} slot
   */
  put(line, slot) {
    this.waiting.push({ id: crypto.randomUUID(), line, slot });
    this.settled = this.isRunning ? this.settled : this.run();
    return this.settled;
  }

  /**
   * Whether a change of a slot isn't answered yet.
   * @param {string} slot
   */
  has(slot) {
    return this.waiting.some((change) => change.slot === slot);
  }

  /**
   * Lets go of what was made behind a change without a sight of what stands: other answers to its slot, and all steps.
   * @param {Waiting} change
   */
  withdraw(change) {
    this.waiting = this.waiting.filter((it) => it === change || (it.slot !== change.slot && it.slot !== null));
  }

  /** Lets go of all that is waiting. */
  drop() {
    this.waiting = [];
    this.wake();
  }

  /** Sends all that is waiting. */
  async run() {
    this.isRunning = true;
    let wait = FIRST_WAIT;
    while (this.waiting.length > 0) {
      this.tell("sending");
      try {
        const [change] = this.waiting;
        await this.send(change);
        this.waiting = this.waiting.filter((it) => it !== change);
        wait = FIRST_WAIT;
      } catch (wrong) {
        if (!(wrong instanceof Unreachable)) {
          this.isRunning = false;
          throw wrong;
        }
        this.tell("waiting");
        await this.pause(wrong.wait ?? wait);
        wait = Math.min(2 * wait, LONGEST_WAIT);
      }
    }
    this.isRunning = false;
    this.tell("idle");
  }

  /** @param {number} seconds */
  pause(seconds) {
    return new Promise((done) => {
      const timer = setTimeout(done, seconds * 1000);
      this.wake = () => {
        clearTimeout(timer);
        done(undefined);
      };
    });
  }
}
