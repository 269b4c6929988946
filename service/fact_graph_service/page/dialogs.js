// What is asked before answers are erased, and the warning before their time is over.

import { button, make } from "./elements.js";

const WARN_SECONDS = 300;

export class Dialogs {
  /** @param {import("./interview.js").Interview} interview */
  constructor(interview) {
    this.interview = interview;
    this.element = make("div");
  }

  /** Asks before the answers are erased. */
  end() {
    const { words } = this.interview;
    this.ask(words.text("end"), words.text("endAsk"), words.text("endNo"), words.text("endYes"), () => this.interview.erase(false));
  }

  startOver() {
    const { words } = this.interview;
    this.ask(words.text("startOver"), words.text("startAsk"), words.text("endNo"), words.text("startYes"), () => this.interview.erase(true));
  }

  /**
   * Counts the seconds until the answers are erased, and warns before.
   * @param {number | null} seconds
   */
  count(seconds) {
    clearTimeout(this.timer);
    this.warning?.close();
    this.warning = undefined;
    if (seconds === null) return;
    const before = Math.min(WARN_SECONDS, seconds / 2);
    this.timer = setTimeout(() => this.warn(before), (seconds - before) * 1000);
  }

  /**
   * Warns, and once the time is over asks the engine whether it is.
   * @param {number} seconds
   */
  warn(seconds) {
    const { words } = this.interview;
    const minutes = Math.max(1, Math.round(seconds / 60));
    this.warning = this.open(words.text("timeHead"), words.text("timeText", { minutes }), [button(words.text("timeStay"), () => this.interview.stay())]);
    this.warning.addEventListener("cancel", () => this.interview.stay());
    this.timer = setTimeout(() => this.interview.refresh(), (seconds + 1) * 1000);
  }

  /** @param {string} head @param {string} text @param {string} no @param {string} yes @param {() => unknown} act */
  ask(head, text, no, yes, act) {
    const close = () => dialog.close();
    const dialog = this.open(head, text, [
      button(no, close, { class: "outline" }),
      button(yes, () => {
        close();
        act();
      }, { class: "danger" }),
    ]);
  }

  /** @param {string} head @param {string} text @param {HTMLElement[]} buttons */
  open(head, text, buttons) {
    const opener = /** @type {HTMLElement | null} */ (document.activeElement);
    const dialog = make("dialog", { "aria-labelledby": "dialog-head", "aria-describedby": "dialog-text" },
      make("h2", { id: "dialog-head" }, head), make("p", { id: "dialog-text" }, text), make("div", { class: "actions" }, ...buttons));
    dialog.addEventListener("close", () => {
      dialog.remove();
      opener?.focus();
    });
    this.element.replaceChildren(dialog);
    dialog.showModal();
    return dialog;
  }
}
