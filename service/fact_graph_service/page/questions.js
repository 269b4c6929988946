// The questions: all on one screen, or one a screen, as the maker says.

import { arrange, button, make } from "./elements.js";
import { Members, fieldOf } from "./fields.js";
import { groupsOf, stepsOf } from "./screen.js";

/** @typedef {import("./screen.js").Question} Question */
/** @typedef {import("./screen.js").Screen} Screen */
/** @typedef {import("./words.js").Words} Words */

export class Questions {
  /**
   * @param {Words} words @param {import("./fields.js").Put} put @param {() => unknown} review
   * @param {() => Promise<unknown>} sent is over once all that was handed on is answered
   */
  constructor(words, put, review, sent) {
    this.words = words;
    this.put = put;
    this.review = review;
    this.sent = sent;
    this.isOne = words.form.layout === "one";
    /** @type {Map<string, import("./fields.js").Field>} */
    this.fields = new Map();
    /**
     * The boxes of the groups, by their names.
     * @type {Map<string, HTMLElement>}
     */
    this.groups = new Map();
    /** @type {Question[]} */
    this.steps = [];
    /** @type {string | null} */
    this.current = null;
    this.heading = make("h2", { tabindex: "-1", id: "asked" }, words.text("questions"));
    this.progress = make("p", { class: "progress", role: "status" });
    this.summary = make("div", { class: "summary", tabindex: "-1", role: "group" });
    this.summary.hidden = true;
    this.list = make("div", { class: "questions" });
    this.at = make("p", { class: "step" });
    this.member = make("p", { class: "member-name" });
    this.back = button(words.text("back"), () => this.move(-1), { class: "outline" });
    const next = this.isOne ? button(words.text("next"), () => this.move(1)) : button(words.text("review"), review);
    this.element = make(
      "section", { class: "panel asked", "aria-labelledby": "asked" },
      this.heading, this.progress, make("p", { class: "needed" }, words.text("requiredNote")), this.summary, this.isOne && this.at, this.list,
      make("div", { class: "actions" }, this.isOne && this.back, next),
    );
    this.list.addEventListener("said", () => this.showSummary());
    this.list.addEventListener("keydown", (event) => {
      if (this.isOne && event.key === "Enter" && event.target instanceof HTMLInputElement) void this.move(1);
    });
  }

  // ---- what is shown

  /**
   * Shows the questions. A field keeps what the person wrote as long as that isn't answered.
   * @param {Screen} screen @param {(slot: string) => boolean} isWaiting
   */
  show(screen, isWaiting) {
    const hadFocus = this.list.contains(document.activeElement);
    this.steps = stepsOf(screen);
    for (const question of this.steps) {
      const field = this.field(question);
      field.show(question, isWaiting(question.slot) || field.error !== "" || field.isBeingWritten());
    }
    for (const slot of [...this.fields.keys()]) {
      if (!this.steps.some((it) => it.slot === slot)) this.fields.delete(slot);
    }
    if (this.isOne) this.showOne();
    else this.showAll();
    this.progress.textContent = progressOf(screen, this.words);
    this.showSummary();
    if (hadFocus && !this.list.contains(document.activeElement)) this.heading.focus();
  }

  /** @param {Question} question */
  field(question) {
    const found = this.fields.get(question.slot) ?? fieldOf(question, this.words, this.put);
    this.fields.set(question.slot, found);
    return found;
  }

  /** All on one screen, by their groups, those of a member in the member's box. */
  showAll() {
    const elements = (/** @type {Question[]} */ questions) => questions.map((it) => this.field(it).element);
    arrange(this.list, groupsOf(this.words.form, this.steps).flatMap(({ group, steps }) => {
      const own = elements(steps.filter((it) => it.member === null));
      return group === null ? own : [this.group(group, own)];
    }));
    for (const collection of this.fields.values()) {
      if (!(collection instanceof Members)) continue;
      arrange(collection.place, [...collection.boxes.values()].map((box) => box.element));
      for (const [member, box] of collection.boxes) {
        arrange(box.fields, elements(this.steps.filter((it) => it.member === member && it.slot.startsWith(`${collection.slot}/#`))));
      }
    }
  }

  /**
   * The box of a group, under its heading.
   * @param {string} name @param {HTMLElement[]} elements
   */
  group(name, elements) {
    const box = this.groups.get(name) ?? make("div", { class: "group", "data-group": name });
    this.groups.set(name, box);
    const [heading = make("h3", {}, this.words.heading(name))] = box.children;
    arrange(box, [heading, ...elements]);
    return box;
  }

  /** The one at which the person is. */
  showOne() {
    const at = Math.max(0, this.steps.findIndex((it) => it.slot === this.current));
    const step = this.steps[at];
    this.current = step?.slot ?? null;
    this.back.hidden = at === 0;
    this.at.textContent = this.words.text("step", { at: at + 1, count: this.steps.length });
    if (!step) return arrange(this.list, []);
    const field = this.field(step);
    if (field instanceof Members) arrange(field.place, [...field.boxes.values()].map((box) => box.element));
    const home = this.words.form.facts[step.path].collection;
    this.member.textContent = home && step.member ? this.words.memberName(home, step.member) : "";
    const own = home ? [this.member, field.element] : [field.element];
    const [{ group }] = groupsOf(this.words.form, [step]);
    arrange(this.list, group === null ? own : [this.group(group, own)]);
  }

  // ---- what is wrong

  /**
   * Says of a slot what is wrong.
   * @param {string} slot @param {string} text
   */
  say(slot, text) {
    this.fields.get(slot)?.say(text);
    this.showSummary();
  }

  /** The fields with an error. */
  wrong() {
    return [...this.fields.values()].filter((field) => field.error !== "");
  }

  /** One place that has all that is wrong. */
  showSummary() {
    const wrong = this.wrong();
    this.summary.hidden = wrong.length === 0;
    this.summary.removeAttribute("aria-labelledby");
    if (wrong.length === 0) return this.summary.replaceChildren();
    const head = wrong.length === 1 ? this.words.text("errorsHead") : this.words.text("errorsHeadMany", { count: wrong.length });
    const link = (/** @type {import("./fields.js").Field} */ field) => {
      const label = this.words.fullLabel({ path: field.path, member: /#(\d+)/.exec(field.slot)?.[1] ?? null });
      const go = make("a", { href: `#${field.controls[0].id}`, click: (/** @type {Event} */ event) => { event.preventDefault(); this.goTo(field.slot); } }, `${label}: ${field.error}`);
      return make("li", {}, go);
    };
    this.summary.replaceChildren(make("h3", { id: "summary" }, head), make("ul", {}, ...wrong.map(link)));
    this.summary.setAttribute("aria-labelledby", "summary");
  }

  /** Shows what is wrong, if anything is, and goes there. */
  showErrors() {
    this.showSummary();
    if (this.summary.hidden) return false;
    this.summary.focus();
    return true;
  }

  // ---- what a person does

  /** Hands on what was written and not left yet. */
  leave() {
    for (const field of this.fields.values()) field.leave();
  }

  /** Puts the answers that stand back into fields that have an error. */
  restore() {
    for (const field of this.wrong()) {
      field.say("");
      field.fill(field.answer);
    }
    this.showSummary();
  }

  /** Forgets all that was written, as where other answers are taken. */
  forget() {
    this.fields.clear();
  }

  /**
   * Goes to a question.
   * @param {string | null} slot
   */
  goTo(slot) {
    if (this.isOne) {
      this.current = slot ?? this.current;
      this.showOne();
    }
    const field = slot && this.fields.get(slot);
    if (field) field.focus();
    else this.heading.focus();
  }

  /**
   * Goes to the question before or behind, once what was written is answered.
   * @param {1 | -1} way
   */
  async move(way) {
    const field = this.current ? this.fields.get(this.current) : undefined;
    if (field && way === 1) {
      field.leave();
      await this.sent();
      if (field.error === "" && field.isRequired && field.isEmpty()) field.say(this.words.text("unanswered"));
      if (field.error !== "") return this.showErrors();
    }
    const at = this.steps.findIndex((it) => it.slot === this.current) + way;
    const open = this.steps.find((it) => it.isRequired);
    if (at >= this.steps.length && !open) return this.review();
    return this.goTo((this.steps[at] ?? open)?.slot ?? null);
  }

  /**
   * Says of each field how far its answer is on its way.
   * @param {(slot: string) => "" | "sending" | "waiting"} stateOf
   */
  tell(stateOf) {
    for (const field of this.fields.values()) field.tell(stateOf(field.slot));
  }
}

/**
 * How far one has come, and never that all is there where it isn't.
 * @param {Screen} screen @param {Words} words
 */
export function progressOf(screen, words) {
  const labels = (/** @type {string[]} */ slots) => screen.figures.filter((it) => slots.includes(it.slot)).map((it) => words.fullLabel(it)).join("; ");
  const counted = (/** @type {any} */ one, /** @type {any} */ many, /** @type {number} */ count) => (count === 1 ? words.text(one) : words.text(many, { count }));
  if (screen.required > 0) return counted("progressRequiredOne", "progressRequired", screen.required);
  if (screen.faults.length > 0) return words.text("progressFaults", { labels: labels(screen.faults) });
  if (screen.wanting.length > 0) return words.text("progressWanting", { labels: labels(screen.wanting) });
  if (screen.optional > 0 && screen.estimates.length > 0) return counted("progressOptionalOne", "progressOptional", screen.optional);
  if (screen.optional > 0) return counted("progressMoreOne", "progressMore", screen.optional);
  return words.text("progressAll");
}
