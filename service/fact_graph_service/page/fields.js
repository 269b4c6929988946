// Fields, by the type of their fact. A field shows the answer that stands, hands on what a person answers, and says what is wrong.

import { button, heard, make } from "./elements.js";
import { read, readDay, written } from "./values.js";

/** @typedef {import("./screen.js").Question} Question */
/** @typedef {import("./words.js").Words} Words */
/** @typedef {(line: string, slot: string) => unknown} Put */

/** The most options that are shown as buttons side by side. */
const MOST_RADIOS = 6;

let count = 0;

/** What all fields have: a label, help, an error, a note on where the answer is on its way. */
class Field {
  /** @param {Question} question @param {Words} words @param {Put} put */
  constructor(question, words, put) {
    this.slot = question.slot;
    this.path = question.path;
    this.fact = words.form.facts[question.path];
    this.words = words;
    this.put = put;
    this.id = `field-${(count += 1)}`;
    this.error = "";
    this.answer = "";
    /** @type {boolean | undefined} */
    this.isRequired = undefined;
    this.hint = make("div", { class: "hint", id: `${this.id}-hint` });
    this.problem = make("p", { class: "error", id: `${this.id}-error`, role: "alert" });
    this.note = make("p", { class: "note", role: "status" });
    this.mark = make("span", { class: "mark" });
    /** @type {HTMLElement} */
    this.element = make("div");
    /** @type {HTMLElement[]} */
    this.controls = [];
  }

  /**
   * Puts the parts together.
   * @param {"div" | "fieldset"} tag @param {HTMLElement} label @param {Node[]} inputs
   */
  build(tag, label, inputs) {
    this.element = make(tag, { class: "field", "data-slot": this.slot }, label, this.hint, this.problem, ...inputs, this.note);
    this.describe();
  }

  /** The label with its mark. */
  named() {
    return [this.words.label(this.path), " ", this.mark];
  }

  describe() {
    for (const control of this.controls) control.setAttribute("aria-describedby", `${this.hint.id} ${this.problem.id}`);
  }

  /**
   * The elements that say whether an answer is needed, and whether it is wrong.
   * @returns {HTMLElement[]}
   */
  stating() {
    return this.controls;
  }

  /**
   * The words of an example.
   * @returns {string}
   */
  example() {
    return "";
  }

  /**
   * Shows what stands.
   * @param {Question} question @param {boolean} isKept whether the person's own text stays
   */
  show(question, isKept) {
    const { kind, text } = question.result;
    const { help, source } = this.words.about(this.path);
    if (question.isRequired !== null || this.isRequired === undefined) this.isRequired = question.isRequired ?? !this.fact.hasPlaceholder;
    this.mark.replaceChildren(this.isRequired ? make("abbr", { class: "required", title: this.words.text("required") }, "*") : `(${this.words.text("optional")})`);
    const standIn = kind === "placeholder" && this.words.text("standIn", { value: this.words.valueText(this.path, text) });
    const lines = [help, this.example(), standIn, source && this.words.text("source", { source })].filter(Boolean);
    this.hint.replaceChildren(...lines.map((line) => make("p", {}, String(line))));
    for (const element of this.stating()) element.setAttribute("aria-required", String(this.isRequired));
    this.answer = kind === "complete" ? text : "";
    if (isKept) return;
    this.fill(this.answer);
    this.say("");
  }

  /**
   * Puts an answer into the inputs.
   * @param {string} _ the engine's text, or an empty one
   */
  fill(_) {}

  /**
   * Says what is wrong, or with an empty text that nothing is.
   * @param {string} text
   */
  say(text) {
    if (text === this.error) return;
    this.error = text;
    this.problem.replaceChildren(...(text ? [heard(`${this.words.text("error")} `), text] : []));
    this.element.classList.toggle("wrong", text !== "");
    for (const element of this.stating()) element.setAttribute("aria-invalid", String(text !== ""));
    this.element.dispatchEvent(new Event("said", { bubbles: true }));
  }

  /**
   * Says how far an answer is on its way.
   * @param {"" | "sending" | "waiting"} state
   */
  tell(state) {
    this.note.textContent = state && this.words.text(state === "sending" ? "fieldSending" : "fieldWaiting");
    this.element.classList.toggle("unsaved", state === "waiting");
  }

  /**
   * Hands on what was read.
   * @param {import("./values.js").Read} given @param {boolean} isEmpty
   */
  hand(given, isEmpty) {
    if (isEmpty) {
      this.say("");
      if (this.answer !== "") this.put(`clear ${this.slot}`, this.slot);
    } else if ("problem" in given) {
      this.say(this.words.text(/** @type {any} */ (given.problem)));
    } else {
      this.say("");
      this.put(`set ${this.slot} ${given.text}`, this.slot);
    }
  }

  /** Hands on what a person wrote and hasn't left yet. */
  leave() {}

  /** Whether a person has written something that wasn't handed on. */
  isBeingWritten() {
    return false;
  }

  /** Whether there is no answer, and none was written. */
  isEmpty() {
    return this.answer === "";
  }

  focus() {
    this.controls[0]?.focus();
  }
}

/** One line of text: an amount, a number, a fraction, a text. */
class Line extends Field {
  /** @param {Question} question @param {Words} words @param {Put} put */
  constructor(question, words, put) {
    super(question, words, put);
    const isNumber = this.fact.type !== "Text";
    this.input = make("input", {
      id: this.id,
      type: "text",
      class: isNumber ? "input short" : "input",
      inputmode: this.fact.type === "Int" ? "numeric" : this.fact.type === "Dollar" ? "decimal" : undefined,
      autocomplete: this.fact.purpose || "off",
      change: () => this.leave(),
    });
    this.controls = [this.input];
    this.seen = "";
    const box = this.fact.type === "Dollar" ? make("div", { class: "money" }, make("span", { "aria-hidden": "true" }, "$"), this.input) : this.input;
    this.build("div", make("label", { for: this.id, class: "label" }, ...this.named()), [box]);
  }

  example() {
    return this.fact.type === "Dollar" ? this.words.text("amountHint") : this.fact.type === "Rational" ? this.words.text("rationalHint") : "";
  }

  /** @param {string} answer */
  fill(answer) {
    this.seen = answer && written(this.fact.type, answer);
    this.input.value = this.seen;
  }

  isBeingWritten() {
    return this.input.value !== this.seen;
  }

  leave() {
    if (!this.isBeingWritten()) return;
    this.seen = this.input.value;
    this.hand(read(this.fact.type, this.input.value), this.input.value.trim() === "");
  }

  isEmpty() {
    return this.input.value.trim() === "";
  }
}

/** A day, in three fields. */
class Day extends Field {
  /** @param {Question} question @param {Words} words @param {Put} put */
  constructor(question, words, put) {
    super(question, words, put);
    const part = (/** @type {"month" | "day" | "year"} */ name, /** @type {number} */ length) => {
      const id = `${this.id}-${name}`;
      const autocomplete = this.fact.purpose ? `${this.fact.purpose}-${name}` : "off";
      const input = make("input", { id, type: "text", inputmode: "numeric", maxlength: length, class: `input ${name}`, autocomplete });
      return { input, box: make("div", {}, make("label", { for: id, class: "small" }, words.text(name)), input) };
    };
    const parts = [part("month", 2), part("day", 2), part("year", 4)];
    this.inputs = parts.map((it) => it.input);
    this.controls = this.inputs;
    this.seen = this.written().join(" ");
    this.build("fieldset", make("legend", { class: "label" }, ...this.named()), [make("div", { class: "day-parts" }, ...parts.map((it) => it.box))]);
    this.element.addEventListener("focusout", (event) => {
      if (!this.element.contains(/** @type {Node | null} */ (event.relatedTarget))) this.leave();
    });
  }

  example() {
    return this.words.text("dayHint");
  }

  written() {
    return this.inputs.map((input) => input.value.trim());
  }

  /** @param {string} answer */
  fill(answer) {
    const [year, month, day] = answer ? answer.split("-") : ["", "", ""];
    [month, day].forEach((text, at) => { this.inputs[at].value = text.replace(/^0/, ""); });
    this.inputs[2].value = year;
    this.seen = this.written().join(" ");
  }

  isBeingWritten() {
    return this.written().join(" ") !== this.seen;
  }

  leave() {
    const [month, day, year] = this.written();
    if (!this.isBeingWritten()) return;
    this.seen = this.written().join(" ");
    this.hand(readDay(year, month, day), this.isEmpty());
  }

  isEmpty() {
    return this.written().join("") === "";
  }
}

/** One of a few choices, as buttons side by side. */
class Choice extends Field {
  /** @param {Question} question @param {Words} words @param {Put} put @param {[string, string][]} options */
  constructor(question, words, put, options) {
    super(question, words, put);
    const choices = options.map(([value, label], at) => {
      const id = `${this.id}-${at}`;
      const input = make("input", { id, type: "radio", name: this.id, value, class: "radio", change: () => this.hand({ text: value }, false) });
      return { input, box: make("div", { class: "choice" }, input, make("label", { for: id }, label)) };
    });
    this.inputs = choices.map((it) => it.input);
    this.controls = this.inputs;
    this.clear = button(words.text("clear"), () => this.cleared(), { class: "plain", about: words.label(this.path) });
    const legend = make("legend", { class: "label", id: `${this.id}-legend` }, ...this.named());
    this.build("fieldset", legend, [make("div", { class: "choices" }, ...choices.map((it) => it.box), this.clear)]);
    this.element.setAttribute("role", "radiogroup");
    this.element.setAttribute("aria-labelledby", legend.id);
  }

  stating() {
    return [this.element];
  }

  cleared() {
    this.hand({ text: "" }, true);
    this.focus();
  }

  describe() {
    this.element.setAttribute("aria-describedby", `${this.hint.id} ${this.problem.id}`);
  }

  /** @param {string} answer */
  fill(answer) {
    for (const input of this.inputs) input.checked = input.value === answer;
    this.clear.hidden = answer === "";
  }

  focus() {
    (this.inputs.find((input) => input.checked) ?? this.inputs[0]).focus();
  }
}

/** One of many choices. */
class Select extends Field {
  /** @param {Question} question @param {Words} words @param {Put} put @param {[string, string][]} options */
  constructor(question, words, put, options) {
    super(question, words, put);
    const choices = [["", words.text("choose")], ...options].map(([value, label]) => make("option", { value }, label));
    this.select = make("select", { id: this.id, class: "input", change: () => this.hand({ text: this.select.value }, this.select.value === "") }, ...choices);
    this.controls = [this.select];
    this.build("div", make("label", { for: this.id, class: "label" }, ...this.named()), [this.select]);
  }

  /** @param {string} answer */
  fill(answer) {
    this.select.value = answer;
  }
}

/** A list of members, to which some are added and from which some are taken out. */
class Members extends Field {
  /** @param {Question} question @param {Words} words @param {Put} put */
  constructor(question, words, put) {
    super(question, words, put);
    const word = words.memberWord(this.slot);
    const label = words.label(this.path);
    this.place = make("div", { class: "members" });
    this.add = button(words.text("add", { member: word.toLowerCase() }), () => this.added(), { class: "outline", about: words.text("addTo", { label }) });
    this.none = button(words.text("none"), () => this.opened(), { class: "plain", about: words.text("noneOf", { label }) });
    this.controls = [this.add];
    /** @type {Map<string, { element: HTMLElement, fields: HTMLElement, names: HTMLElement[] }>} */
    this.boxes = new Map();
    this.build("fieldset", make("legend", { class: "label" }, ...this.named()), [this.place, make("div", { class: "actions" }, this.add, this.none)]);
    this.element.classList.add("collection");
  }

  stating() {
    return [];
  }

  describe() {
    this.element.setAttribute("aria-describedby", `${this.hint.id} ${this.problem.id}`);
  }

  async added() {
    const before = new Set(this.boxes.keys());
    this.say("");
    await this.put(`add ${this.slot}`, this.slot);
    const made = [...this.boxes].find(([member]) => !before.has(member));
    /** @type {HTMLElement | null | undefined} */ (made?.[1].fields.querySelector("input, select"))?.focus();
  }

  async opened() {
    await this.put(`open ${this.slot}`, this.slot);
    this.add.focus();
  }

  /** @param {string} member */
  async removed(member) {
    await this.put(`remove ${this.slot} #${member}`, this.slot);
    this.add.focus();
  }

  /** @param {Question} question @param {boolean} isKept */
  show(question, isKept) {
    super.show(question, isKept);
    this.none.hidden = question.result.kind === "complete";
    const members = this.words.membersOf(this.slot);
    for (const member of [...this.boxes.keys()]) {
      if (!members.includes(member)) this.boxes.delete(member);
    }
    for (const member of members) {
      if (!this.boxes.has(member)) this.boxes.set(member, this.box(member));
    }
    for (const [member, { names }] of this.boxes) {
      for (const name of names) name.textContent = this.words.memberName(this.slot, member);
    }
  }

  /** @param {string} member */
  box(member) {
    const fields = make("div");
    const names = [make("legend"), heard("")];
    const remove = button(this.words.text("remove"), () => this.removed(member), { class: "plain" });
    remove.append(" ", names[1]);
    return { element: make("fieldset", { class: "member", "data-member": member }, names[0], fields, remove), fields, names };
  }
}

/**
 * The field of a question.
 * @param {Question} question @param {Words} words @param {Put} put @returns {Field}
 */
export function fieldOf(question, words, put) {
  const fact = words.form.facts[question.path];
  if (fact.type === "Collection") return new Members(question, words, put);
  if (fact.type === "Day") return new Day(question, words, put);
  if (fact.type === "Boolean") return new Choice(question, words, put, [["true", words.text("yes")], ["false", words.text("no")]]);
  if (fact.type !== "Enum") return new Line(question, words, put);
  const options = /** @type {[string, string][]} */ ((fact.options ?? []).map((option) => [option, words.option(String(fact.of), option)]));
  return options.length > MOST_RADIOS ? new Select(question, words, put, options) : new Choice(question, words, put, options);
}

export { Field, Members };
