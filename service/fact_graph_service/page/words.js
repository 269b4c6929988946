// The words of a form in a language: the page's own, the maker's, and values as people read them.

import { membersIn } from "./screen.js";
import { TEXTS, filled } from "./texts.js";
import { shown } from "./values.js";

/** @typedef {import("./texts.js").Name} Name */
/** @typedef {import("./screen.js").Shown} Shown */

const KINDS = /** @type {Record<string, Name>} */ ({ final: "isFinal", complete: "isComplete", placeholder: "isEstimate", incomplete: "isOpen", fault: "isFault" });
const FAULTS = /** @type {Record<string, Name>} */ ({ overflow: "overflow", "zero-divide": "zeroDivide" });
const CHECKS = /** @type {Record<string, Name>} */ ({ digits: "digits", "nine-digits": "nineDigits", "printable-ascii": "printableAscii", trimmed: "trimmed" });

export class Words {
  /**
   * @param {import("./screen.js").Form} form @param {string} language
   * @param {(slot: string) => string[]} membersOf the numbers of a collection's members, in order
   */
  constructor(form, language, membersOf) {
    this.form = form;
    this.language = language;
    this.own = TEXTS[language];
    this.makers = form.languages[language];
    this.membersOf = membersOf;
  }

  /**
   * A text of the page's own.
   * @param {Name} name @param {Record<string, string | number>} [given]
   */
  text(name, given) {
    return filled(this.own[name], given);
  }

  /** @param {string} path */
  label(path) {
    return this.makers.facts[path].label;
  }

  /** @param {string} path @returns {{ help: string, source: string }} */
  about(path) {
    return this.makers.facts[path];
  }

  /** @param {string} group */
  heading(group) {
    return this.makers.headings[group];
  }

  /**
   * The word for a member of a collection.
   * @param {string} collection
   */
  memberWord(collection) {
    return this.makers.members[`${collection}/*`] ?? this.text("member");
  }

  /**
   * The name of a member, as `Person 2`.
   * @param {string} collection @param {string} member
   */
  memberName(collection, member) {
    return `${this.memberWord(collection)} ${this.membersOf(collection).indexOf(member) + 1}`;
  }

  /**
   * The label of a slot, with the name of its member.
   * @param {Pick<Shown, "path" | "member">} it
   */
  fullLabel({ path, member }) {
    const home = this.form.facts[path].collection;
    return home && member ? `${this.memberName(home, member)}: ${this.label(path)}` : this.label(path);
  }

  /** @param {string} kind */
  kind(kind) {
    return this.text(KINDS[kind]);
  }

  /**
   * A result as people read it.
   * @param {Shown} it
   */
  value({ path, result }) {
    if (result.kind === "incomplete") return this.text("notYet");
    if (result.kind === "fault") return this.text(FAULTS[result.text]);
    return this.valueText(path, result.text);
  }

  /**
   * The text of a fact's value as people read it.
   * @param {string} path @param {string} text
   */
  valueText(path, text) {
    const { type, of } = this.form.facts[path];
    if (type === "Boolean") return this.text(text === "true" ? "yes" : "no");
    if (type === "Enum") return this.option(String(of), text);
    if (type === "Collection" || type === "Item") {
      return membersIn(text).map((member) => this.memberName(String(of), member)).join(", ") || this.text("nobody");
    }
    return shown(type, text, this.language);
  }

  /** @param {string} list @param {string} option */
  option(list, option) {
    return this.makers.options[list][option];
  }

  /**
   * Why an answer is refused, in words for whoever gave it.
   * @param {string} path @param {string} reply as `refused 7 Limit 2`
   */
  refusal(path, reply) {
    const [, number, , place] = reply.split(" ");
    const fact = this.form.facts[path];
    if (number === "9") return this.text("full");
    if (number === "6" && fact.type === "Dollar") return this.text("noAmount");
    if (number === "6" && fact.type === "Int") return this.text("noNumber");
    if (number === "6" && fact.type === "Rational") return this.text("noFraction");
    if (number === "2") return this.text("maxLength", { value: "1000" });
    if (!place) return this.text("refused");
    const [limit, bound] = fact.limits[Number(place) - 1];
    if (limit === "Check") return this.text(CHECKS[bound]);
    const value = limit === "MaxLength" ? bound : this.valueText(path, bound);
    const isDay = fact.type === "Day";
    const names = /** @type {Record<string, Name>} */ ({ Min: isDay ? "notBefore" : "atLeast", Max: isDay ? "notAfter" : "atMost", MaxLength: "maxLength" });
    return this.text(names[limit], { value });
  }
}
