// All answers, to be read through before the end.

import { button, make } from "./elements.js";
import { groupsOf, stepsOf } from "./screen.js";

export class Review {
  /** @param {import("./words.js").Words} words @param {(slot: string | null) => unknown} change goes to a question */
  constructor(words, change) {
    this.words = words;
    this.change = change;
    this.heading = make("h2", { id: "reviewed", tabindex: "-1" }, words.text("reviewHead"));
    this.list = make("div", { class: "answers" });
    this.progress = make("p", { class: "progress" });
    this.element = make(
      "section", { class: "panel review", "aria-labelledby": "reviewed" },
      this.heading, this.progress, make("p", {}, words.text("reviewNote")), this.list,
      make("div", { class: "actions" }, button(words.text("toQuestions"), () => change(null), { class: "outline" }), button(words.text("print"), () => print())),
    );
    this.element.hidden = true;
  }

  /** @param {import("./screen.js").Screen} screen @param {string} progress */
  show(screen, progress) {
    this.progress.textContent = progress;
    this.list.replaceChildren(...groupsOf(this.words.form, stepsOf(screen)).flatMap(({ group, steps }) => [
      ...(group === null ? [] : [make("h3", {}, this.words.heading(group))]),
      make("dl", {}, ...steps.map((question) => this.row(question))),
    ]));
  }

  /** @param {import("./screen.js").Question} question */
  row(question) {
    const { words } = this;
    const label = words.fullLabel(question);
    const isAnswered = question.result.kind === "complete";
    const answer = isAnswered ? words.value(question) : words.text("notAnswered");
    return make(
      "div", { class: isAnswered ? "answer" : "answer wanting", "data-slot": question.slot },
      make("dt", {}, label), make("dd", {}, answer, " ", button(words.text("change"), () => this.change(question.slot), { class: "plain", about: label })),
    );
  }
}
