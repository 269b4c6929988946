// The figures, as they follow from the answers so far; each says why it is what it is.

import { arrange, heard, make } from "./elements.js";
import { reasonsOf } from "./screen.js";

/** @typedef {import("./screen.js").Shown} Shown */
/** @typedef {import("./words.js").Words} Words */

const BADGES = /** @type {const} */ (["final", "complete", "placeholder", "incomplete", "fault"]);

export class Results {
  /**
   * @param {Words} words @param {import("./session.js").Session} session
   * @param {() => void} move is told where the answers have moved
   * @param {(wrong: unknown) => void} fail
   */
  constructor(words, session, move, fail) {
    this.words = words;
    this.session = session;
    this.move = move;
    this.fail = fail;
    /** @type {Map<string, Result>} */
    this.results = new Map();
    this.list = make("dl", { class: "results" });
    this.outdated = make("p", { class: "outdated" }, words.text("outdated"));
    this.outdated.hidden = true;
    this.news = make("div", { class: "sr-only", role: "status" });
    const legend = BADGES.map((kind) => make("div", {}, make("dt", { class: `badge ${kind}` }, words.kind(kind)), make("dd", {}, words.text(TEXTS_OF[kind]))));
    this.element = make(
      "section", { class: "panel follows", "aria-labelledby": "results" },
      make("h2", { id: "results" }, words.text("results")), this.outdated, this.list, this.news, make("dl", { class: "legend" }, ...legend),
    );
  }

  /**
   * Shows the figures, and tells those who hear the page which have moved.
   * @param {Shown[]} figures
   */
  show(figures) {
    const moved = figures.filter((figure) => this.of(figure).show(figure));
    for (const slot of [...this.results.keys()]) {
      if (!figures.some((figure) => figure.slot === slot)) this.results.delete(slot);
    }
    arrange(this.list, figures.map((figure) => this.of(figure).element));
    const words = this.words;
    const said = moved.map((it) => words.text("moved", { label: words.fullLabel(it), value: words.value(it), kind: words.kind(it.result.kind) }));
    if (said.length > 0) this.news.replaceChildren(...said.map((line) => make("p", {}, line)));
  }

  /** @param {Shown} figure */
  of(figure) {
    const found = this.results.get(figure.slot) ?? new Result(figure, this);
    this.results.set(figure.slot, found);
    return found;
  }
}

const TEXTS_OF = /** @type {const} */ ({
  final: "isFinalText", complete: "isCompleteText", placeholder: "isEstimateText", incomplete: "isOpenText", fault: "isFaultText",
});

class Result {
  /** @param {Shown} figure @param {Results} all */
  constructor(figure, all) {
    this.all = all;
    this.slot = figure.slot;
    this.label = make("span");
    this.value = make("span", { class: "value" });
    this.badge = make("span", { class: "badge" });
    this.reasons = new Reasons(figure.slot, all);
    const { help, source } = all.words.about(figure.path);
    const hints = [help, source && all.words.text("belongs", { source })].filter(Boolean).map((line) => make("p", { class: "hint" }, line));
    this.element = make(
      "div", { class: "result", "data-slot": figure.slot },
      make("dt", {}, this.label), make("dd", {}, this.value, " ", this.badge, ...hints, this.reasons.element),
    );
    this.element.addEventListener("animationend", () => this.element.classList.remove("moved"));
    this.was = "";
  }

  /**
   * Shows what stands, and says whether it has moved since it was shown last.
   * @param {Shown} figure
   */
  show(figure) {
    const { words } = this.all;
    this.label.textContent = words.fullLabel(figure);
    this.reasons.name(words.fullLabel(figure));
    this.value.textContent = words.value(figure);
    this.badge.textContent = words.kind(figure.result.kind);
    this.badge.className = `badge ${figure.result.kind}`;
    Object.assign(this.element.dataset, { kind: figure.result.kind, text: figure.result.text });
    const is = `${this.value.textContent} ${this.badge.textContent}`;
    const isMoved = this.was !== "" && this.was !== is;
    this.was = is;
    this.element.classList.toggle("moved", isMoved);
    this.reasons.renew();
    return isMoved;
  }
}

/** What a figure is worked out from, opened when it is asked for; and of each part, what that is worked out from. */
class Reasons {
  /** @param {string} slot @param {Results} all */
  constructor(slot, all) {
    this.slot = slot;
    this.all = all;
    this.list = make("ul");
    this.about = heard("");
    this.element = make(
      "details", { class: "why", toggle: () => this.renew() },
      make("summary", {}, all.words.text("why"), " ", this.about), make("p", {}, all.words.text("whyText")), this.list,
    );
    /** @type {Map<string, Reasons>} */
    this.parts = new Map();
  }

  /** @param {string} label */
  name(label) {
    this.about.textContent = label;
  }

  /** Shows the reasons anew, where they are open. */
  async renew() {
    if (!this.element.open) return;
    try {
      const { value } = await this.all.session.settled((form) => reasonsOf(form, this.all.session.ask, this.slot));
      this.list.replaceChildren(...value.map((it) => this.row(it)));
      if (this.all.session.hasMoved()) this.all.move();
    } catch (wrong) {
      this.all.fail(wrong);
    }
  }

  /** @param {Shown} it */
  row(it) {
    const { words } = this.all;
    const fact = words.form.facts[it.path];
    const row = make("li", {}, make("span", {}, words.fullLabel(it)), ": ", make("strong", {}, words.value(it)));
    if (fact.isWritable) row.append(it.result.kind === "incomplete" ? "" : it.result.kind === "placeholder" ? ` (${words.kind("placeholder")})` : ` (${words.text("whyAnswer")})`);
    else row.append(this.part(it).element);
    return row;
  }

  /** @param {Shown} it */
  part(it) {
    const part = this.parts.get(it.slot) ?? new Reasons(it.slot, this.all);
    this.parts.set(it.slot, part);
    part.name(this.all.words.fullLabel(it));
    void part.renew();
    return part;
  }
}
