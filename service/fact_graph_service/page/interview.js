// An interview on the page: questions, results, and what a person does with them.

import { Dialogs } from "./dialogs.js";
import { button, make } from "./elements.js";
import { Outbox } from "./outbox.js";
import { Questions, progressOf } from "./questions.js";
import { Results } from "./results.js";
import { Review } from "./review.js";
import { membersIn, pathOf } from "./screen.js";
import { Ended, Session, TextRefused, Unreachable } from "./session.js";
import { TEXTS } from "./texts.js";
import { Words } from "./words.js";

/** @typedef {import("./outbox.js").Waiting} Waiting */
/** @typedef {import("./screen.js").Screen} Screen */

/** How long a call may take before the page says that it is under way. */
const QUIET_MILLISECONDS = 300;
const LARGEST_TEXT = 4_000_000;
/** Where the results stand beside the questions, and not above them: the same words are in style.css. */
const WIDE = "(min-width: 60rem)";

export class Interview {
  /** @param {import("./session.js").Engine} engine @param {HTMLElement} place */
  constructor(engine, place) {
    this.engine = engine;
    this.place = place;
    this.session = new Session(engine);
    this.outbox = new Outbox((change) => this.send(change), (state) => this.tell(state));
    this.words = this.wordsOf(firstLanguage(Object.keys(engine.form.languages)));
    this.dialogs = new Dialogs(this);
    /** @type {Screen | null} */
    this.screen = null;
    this.isReview = false;
    this.hasEnded = false;
    this.done = "";
    addEventListener("beforeunload", (event) => {
      if (this.outbox.waiting.length > 0) event.preventDefault();
    });
    this.parts = this.made();
    this.isWide = matchMedia(WIDE);
    this.isWide.addEventListener("change", () => this.order());
    this.build();
  }

  /** @param {string} language */
  wordsOf(language) {
    return new Words(this.engine.form, language, (slot) => membersIn(this.session.known.get(`get ${slot}`) ?? ""));
  }

  async begin() {
    await this.refresh();
  }

  // ---- the parts of the page

  /** Makes the parts of the page, in the language that is chosen. */
  made() {
    const { words } = this;
    const put = (/** @type {string} */ line, /** @type {string} */ slot) => this.put(line, slot);
    return {
      questions: new Questions(words, put, () => this.review(), async () => this.outbox.settled),
      results: new Results(words, this.session, () => this.moved(), (wrong) => this.fail(wrong)),
      reviewing: new Review(words, (slot) => this.change(slot)),
      status: make("p", { class: "status", role: "status" }),
      banner: make("div", { role: "alert" }),
      main: make("main", { "data-state": "idle" }),
    };
  }

  /** Puts the parts on the page. */
  build() {
    const { words } = this;
    const title = words.makers.title;
    document.title = title;
    document.documentElement.lang = words.language;
    this.parts.main.replaceChildren(this.parts.results.element, this.parts.questions.element, this.parts.reviewing.element);
    this.order();
    this.place.replaceChildren(
      make("a", { class: "skip", href: "#asked" }, words.text("skip")),
      make("header", {}, make("div", { class: "head" }, make("h1", {}, title), this.languageButton()), this.introduction(), this.tools(), this.parts.status, this.parts.banner),
      this.parts.main,
      this.dialogs.element,
    );
  }

  /** Puts the results where they are seen, so that the keyboard comes to them in that order. */
  order() {
    const { main, results } = this.parts;
    if (results.element.parentElement !== main) return;
    if (this.isWide.matches) main.append(results.element);
    else main.prepend(results.element);
  }

  /** What the maker says first. What stands behind the first paragraph is folded. */
  introduction() {
    const paragraphs = this.words.makers.introduction.map((/** @type {string} */ text) => make("p", {}, text));
    const more = paragraphs.splice(1);
    return make("div", { class: "introduction" }, ...paragraphs, more.length > 0 && make("details", {}, make("summary", {}, this.words.text("more")), ...more));
  }

  languageButton() {
    const others = Object.keys(this.engine.form.languages).filter((it) => it !== this.words.language);
    return others.length > 0 && make("button", { type: "button", class: "button plain", lang: others[0], click: () => this.speak(others[0]) }, TEXTS[others[0]].languageName);
  }

  tools() {
    const { words } = this;
    const file = make("input", { type: "file", id: "file", class: "sr-only", change: () => this.open(file) });
    return make(
      "div", { class: "tools" },
      button(words.text("undo"), () => this.step("undo"), { class: "outline" }),
      button(words.text("redo"), () => this.step("redo"), { class: "outline" }),
      button(words.text("review"), () => this.review(), { class: "outline" }),
      button(words.text("saveFile"), () => this.save(), { class: "outline" }),
      make("div", { class: "file" }, file, make("label", { for: "file", class: "button outline" }, words.text("openFile"))),
      button(words.text("print"), () => print(), { class: "outline" }),
      button(words.text("startOver"), () => this.dialogs.startOver(), { class: "outline" }),
      button(words.text("end"), () => this.dialogs.end(), { class: "outline" }),
    );
  }

  /**
   * Shows the page in another language, with the answers that stand.
   * @param {string} language
   */
  speak(language) {
    this.parts.questions.leave();
    this.words = this.wordsOf(language);
    this.parts = this.made();
    this.build();
    if (this.screen) this.show(this.screen);
    /** @type {HTMLElement | null} */ (this.place.querySelector(".head button"))?.focus();
  }

  // ---- what a person does

  /**
   * Sends a change.
   * @param {string} line @param {string | null} slot
   */
  async put(line, slot) {
    if (this.hasEnded) return;
    try {
      await this.outbox.put(line, slot);
    } catch (wrong) {
      this.fail(wrong);
    }
  }

  /** @param {"undo" | "redo"} verb */
  async step(verb) {
    this.parts.questions.restore();
    await this.put(verb, null);
  }

  /** Shows all answers, or first what is wrong with them. */
  async review() {
    this.parts.questions.leave();
    await this.outbox.settled;
    if (this.parts.questions.showErrors()) return;
    this.turn(true);
    this.parts.reviewing.heading.focus();
  }

  /**
   * Goes back to a question.
   * @param {string | null} slot
   */
  change(slot) {
    this.turn(false);
    this.parts.questions.goTo(slot);
  }

  /** @param {boolean} isReview */
  turn(isReview) {
    this.isReview = isReview;
    this.parts.questions.element.hidden = isReview;
    this.parts.reviewing.element.hidden = !isReview;
    if (this.screen) this.show(this.screen);
  }

  async save() {
    if (this.session.revision <= 0) return this.alert([this.words.text("nothingToSave")]);
    try {
      const link = make("a", { href: URL.createObjectURL(new Blob([await this.engine.save()], { type: "text/plain" })), download: "interview.saved" });
      link.click();
      URL.revokeObjectURL(link.href);
    } catch (wrong) {
      this.fail(wrong);
    }
  }

  /**
   * Goes on from a file.
   * @param {HTMLInputElement} input
   */
  async open(input) {
    const file = input.files?.[0];
    input.value = "";
    if (!file) return;
    const { words } = this;
    if (file.size > LARGEST_TEXT) return this.alert([words.text("fileTooLarge")]);
    try {
      await this.outbox.settled;
      const { dropped = [], stale } = await this.engine.resume(await file.text());
      if (!stale) this.parts.questions.forget();
      await this.refresh();
      if (stale) return this.alert([words.text("elsewhereAgain")]);
      this.alert(dropped.length === 0 ? [words.text("opened")] : [words.text("opened"), words.text("notTaken")], dropped.map((it) => this.dropped(it)));
    } catch (wrong) {
      if (wrong instanceof TextRefused) this.alert([words.text("fileRefused")]);
      else this.fail(wrong);
    }
  }

  /**
   * Why an answer of a file wasn't taken.
   * @param {import("./session.js").Dropped} dropped
   */
  dropped({ slot, why }) {
    const { words } = this;
    const path = pathOf(slot);
    if (!(path in words.form.facts)) return `${slot}: ${words.text("notTakenUnknown")}`;
    const reason = why === "override" ? words.text("notTakenOverride") : why.startsWith("refused ") ? words.refusal(path, why) : words.text("notTakenUnknown");
    return `${words.label(path)}: ${reason}`;
  }

  /**
   * Erases all answers.
   * @param {boolean} isNewStart
   */
  async erase(isNewStart) {
    this.outbox.drop();
    try {
      if (this.session.revision !== 0) await this.engine.end();
    } catch (wrong) {
      if (!(wrong instanceof Ended)) return this.fail(wrong);
    }
    if (isNewStart) location.reload();
    else this.over("ended", "endedText");
  }

  /** Keeps the answers for longer. */
  async stay() {
    try {
      this.dialogs.count((await this.engine.stay()).seconds);
    } catch (wrong) {
      this.fail(wrong);
    }
  }

  // ---- with the engine

  /**
   * Sends a change of the outbox, and shows what stands behind it.
   * @param {Waiting} change
   * @returns {Promise<void>}
   */
  async send(change) {
    const { value, told } = await this.session.screen(change);
    this.dialogs.count(told.seconds);
    if (told.dropped?.length && told.stale) this.alert([this.words.text("elsewhere")], told.dropped.map((it) => this.dropped(it)));
    if (told.stale) return this.overtaken(change, value);
    const reply = told.reply ?? "";
    if (reply.startsWith("refused ")) this.refused(change, reply);
    else if (change.slot === null) this.done = this.words.text(change.line === "undo" ? "undone" : "redone");
    this.show(value, reply.startsWith("refused ") ? null : change);
  }

  /**
   * Says why a change is refused, where the person hasn't answered anew meanwhile.
   * @param {Waiting} change @param {string} reply
   */
  refused(change, reply) {
    if (change.slot === null) this.done = this.words.text(change.line === "undo" ? "nothingToUndo" : "nothingToRedo");
    else if (!this.outbox.waiting.some((it) => it !== change && it.slot === change.slot)) {
      this.parts.questions.say(change.slot, this.words.refusal(pathOf(change.slot), reply));
    }
  }

  /**
   * What another window answered meanwhile stands on the screen. An answer to what that window left alone is sent again.
   * @param {Waiting} change @param {Screen} screen
   * @returns {Promise<void>}
   */
  async overtaken(change, screen) {
    const isAnswer = change.slot !== null && /^(set|clear) /.test(change.line);
    const before = this.screen?.questions.find((it) => it.slot === change.slot)?.result;
    const now = screen.questions.find((it) => it.slot === change.slot)?.result;
    if (isAnswer && before && now && before.kind === now.kind && before.text === now.text) {
      this.alert([this.words.text("elsewhere")]);
      this.show(screen);
      return this.send(change);
    }
    this.outbox.withdraw(change);
    this.show(screen, change);
    this.alert([this.words.text("elsewhereAgain")]);
    if (isAnswer && change.slot) this.parts.questions.say(change.slot, this.words.text("fieldElsewhere"));
  }

  /** Shows what another window answered. */
  async moved() {
    await this.refresh();
    this.alert([this.words.text("elsewhere")]);
  }

  /** Asks what stands, and shows it. */
  async refresh() {
    try {
      const { value, told } = await this.session.screen();
      this.dialogs.count(told.seconds);
      this.show(value);
    } catch (wrong) {
      if (!(wrong instanceof Unreachable)) return this.fail(wrong);
      this.parts.status.textContent = this.words.text("waiting");
      await this.outbox.pause(wrong.wait ?? 2);
      await this.refresh();
    }
  }

  /** @param {Screen} screen @param {Waiting | null} [answered] the change that is answered, whose field shows what stands */
  show(screen, answered = null) {
    this.screen = screen;
    const waiting = this.outbox.waiting.filter((it) => it !== answered);
    this.parts.questions.show(screen, (slot) => waiting.some((it) => it.slot === slot));
    this.parts.results.show(screen.figures);
    this.parts.reviewing.show(screen, progressOf(screen, this.words));
  }

  // ---- what is said

  /**
   * Says how far the changes are on their way.
   * @param {import("./outbox.js").State} state
   */
  tell(state) {
    clearTimeout(this.timer);
    this.parts.main.dataset.state = state;
    const say = () => {
      this.parts.status.textContent = state === "idle" ? this.saved() : this.words.text(state);
      this.parts.status.className = `status ${state}`;
    };
    if (state === "sending" && !this.parts.status.classList.contains("waiting")) this.timer = setTimeout(say, QUIET_MILLISECONDS);
    else if (state !== "sending") say();
    this.parts.results.outdated.hidden = state !== "waiting";
    this.parts.questions.tell((slot) => (this.outbox.has(slot) ? (state === "waiting" ? "waiting" : "sending") : ""));
  }

  /** Takes the message away. */
  closed() {
    this.parts.banner.replaceChildren();
    this.parts.questions.heading.focus();
  }

  /** What the last step did, and that all is saved where nothing is wrong. */
  saved() {
    const text = [this.done, this.parts.questions.wrong().length === 0 && this.words.text("saved")].filter(Boolean).join(" ");
    this.done = "";
    return text;
  }

  /** @param {string[]} lines @param {string[]} [list] */
  alert(lines, list = []) {
    const box = make("div", { class: "alert" }, ...lines.map((line) => make("p", {}, line)));
    if (list.length > 0) box.append(make("ul", {}, ...list.map((line) => make("li", {}, line))));
    box.append(button(this.words.text("close"), () => this.closed(), { class: "plain", about: this.words.text("message") }));
    this.parts.banner.replaceChildren(box);
  }

  /**
   * What went wrong.
   * @param {unknown} wrong
   */
  fail(wrong) {
    if (wrong instanceof Ended) return wrong.message === "cookie" ? this.over("noCookie", "noCookieText") : this.over("lost", "lostText");
    console.error(wrong);
    this.alert([this.words.text(wrong instanceof Unreachable ? "unreachable" : "broken")]);
  }

  /**
   * The interview is over: nothing can be sent any more, and what was answered stays to be read.
   * @param {"ended" | "lost" | "noCookie"} head @param {"endedText" | "lostText" | "noCookieText"} text
   */
  over(head, text) {
    if (this.hasEnded) return;
    this.hasEnded = true;
    this.outbox.drop();
    this.dialogs.count(null);
    const again = button(this.words.text("startOver"), () => location.reload());
    const box = make("div", { class: "alert over", tabindex: "-1" }, make("h2", {}, this.words.text(head)), make("p", {}, this.words.text(text)), again);
    this.parts.banner.replaceChildren(box);
    this.parts.status.textContent = "";
    if (head === "ended") this.parts.main.replaceChildren();
    for (const control of this.place.querySelectorAll("main input, main select, main button, .tools button, .tools input")) control.setAttribute("disabled", "");
    for (const kept of this.place.querySelectorAll(".tools button")) {
      if (kept.textContent === this.words.text("print")) kept.removeAttribute("disabled");
    }
    box.focus();
  }
}

/**
 * The first of the languages that the browser asks for.
 * @param {string[]} languages
 */
function firstLanguage(languages) {
  const asked = navigator.languages.map((it) => it.slice(0, 2));
  return asked.find((it) => languages.includes(it)) ?? languages[0];
}
