// What stands on the screen: the figures, the questions, and how far one has come. It follows from the form and from what the engine
// replies to some lines, and knows of no page.

/**
 * @typedef {{ type: string, of: string | null, collection: string | null, isWritable: boolean, hasPlaceholder: boolean, purpose: string,
 *   limits: [string, string][], mentions: string[], options?: string[] }} Fact
 * @typedef {[name: string, paths: string[]]} Group
 * @typedef {{ layout: string, figures: string[], questions: string[], groups: Group[], facts: Record<string, Fact>,
 *   languages: Record<string, any> }} Form
 * @typedef {{ kind: string, text: string }} Result
 * @typedef {{ slot: string, path: string, member: string | null, result: Result }} Shown
 * @typedef {Shown & { isRequired: boolean | null }} Question
 * @typedef {{ figures: Shown[], questions: Question[], required: number, optional: number, wanting: string[], faults: string[],
 *   estimates: string[] }} Screen
 * @typedef {(line: string) => string | undefined} Ask
 */

/**
 * The path of a slot's fact.
 * @param {string} slot
 */
export function pathOf(slot) {
  return slot.replace(/^(\/[^/]+)\/#\d+\//, "$1/*/");
}

/**
 * The number of a slot's member, or null.
 * @param {string} slot
 */
export function memberOf(slot) {
  return /^\/[^/]+\/#(\d+)\//.exec(slot)?.[1] ?? null;
}

/**
 * The numbers of the members in a text like `[#1 #2]`.
 * @param {string} text @returns {string[]}
 */
export function membersIn(text) {
  return text.match(/\d+/g) ?? [];
}

/**
 * The slots of a fact that stand.
 * @param {Form} form @param {Ask} ask @param {string} path @returns {string[]}
 */
export function slotsOf(form, ask, path) {
  const home = form.facts[path].collection;
  if (home === null) return [path];
  return membersIn(ask(`get ${home}`) ?? "").map((member) => path.replace("*", `#${member}`));
}

/**
 * The result of a slot; `final` where no further answer changes it.
 * @param {Ask} ask @param {string} slot @returns {Result}
 */
export function resultOf(ask, slot, mayBeFinal = true) {
  const said = ask(`get ${slot}`) ?? "incomplete";
  const at = said.indexOf(" ");
  const [kind, text] = at < 0 ? [said, ""] : [said.slice(0, at), said.slice(at + 1)];
  const isFinal = mayBeFinal && kind === "complete" && (ask(`final ${slot}`) ?? "").startsWith("final ");
  return { kind: isFinal ? "final" : kind, text };
}

/** @param {string} slot @param {Result} result @returns {Shown} */
const shownOf = (slot, result) => ({ slot, path: pathOf(slot), member: memberOf(slot), result });

/** @param {Ask} ask @param {string} slot */
const missingOf = (ask, slot) => (ask(`missing ${slot}`) ?? "").split("\n").slice(1);

/**
 * The slots that the figures want, each with whether a figure can't be had without it. Nothing is wanted for a final figure.
 * @param {Form} form @param {Ask} ask @param {Shown[]} figures
 */
function wantedBy(form, ask, figures) {
  /** @type {Map<string, boolean>} */
  const wanted = new Map();
  const want = (/** @type {string} */ slot, /** @type {boolean} */ isRequired) => wanted.set(slot, isRequired || (wanted.get(slot) ?? false));
  for (const { slot, result } of figures) {
    if (result.kind !== "final") missingOf(ask, slot).forEach((it) => want(it, result.kind === "incomplete"));
  }
  for (const slot of form.questions.flatMap((path) => slotsOf(form, ask, path))) {
    const { kind } = resultOf(ask, slot, false);
    if (kind !== "complete") want(slot, kind === "incomplete");
  }
  return wanted;
}

/**
 * What stands on the screen.
 * @param {Form} form @param {Ask} ask @returns {Screen}
 */
export function screenOf(form, ask) {
  const figures = form.figures.flatMap((path) => slotsOf(form, ask, path)).map((slot) => shownOf(slot, resultOf(ask, slot)));
  const wanted = wantedBy(form, ask, figures);
  /** @type {Question[]} */
  const questions = [];
  for (const [path, fact] of Object.entries(form.facts)) {
    for (const slot of fact.isWritable ? slotsOf(form, ask, path) : []) {
      const result = resultOf(ask, slot, false);
      const isRequired = wanted.has(slot) ? wanted.get(slot) === true && result.kind !== "placeholder" : null;
      if (result.kind === "complete" || wanted.has(slot)) questions.push({ ...shownOf(slot, result), isRequired });
    }
  }
  const required = questions.filter((it) => it.isRequired).length;
  const of = (/** @type {string} */ kind) => figures.filter((it) => it.result.kind === kind).map((it) => it.slot);
  return { figures, questions, required, optional: wanted.size - required, wanting: of("incomplete"), faults: of("fault"), estimates: of("placeholder") };
}

/** The questions in the order in which they are asked one by one: those of a collection's members behind it, member by member.
 * @param {Screen} screen @returns {Question[]} */
export function stepsOf({ questions }) {
  const own = questions.filter((it) => it.member === null);
  return own.flatMap((it) => {
    const inside = questions.filter((other) => other.slot.startsWith(`${it.slot}/#`));
    const members = [...new Set(inside.map((other) => other.member))];
    return [it, ...members.flatMap((member) => inside.filter((other) => other.member === member))];
  });
}

/**
 * The steps by their groups, in order; a member's stand with its collection, and those of no group under null.
 * @param {Form} form @param {Question[]} steps @returns {{ group: string | null, steps: Question[] }[]}
 */
export function groupsOf(form, steps) {
  const groupOf = (/** @type {string} */ path) => form.groups.find(([, paths]) => paths.includes(form.facts[path].collection ?? path))?.[0] ?? null;
  /** @type {{ group: string | null, steps: Question[] }[]} */
  const found = [...form.groups.map(([group]) => ({ group, steps: [] })), { group: null, steps: [] }];
  for (const step of steps) found.find(({ group }) => group === groupOf(step.path))?.steps.push(step);
  return found.filter((it) => it.steps.length > 0);
}

/**
 * What a figure is worked out from: the slots that its expression mentions, of the same member where there is one.
 * @param {Form} form @param {Ask} ask @param {string} slot @returns {Shown[]}
 */
export function reasonsOf(form, ask, slot) {
  const path = pathOf(slot);
  const member = memberOf(slot);
  const { collection, mentions } = form.facts[path];
  const slots = mentions.flatMap((it) => (member && form.facts[it].collection === collection ? [it.replace("*", `#${member}`)] : slotsOf(form, ask, it)));
  return slots.map((it) => shownOf(it, resultOf(ask, it)));
}
