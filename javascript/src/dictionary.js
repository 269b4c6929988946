// What a dictionary says of its facts, for those who show them: types, limits, lists of options, descriptions.

/**
 * A type: its name, as `Dollar`, and what it is of, as the list of options of an Enum; null for most.
 * @typedef {{ name: string, of: string | null }} FactType
 */
/**
 * A limit: `Min`, `Max`, `MaxLength` or `Check`, and the text of the bound or the name of the check.
 * @typedef {{ name: string, text: string }} Limit
 */

/**
 * A fact of a dictionary. That of a collection's members has a path like `/people/*\/born`; `collection` is then the path of the collection,
 * and null for a fact that stands once.
 * @typedef {{
 *   path: string, type: FactType, isWritable: boolean, hasPlaceholder: boolean, limits: Limit[], description: string,
 *   collection: string | null,
 * }} Fact
 */

/**
 * A fact as the engine lists it: its path, whether it is answered, where it isn't it follows from others, and its type. `collection` is as
 * that of a Fact.
 * @typedef {{ path: string, isWritable: boolean, type: FactType, collection: string | null }} ListedFact
 */

/** @typedef {{ path: string, writable?: string, derived?: string, placeholder?: unknown, limits?: [string, string][], description?: string }} StatedFact */
/** @typedef {{ facts: StatedFact[], enums?: { name: string, options: string[] }[], description?: string }} Stated */

/**
 * @param {string} text
 * @returns {FactType}
 */
function typeOf(text) {
  const [, name = text, of = null] = /^(\w+)\((.*)\)$/.exec(text) ?? [];
  return { name, of };
}

/**
 * @param {string} path
 * @returns {string | null}
 */
function collectionOf(path) {
  const at = path.indexOf("/*/");
  return at < 0 ? null : path.slice(0, at);
}

/**
 * A fact of the engine's line, as `/bill writable Dollar`.
 * @param {string} line
 * @returns {ListedFact}
 */
export function listedFact(line) {
  const [path = "", kind, ...type] = line.split(" ");
  return { path, isWritable: kind === "writable", type: typeOf(type.join(" ")), collection: collectionOf(path) };
}

/**
 * @param {StatedFact} stated
 * @returns {Fact}
 */
function factOf(stated) {
  return {
    path: stated.path,
    type: typeOf(String(stated.writable ?? stated.derived)),
    isWritable: stated.writable !== undefined,
    hasPlaceholder: stated.placeholder !== undefined,
    limits: (stated.limits ?? []).map(([name, text]) => ({ name, text })),
    description: stated.description ?? "",
    collection: collectionOf(stated.path),
  };
}

/**
 * The path of a slot's fact: `/people/*\/born` of `/people/#2/born`.
 * @param {string} slot
 */
export function pathOf(slot) {
  const at = slot.indexOf("/#") + 1, end = slot.indexOf("/", at);
  return at && end > 0 ? `${slot.slice(0, at)}*${slot.slice(end)}` : slot;
}

/** A dictionary that was accepted: its facts by their paths, in its order, and its lists of options by their names. */
export class Dictionary {
  /** @param {string} text the JSON of a dictionary that has no fault */
  constructor(text) {
    /** @type {Stated} */
    const stated = JSON.parse(text);
    /** @type {ReadonlyMap<string, Fact>} */
    this.facts = new Map(stated.facts.map((fact) => [fact.path, factOf(fact)]));
    /** @type {ReadonlyMap<string, readonly string[]>} */
    this.options = new Map((stated.enums ?? []).map(({ name, options }) => [name, options]));
    this.description = stated.description ?? "";
  }

  /**
   * The fact of a slot; undefined where there is none.
   * @param {string} slot
   */
  factAt(slot) {
    return this.facts.get(slot) ?? this.facts.get(pathOf(slot));
  }
}
