// What the package throws.

const FAULTS = [
  "TooLong", "NotJson", "Shape", "TooMany", "TooDeep", "BadPath", "DuplicatePath", "NoCollection", "UnknownPath", "WrongPlace",
  "UnknownCheck", "IllTyped", "BadLimit", "Cycle",
];

/** The base of all that this package throws on its own. */
export class FactGraphError extends Error {
  /**
   * @param {string} message
   * @param {ErrorOptions} [options]
   */
  constructor(message, options) {
    super(message, options);
    this.name = new.target.name;
  }
}

/**
 * The dictionary has a fault. `number` and `code` say which, as 12 and `IllTyped`, and of a newer engine's fault the code is `UnknownFault`;
 * `fact` is the number of the fact that has it, from 1; `node` is the node of that fact, and `what` the list that is too long, each where the
 * fault has one and else null.
 */
export class DictionaryRefused extends FactGraphError {
  /**
   * @param {number} number
   * @param {number | null} fact
   * @param {number | null} node
   * @param {number | null} what
   */
  constructor(number, fact, node, what) {
    const code = FAULTS[number - 1] ?? "UnknownFault";
    const places = Object.entries({ fact, node, what }).filter(([, place]) => place !== null);
    super(`dictionary refused ${number} ${code}${places.map(([word, place]) => ` ${word} ${place}`).join("")}`);
    this.number = number;
    this.code = code;
    this.fact = fact;
    this.node = node;
    this.what = what;
  }
}

/** No dictionary of these words comes with the engine. */
export class UnknownDictionary extends FactGraphError {}

/** The saved text is none of the dictionary's. `line` is its first wrong line, from 1, or 0 for a text that is too long. */
export class SavedRefused extends FactGraphError {
  /** @param {number} line */
  constructor(line) {
    super(`saved refused line ${line}`);
    this.line = line;
  }
}

/**
 * A command is refused, and nothing is changed. `number` and `code` say why, as 5 and `WrongKind`; `place` is that of the limit or check
 * in the fact's list, from 1, where the value breaks one, and else null.
 */
export class Refused extends FactGraphError {
  /**
   * @param {number} number
   * @param {string} code
   * @param {number | null} [place]
   */
  constructor(number, code, place = null) {
    super(`refused ${number} ${code}${place === null ? "" : ` ${place}`}`);
    this.number = number;
    this.code = code;
    this.place = place;
  }

  /**
   * Of a reply such as `refused 7 Limit 2`.
   * @param {string} reply
   */
  static ofReply(reply) {
    const [, number, code, place] = reply.trimEnd().split(" ");
    const Kind = code === "UnknownFact" || code === "NoMember" ? UnknownSlot : Refused;
    return new Kind(Number(number), String(code), place === undefined ? null : Number(place));
  }
}

/** A command is refused since no such slot stands: the dictionary has no such fact, or the collection no such member. */
export class UnknownSlot extends Refused {}

/** There was no memory. The session is as before, and the call can be made again. */
export class OutOfMemory extends FactGraphError {}

/** The session was closed, or a line `quit` ended it. */
export class SessionClosed extends FactGraphError {}

/** The engine's module isn't where it is looked for, or isn't one of this package; `cause` says more. */
export class EngineMissing extends FactGraphError {}

/**
 * The engine stopped, as where the browser's own stack was too small for a deep dictionary. None of its sessions can be used again; a
 * session that is opened from now on has an engine of its own.
 */
export class EngineStopped extends FactGraphError {}
