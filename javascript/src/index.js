// The Fact Graph: interviews over a dictionary of facts, whose figures follow from the answers given so far.

export { Dictionary } from "./dictionary.js";
export { Engine } from "./engine.js";
export {
  DictionaryRefused, EngineMissing, EngineStopped, FactGraphError, OutOfMemory, Refused, SavedRefused, SessionClosed, UnknownDictionary, UnknownSlot,
} from "./errors.js";
export { Explanation, Missing } from "./explanation.js";
export { Session } from "./session.js";
export { Rational, amountText, centsOf } from "./values.js";

/** @typedef {import("./dictionary.js").Fact} Fact */
/** @typedef {import("./dictionary.js").FactType} FactType */
/** @typedef {import("./dictionary.js").Limit} Limit */
/** @typedef {import("./dictionary.js").ListedFact} ListedFact */
/** @typedef {import("./session.js").Dropped} Dropped */
/** @typedef {import("./session.js").Options} Options */
/** @typedef {import("./session.js").Watch} Watch */
/** @typedef {import("./values.js").Answer} Answer */
/** @typedef {import("./values.js").Kind} Kind */
/** @typedef {import("./values.js").Result} Result */
/** @typedef {import("./values.js").Value} Value */
