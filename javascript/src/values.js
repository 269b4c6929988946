// Values of facts: as JavaScript has them, and as texts.
//
// | Type         | In JavaScript                                   |
// |--------------|-------------------------------------------------|
// | Boolean      | boolean                                         |
// | Int          | number, a whole one of at most 15 digits        |
// | Dollar       | bigint, the amount in cents                     |
// | Rational     | Rational, two whole numbers                     |
// | Day          | string, as "2025-01-31"                         |
// | Text, Enum   | string                                          |
// | Collection   | number[], the numbers of its members            |
// | Item         | number, that of the member                      |

/** @typedef {boolean | number | bigint | string | Rational} Answer what is set */
/** @typedef {Answer | number[]} Value what a fact comes to */
/** @typedef {"complete" | "placeholder" | "incomplete" | "fault"} Kind */

/**
 * What a fact comes to. `kind` is `complete`, where the value rests on answers alone; `placeholder`, where a value stands in for an answer;
 * `incomplete`, where an answer is missing; or `fault`. `value` is null for the last two, and `fault` is `overflow` or `zero-divide` for the
 * last and else null.
 * @typedef {{ kind: Kind, value: Value | null, fault: string | null }} Result
 */

/** A fraction. */
export class Rational {
  /**
   * @param {number} numerator
   * @param {number} denominator
   */
  constructor(numerator, denominator = 1) {
    this.numerator = whole(numerator);
    this.denominator = whole(denominator);
  }

  toString() {
    return `${this.numerator}/${this.denominator}`;
  }
}

/** @param {number} number */
function whole(number) {
  if (!Number.isSafeInteger(number)) throw new TypeError(`${number} isn't a whole number`);
  return number;
}

/**
 * The text of an amount in cents: `"1240.50"` of `124050n`.
 * @param {bigint} cents
 */
export function amountText(cents) {
  const digits = String(cents < 0n ? -cents : cents).padStart(3, "0");
  return `${cents < 0n ? "-" : ""}${digits.slice(0, -2)}.${digits.slice(-2)}`;
}

// The codes of characters; those of the sign and of the point are less than that of a digit.
const ZERO = 48, MINUS = 45;

const AMOUNT = /^(-?)(\d+)(?:\.(\d\d))?$/;

/**
 * The cents of an amount's text: `124050n` of `"1240.50"`. Throws SyntaxError for another text.
 * @param {string} text
 */
export function centsOf(text) {
  const found = AMOUNT.exec(text);
  if (!found) throw new SyntaxError(`${JSON.stringify(text)} isn't an amount such as 1240.50`);
  const cents = BigInt(`${found[2]}${found[3] ?? "00"}`);
  return found[1] ? -cents : cents;
}

/**
 * The text of a value that is set or overridden. A string is a text already, whatever the type of the fact.
 * @param {Answer} value
 */
export function textOf(value) {
  if (typeof value === "string") return value;
  if (typeof value === "boolean") return String(value);
  if (typeof value === "number") return String(whole(value));
  if (typeof value === "bigint") return amountText(value);
  if (value instanceof Rational) return value.toString();
  throw new TypeError(`no fact has a value like ${Object.prototype.toString.call(value)}`);
}

/**
 * A result as a session says it, by the name of its type: `complete 1240.50`.
 * @param {Result} result
 * @param {string} type
 */
export function said({ kind, value, fault }, type) {
  const text = value === null ? fault : saidValue(value, type);
  return text === null ? kind : `${kind} ${text}`;
}

/**
 * @param {Value} value
 * @param {string} type
 */
function saidValue(value, type) {
  if (Array.isArray(value)) return `[${value.map((member) => `#${member}`).join(" ")}]`;
  return type === "Item" ? `#${value}` : textOf(value);
}

/**
 * The cents of an amount as a session prints it, always with two digits behind the point. Those of a number that has no more than 15 digits are
 * read one by one, which takes half the time.
 * @param {string} text
 */
function printedCents(text) {
  if (text.length > 16) return BigInt(text.slice(0, -3) + text.slice(-2));
  let cents = 0;
  for (let at = 0; at < text.length; at++) {
    const code = text.charCodeAt(at);
    if (code >= ZERO) cents = cents * 10 + code - ZERO;
  }
  return BigInt(text.charCodeAt(0) === MINUS ? -cents : cents);
}

/** @param {string} text */
const same = (text) => text;
/** @param {string} text */
const member = (text) => Number(text.slice(1));
/** @param {string} text */
const members = (text) => (text === "[]" ? [] : text.slice(1, -1).split(" ").map(member));
/** @param {string} text */
function rational(text) {
  const [numerator, denominator] = text.split("/");
  return new Rational(Number(numerator), Number(denominator));
}

/**
 * By the name of a type, what reads the texts that a session prints of its values.
 * @type {Record<string, (text: string) => Value>}
 */
export const READERS = {
  Boolean: (text) => text === "true",
  Int: Number,
  Dollar: printedCents,
  Rational: rational,
  Day: same,
  Text: same,
  Enum: same,
  Collection: members,
  Item: member,
};
