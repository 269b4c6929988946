// The texts of values: what people write, what the engine takes, and what people read. A reader gives `{ text }` for the engine, or
// `{ problem }`, the name of a text of texts.js.

/** @typedef {{ text: string } | { problem: string }} Read */

const FIRST_YEAR = 1800;
const LAST_YEAR = 2199;
const MOST_DIGITS = { Dollar: 13, Int: 15 };

/** A number as people write it: with a sign, a mark of money, commas between thousands. */
const WRITTEN = /^([-−–]?)\s*\$?\s*([-−–]?)\s*(\d{1,3}(?:,\d{3})+|\d*)(\.\d*)?$/;

/**
 * @param {string} written
 * @param {"Dollar" | "Int"} type
 */
function numberOf(written, type) {
  const found = WRITTEN.exec(written.trim());
  if (!found || (found[1] && found[2]) || !/\d/.test(written)) return null;
  const sign = found[1] || found[2] ? "-" : "";
  const whole = found[3].replaceAll(",", "").replace(/^0+(?=\d)/, "") || "0";
  return { sign, whole, digits: (found[4] ?? ".").slice(1), isLarge: whole.length > MOST_DIGITS[type] };
}

/** @param {string} written @returns {Read} */
function readAmount(written) {
  const number = numberOf(written, "Dollar");
  if (!number) return { problem: "noAmount" };
  if (number.isLarge) return { problem: "tooLarge" };
  if (number.digits.length > 2) return { problem: "noCents" };
  return { text: `${number.sign}${number.whole}.${number.digits.padEnd(2, "0")}` };
}

/** @param {string} written @returns {Read} */
function readInt(written) {
  const number = numberOf(written, "Int");
  if (!number || written.includes("$")) return { problem: "noNumber" };
  if (number.isLarge) return { problem: "tooLarge" };
  if (!/^0*$/.test(number.digits)) return { problem: "noWholeNumber" };
  return { text: number.sign + number.whole };
}

/**
 * A fraction: `1/2`, `0.5` or `50%`.
 * @param {string} written @returns {Read}
 */
function readRational(written) {
  const tidy = written.replaceAll(/\s/g, "").replace(/^[−–]/, "-");
  if (/^-?\d{1,15}(\/\d{1,15})?$/.test(tidy)) return { text: tidy };
  const found = /^(-?)(\d*)(?:\.(\d*))?(%?)$/.exec(tidy);
  if (!found || !/\d/.test(tidy)) return { problem: "noFraction" };
  const [, sign, whole, digits = "", percent] = found;
  const above = (whole + digits).replace(/^0+(?=\d)/, "");
  const below = `1${"0".repeat(digits.length + (percent ? 2 : 0))}`;
  if (above.length > 15 || below.length > 15) return { problem: "tooLarge" };
  return { text: `${sign}${above}/${below}` };
}

/** @param {string} written @returns {Read} */
function readText(written) {
  return /[\u0000-\u001f\u007f-\u009f]/.test(written) ? { problem: "noText" } : { text: written };
}

/**
 * A day of its three fields.
 * @param {string} year @param {string} month @param {string} day @returns {Read}
 */
export function readDay(year, month, day) {
  const parts = [year, month, day].map((part) => part.trim());
  if (parts.some((part) => part === "")) return { problem: parts[1] === "" ? "noMonth" : parts[2] === "" ? "noDayOfMonth" : "noYear" };
  if (!parts.every((part) => /^\d+$/.test(part))) return { problem: "noDay" };
  const [y, m, d] = parts.map(Number);
  if (parts[0].length !== 4) return { problem: "noYear" };
  if (y < FIRST_YEAR || y > LAST_YEAR) return { problem: "noYearInRange" };
  const date = new Date(Date.UTC(y, m - 1, d));
  if (m < 1 || m > 12 || date.getUTCMonth() !== m - 1 || date.getUTCDate() !== d) return { problem: "noDay" };
  return { text: `${parts[0]}-${String(m).padStart(2, "0")}-${String(d).padStart(2, "0")}` };
}

/** @type {Record<string, (written: string) => Read>} */
const READERS = { Dollar: readAmount, Int: readInt, Rational: readRational };

/**
 * What a person wrote into a field, for the engine.
 * @param {string} type @param {string} written @returns {Read}
 */
export function read(type, written) {
  return (READERS[type] ?? readText)(written);
}

/** @param {string} digits */
const withCommas = (digits) => digits.replace(/\B(?=(\d{3})+(?!\d))/g, ",");

/** @param {string} text */
function shownAmount(text) {
  const [whole, cents = ""] = text.replace("-", "").split(".");
  return `${text.startsWith("-") ? "−" : ""}$${withCommas(whole)}.${cents.padEnd(2, "0")}`;
}

/** @param {string} text @param {string} language */
function shownDay(text, language) {
  return new Intl.DateTimeFormat(language, { dateStyle: "long", timeZone: "UTC" }).format(new Date(text));
}

/**
 * A value as people read it, where its type alone says how.
 * @param {string} type @param {string} text @param {string} language
 */
export function shown(type, text, language) {
  if (type === "Dollar") return shownAmount(text);
  if (type === "Int") return text.replace("-", "−").replace(/\d+/, withCommas);
  if (type === "Rational") return text.replace(/\/1$/, "");
  if (type === "Day") return shownDay(text, language);
  return text;
}

/**
 * A value as a field has it, to be written on.
 * @param {string} type @param {string} text
 */
export function written(type, text) {
  return type === "Dollar" || type === "Int" ? text.replace(/\d+/, withCommas) : type === "Rational" ? text.replace(/\/1$/, "") : text;
}
