// What people write, what the engine takes of it, and what they read.
import assert from "node:assert/strict";
import { test } from "node:test";
import { read, readDay, shown, written } from "../../fact_graph_service/page/values.js";

/** @type {[string, string, string][]} */
const READ = [
  ["Dollar", "1240.50", "1240.50"],
  ["Dollar", "1,240.50", "1240.50"],
  ["Dollar", "$1,240.50", "1240.50"],
  ["Dollar", "$1240", "1240.00"],
  ["Dollar", "1240.", "1240.00"],
  ["Dollar", "1240.5", "1240.50"],
  ["Dollar", " $ 12 ", "12.00"],
  ["Dollar", ".5", "0.50"],
  ["Dollar", "-$5", "-5.00"],
  ["Dollar", "$-5", "-5.00"],
  ["Dollar", "007", "7.00"],
  ["Dollar", "1,234,567", "1234567.00"],
  ["Dollar", "9999999999999.99", "9999999999999.99"],
  ["Int", "1,200", "1200"],
  ["Int", "12.0", "12"],
  ["Int", "-3", "-3"],
  ["Rational", "1/2", "1/2"],
  ["Rational", "50%", "50/100"],
  ["Rational", "0.25", "25/100"],
  ["Rational", ".5", "5/10"],
  ["Rational", "12.5 %", "125/1000"],
  ["Rational", "-2", "-2"],
  ["Text", " a b ", " a b "],
];

/** @type {[string, string, string][]} */
const PROBLEMS = [
  ["Dollar", "abc", "noAmount"],
  ["Dollar", "", "noAmount"],
  ["Dollar", ".", "noAmount"],
  ["Dollar", "$", "noAmount"],
  ["Dollar", "1,24", "noAmount"],
  ["Dollar", "12,40.50", "noAmount"],
  ["Dollar", "1.240,50", "noAmount"],
  ["Dollar", "--5", "noAmount"],
  ["Dollar", "-$-5", "noAmount"],
  ["Dollar", "1.005", "noCents"],
  ["Dollar", "99999999999999", "tooLarge"],
  ["Int", "1.5", "noWholeNumber"],
  ["Int", "$5", "noNumber"],
  ["Int", "five", "noNumber"],
  ["Int", "1234567890123456", "tooLarge"],
  ["Rational", "1/2/3", "noFraction"],
  ["Rational", "half", "noFraction"],
  ["Text", "a\u0007b", "noText"],
];

test("what people write is read", () => {
  for (const [type, text, due] of READ) assert.deepEqual(read(type, text), { text: due }, `${type} ${text}`);
});

test("what can't be meant is told", () => {
  for (const [type, text, due] of PROBLEMS) assert.deepEqual(read(type, text), { problem: due }, `${type} ${text}`);
});

test("a day is read of three fields", () => {
  assert.deepEqual(readDay("1986", "4", "28"), { text: "1986-04-28" });
  assert.deepEqual(readDay("2024", "02", "29"), { text: "2024-02-29" });
  /** @type {[string, string, string, string][]} */
  const wrong = [
    ["1986", "", "28", "noMonth"], ["1986", "4", "", "noDayOfMonth"], ["", "4", "28", "noYear"], ["86", "4", "28", "noYear"], ["2023", "2", "29", "noDay"],
    ["2023", "13", "1", "noDay"], ["2023", "0", "1", "noDay"], ["2023", "4", "31", "noDay"], ["1799", "1", "1", "noYearInRange"], ["2023", "x", "1", "noDay"],
  ];
  for (const [year, month, day, due] of wrong) assert.deepEqual(readDay(year, month, day), { problem: due }, `${year} ${month} ${day}`);
});

test("values are shown as people read them", () => {
  assert.equal(shown("Dollar", "1240.50", "en"), "$1,240.50");
  assert.equal(shown("Dollar", "-1234567.00", "en"), "−$1,234,567.00");
  assert.deepEqual(["0", "4700", "0.5"].map((bound) => shown("Dollar", bound, "en")), ["$0.00", "$4,700.00", "$0.50"]);
  assert.equal(shown("Int", "-1200", "en"), "−1,200");
  assert.equal(shown("Rational", "5/1", "en"), "5");
  assert.equal(shown("Day", "2023-04-01", "en"), "April 1, 2023");
  assert.equal(shown("Day", "2023-04-01", "es"), "1 de abril de 2023");
  assert.equal(written("Dollar", "1240.50"), "1,240.50");
});

test("what a field shows is read as it was", () => {
  for (let cents = -250_000; cents < 250_000; cents += 997) {
    const text = `${cents < 0 ? "-" : ""}${Math.trunc(Math.abs(cents) / 100)}.${String(Math.abs(cents) % 100).padStart(2, "0")}`;
    assert.deepEqual(read("Dollar", written("Dollar", text)), { text });
    assert.deepEqual(read("Dollar", shown("Dollar", text, "en")), { text });
  }
});
