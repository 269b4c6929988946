// Times what the runner asks for, and begins anew until it asks for nothing more.

import { calls, start } from "./calls.js";

const text = async (/** @type {string} */ address) => (await fetch(address)).text();

const what = await text("/next");
if (what) {
  let told;
  try {
    told = await (what === "start" ? start() : calls(await text("/examples/screener.json"), await text("/examples/screener.script")));
  } catch (wrong) {
    told = String(wrong);
  }
  await fetch("/told", { method: "POST", body: JSON.stringify(told) });
  location.reload();
}
