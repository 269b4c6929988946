// The engine behind the service, over HTTP. README.md of the service says what an engine is.

import { Ended, TextRefused, Unreachable } from "./session.js";

const SECONDS_FOR_CALL = 20;

/** @returns {Promise<import("./session.js").Engine>} */
export async function openEngine() {
  const token = document.querySelector("meta[name=token]")?.getAttribute("content") ?? "";
  const response = await fetch("form.json");
  if (!response.ok) throw new Unreachable(`status ${response.status}`);
  return engineOf(await response.json(), token);
}

/** @param {any} form @param {string} token @returns {import("./session.js").Engine} */
function engineOf(form, token) {
  /** @type {{ visit: string | null, revision: number }} */
  let known = { visit: null, revision: 0 };

  /** @param {string} call @param {object} said */
  const post = async (call, said = {}) => {
    const text = await sent(call, token, { ...known, ...said });
    if (call === "save") return text;
    const told = JSON.parse(text);
    if (told.revision !== undefined) known = { visit: told.visit, revision: told.revision };
    return told;
  };

  return {
    form,
    answer: (change, questions) => post("answer", change ? { change: change.id, line: change.line, questions } : { questions }),
    save: () => post("save"),
    resume: (text) => post("resume", { change: crypto.randomUUID(), text }),
    stay: () => post("stay"),
    end: async () => {
      await post("end");
      known = { visit: null, revision: 0 };
    },
  };
}

/**
 * The text of the answer to a call.
 * @param {string} call @param {string} token @param {object} said
 */
async function sent(call, token, said) {
  let response, text;
  const control = new AbortController();
  const timer = setTimeout(() => control.abort(), SECONDS_FOR_CALL * 1000);
  try {
    response = await fetch(call, {
      method: "POST",
      headers: { "Content-Type": "application/json", "X-Token": token },
      body: JSON.stringify(said),
      signal: control.signal,
    });
    text = await response.text();
  } catch (wrong) {
    throw new Unreachable(String(wrong));
  } finally {
    clearTimeout(timer);
  }
  if (response.ok) return text;
  const error = /"error": ?"(\w+)"/.exec(text)?.[1];
  if (response.status === 410 || error === "token" || error === "cookie") throw new Ended(error);
  if (error === "text") throw new TextRefused();
  throw new Unreachable(`status ${response.status}`, Number(response.headers.get("Retry-After")) || undefined);
}
