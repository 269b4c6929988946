// Small things that make elements. All that comes from outside is put in as text.

/** @typedef {string | Node | null | undefined | false} Child */

/**
 * @template {keyof HTMLElementTagNameMap} Tag
 * @param {Tag} tag @param {Record<string, unknown>} [attributes] @param {Child[]} children
 * @returns {HTMLElementTagNameMap[Tag]}
 */
export function make(tag, attributes = {}, ...children) {
  const made = document.createElement(tag);
  for (const [name, value] of Object.entries(attributes)) {
    if (typeof value === "function") made.addEventListener(name, /** @type {EventListener} */ (value));
    else if (value !== undefined && value !== null && value !== false) made.setAttribute(name, value === true ? "" : String(value));
  }
  made.append(.../** @type {(string | Node)[]} */ (children.filter((child) => child !== null && child !== undefined && child !== false)));
  return made;
}

/**
 * Text for those who hear the page.
 * @param {string} text
 */
export const heard = (text) => make("span", { class: "sr-only" }, text);

/**
 * A button. What only those hear who don't see what stands around it comes behind its label.
 * @param {string} label @param {() => unknown} act @param {{ class?: string, about?: string }} [more]
 */
export function button(label, act, more = {}) {
  const { class: kind = "", about } = more;
  return make("button", { type: "button", class: `button ${kind}`.trim(), click: act }, label, about && heard(` ${about}`));
}

/**
 * Puts the elements into the place in this order, and moves none that stands right, so that the focus stays.
 * @param {Element} place @param {Element[]} elements
 */
export function arrange(place, elements) {
  for (const child of [...place.children]) {
    if (!elements.includes(child)) child.remove();
  }
  elements.forEach((element, at) => {
    if (place.children[at] !== element) place.insertBefore(element, place.children[at] ?? null);
  });
}
