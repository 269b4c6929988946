"""Rules of the Web Content Accessibility Guidelines 2.2, levels A and AA, as far as a page's own elements show whether they are kept.

Each rule is a script that returns what breaks it, by the name under which the guidelines have it.
"""

from __future__ import annotations

COLOURS = """
const light = (colour) => {
  const parts = colour.match(/[\\d.]+/g).map(Number);
  const [r, g, b] = parts.slice(0, 3).map((it) => it / 255).map((it) => (it <= 0.04045 ? it / 12.92 : ((it + 0.055) / 1.055) ** 2.4));
  return 0.2126 * r + 0.7152 * g + 0.0722 * b;
};
const contrast = (one, other) => {
  const [a, b] = [light(one), light(other)].sort((x, y) => y - x);
  return (a + 0.05) / (b + 0.05);
};
const groundOf = (element) => {
  for (let at = element; at; at = at.parentElement) {
    const colour = getComputedStyle(at).backgroundColor;
    if (!/, 0\\)$/.test(colour) && colour !== "transparent") return colour;
  }
  return "rgb(255, 255, 255)";
};
"""

ELEMENTS = """
const CONTROLS = "a, button, input, select";
const all = (selector) => [...document.querySelectorAll(selector)];
const seen = (selector) => all(selector).filter((it) => it.checkVisibility());
const found = (elements, isBroken, why) => elements.filter(isBroken).map((it) => `${it.outerHTML.slice(0, 100)} ${why}`);
"""

RULES = {
    "non_text_content": """
        const shown = seen("img, svg, canvas, video, audio, object, iframe, input[type=image]");
        return found(shown, (it) => !it.matches("[alt], [aria-label], [aria-hidden]"), "has no name");""",
    "info_and_relationships": """
        const names = ["aria-describedby", "aria-labelledby", "for"];
        const ids = all("[id]").map((it) => it.id);
        const named = (it) => names.flatMap((name) => (it.getAttribute(name) ?? "").split(" ").filter(Boolean));
        return [
          ...ids.filter((id, at) => ids.indexOf(id) !== at),
          ...found(all("*"), (it) => named(it).some((id) => !document.getElementById(id)), "names what isn't there"),
          ...found(all("fieldset"), (it) => it.firstElementChild?.tagName !== "LEGEND", "has no legend"),
          ...found(all("input, select, textarea"), (it) => it.labels.length === 0, "has no label"),
          ...found(all("dl > :not(dt, dd, div), dl > div > :not(dt, dd), ul > :not(li), ol > :not(li)"), () => true, "stands in a list"),
          ...found(seen("dl"), (it) => it.children.length > 0 && !it.querySelector("dt"), "has no term"),
        ];""",
    "headings": """
        const level = (it) => Number(it.tagName[1]);
        const headings = seen("h1, h2, h3, h4, h5, h6");
        return [
          ...found(headings, (it) => level(it) > (it === headings[0] ? 1 : level(headings[headings.indexOf(it) - 1]) + 1), "leaves a level out"),
          ...found(headings, (it) => it.textContent.trim() === "", "is empty"),
        ];""",
    "landmarks": """
        return [
          ...["h1", "main", "body > header"].filter((it) => all(it).length !== 1).map((it) => `${it}: ${all(it).length}`),
          ...found(seen("section"), (it) => !document.getElementById(it.getAttribute("aria-labelledby")), "has no name"),
        ];""",
    "contrast_of_text": COLOURS + """
        const isText = (it) => [...it.childNodes].some((node) => node.nodeType === 3 && node.textContent.trim() !== "");
        const isRead = (it) => (isText(it) || it.matches("input[type=text], select")) && !it.disabled && !it.closest(".sr-only, [disabled]");
        return found(seen("body *").filter(isRead), (it) => contrast(getComputedStyle(it).color, groundOf(it)) < 4.5, "is hard to read");""",
    "contrast_of_controls": COLOURS + """
        const edge = (it) => contrast(getComputedStyle(it).borderTopColor, groundOf(it.parentElement));
        return found(seen("input[type=text], select"), (it) => !it.disabled && edge(it) < 3, "has an edge that is hardly seen");""",
    "target_size": """
        const isSmall = ({ width, height }) => width < 24 || height < 24;
        const targets = seen("button, input:not(.sr-only), select, summary, a[href]:not(.skip), label.button");
        return found(targets, (it) => isSmall(it.getBoundingClientRect()), "is small");""",
    "title_and_language": """
        return [
          ...found([document.documentElement], (it) => !/^(en|es)$/.test(it.lang), "has no language"),
          ...found(all("h1"), (it) => it.textContent !== document.title, `isn't ${document.title}`),
        ];""",
    "roles": """
        const roles = ["status", "alert", "radiogroup", "group"];
        const stating = "input[type=text], select, [role=radiogroup]";
        return [
          ...found(all("[aria-required], [aria-invalid]"), (it) => !it.matches(stating), "states what its role doesn't"),
          ...found(all(stating), (it) => !["true", "false"].includes(it.getAttribute("aria-required")), "doesn't say whether it is needed"),
          ...found(all("[role]"), (it) => !roles.includes(it.getAttribute("role")), "has another role"),
          ...found(all("[role=radiogroup]"), (it) => it.querySelectorAll("input[type=radio]").length < 2, "has no choice"),
          ...found(all(":is(div, span, p):is([aria-labelledby], [aria-label])"), (it) => !it.matches("[role]"), "can't have a name"),
          ...found(all("[tabindex]"), (it) => it.tabIndex > 0, "has an order of its own"),
          ...found(all("[aria-hidden=true]"), (it) => it.matches(CONTROLS) || it.querySelector(CONTROLS), "is hidden and reached"),
          ...found(all("button, a, label"), (it) => it.querySelector(CONTROLS), "has a control inside"),
        ];""",
    "labels_or_instructions": """
        const labels = seen(".field").map((it) => it.querySelector(":scope > .label").firstChild.textContent.trim());
        const boxes = seen(".field").map((it) => it.closest(".member")?.querySelector("legend").textContent ?? "");
        const names = labels.map((label, at) => `${boxes[at]} ${label}`);
        return [...labels.filter((it) => it === "" || /[/_]/.test(it)), ...names.filter((it, at) => names.indexOf(it) !== at)];""",
    "error_identification": """
        const said = (it) => it.querySelector(":scope > .error").textContent;
        const wrong = seen(".field").filter((it) => said(it) !== "");
        const links = seen(".summary a").map((it) => it.textContent);
        const labelOf = (it) => it.querySelector(".label").firstChild.textContent;
        const stating = (it) => (it.matches("[role=radiogroup]") ? [it] : [...it.querySelectorAll("input, select")]);
        const isTold = (it) => stating(it).every((part) => part.getAttribute("aria-describedby").includes(it.querySelector(".error").id));
        return [
          ...found(wrong, (it) => !links.some((link) => link.startsWith(labelOf(it))), "isn't in the summary"),
          ...found(wrong, (it) => !stating(it).every((part) => part.getAttribute("aria-invalid") === "true"), "doesn't state it"),
          ...found(wrong, (it) => !isTold(it), "isn't told with it"),
          ...wrong.map(said).filter((it) => !/^Error: (Enter|Leave|Escriba|Quite) /.test(it)),
          ...(links.length === wrong.length ? [] : [`${links.length} links, ${wrong.length} errors`]),
        ];""",
    "reflow": """
        const { scrollWidth, clientWidth } = document.documentElement;
        return scrollWidth <= clientWidth ? [] : found(seen("body *"), (it) => it.getBoundingClientRect().right > clientWidth, `is beyond ${clientWidth}`);""",
    "nothing_is_cut": """
        const hides = (it) => /hidden|clip/.test(getComputedStyle(it).overflowX + getComputedStyle(it).overflowY);
        const isCut = (it) => hides(it) && (it.scrollWidth > it.clientWidth + 1 || it.scrollHeight > it.clientHeight + 1);
        return found(seen("body *:not(.sr-only, input)"), isCut, "is cut");""",
    "consistent_help": """
        const help = document.querySelector("body > header > .head + .introduction");
        return help?.nextElementSibling?.matches(".tools") ? [] : ["the introduction stands elsewhere"];""",
}
"""The rules that hold whenever they are looked at."""

LARGER_TEXT = "html { font-size: 200% !important; }"
SPACED_TEXT = """@media all {
  * { line-height: 1.5 !important; letter-spacing: 0.12em !important; word-spacing: 0.16em !important; }
  p { margin-bottom: 2em !important; }
}"""
"""What people may do to the text of any page: a rule of style that makes it larger, and one that gives it more space."""

STOP = COLOURS + """
const it = document.activeElement;
if (!it || it === document.body) return null;
const shown = it.matches(".sr-only") ? it.nextElementSibling : it;
const panel = it.closest(".asked, .follows, .review, dialog, header") ?? document.body;
const box = shown.getBoundingClientRect();
const from = panel.getBoundingClientRect();
const style = getComputedStyle(shown);
const { width, height } = visualViewport;
const isInView = box.left > -1 && box.top > -1 && box.right < width + 1 && box.bottom < height + 1;
const middleOf = (start, end, most) => (Math.max(start, 0) + Math.min(end, most)) / 2;
const middle = document.elementFromPoint(middleOf(box.left, box.right, width), middleOf(box.top, box.bottom, height));
return {
  name: it.outerHTML.slice(0, 100),
  key: it.id || `${it.textContent} ${it.closest("[data-slot]")?.dataset.slot ?? ""}`,
  panel: panel.className || panel.tagName,
  left: box.left - from.left,
  top: box.top - from.top + panel.scrollTop,
  height: box.height,
  isOutlined: style.outlineStyle !== "none" && parseFloat(style.outlineWidth) >= 2 && contrast(style.outlineColor, groundOf(shown.parentElement)) >= 3,
  isSeen: (isInView || it === panel) && middle !== null && (shown.contains(middle) || middle.contains(shown) || Boolean(middle.closest("label"))),
};
"""
"""What has the focus: where it is, and whether all of it is in view and nothing lies over it; of a panel that scrolls, which Firefox stops at, a part."""

STOPS = """
const controls = [...document.querySelectorAll("button, input, select, summary, a[href]")].filter((it) => it.checkVisibility() && !it.disabled);
const groups = new Set();
return controls.filter((it) => it.type !== "radio" || (!groups.has(it.name) && groups.add(it.name))).length;
"""
"""How many stops the keyboard makes on the page: a group of radio buttons is one."""
