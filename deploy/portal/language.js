// The language of the page: which one, its texts, and where they stand.

import { TEXTS } from "./texts.js";
import { recallLanguage } from "./memory.js";

const FIRST = Object.keys(TEXTS)[0];

let chosen = FIRST;

export const language = () => chosen;

// The text with this name, for example "faults.busy", or nothing. Names may come from the server, so only own members
// count.
function found(language, name) {
  return name.split(".").reduce((part, member) => part && Object.hasOwn(part, member) ? part[member] : undefined,
    TEXTS[language]);
}

const withValues = (text, values) => text.replace(/\{(\w+)\}/g, (all, name) => values[name] ?? all);

export const hasText = name => typeof found(FIRST, name) === "string";

export const text = (name, values = {}) => withValues(found(chosen, name) ?? found(FIRST, name) ?? name, values);

// The texts with this name, where it has several.
export function texts(name, values = {}) {
  const several = found(chosen, name) ?? found(FIRST, name) ?? [];
  return several.map(part => Array.isArray(part) ? part.map(one => withValues(one, values)) : withValues(part, values));
}

// The language that was chosen in this tab, or the first one of the browser's that there is.
export function firstLanguage() {
  for (const tag of [recallLanguage(), ...navigator.languages]) {
    const same = Object.keys(TEXTS).find(language => language.toLowerCase() === tag.toLowerCase());
    const near = Object.keys(TEXTS).find(language => language.toLowerCase() === tag.toLowerCase().split("-")[0]);
    if (same ?? near) return same ?? near;
  }
  return FIRST;
}

// Puts the texts of a language into the page.
export function setLanguage(language) {
  chosen = Object.hasOwn(TEXTS, language) ? language : FIRST;
  document.documentElement.lang = chosen;
  document.documentElement.dir = text("direction");
  document.title = text("title");
  for (const part of document.querySelectorAll("[data-text]")) part.textContent = text(part.dataset.text);
  for (const part of document.querySelectorAll("[data-label]")) {
    part.setAttribute("aria-label", text(part.dataset.label));
  }
  fillSwitch(document.getElementById("language"));
  chooseNotice(document.getElementById("notice"));
}

function fillSwitch(select) {
  select.replaceChildren(...Object.entries(TEXTS).map(([language, { languageName }]) => {
    const option = new Option(languageName, language, false, language === chosen);
    option.lang = language;
    return option;
  }));
  select.hidden = Object.keys(TEXTS).length < 2;
}

// Of the college's notice, the span of this language, or else the first one.
export function chooseNotice(notice) {
  const spans = [...notice.querySelectorAll(":scope > [lang]")];
  const shown = spans.find(span => span.lang === chosen) ?? spans[0];
  for (const span of spans) span.hidden = span !== shown;
  notice.hidden = notice.textContent.trim() === "";
}
