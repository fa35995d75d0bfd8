// Shows what the page knows. What the server tells is set as text, never as HTML.

import { desk, isChanged, isChangedElsewhere, mayEdit, ROOMS_AT_ONCE, stateOf, takesPart } from "./desk.js";
import { drawFilters, drawRentHint, filterRooms } from "./filters.js";
import { chooseNotice, hasText, language, text, texts } from "./language.js";
import { LONGEST_LIST } from "./memory.js";
import { findRooms, stateText } from "./rooms.js";
import { lineOf, noticeParts, picturesOf, untilText, wordsOf } from "./told.js";

export const byId = id => document.getElementById(id);

export const inWords = codes => codes.length ? codes.join(", ") : text("emptyList");

// What the person has without any other room, in words.
const outcome = () => desk.me.home === null ? text("getsNone") : text("keeps", { home: desk.me.home });

// The text for somebody with a room, or the one for somebody without.
export const byHome = name => text(`${name}.${desk.me.home === null ? "homeless" : "homed"}`, { home: desk.me.home });

// A room code with a hyphen, in a text.
const CODE = /(?<![\p{L}\d-])([A-Z0-9]+-[A-Z0-9-]*)(?![\p{L}\d])/u;

// Puts a text into an element. No code in it is broken at its hyphen.
function fill(element, content) {
  element.replaceChildren(...content.split(CODE).map((part, at) =>
    at % 2 === 0 ? part : Object.assign(document.createElement("span"), { textContent: part, className: "code" }),
  ).filter(part => part !== ""));
  return element;
}

const element = (tag, content, more = {}) => Object.assign(fill(document.createElement(tag), content), more);

// Pairs of a name and a value, which is a text or a list of rooms. On a narrow page the value goes below its name.
function pairs(rows) {
  return rows.map(([name, value]) => {
    const pair = element("div", "");
    pair.append(element("dt", name), element("dd", Array.isArray(value) ? inWords(value) : value));
    return pair;
  });
}

// A button of a room. It is marked as disabled and never really is, so that it keeps the focus.
function roomButton(content, label, act, code, isOff = false) {
  const button = element("button", content, { type: "button" });
  button.setAttribute("aria-label", label);
  button.setAttribute("aria-disabled", isOff);
  Object.assign(button.dataset, { act, code });
  return button;
}

// --- What is said after each step

// The names of texts with their values, so that the message can be shown in another language too.
let said = { news: [], fault: [] };

export function say(news, values = {}) {
  said = { news: news ? [[news, values]] : [], fault: [] };
  drawMessages();
}

export function sayFault(...names) {
  said = { news: [], fault: names.map(name => [name, {}]) };
  drawMessages();
}

function drawMessages() {
  for (const [place, parts] of Object.entries(said)) {
    fill(byId(place), parts.map(([name, values]) => text(name, values)).join(" "));
  }
}

// --- The whole page

// What is shown of a person. Once signed out, the page has none of it, not even hidden.
const PERSONAL = [
  "facts", "result", "next", "record", "promises", "count", "rooms", "state", "list", "withdraw-text",
  "question-text", "question-lists",
];

export function draw() {
  const { me } = desk;
  drawMessages();
  drawAbout();
  drawUntil();
  drawNotice();
  byId("unready").hidden = true;
  byId("sign-in").hidden = me !== null;
  byId("desk").hidden = byId("sign-out").hidden = me === null;
  if (me === null) {
    for (const id of PERSONAL) byId(id).replaceChildren();
    return;
  }
  byId("facts").replaceChildren(...pairs(facts()));
  for (const [at, content] of resultTexts().entries()) fill(byId(["result", "next"][at]), content);
  byId("recorded").hidden = me.phase === "idle";
  fill(byId("record"), recordText());
  byId("edit").hidden = !mayEdit(me);
  if (!mayEdit(me)) return;
  const otherwise = me.choices.length > 0 ? text("handsInNoOther") : text("handsInNothing", { outcome: outcome() });
  const promises = [byHome("asking"), text("trueList"), otherwise];
  byId("promises").replaceChildren(...promises.map(promise => element("li", promise)));
  fill(byId("withdraw-text"), byHome("withdrawText"));
  drawFilters();
  drawRooms();
  drawList();
}

function drawAbout() {
  byId("about").hidden = false;
  byId("about-text").replaceChildren(...texts("about").map(([heading, content]) => {
    const paragraph = element("p", "");
    paragraph.append(element("strong", heading), ` ${content}`);
    return paragraph;
  }));
}

// Until when lists are taken, above the notice.
function drawUntil() {
  if (!byId("until")) byId("notice").before(element("p", "", { id: "until" }));
  byId("until").textContent = untilText(language());
  byId("until").hidden = byId("until").textContent === "";
}

let noticeOfPage = null;

// The clerks' notice. If they have written none, or have taken it away, that of index.html is there.
function drawNotice() {
  const notice = byId("notice"), parts = noticeParts(language());
  noticeOfPage ??= [...notice.childNodes];
  if (parts.length === 0) {
    notice.replaceChildren(...noticeOfPage);
    chooseNotice(notice);
    return;
  }
  notice.replaceChildren(...parts.map(part => element("span", part.words, { className: "part", lang: part.language })));
  notice.hidden = false;
}

// What is on record of the person.
function facts() {
  const { me } = desk;
  const part = me.withdrawn ? "withdrawn" : me.going ? "going" : me.phase === "idle" ? "idle" : "yes";
  const phase = me.phase === "open" && !takesPart(me) ? "openToOthers" : me.phase;
  return [
    [text("facts.name"), me.name],
    [text("facts.person"), me.person],
    [text("facts.home"), me.home ?? text("noHome")],
    [text("facts.round"), me.round > 0 ? String(me.round) : text("noRoundYet")],
    [text("facts.phase"), hasText(`phases.${phase}`) ? text(`phases.${phase}`) : phase],
    [text("facts.part"), text(`part.${part}`)],
  ];
}

// The result, and what to do next.
function resultTexts() {
  const { me } = desk, next = me.home === null ? text("next.none") : "";
  if (me.shown) {
    const kind = me.result === null ? "none" : me.result === me.home ? "keeps" : "gets";
    return [text(`result.${kind}`, { room: me.result }), text(`next.${kind}`)];
  }
  if (me.withdrawn) return [text("result.withdrawn", { outcome: outcome() }), next];
  if (me.going) return [byHome("result.going"), text("next.going")];
  if (me.phase === "idle") return ["", text(me.home === null ? "next.idleNone" : "next.idle")];
  return ["", ""];
}

function recordText() {
  const { me, sent } = desk;
  if (!takesPart(me)) return text(me.withdrawn ? "record.withdrawn" : "record.going");
  if (me.choices.length > 0) return inWords(me.choices);
  const kind = sent?.length === 0 ? "empty" : me.phase === "open" ? "nothing" : "closed";
  return text(`record.${kind}`, { outcome: outcome() });
}

// --- The rooms, and the list

const saidOf = code => `${lineOf(code)} ${wordsOf(code)}`;

export function drawRooms() {
  drawRentHint();
  const found = findRooms(filterRooms(desk.rooms), saidOf, desk.me.home, byId("find").value);
  byId("count").textContent = text("count", { found: found.length, all: desk.rooms.length });
  byId("rooms").replaceChildren(...found.slice(0, desk.shown).map(roomItem));
  byId("more").hidden = found.length <= desk.shown;
}

function roomItem(row) {
  const item = element("li", "", { className: "item" }), about = element("span", row.room, { className: "about" });
  about.append(element("span", stateText(row, desk.me.home), { className: "note" }));
  for (const said of [lineOf(row.room), wordsOf(row.room)].filter(words => words)) {
    about.append(element("span", said, { className: "note" }));
  }
  item.append(about);
  if (desk.list.includes(row.room)) {
    item.append(element("span", text("onList"), { className: "listed" }));
  } else if (row.state !== "shut") {
    const label = text("addLabel", { room: row.room });
    item.append(roomButton(text("add"), label, "add", row.room, desk.list.length >= LONGEST_LIST));
  }
  if (picturesOf(row.room).length > 0) item.append(picturesItem(row.room));
  return item;
}

// Plans and pictures of a room. The browser asks for them when they are opened.
function picturesItem(code) {
  const pictures = picturesOf(code), box = element("details", "", { className: "pictures", open: desk.pictured.has(code) });
  const show = () => box.append(...pictures.map(({ address, shows }, at) => {
    const figure = element("figure", "");
    const alt = shows || text("pictures.one", { number: at + 1, room: code });
    figure.append(element("img", "", { src: address, alt }));
    if (shows) figure.append(element("figcaption", shows));
    return figure;
  }));
  box.append(element("summary", text("pictures.all", { count: pictures.length, room: code })));
  if (box.open) show();
  box.addEventListener("toggle", () => {
    if (box.open && box.childElementCount === 1) show();
    desk.pictured[box.open ? "add" : "delete"](code);
  });
  return box;
}

export function drawList() {
  byId("list").replaceChildren(...desk.list.map(listItem));
  fill(byId("state"), stateLine());
  for (const id of ["hand-in", "undo"]) byId(id).setAttribute("aria-disabled", !isChanged());
}

function stateLine() {
  const count = desk.list.length;
  const kind = isChangedElsewhere() ? "elsewhere" : isChanged() ? "changed" : count > 0 ? "recorded" : "empty";
  return text(`state.${kind}`, { count, most: LONGEST_LIST, outcome: outcome() });
}

function listItem(code, place) {
  const item = element("li", ""), row = element("div", "", { className: "item" });
  const about = element("span", code, { className: "about" });
  const note = noteOn(code, place), description = lineOf(code);
  if (note) about.append(element("span", note, { className: "note" }));
  else if (description) about.append(element("span", description, { className: "note description" }));
  const buttons = element("span", "", { className: "buttons" });
  buttons.append(
    roomButton("↑", text("up", { room: code }), "up", code, place === 0),
    roomButton("↓", text("down", { room: code }), "down", code, place === desk.list.length - 1),
    roomButton("✕", text("remove", { room: code }), "remove", code),
  );
  row.append(about, buttons);
  item.append(row);
  return item;
}

function noteOn(code, place) {
  const own = desk.list.indexOf(desk.me.home), state = stateOf(code);
  if (code === desk.me.home) return text("notes.own");
  if (state === "shut" || state === "unknown") return text(`notes.${state}`);
  return own >= 0 && place > own ? text("notes.after") : "";
}

// The next rooms that were found are shown as well, and the keyboard goes on with them.
export function showMore() {
  const first = desk.shown;
  desk.shown += ROOMS_AT_ONCE;
  drawRooms();
  (document.querySelector(`#rooms li:nth-child(n + ${first + 1}) button`) ?? byId("find")).focus();
}

// Where the keyboard goes on: the next room that can be added, the next one to remove, or the button that was pressed.
export function nextFocus(act, code, place) {
  const buttonOf = (act, code) => document.querySelector(`#desk [data-act="${act}"][data-code="${code}"]`);
  if (act === "add") {
    const after = desk.rooms.slice(desk.rooms.findIndex(row => row.room === code));
    const next = after.map(row => buttonOf("add", row.room)).find(button => button !== null);
    return next ?? (byId("more").hidden ? byId("hand-in") : byId("more"));
  }
  if (act !== "remove") return buttonOf(act, code);
  return desk.list.length ? buttonOf("remove", desk.list[Math.min(place, desk.list.length - 1)]) : byId("list-heading");
}

// --- Questions

// Asks, and gives the value of the answer. The first answer has the focus, and is given by Escape too. An answer is its
// value, its text, and whether it can't be taken back.
export function ask(heading, content, lists, answers) {
  const question = byId("question");
  fill(byId("question-heading"), heading);
  fill(byId("question-text"), content);
  byId("question-lists").replaceChildren(...pairs(lists));
  byId("question-lists").hidden = lists.length === 0;
  byId("answers").replaceChildren(...answers.map(([value, label, isFinal]) =>
    element("button", label, { value, id: value, className: isFinal ? "danger" : "" })));
  question.returnValue = "";
  question.showModal();
  return new Promise(given => {
    question.addEventListener("close", () => given(question.returnValue || answers[0][0]), { once: true });
  });
}

const LOW = 30;

// On a screen that is high enough for its letters, at least LOW of them, the message stands above what scrolls. And the
// bar with "Hand in" stays in sight while the rooms and the list go by, unless large letters make it too high.
export function fitToScreen() {
  const root = document.documentElement, bar = byId("bar"), messages = byId("messages");
  const look = () => {
    root.style.setProperty("--bar", `${bar.offsetHeight}px`);
    root.style.setProperty("--messages", `${messages.offsetHeight}px`);
    root.classList.toggle("roomy", innerHeight >= LOW * parseFloat(getComputedStyle(root).fontSize));
    root.classList.toggle("sticks", bar.offsetHeight * 4 < innerHeight);
  };
  const observer = new ResizeObserver(look);
  for (const part of [root, bar, messages]) observer.observe(part);
  addEventListener("resize", look);
}
