// A resident's page. It sends the requests of docs/residents.md and shows their answers.
//
// The key lives in this tab alone (memory.js), never in an address or in localStorage.

import {
  backToRecord, changeList, desk, isChanged, isChangedElsewhere, mayEdit, rememberList, ROOMS_AT_ONCE, takeRecord,
} from "./desk.js";
import { clearFilters } from "./filters.js";
import { firstLanguage, setLanguage, text } from "./language.js";
import {
  forgetDraft, forgetKey, hasKey, isKey, keepKey, leaveLink, recallKey, rememberKey, rememberLanguage, rememberNews,
  takeLinkedKey, takeNews,
} from "./memory.js";
import { inOrder, readDescriptions } from "./rooms.js";
import { ACCOUNT, call, endSignIn, Fault, roomsFile, SIGN_IN, SIGN_OUT, toldFile } from "./server.js";
import { readTold } from "./told.js";
import {
  ask, byHome, byId, draw, drawList, drawRooms, inWords, fitToScreen, nextFocus, say, sayFault, showMore,
} from "./view.js";

// --- Asking the server

const UNSURE = { doubt: ["unsure"] };

// Asks what is on record. Says whether a list that was begun is in the page, or came too late.
async function load(doubt = {}) {
  const person = await call(desk.key, "GET", "/me", doubt);
  const rooms = mayEdit(person) ? inOrder(await call(desk.key, "GET", "/rooms", doubt)) : null;
  const taken = takeRecord(person, rooms);
  draw();
  takeTold();
  return taken;
}

// One thing at a time: a press while an answer is awaited is passed over. Gives what the work gives, or nothing after a
// fault.
async function during(work) {
  if (desk.isBusy) return undefined;
  desk.isBusy = true;
  document.body.setAttribute("aria-busy", "true");
  say("waiting");
  try {
    return await work();
  } catch (fault) {
    if (!(fault instanceof Fault)) throw fault;
    await tellFault(fault);
    return undefined;
  } finally {
    desk.isBusy = false;
    document.body.removeAttribute("aria-busy");
  }
}

async function tellFault(fault) {
  if (fault.status === 401 || fault.status === 403) {
    // A list that was begun stays in this tab, for the same person.
    const isOfAccount = leave();
    if (isOfAccount && fault.status === 403) {
      leaveAccount(fault.names[0]);
      return;
    }
    byId("key").focus();
  } else if (desk.me !== null && fault.isOfOffice) {
    try {
      await load();
    } catch { /* the first fault is the one to tell */ }
  }
  sayFault(...fault.names);
}

// --- Signing in and out

function signIn(event) {
  event.preventDefault();
  // Spaces and hyphens of any kind stand between groups of a printed key, and phones begin with a capital.
  const given = byId("key").value.replace(/[\s\p{Pd}\p{Cf}]/gu, "").toLowerCase();
  byId("key").setAttribute("aria-invalid", !isKey(given));
  if (!isKey(given)) {
    sayFault("badKey");
    byId("key").focus();
    return;
  }
  signInWith(given);
}

function signInWith(key) {
  during(async () => {
    desk.key = key;
    const taken = await load();
    rememberKey(key);
    byId("key").value = "";
    sayTaken(taken, "signedIn");
    byId("round-heading").focus();
  });
}

// Whether the browser comes back from signing in by an account.
function comesFromAccount() {
  if (location.search !== "?account") return false;
  history.replaceState(null, "", location.pathname);
  return true;
}

function sayTaken({ hasDraft, isLate }, otherwise) {
  say(isLate ? "draftLate" : hasDraft ? "draftBack" : otherwise);
}

// Fills in the key of a link, and signs out whoever else is signed in. Says whether it did. While an answer is awaited, of the
// server or to a question, it does not.
function takeLink() {
  const given = takeLinkedKey();
  if (!given || given === recallKey() || desk.isBusy || byId("question").open) return false;
  if (hasKey() && leave()) endSignIn();
  byId("key").value = given;
  say("keyFromLink");
  byId("sign-in").querySelector("button.main").focus();
  return true;
}

// Takes the person out of the page, and says whether they were signed in by an account.
function leave() {
  const isOfAccount = [desk.key, forgetKey()].includes(ACCOUNT);
  Object.assign(desk, { key: "", me: null, rooms: [], list: [], base: [], sent: null, shown: ROOMS_AT_ONCE });
  desk.pictured.clear();
  byId("find").value = "";
  clearFilters();
  draw();
  return isOfAccount;
}

// Signs out at the proxy and at the college. The page is then loaded again, and shows the text with this name.
function leaveAccount(name) {
  rememberNews(name);
  location.assign(SIGN_OUT);
}

async function signOut() {
  if (desk.isBusy) return;
  if (isChanged()) {
    const answers = [["stay", text("signOutQuestion.stay")], ["go", text("signOutQuestion.go"), true]];
    const answer = await ask(text("signOutQuestion.heading"), text("signOutQuestion.text"), bothLists(), answers);
    if (answer !== "go") return;
  }
  forgetDraft();
  if (leave()) {
    leaveAccount("signedOut");
    return;
  }
  say("signedOut");
  byId("key").focus();
}

// --- Signing out by time

// In milliseconds: how long a person stays signed in without using the page, how long before its end the page says so,
// and how often it looks.
const UNUSED = 10 * 60 * 1000, NOTICE = 60 * 1000, OFTEN = 5000;

let used = Date.now(), isWarned = false;

// A clock that was set back ends the time.
function timeLeft() {
  const unused = Date.now() - used;
  return unused > -NOTICE ? UNUSED - unused : 0;
}

// A list that was begun stays in this tab, for the same person.
function endByTime() {
  isWarned = false;
  if (leave()) {
    leaveAccount("timedOut");
    return;
  }
  sayFault("timedOut");
  byId("key").focus();
}

// A question that is open would cover the notice, and is answered by no.
function lookAtTime() {
  if (!hasKey() || desk.isBusy) return;
  const left = timeLeft();
  if (left > 0) keepKey();
  if (left > NOTICE) return;
  if (byId("question").open) byId("question").close();
  else if (left <= 0) endByTime();
  else if (!isWarned) {
    isWarned = true;
    sayFault("timeEnds");
  }
}

// A key, a finger or the mouse. It does not come in time if the computer has slept.
function onUse() {
  if (hasKey() && timeLeft() <= 0) {
    lookAtTime();
    return;
  }
  used = Date.now();
  if (isWarned) say("stillSignedIn");
  isWarned = false;
}

// --- Handing in a list

// The name of the fault that the server would answer to a list of somebody who may hand in none.
const whyClosed = person => person.phase !== "open" ? "BadPhase" : person.withdrawn ? "Withdrawn" : "Going";

// Before a list goes out, the record is looked at: a list that another device has handed in meanwhile is not replaced
// unasked.
async function handIn() {
  if (desk.isBusy) return;
  if (!isChanged()) {
    say("nothingNew");
    return;
  }
  const isThere = await during(async () => {
    await load({ doubt: ["unchanged"] });
    if (!mayEdit(desk.me)) sayFault(`faults.${whyClosed(desk.me)}`);
    else say(isChanged() ? "" : "nothingNew");
    return isChanged();
  });
  if (!isThere) return;
  if (!isChangedElsewhere()) {
    await during(sendList);
    return;
  }
  const answer = await askWhichList();
  if (answer === "keep") undo();
  if (answer === "later") say("elsewhere.waits");
  if (answer !== "replace") return;
  // The record is looked at once more: while the question was open, a third list may have been handed in, which nobody has seen.
  desk.base = desk.me.choices;
  rememberList();
  await handIn();
}

const bothLists = () => [[text("elsewhere.record"), desk.me.choices], [text("elsewhere.here"), desk.list]];

function askWhichList() {
  const answers = [
    ["later", text("elsewhere.later")], ["keep", text("elsewhere.keep")], ["replace", text("elsewhere.replace"), true],
  ];
  return ask(text("elsewhere.heading"), text("elsewhere.text"), bothLists(), answers);
}

async function sendList() {
  desk.sent = [...desk.list];
  rememberList();
  const kept = await call(desk.key, "PUT", "/me/choices", { body: JSON.stringify(desk.list), ...UNSURE });
  desk.me.choices = kept.choices;
  desk.sent = [...kept.choices];
  backToRecord();
  draw();
  say(kept.choices.length ? "handedIn" : "handedInEmpty", { list: inWords(kept.choices) });
}

// --- Changing the list in the page

function change(act, code) {
  const place = desk.list.indexOf(code);
  if (!changeList(act, code)) return;
  drawRooms();
  drawList();
  const values = { room: code, place: desk.list.indexOf(code) + 1, count: desk.list.length };
  say(act === "remove" ? "removed" : "added", values);
  nextFocus(act, code, place).focus();
}

function undo() {
  if (desk.isBusy) return;
  backToRecord();
  drawRooms();
  drawList();
  say("undone");
}

// --- Withdrawing

async function withdraw() {
  if (desk.isBusy) return;
  const answers = [["stay", text("withdrawQuestion.stay")], ["go", text("withdrawQuestion.go"), true]];
  const answer = await ask(text("withdrawQuestion.heading"), byHome("withdrawQuestion"), [], answers);
  if (answer !== "go") {
    say("stayed");
    return;
  }
  await during(async () => {
    await call(desk.key, "POST", "/me/withdraw", UNSURE);
    desk.me.withdrawn = true;
    backToRecord();
    draw();
    say("withdrawn");
    byId("round-heading").focus();
  });
}

// --- What the page does

function onButton(event) {
  const button = event.target.closest("button[data-act]");
  if (button && !desk.isBusy) change(button.dataset.act, button.dataset.code);
}

function onKey(event) {
  const button = event.target.closest("button[data-act]"), act = { ArrowUp: "up", ArrowDown: "down" }[event.key];
  if (!button || !act || !event.altKey || desk.isBusy) return;
  event.preventDefault();
  change(act, button.dataset.code);
}

function onShowKey() {
  byId("key").type = byId("show-key").checked ? "text" : "password";
}

function onFind() {
  desk.shown = ROOMS_AT_ONCE;
  drawRooms();
}

function onLanguage() {
  const language = byId("language").value;
  rememberLanguage(language);
  setLanguage(language);
  draw();
}

async function askAgain() {
  await during(async () => sayTaken(await load(), "asked"));
}

function listen() {
  byId("sign-in").addEventListener("submit", signIn);
  // A college's own index.html may be of a version before.
  byId("account")?.addEventListener("click", () => location.assign(SIGN_IN));
  byId("show-key").addEventListener("change", onShowKey);
  byId("language").addEventListener("change", onLanguage);
  byId("desk").addEventListener("click", onButton);
  byId("list").addEventListener("keydown", onKey);
  for (const id of ["find", "filters"]) byId(id)?.addEventListener("input", onFind);
  const presses = { "sign-out": signOut, "ask-again": askAgain, "hand-in": handIn, more: showMore, undo, withdraw };
  for (const [id, act] of Object.entries(presses)) byId(id).addEventListener("click", act);
  for (const use of ["keydown", "pointerdown", "pointermove", "wheel"]) {
    addEventListener(use, onUse, { capture: true, passive: true });
  }
  setInterval(lookAtTime, OFTEN);
  addEventListener("hashchange", () => { leaveLink(false); takeLink(); });
  // A page that the browser has kept whole would still be signed in.
  addEventListener("pageshow", event => { if (event.persisted) location.reload(); });
  addEventListener("beforeunload", event => { if (isChanged()) event.preventDefault(); });
}

async function describeRooms() {
  desk.descriptions = readDescriptions(await roomsFile());
  if (desk.me !== null && desk.descriptions.size > 0) draw();
}

// What the clerks say may change while the page is open. If nothing has changed, or it cannot be had, nothing is drawn anew.
let toldBefore = "";

async function takeTold() {
  const found = await toldFile(), now = JSON.stringify(found);
  if (found === null || now === toldBefore) return;
  toldBefore = now;
  desk.told = readTold(found);
  draw();
}

function start() {
  if (comesFromAccount()) {
    signInWith(ACCOUNT);
    return;
  }
  desk.key = recallKey();
  if (desk.key) {
    during(async () => sayTaken(await load(), ""));
  } else if (hasKey()) {
    endByTime();
  } else {
    const news = takeNews();
    if (news) sayFault(news);
    byId("key").focus();
  }
}

function openPage() {
  setLanguage(firstLanguage());
  if (document.querySelector('meta[name="sign-in"]')?.content === "account") byId("by-account").hidden = false;
  listen();
  fitToScreen();
  draw();
  describeRooms();
  takeTold();
  if (!takeLink()) start();
}

if (!leaveLink(true)) openPage();
