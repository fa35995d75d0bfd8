// What this tab remembers until it is closed: the key, a list that was begun, and the language. It stands in
// sessionStorage, and beside it in variables, for browsers that keep nothing.
//
// The key has a time beside it, after which it counts no more: a browser opens a closed tab again with all that was in
// it, and on a computer that others use the next person can do so.

// How long the key outlives the page, in milliseconds. A browser may have a page in the background work once a minute.
const GONE = 2 * 60 * 1000;

const KEY = "room-key", LINKED = "room-key-link", UNTIL = "room-key-until", DRAFT = "rooms-draft", LANGUAGE = "rooms-language",
  NEWS = "rooms-news";

// How a key is written, and how many rooms a list has at most.
export const isKey = text => /^[a-z0-9]{16,64}$/.test(text);
export const LONGEST_LIST = 40;

const kept = new Map();

function write(name, value) {
  kept.set(name, value);
  try {
    sessionStorage.setItem(name, value);
  } catch { /* the variable is enough until the page is loaded again */ }
}

function read(name) {
  if (kept.has(name)) return kept.get(name);
  try {
    return sessionStorage.getItem(name) ?? "";
  } catch {
    return "";
  }
}

// Whether it outlives the page.
function isKept(name) {
  try {
    return sessionStorage.getItem(name) !== null;
  } catch {
    return false;
  }
}

function drop(name) {
  kept.set(name, "");
  try {
    sessionStorage.removeItem(name);
  } catch { /* nothing was kept there */ }
}

// To be called again and again while the page is there. What is written when a page ends may be lost.
export const keepKey = () => write(UNTIL, String(Date.now() + GONE));

export function rememberKey(key) {
  write(KEY, key);
  keepKey();
}

export const hasKey = () => read(KEY) !== "";

// The key, if its time is not over. It is over, too, if the clock was set back.
export function recallKey() {
  const left = Number(read(UNTIL)) - Date.now();
  return left > 0 && left < 2 * GONE ? read(KEY) : "";
}

// Gives the key that was there.
export function forgetKey() {
  const key = read(KEY);
  drop(KEY);
  drop(UNTIL);
  return key;
}

// The name of a text, for the page as it is loaded next in this tab.
export const rememberNews = name => write(NEWS, name);

export function takeNews() {
  const name = read(NEWS);
  drop(NEWS);
  return name;
}

// A link on a slip has a key behind `#`, which no browser sends to a server. Takes what is there out of the address, and says
// whether the page is loaded again without it, to which the tab hands it over. A browser that loads the page anew for that does
// not show the link among the pages that were visited; where the address alone is changed, it does.
export function leaveLink(isLoading) {
  const given = location.hash.slice(1), address = location.pathname + location.search;
  if (!given) return false;
  write(LINKED, given);
  if (isLoading && isKept(LINKED)) {
    location.replace(address);
    return true;
  }
  history.replaceState(null, "", address);
  return false;
}

// The key of the link, once.
export function takeLinkedKey() {
  const given = read(LINKED);
  drop(LINKED);
  return isKey(given) ? given : "";
}

export const rememberLanguage = language => write(LANGUAGE, language);
export const recallLanguage = () => read(LANGUAGE);

// What was done with the list of one person in one round:
//   list  as it stands in the page, or null where it is the one on record;
//   base  the list on record from which it was begun;
//   sent  the list that this tab handed in last, or null.
export const rememberDraft = draft => write(DRAFT, JSON.stringify(draft));
export const forgetDraft = () => drop(DRAFT);

const isList = value => Array.isArray(value) && value.length <= LONGEST_LIST && value.every(code => typeof code === "string");

// The draft of this person, or nothing: another person's is never shown, and a damaged one is passed over. A list that was begun in
// another round, as in one that was given up since, is not lost by that. What was on record or handed in then says nothing of this
// round; but a list that is on record in it by now is replaced only if the person says so.
export function recallDraft(person, round, recorded) {
  try {
    const draft = JSON.parse(read(DRAFT));
    const isWhole = isList(draft.base) && [draft.list, draft.sent].every(list => list === null || isList(list));
    if (!isWhole || draft.person !== person) return null;
    return draft.round === round ? draft : { ...draft, base: recorded.length > 0 ? draft.base : [], sent: null };
  } catch {
    return null;
  }
}
