// What the page knows, and what follows from it.

import { LONGEST_LIST, recallDraft, rememberDraft } from "./memory.js";

export const ROOMS_AT_ONCE = 20;

// The key; the answers to GET /me and GET /rooms; what the administrator's file says of each room, and what the clerks say
// (told.js); the rooms whose pictures are shown; the list as it stands in the page, the one on record from which it was begun,
// and the one that was handed in last; how many rooms are shown; whether an answer is awaited.
export const desk = {
  key: "", me: null, rooms: [], descriptions: new Map(),
  told: { notice: new Map(), contact: "", until: null, rooms: new Map(), pictures: new Map() }, pictured: new Set(),
  list: [], base: [], sent: null, shown: ROOMS_AT_ONCE, isBusy: false,
};

export const isSameList = (one, other) => one.length === other.length && one.every((code, at) => code === other[at]);
// Whether the person takes part: who has withdrawn does not, nor does who leaves the college at the end of the round.
export const takesPart = person => !person.withdrawn && !person.going;
export const mayEdit = person => person.phase === "open" && takesPart(person);
export const isChanged = () => desk.me !== null && mayEdit(desk.me) && !isSameList(desk.list, desk.me.choices);
export const stateOf = code => desk.rooms.find(row => row.room === code)?.state ?? "unknown";

// Whether the list on record is neither the one from which the list in the page was begun nor one that this tab handed
// in.
export const isChangedElsewhere = () => isChanged() && !isSameList(desk.me.choices, desk.base)
  && !(desk.sent !== null && isSameList(desk.me.choices, desk.sent));

// Takes what the server has on record. A list that was begun in this tab, by this person, stays in the page, also if another
// round is open by now. Says whether such a list is there, or came too late.
export function takeRecord(person, rooms) {
  const draft = recallDraft(person.person, person.round, person.choices);
  const begun = draft?.list && mayEdit(person) ? draft : null;
  desk.me = person;
  if (rooms) desk.rooms = rooms;
  desk.list = [...begun?.list ?? person.choices];
  desk.base = begun?.base ?? person.choices;
  desk.sent = draft?.sent ?? null;
  const isLate = Boolean(draft?.list) && !begun;
  rememberList();
  return { hasDraft: isChanged(), isLate };
}

// To be called after each change of the list.
export function rememberList() {
  if (!isChanged()) {
    desk.base = desk.me.choices;
    if (desk.sent !== null && !isSameList(desk.sent, desk.base)) desk.sent = null;
  }
  const { list, base, sent, me: { person, round } } = desk;
  rememberDraft({ person, round, list: isChanged() ? list : null, base, sent });
}

// Puts the list on record into the page.
export function backToRecord() {
  desk.list = [...desk.me.choices];
  rememberList();
}

// Changes the list in the page, and says whether there was anything to change.
export function changeList(act, code) {
  const { list } = desk, place = list.indexOf(code);
  if (act === "add" && place < 0 && list.length < LONGEST_LIST) list.push(code);
  else if (act === "remove" && place >= 0) list.splice(place, 1);
  else if (act === "up" && place > 0) list.splice(place - 1, 0, ...list.splice(place, 1));
  else if (act === "down" && place >= 0 && place < list.length - 1) list.splice(place + 1, 0, ...list.splice(place, 1));
  else return false;
  rememberList();
  return true;
}
