// What the clerks say of rooms, their notice, and whom to ask: /told/told.json. Nothing of it is taken as HTML. What is not as
// it should be is passed over.

import { desk } from "./desk.js";
import { hasText, text } from "./language.js";

const isObject = value => typeof value === "object" && value !== null && !Array.isArray(value);
const asText = value => typeof value === "string" ? value : "";
const members = value => isObject(value) ? Object.entries(value) : [];

const PICTURE = /^[0-9a-f]{32}\.jpg$/;

const asPictures = value => (Array.isArray(value) ? value : [])
  .filter(one => isObject(one) && PICTURE.test(asText(one.file)))
  .map(({ file, shows }) => ({ address: `/told/${file}`, shows: asText(shows) }));

const asRoom = value => isObject(value) ? {
  house: asText(value.house), floor: asText(value.floor), size: asText(value.size), rent: asText(value.rent),
  words: asText(value.text), amount: typeof value.amount === "number" ? value.amount : null,
} : {};

// Until when lists are taken: the moment, and how the office's clocks show it.
function asUntil(value) {
  const at = Date.parse(asText(value?.at));
  return Number.isNaN(at) ? null : { at, local: asText(value.local).replace("T", " "), zone: asText(value.zone) };
}

// The file's value, by parts.
export const readTold = value => ({
  notice: new Map(members(value?.notice).map(([language, words]) => [language, asText(words)]).filter(([, words]) => words)),
  contact: asText(value?.contact),
  until: asUntil(value?.until),
  rooms: new Map(members(value?.rooms).map(([code, one]) => [code, asRoom(one)])),
  pictures: new Map(members(value?.pictures).map(([code, several]) => [code, asPictures(several)])),
});

// A bare number with what it is: "2" becomes "floor 2", and "ground floor" stays.
const withUnit = (value, name) => /^\d+([.,]\d+)?$/.test(value) ? text(name, { value }) : value;

// Where a room is, how large, and what it costs, in one line. What the clerks say counts before the file rooms.csv.
export function lineOf(code) {
  const said = desk.told.rooms.get(code);
  if (!said) return desk.descriptions.get(code) ?? "";
  const parts = [said.house, withUnit(said.floor ?? "", "room.floor"), withUnit(said.size ?? "", "room.size"), said.rent];
  return parts.filter(part => part).join(", ");
}

// What else the clerks say of it.
export const wordsOf = code => desk.told.rooms.get(code)?.words ?? "";

export const picturesOf = code => desk.told.pictures.get(code) ?? [];

const DATE = {
  weekday: "long", day: "numeric", month: "long", year: "numeric", hour: "2-digit", minute: "2-digit", timeZoneName: "short",
};

// A date in the language of the page and in the zone of the office.
function dateText({ at, local, zone }, language) {
  try {
    const locale = hasText("locale") ? text("locale") : language;
    return new Intl.DateTimeFormat(locale, { ...DATE, timeZone: zone }).format(at);
  } catch {
    return `${local} (${zone})`;
  }
}

// Until when lists are taken, as long as the round is open, as far as the page knows.
export function untilText(language) {
  const { until } = desk.told;
  if (until === null || (desk.me !== null && desk.me.phase !== "open")) return "";
  return text(Date.now() < until.at ? "until" : "untilPast", { date: dateText(until, language) });
}

// The paragraphs of the notice: each with its text, and its language.
export function noticeParts(language) {
  const { notice, contact } = desk.told;
  const [own, words] = notice.has(language) ? [language, notice.get(language)] : [...notice][0] ?? ["", ""];
  return [
    ...words ? [{ words, language: own }] : [],
    ...contact ? [{ words: hasText("contact") ? text("contact", { contact }) : contact, language }] : [],
  ];
}
