// By what residents look for rooms, besides the words that they type: the house, whether a room is free, and the rent. The page
// offers that only where the clerks have said so much of rooms.

import { desk } from "./desk.js";
import { text } from "./language.js";

const byId = id => document.getElementById(id);
const BY_NAME = new Intl.Collator(undefined, { numeric: true });

// Of the rooms that there are, as far as the page knows which these are.
const valuesOf = field => [...desk.told.rooms]
  .filter(([code]) => desk.rooms.length === 0 || desk.rooms.some(({ room }) => room === code))
  .map(([, said]) => said[field]).filter(value => value || value === 0);

// A rent that was typed, such as 450, 450,50 or 1.200; nothing if it is none.
export function amountOf(typed) {
  const bare = typed.replace(/[\s'’]|[^\d.,]+$|^[^\d]+/g, "");
  const found = /^(\d{1,3}(?:[.,]\d{3})+|\d+)(?:[.,](\d{1,2}))?$/.exec(bare);
  return found ? Number(`${found[1].replace(/\D/g, "")}.${found[2] ?? 0}`) : null;
}

// What is asked for now. With an index.html of an earlier version there is nothing to ask by.
function wanted() {
  const typed = byId("rent")?.value.trim() ?? "";
  return { house: byId("house")?.value ?? "", isFree: byId("free")?.checked ?? false, rent: amountOf(typed), typed };
}

// The rooms that are as asked for. Where the rent is not known, a room is none up to a rent.
export function filterRooms(rooms) {
  const { house, isFree, rent } = wanted();
  return rooms.filter(({ room, state }) => {
    const said = desk.told.rooms.get(room);
    return (!house || said?.house === house) && (!isFree || state === "free")
      && (rent === null || (typeof said?.amount === "number" && said.amount <= rent));
  });
}

// Shows what rooms can be looked for by, in the language of the page.
export function drawFilters() {
  const box = byId("filters");
  if (!box) return;
  const houses = [...new Set(valuesOf("house"))].sort(BY_NAME.compare), select = byId("house"), chosen = select.value;
  select.replaceChildren(new Option(text("filters.allHouses"), ""), ...houses.map(house => new Option(house, house)));
  select.value = houses.includes(chosen) ? chosen : "";
  byId("of-house").hidden = houses.length < 2;
  byId("of-rent").hidden = byId("rent-hint").hidden = valuesOf("amount").length === 0;
  box.hidden = desk.told.rooms.size === 0;
}

// Says if what was typed is no rent.
export function drawRentHint() {
  const { rent, typed } = wanted(), isWrong = typed !== "" && rent === null;
  byId("rent")?.setAttribute("aria-invalid", isWrong);
  byId("rent-hint")?.replaceChildren(text(isWrong ? "filters.badRent" : "filters.rentHint"));
}

// Asks for nothing any more.
export function clearFilters() {
  if (!byId("filters")) return;
  byId("house").value = byId("rent").value = "";
  byId("free").checked = false;
}
