// The rooms: their order, what the administrator's file says of each, and how they are found.

import { text } from "./language.js";

const BY_CODE = new Intl.Collator("en", { numeric: true });
const LONGEST_DESCRIPTION = 120;

// In the order in which people count: A-2 before A-10.
export const inOrder = rooms => [...rooms].sort((one, other) => BY_CODE.compare(one.room, other.room));

// The fields of a line of CSV. A field in double quotes may hold the separator, and a double quote twice.
function fields(line, separator) {
  const parts = line.matchAll(new RegExp(`(?:^|${separator})(?:"((?:[^"]|"")*)"|([^${separator}]*))`, "g"));
  return [...parts].map(([, quoted, plain]) => (quoted?.replaceAll('""', '"') ?? plain ?? "").trim());
}

// What rooms.csv says of each room, by its code: the first column is the code, and each other one is shown with its
// heading.
export function readDescriptions(file) {
  const lines = file.replace(/^\uFEFF/, "").split(/\r?\n/).filter(line => line.trim() !== "");
  if (lines.length === 0) return new Map();
  const separator = lines[0].includes(";") ? ";" : ",";
  const [, ...headings] = fields(lines[0], separator);
  return new Map(lines.slice(1).map(line => {
    const [code, ...values] = fields(line, separator);
    const parts = values.map((value, at) => value && `${headings[at] ?? ""} ${value}`.trim());
    return [code, parts.filter(part => part !== "").join(", ").slice(0, LONGEST_DESCRIPTION)];
  }));
}

// What is said of a room's state, to a person who lives in `home`.
export function stateText(row, home) {
  if (row.room === home) return text("states.own");
  return ["free", "occupied", "shut"].includes(row.state) ? text(`states.${row.state}`) : row.state;
}

// The rooms in which each word that was typed is found: in the code, the state, or what is said of the room.
export function findRooms(rooms, saidOf, home, typed) {
  const words = typed.toLowerCase().split(/\s+/).filter(word => word !== "");
  return rooms.filter(row => {
    const all = [row.room, row.state, stateText(row, home), saidOf(row.room)].join(" ").toLowerCase();
    return words.every(word => all.includes(word));
  });
}
