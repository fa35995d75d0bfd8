// The requests of docs/residents.md. No request is sent again by itself.

import { hasText } from "./language.js";

// In milliseconds: longer than the proxy lets a request wait and the server take together.
const PATIENCE = 90000;

// A fault, with the names of the texts that tell it, one after the other.
export class Fault extends Error {
  constructor(names, status = 0, error = "") {
    super(names.join(" "));
    this.names = names;
    this.status = status;
    // Whether the office refused, so that the page has to ask what it holds.
    this.isOfOffice = error !== "" && [409, 422, 503].includes(status);
  }
}

// In the place of a key: the person is signed in by the college's own account, and the proxy knows the key.
export const ACCOUNT = "account";

// Where a browser goes to sign in and to sign out by an account.
export const SIGN_IN = "/account/in";
export const SIGN_OUT = `/account/redirect?logout=${encodeURIComponent(`${location.origin}/`)}`;

const OPTIONS = { cache: "no-store", credentials: "omit", referrerPolicy: "no-referrer", redirect: "error" };

// Sends a request and gives the answer's value. `doubt` names the text that says, where no answer of the server came,
// what became of the change: of a request that only reads, nothing has to be said. By an account, the browser's cookie
// goes with it, and a field that no other site's page can send.
//
// Where the server was stopped before it had answered, the proxy sends a request once more, and the fault is that of
// the second time. So a fault of the office says nothing of the first time, and what is on record is asked for.
export async function call(key, method, path, { body, doubt = [] } = {}) {
  let answer, value = null;
  const [address, more] = key === ACCOUNT
    ? [`/account${path}`, { credentials: "same-origin", headers: { "Room-Sign-In": "account" } }]
    : [path, { headers: { "Room-Key": key } }];
  try {
    answer = await fetch(address, { ...OPTIONS, ...more, method, body, signal: AbortSignal.timeout(PATIENCE) });
  } catch {
    throw new Fault(["faults.unreached", ...doubt]);
  }
  try {
    value = await answer.json();
  } catch { /* a page of the proxy's own, or an answer that was cut short */ }
  if (answer.status === 200 && value !== null) return value;
  const error = typeof value?.error === "string" ? value.error : "";
  // The server says 405 for the same reason as 404: the page asks for what it does not know.
  const name = [`faults.${error}`, `faults.${answer.status === 405 ? 404 : answer.status}`].find(hasText);
  throw new Fault(name ? [name] : ["faults.busy", ...doubt], answer.status, error);
}

// Ends the sign-in by an account at the proxy, but not that at the college.
export async function endSignIn() {
  try {
    await fetch(SIGN_OUT, { ...OPTIONS, credentials: "same-origin", redirect: "manual" });
  } catch { /* it ends by itself after ten minutes */ }
}

// The answer to a request that needs no key, or nothing. Without it the page goes on.
async function file(path) {
  try {
    const answer = await fetch(path, { ...OPTIONS, signal: AbortSignal.timeout(PATIENCE) });
    return answer.status === 200 ? await answer.text() : "";
  } catch {
    return "";
  }
}

// The administrator's file of rooms.
export const roomsFile = () => file("/rooms.csv");

// What the clerks say; null if it cannot be had now.
export async function toldFile() {
  try {
    return JSON.parse(await file("/told/told.json"));
  } catch {
    return null;
  }
}
