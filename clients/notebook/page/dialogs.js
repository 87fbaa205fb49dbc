// The dialogs: a new session, and the table of keys.

import { byId, make } from "./dom.js";
import { TABLE } from "./keys.js";
import { suggestions } from "./talk.js";

/** @typedef {import("./types").Suggestion} Suggestion */

const SUGGESTED_WITHIN = 1_000; // milliseconds; a dialog without suggestions is better than none

/** @type {(milliseconds: number) => Promise<undefined>} */
const later = (milliseconds) => new Promise((done) => setTimeout(done, milliseconds));

const field = (/** @type {string} */ id) => byId(id, HTMLInputElement);

/**
 * A name that no session has: the one that is wanted, or with a number after it.
 * @type {(wanted: string, isTaken: (name: string) => boolean) => string}
 */
function freeName(wanted, isTaken) {
  let name = wanted;
  for (let number = 2; isTaken(name); number += 1) name = `${wanted}-${number}`;
  return name;
}

/** @type {(place: HTMLElement, known: Suggestion[], choose: (one: Suggestion) => void) => void} */
function showKnown(place, known, choose) {
  place.hidden = known.length === 0;
  place.replaceChildren("On this machine: ", ...known.map((one) => {
    const node = make("button", "", one.name);
    node.type = "button";
    node.title = one.words;
    node.addEventListener("click", () => choose(one));
    return node;
  }));
}

/**
 * What is suggested is asked for before the dialog is opened, and is in it before it is seen: nothing in it moves under a pointer.
 * @type {(made: (name: string, words: string, tab: boolean) => void, isTaken: (name: string) => boolean) => () => Promise<void>}
 */
export function sessionDialog(made, isTaken) {
  const dialog = byId("session-dialog", HTMLDialogElement);
  const [name, words, tab] = [field("session-name"), field("session-words"), field("session-tab")];
  const known = suggestions();
  let suggested = ""; // a name that nobody typed
  const check = () => name.setCustomValidity(isTaken(name.value) ? "There is a session with this name." : "");
  const choose = (/** @type {Suggestion} */ one) => {
    if (name.value === suggested) name.value = suggested = freeName(one.name, isTaken);
    words.value = one.words;
    tab.checked = one.tab;
    check();
    byId("session-make", HTMLButtonElement).focus();
  };
  name.addEventListener("input", check);
  dialog.addEventListener("close", () => {
    if (dialog.returnValue === "make") made(name.value, words.value, tab.checked);
  });
  return async () => {
    const found = await Promise.race([known, later(SUGGESTED_WITHIN)]);
    if (dialog.open) return;
    byId("session-suggestions", HTMLDataListElement).replaceChildren(...(found ?? []).map(({ words: one }) => new Option(one, one)));
    showKnown(byId("session-known", HTMLElement), found ?? [], choose);
    dialog.returnValue = name.value = words.value = suggested = "";
    tab.checked = false;
    check();
    dialog.showModal();
  };
}

/**
 * Asks for other words of a session, whose program isn't on this machine.
 * @type {(given: (name: string, words: string) => void) => (name: string, words: string) => Promise<void>}
 */
export function wordsDialog(given) {
  const dialog = byId("words-dialog", HTMLDialogElement), words = field("words");
  let name = "";
  dialog.addEventListener("close", () => {
    if (dialog.returnValue === "give" && words.value.trim()) given(name, words.value);
  });
  return async (session, old) => {
    const found = await Promise.race([suggestions(), later(SUGGESTED_WITHIN)]);
    if (dialog.open) return;
    showKnown(byId("words-known", HTMLElement), found ?? [], (one) => {
      words.value = one.words;
      byId("words-give", HTMLButtonElement).focus();
    });
    name = session;
    words.value = old;
    dialog.returnValue = "";
    byId("words-title", HTMLElement).textContent = `Another program for ${session}`;
    dialog.showModal();
  };
}

export function keysDialog() {
  byId("keys-table", HTMLTableElement).replaceChildren(...TABLE.map(([key, what]) => {
    const row = make("tr");
    row.append(make("th", "", key), make("td", "", what));
    return row;
  }));
  return () => byId("keys-dialog", HTMLDialogElement).showModal();
}
