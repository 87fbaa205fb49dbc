// What stands above and below the cells: the worksheet, its sessions, what is wrong.

import { button, byId, make, visible } from "./dom.js";
import { ask } from "./talk.js";

/** @typedef {import("./types").Message} Message */
/** @typedef {import("./types").Session} Session */

/** @type {(session: Session, isThere: boolean) => string} */
function stateOf(session, isThere) {
  if (!isThere) return "no connection";
  if (session.waiting) return `${session.waiting} to answer`;
  if (session.missing !== null) return `no program ${visible(session.missing)} on this machine`;
  return session.runs ? "idle" : "not started";
}

/** @type {(session: Session, isThere: boolean) => HTMLLIElement} */
function itemOf(session, isThere) {
  const { name } = session;
  const item = make("li", !isThere ? "none" : session.waiting ? "busy" : session.runs ? "idle" : "none");
  item.dataset.session = name;
  item.title = visible(session.words);
  item.append(make("b", "", name), make("span", "", stateOf(session, isThere)));
  for (const [what, label, isFit] of /** @type {const} */ ([
    ["interruptSession", "Interrupt", session.waiting > 0], ["stopSession", "Stop", session.runs], ["restartSession", "Restart", true],
  ])) {
    const node = button(what, label, `${label} ${name}${what === "restartSession" ? ", and evaluate its cells" : ""}`);
    node.disabled = !isFit || !isThere;
    item.append(node);
  }
  if (session.missing !== null && isThere) {
    item.classList.add("missing");
    item.append(button("chooseWords", "Choose one", `Choose the program of ${name}`));
  }
  return item;
}

let made = ""; // the session that was made last, till the list below has it

/**
 * Has the next new cell be of a session that was just made.
 * @param {string} name
 */
export function offerSession(name) {
  made = name;
  offerMade(byId("which", HTMLSelectElement));
}

/** @param {HTMLSelectElement} which */
function offerMade(which) {
  if (![...which.options].some((one) => one.value === made)) return;
  which.value = made;
  made = "";
}

/** @type {(sessions: Map<string, Session>, isThere: boolean) => void} */
export function showSessions(sessions, isThere) {
  const code = [...sessions.values()].filter((session) => !session.isProse);
  const list = byId("sessions", HTMLUListElement);
  const focused = document.activeElement instanceof HTMLElement && list.contains(document.activeElement) ? document.activeElement : null;
  const name = focused?.closest("li")?.dataset.session;
  list.replaceChildren(...code.map((session) => itemOf(session, isThere)));
  const item = focused && [...list.querySelectorAll("li")].find((one) => one.dataset.session === name);
  if (item) /** @type {HTMLElement | null} */ (item.querySelector(`[data-do=${focused.dataset.do}]`))?.focus();
  const which = byId("which", HTMLSelectElement);
  const kept = which.value;
  const names = code.map((session) => session.name);
  which.replaceChildren(...names.map((one) => new Option(one, one)));
  which.value = names.includes(kept) ? kept : names[0] ?? "";
  offerMade(which);
  which.parentElement?.toggleAttribute("hidden", names.length === 0); // its label: there is nothing to choose
}

/** @param {string} path */
export function showPath(path) {
  byId("path", HTMLElement).textContent = visible(path);
  document.title = visible(path);
}

/** @type {(isThere: boolean, hasEnded: boolean, isLooking: boolean) => void} */
export function showConnection(isThere, hasEnded, isLooking) {
  const place = byId("connection", HTMLElement);
  const lost = "no connection: what is typed now is not saved. If the server has ended, start it again: this page finds it, and keeps its texts till then";
  const ended = isLooking ? "connected: what is shown is on the disk" : "the program has ended: what is typed now is not saved";
  place.textContent = !isThere ? lost : hasEnded ? ended : "connected: what is shown as saved is on the disk";
  place.classList.toggle("bad", !isThere || (hasEnded && !isLooking));
}

/** The worksheet was closed in the list: this page looks for it no more. */
export function showClosed() {
  const place = byId("connection", HTMLElement);
  place.textContent = "closed in the list of worksheets: what is typed now is not saved. ";
  const again = make("a", "", "Open it again");
  again.href = "";
  place.append(again);
}

/**
 * Why nothing goes any more, or not here.
 * @type {(ended: string | null, isLooking: boolean) => void}
 */
export function showTrouble(ended, isLooking) {
  const place = byId("trouble", HTMLElement);
  place.hidden = ended === null;
  const rest = isLooking ? "" : " What is shown as saved is in the file; what was evaluated has no answer.";
  const reported = ended === null ? "" : `${visible(ended)}.${rest}`;
  place.querySelector("span")?.replaceChildren(reported);
  place.querySelector("button")?.toggleAttribute("hidden", ended === null);
}

/** @param {string} text */
export function note(text) {
  byId("note", HTMLElement).textContent = visible(text);
}

/** @param {import("./types").Removed[]} removed */
export function showRemoved(removed) {
  const opener = byId("removed", HTMLButtonElement);
  opener.textContent = removed.length === 0 ? "Removed" : `Removed (${removed.length})`;
  byId("removed-list", HTMLUListElement).replaceChildren(...[...removed].reverse().map((one) => {
    const item = make("li");
    const back = button("restore", "Bring back", `Bring back: ${visible(one.input)}`);
    back.dataset.number = String(one.number);
    item.append(make("code", "", visible(one.input) || "(empty)"), " ", make("span", "", one.session), " ", back);
    return item;
  }));
}

/** Shows the list of removed cells, and has those looked for that were removed before the server was started. */
export async function openRemoved() {
  const says = byId("removed-says", HTMLElement);
  byId("removed-dialog", HTMLDialogElement).showModal();
  says.textContent = "What was removed before is looked for.";
  const reported = await ask("past_removed");
  says.textContent = reported.refused ? `What was removed before isn't here: ${visible(reported.says ?? reported.refused)}` : reported.warning ?? "";
}
