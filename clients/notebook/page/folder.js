// The list of a folder's worksheets.

import { button, byId, make, visible } from "./dom.js";
import { ask } from "./talk.js";

/** @typedef {import("./types").Sheet} Sheet */
/** @typedef {import("./types").Reply} Reply */

const AGAIN_AFTER = 2_000; // milliseconds

/** @type {Record<Sheet["state"], string>} */
const STATES = { open: "open", ended: "its program has ended", inUse: "in use by another program", closed: "" };

const body = /** @type {HTMLElement} */ (byId("sheets", HTMLTableElement).querySelector("tbody"));
let shown = "";

/** @type {(bytes: number) => string} */
const sizeOf = (bytes) => (bytes < 100_000 ? `${Math.ceil(bytes / 1_000)} KB` : `${(bytes / 1_000_000).toFixed(1)} MB`);

/** @type {(name: string) => string} */
const addressOf = (name) => `sheet/${encodeURIComponent(name)}/`;

/** @type {(sheet: Sheet) => HTMLTableRowElement} */
function rowOf(sheet) {
  const row = make("tr"), name = visible(sheet.name), link = make("a", "", name);
  row.dataset.state = sheet.state;
  row.dataset.name = sheet.name;
  link.href = addressOf(sheet.name);
  link.dir = "auto";
  const waiting = sheet.waiting ? `, ${sheet.waiting} to answer` : "";
  const does = [
    ["rename", "Rename", sheet.state === "closed", `Rename ${name}${sheet.state === "closed" ? "" : ": close it first"}`],
    ["duplicate", "Duplicate", true, `Make a copy of ${name}`],
    ["close", "Close", sheet.state === "open" || sheet.state === "ended", `Close ${name}, and end its interpreters`],
  ];
  const buttons = does.map(([what, text, isFit, label]) => {
    const node = button(String(what), String(text), String(label));
    node.disabled = !isFit;
    return node;
  });
  const cells = [link, new Date(sheet.changed).toLocaleString("en-GB"), sizeOf(sheet.size), STATES[sheet.state] + waiting].map((one) => {
    const cell = make("td");
    cell.append(one);
    return cell;
  });
  row.append(...cells, make("td"));
  row.lastElementChild?.append(...buttons);
  return row;
}

/** @type {(reported: Reply) => void} */
function show(reported) {
  const isThere = reported.sheets !== undefined;
  const place = byId("connection", HTMLElement);
  if (reported.refused !== "NotDone") place.textContent = isThere ? "connected" : "no connection: start the server again, and this page finds it";
  place.classList.toggle("bad", reported.refused !== undefined && reported.refused !== "NotDone");
  if (!reported.sheets || JSON.stringify(reported) === shown) return;
  shown = JSON.stringify(reported);
  byId("path", HTMLElement).textContent = document.title = visible(reported.folder ?? "");
  const focused = document.activeElement instanceof HTMLElement ? document.activeElement : null;
  const [name, what] = [focused?.closest("tr")?.dataset.name, focused?.dataset.do];
  body.replaceChildren(...reported.sheets.map(rowOf));
  byId("none", HTMLElement).hidden = reported.sheets.length > 0;
  const row = name === undefined ? undefined : [...body.children].find((one) => one instanceof HTMLElement && one.dataset.name === name);
  /** @type {HTMLElement | null | undefined} */ (row?.querySelector(what ? `[data-do=${what}]` : "a"))?.focus();
}

/** @type {(call: string, name?: string, to?: string) => Promise<boolean>} */
async function does(call, name = "", to = "") {
  const reported = await ask(call, { name, to });
  show(reported);
  if (call !== "list" || reported.refused) byId("note", HTMLElement).textContent = visible(reported.says ?? "");
  return reported.refused === undefined;
}

/**
 * Asks for a name; null where none is given.
 * @type {(title: string, suggested: string) => Promise<string | null>}
 */
function askName(title, suggested) {
  const dialog = byId("name-dialog", HTMLDialogElement), name = byId("name", HTMLInputElement);
  byId("name-title", HTMLElement).textContent = title;
  name.value = suggested;
  dialog.returnValue = "";
  dialog.showModal();
  name.select();
  return new Promise((done) => {
    dialog.addEventListener("close", () => done(dialog.returnValue === "yes" ? name.value.trim() : null), { once: true });
  });
}

/** @type {Record<string, (name: string) => unknown>} */
const DOES = {
  make: async () => {
    const name = await askName("New worksheet", "");
    if (name && (await does("make", name))) location.assign(addressOf(name));
  },
  rename: async (name) => {
    const to = await askName(`Another name for ${visible(name)}`, name);
    if (to && to !== name) does("rename", name, to);
  },
  duplicate: async (name) => {
    const to = await askName(`A copy of ${visible(name)}`, `${name} copy`);
    if (to) does("duplicate", name, to);
  },
  close: (name) => does("close", name),
};

document.addEventListener("click", (event) => {
  const node = event.target instanceof Element ? event.target.closest("button[data-do]") : null;
  if (node instanceof HTMLElement) DOES[node.dataset.do ?? ""]?.(node.closest("tr")?.dataset.name ?? "");
});

async function look() {
  if (!document.hidden) await does("list");
  document.documentElement.dataset.ready = "true";
  setTimeout(look, AGAIN_AFTER);
}

document.addEventListener("visibilitychange", () => document.hidden || does("list"));
look();
