// What the page asks of the server.

/** @typedef {import("./types").Reply} Reply */

/** @type {Reply} */
const UNREACHED = { refused: "Unreached", says: "the server can't be reached" };

/**
 * Does a call. What it did is on the disk when its reply is there.
 * @type {(call: string, members?: Record<string, unknown>) => Promise<Reply>}
 */
export async function ask(call, members = {}) {
  const body = JSON.stringify({ call, ...members });
  try {
    const reply = await fetch("call", { method: "POST", headers: { "Content-Type": "application/json" }, body });
    return reply.status === 403 ? { refused: "Refused", says: "the server is another one: open its address" } : await reply.json();
  } catch {
    return UNREACHED;
  }
}

/** @type {() => Promise<import("./types").Suggestion[]>} */
export async function suggestions() {
  try {
    return await (await fetch("suggestions")).json();
  } catch {
    return [];
  }
}
