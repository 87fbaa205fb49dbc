// Nodes. A text is put into the page by text nodes alone.

/**
 * @template {keyof HTMLElementTagNameMap} K
 * @param {K} name
 * @param {string} [className]
 * @param {string} [text]
 * @returns {HTMLElementTagNameMap[K]}
 */
export function make(name, className, text) {
  const node = document.createElement(name);
  if (className) node.className = className;
  if (text) node.textContent = text;
  return node;
}

/**
 * A button that does what the page calls by this name.
 * @type {(what: string, text: string, label: string) => HTMLButtonElement}
 */
export function button(what, text, label) {
  const node = make("button", "", text);
  node.type = "button";
  node.dataset.do = what;
  node.title = label;
  node.setAttribute("aria-label", label);
  return node;
}

/** @type {<T extends HTMLElement>(id: string, kind: {new (): T}) => T} */
export function byId(id, kind) {
  const node = document.getElementById(id);
  if (!(node instanceof kind)) throw new Error(`no ${id}`);
  return node;
}

// Characters that are drawn as nothing, or turn the direction of others: C0 and C1 but tabs and ends of lines, marks of direction, and the like.
// eslint-disable-next-line no-control-regex
const UNSEEN = /[\u0000-\u0008\u000b-\u001f\u007f-\u009f\u00ad\u061c\u180e\u200b\u200e\u200f\u2028-\u202e\u2060-\u206f\ufeff\ufff9-\ufffb]/g;

/**
 * A text with what can't be seen written out.
 * @type {(text: string) => string}
 */
export function visible(text) {
  return text.replace(UNSEEN, (character) => {
    const code = character.charCodeAt(0);
    return code < 256 ? `\\x${code.toString(16).padStart(2, "0")}` : `\\u${code.toString(16).padStart(4, "0")}`;
  });
}
