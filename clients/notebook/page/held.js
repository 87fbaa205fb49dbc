// Keys that are pressed while a cell is made are for that cell: they wait until the cursor is in it, since letters would be commands till then.

/**
 * Whether a key has no other meaning, as it has in a text, in a dialog and for the browser.
 * @type {(event: KeyboardEvent) => boolean}
 */
function isForTheCell({ key, ctrlKey, altKey, metaKey, target }) {
  const isElsewhere = target instanceof Element && target.closest("textarea, input, select, dialog") !== null;
  return !isElsewhere && (key === "Enter" || (key.length === 1 && !ctrlKey && !altKey && !metaKey));
}

/**
 * Does what a key would have done now.
 * @param {KeyboardEvent} event
 */
function press(event) {
  const place = document.activeElement ?? document.body;
  const isUntaken = place.dispatchEvent(new KeyboardEvent("keydown", event));
  if (isUntaken && place instanceof HTMLTextAreaElement) document.execCommand("insertText", false, event.key === "Enter" ? "\n" : event.key);
}

export class Held {
  constructor() {
    this.count = 0; // of cells on their way
    /** @type {KeyboardEvent[]} */
    this.events = [];
    document.addEventListener("keydown", (event) => this.hold(event), true);
    document.addEventListener("mousedown", () => (this.events = []), true); // who uses the mouse meanwhile is elsewhere
  }

  /** @param {KeyboardEvent} event */
  hold(event) {
    if (this.count === 0 || !isForTheCell(event)) return;
    if (!event.repeat) this.events.push(event);
    event.preventDefault();
    event.stopImmediatePropagation();
  }

  /**
   * Has a cell made, and gives whether it is there. Where none comes, the keys were for nothing.
   * @type {(make: () => Promise<boolean>) => Promise<boolean>}
   */
  async during(make) {
    this.count += 1;
    this.tell();
    let isThere = false;
    try {
      isThere = await make();
    } finally {
      this.count -= 1;
      this.tell();
      if (!isThere) this.events = [];
    }
    if (this.count === 0) this.letGo();
    return isThere;
  }

  /** The cells are being changed, or aren't any more. */
  tell() {
    document.querySelector("#cells")?.setAttribute("aria-busy", String(this.count > 0));
  }

  letGo() {
    const { events } = this;
    this.events = [];
    for (const event of events) {
      if (this.count > 0) this.events.push(event); // the key before has another cell made
      else press(event);
    }
  }
}
