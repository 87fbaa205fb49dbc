"use strict";
// A headless Chromium, driven through its pipe for tools: what it loads, what its page has, how it looks.

const { spawn } = require("node:child_process");
const fs = require("node:fs");
const os = require("node:os");
const path = require("node:path");
const { pathToFileURL } = require("node:url");

/** @typedef {Record<string, any>} Reported what Chromium's protocol tells */

const CHROMIUM = "/usr/bin/chromium";
const WORDS = [
  "--headless", "--no-sandbox", "--disable-gpu", "--hide-scrollbars", "--no-first-run", "--disable-background-networking",
  "--disable-component-update", "--remote-debugging-pipe",
];

class Browser {
  constructor() {
    this.folder = fs.mkdtempSync(path.join(os.tmpdir(), "typeset-"));
    this.process = spawn(CHROMIUM, [...WORDS, `--user-data-dir=${this.folder}/profile`, "about:blank"], {
      stdio: ["ignore", "ignore", "ignore", "pipe", "pipe"],
    });
    const [, , , toBrowser, fromBrowser] = /** @type {any[]} */ (this.process.stdio);
    this.toBrowser = toBrowser;
    /** @type {Map<number, {resolve: (reported: Reported) => void, reject: (error: Error) => void}>} */
    this.asked = new Map();
    /** @type {{resolve: () => void}[]} */
    this.loading = [];
    /** @type {string[]} */
    this.requests = [];
    this.rest = "";
    this.count = 0;
    fromBrowser.setEncoding("utf8").on("data", (/** @type {string} */ piece) => this.hear(piece));
  }

  /** @param {string} piece */
  hear(piece) {
    const lines = (this.rest + piece).split("\0");
    this.rest = lines.pop() ?? "";
    for (const line of lines) this.take(JSON.parse(line));
  }

  /** @param {Reported} reported */
  take(reported) {
    const waiting = this.asked.get(reported.id);
    if (waiting && reported.error) waiting.reject(new Error(reported.error.message));
    if (waiting && !reported.error) waiting.resolve(reported.result);
    if (reported.method === "Network.requestWillBeSent") this.requests.push(reported.params.request.url);
    if (reported.method === "Page.javascriptDialogOpening") this.requests.push(`dialog: ${reported.params.message}`);
    if (reported.method === "Page.loadEventFired") this.loading.splice(0).forEach(({ resolve }) => resolve());
  }

  /** @type {(method: string, params?: Reported) => Promise<Reported>} */
  ask(method, params = {}) {
    this.count += 1;
    const id = this.count;
    const reported = new Promise((resolve, reject) => this.asked.set(id, { resolve, reject }));
    this.toBrowser.write(`${JSON.stringify({ id, method, params, sessionId: this.session })}\0`);
    return /** @type {Promise<Reported>} */ (reported);
  }

  /** Begins to look at the one tab. */
  async start() {
    const { targetInfos } = await this.ask("Target.getTargets");
    const tab = targetInfos.find((/** @type {Reported} */ one) => one.type === "page");
    this.session = (await this.ask("Target.attachToTarget", { targetId: tab.targetId, flatten: true })).sessionId;
    for (const domain of ["Page", "Network", "Runtime"]) await this.ask(`${domain}.enable`);
  }

  /**
   * Loads a page, in a window of this width.
   * @type {(page: Buffer | string, width?: number) => Promise<void>}
   */
  async load(page, width = 900) {
    const file = path.join(this.folder, "page.html");
    fs.writeFileSync(file, page);
    await this.ask("Emulation.setDeviceMetricsOverride", { width, height: 800, deviceScaleFactor: 1, mobile: false });
    this.requests.length = 0;
    const loaded = /** @type {Promise<void>} */ (new Promise((resolve) => this.loading.push({ resolve })));
    await this.ask("Page.navigate", { url: pathToFileURL(file).href });
    await loaded;
  }

  /**
   * What a JavaScript expression has for value in the page.
   * @type {(expression: string) => Promise<any>}
   */
  async value(expression) {
    const reported = await this.ask("Runtime.evaluate", { expression, returnByValue: true });
    if (reported.exceptionDetails) throw new Error(reported.exceptionDetails.exception?.description ?? reported.exceptionDetails.text);
    return reported.result.value;
  }

  /**
   * A picture of the whole page, as PNG.
   * @type {(width?: number) => Promise<Buffer>}
   */
  async picture(width = 900) {
    const height = await this.value("document.documentElement.scrollHeight");
    const clip = { x: 0, y: 0, width, height, scale: 1 };
    const { data } = await this.ask("Page.captureScreenshot", { format: "png", captureBeyondViewport: true, clip });
    return Buffer.from(data, "base64");
  }

  /** Ends it, and removes what it wrote. */
  async stop() {
    const ended = new Promise((resolve) => this.process.once("exit", resolve));
    await this.ask("Browser.close").catch(() => {});
    await ended;
    fs.rmSync(this.folder, { recursive: true, force: true, maxRetries: 5, retryDelay: 200 });
  }
}

module.exports = { Browser, CHROMIUM };
