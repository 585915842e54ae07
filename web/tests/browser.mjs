// Drives Chromium through its pipe, without any package.
import { spawn } from "node:child_process";
import { mkdtempSync, rmSync, writeFileSync } from "node:fs";
import { tmpdir } from "node:os";
import { join } from "node:path";

const OPTIONS = ["--headless=new", "--no-sandbox", "--disable-gpu", "--hide-scrollbars", "--remote-debugging-pipe",
  "--no-first-run",
  "--disable-component-update", "--disable-background-networking", "--disable-features=LocalNetworkAccessChecks"];
const POLL_INTERVAL = 20;
const TIME_LIMIT = 20_000;
const MODIFIERS = { Alt: 1, Control: 2, Shift: 8 };
const KEY_CODES = { Tab: 9, F8: 119, ArrowLeft: 37, ArrowUp: 38, ArrowRight: 39, ArrowDown: 40 };

/** A page in Chromium. */
export class Browser {
  #process;
  #folder;
  #session;
  #waiting = new Map();
  #lastId = 0;
  #rest = "";

  /** The messages of the console, the errors of the page and the violations of its security policy. */
  log = [];

  /** The addresses of the requests that the page made. */
  requests = [];

  /**
   * Starts Chromium with one page.
   * @param {{ width?: number, height?: number }} size
   * @returns {Promise<Browser>}
   */
  static async open({ width = 1400, height = 1000 } = {}) {
    const browser = new Browser();
    browser.#start(width, height);
    const { targetInfos } = await browser.#call("Target.getTargets");
    const { targetId } = targetInfos.find(({ type }) => type === "page");
    browser.#session = (await browser.#call("Target.attachToTarget", { targetId, flatten: true })).sessionId;
    for (const domain of ["Page", "Runtime", "Log", "Network"]) await browser.send(`${domain}.enable`);
    await browser.setWidth(width, height);
    return browser;
  }

  #start(width, height) {
    this.#folder = mkdtempSync(join(tmpdir(), "page-test-"));
    const program = process.env.CHROMIUM ?? "chromium";
    this.#process = spawn(program,
      [...OPTIONS, `--user-data-dir=${this.#folder}`, `--window-size=${width},${height}`, "about:blank"],
      { stdio: ["ignore", "ignore", "ignore", "pipe", "pipe"] });
    this.#process.stdio[4].on("data", (data) => this.#receive(data));
  }

  // Messages end with a byte 0.
  #receive(data) {
    const parts = (this.#rest + data).split("\0");
    this.#rest = parts.pop();
    for (const message of parts.map((part) => JSON.parse(part))) {
      if (message.id) this.#settle(message);
      else this.#notice(message);
    }
  }

  #settle({ id, error, result }) {
    const { resolve, reject, method } = this.#waiting.get(id);
    this.#waiting.delete(id);
    if (error) reject(new Error(`${method}: ${error.message}`));
    else resolve(result);
  }

  #notice({ method, params }) {
    if (method === "Runtime.exceptionThrown") this.log.push(
      params.exceptionDetails.exception?.description ?? params.exceptionDetails.text);
    if (method === "Log.entryAdded") this.log.push(params.entry.text);
    if (method === "Runtime.consoleAPICalled") this.log.push(JSON.stringify(params.args));
    if (method === "Network.requestWillBeSent") this.requests.push(params.request.url);
  }

  #call(method, params = {}, sessionId = undefined) {
    return new Promise((resolve, reject) => {
      this.#lastId += 1;
      this.#waiting.set(this.#lastId, { resolve, reject, method });
      this.#process.stdio[3].write(`${JSON.stringify({ id: this.#lastId, method, params, sessionId })}\0`);
    });
  }

  /** Sends a command of the protocol of Chromium's tools to the page. */
  send(method, params) {
    return this.#call(method, params, this.#session);
  }

  /** Returns the value of an expression in the page, after its promise. */
  async run(expression) {
    const { result, exceptionDetails } =
      await this.send("Runtime.evaluate", { expression, awaitPromise: true, returnByValue: true });
    if (exceptionDetails) throw new Error(exceptionDetails.exception?.description ?? exceptionDetails.text);
    return result.value;
  }

  /** Waits until an expression is true in the page. */
  async until(expression, milliseconds = TIME_LIMIT) {
    for (const end = Date.now() + milliseconds; Date.now() < end;) {
      if (await this.run(expression)) return;
      await new Promise((resolve) => { setTimeout(resolve, POLL_INTERVAL); });
    }
    throw new Error(`not true after ${milliseconds} ms: ${expression}`);
  }

  async goTo(url) {
    await this.send("Page.navigate", { url });
    await this.until("document.readyState === 'complete'");
  }

  setWidth(width, height = 1000) {
    return this.send("Emulation.setDeviceMetricsOverride", { width, height, deviceScaleFactor: 1, mobile: false });
  }

  /** Presses a key, such as "Tab" or "z" with ["Control"]. */
  async press(key, modifiers = []) {
    const number = modifiers.reduce((sum, name) => sum + MODIFIERS[name], 0);
    const event = { key, code: key.length === 1 ? `Key${key.toUpperCase()}` : key, modifiers: number,
      windowsVirtualKeyCode: KEY_CODES[key] ?? key.toUpperCase().charCodeAt(0) };
    await this.send("Input.dispatchKeyEvent", { type: "rawKeyDown", ...event });
    await this.send("Input.dispatchKeyEvent", { type: "keyUp", ...event });
  }

  /** Moves the pointer to a point of the window. */
  movePointer(x, y) {
    return this.send("Input.dispatchMouseEvent", { type: "mouseMoved", x, y });
  }

  /** Writes a picture of the page as PNG. */
  async screenshot(file) {
    const { data } = await this.send("Page.captureScreenshot", { format: "png", captureBeyondViewport: true });
    writeFileSync(file, Buffer.from(data, "base64"));
  }

  async close() {
    const exited = new Promise((resolve) => { this.#process.on("exit", resolve); });
    await this.#call("Browser.close").catch(() => {});
    await exited;
    rmSync(this.#folder, { recursive: true, force: true, maxRetries: 5 });
  }
}
