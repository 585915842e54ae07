import { emptyContent, fileContent, textContent } from "./content.js";
import { CoveragePane, MAX_PANES } from "./coverage_pane.js";
import { byId, copyText, hasFiles, setText } from "./dom.js";
import { EXAMPLES } from "./examples.js";
import { Format } from "./formats.js";
import { decodeBase64, decodeState, encodeState } from "./link.js";
import { Status } from "./module.js";
import { PicturePane } from "./picture_pane.js";
import { ResultPane } from "./result_pane.js";
import { ScriptPane } from "./script_pane.js";
import { showStatistics } from "./statistics_table.js";
import { Activity, LatestTask } from "./tasks.js";
import { UndoHistory } from "./undo_history.js";
import { WorkerClient } from "./worker_client.js";

const LEAST_PANES = 2;
const START_EXAMPLE = "footprints";

/**
 * What the page has: contents of coverages, values of the settings by name, and the script. A change that can be undone
 * keeps the parts that it replaces.
 * @typedef {import("./content.js").Content} Content
 * @typedef {{ coverages?: Content[], settings?: Record<string, string>, script?: string }} PageState
 */

/** The controls whose values are settings. */
const SETTINGS = Object.freeze({
  operation: "operation",
  degradeOrder: "degrade-order",
  output: "output-format",
  shown: "shown",
  gridOrder: "grid-order",
});

class Page {
  #panes = [];
  #history = new UndoHistory();
  #client;
  #activity = new Activity([byId("result"), byId("picture")]);
  #updateTask = new LatestTask(this.#activity, 0, () => this.#update());
  #result;
  #picture;
  #script;
  #status = byId("page-status");

  constructor(client) {
    this.#client = client;
    const onSettings = () => this.#updateTask.request();
    this.#result = new ResultPane(client, { onSettings, onUse: () => this.#useResult() });
    this.#picture = new PicturePane(client, { onSettings });
    this.#script = new ScriptPane(client);
    for (const [name, { label }] of Object.entries(EXAMPLES)) byId("example").add(new Option(label, name));
    this.#listen();
  }

  async start() {
    this.#restore({ coverages: [emptyContent(), emptyContent()] });
    this.#restore({ ...exampleState("script"), ...exampleState(START_EXAMPLE) });
    await this.#openLink();
  }

  #listen() {
    byId("undo").addEventListener("click", () => this.#undo());
    byId("redo").addEventListener("click", () => this.#redo());
    byId("load-example").addEventListener("click", () => this.#change(exampleState(byId("example").value)));
    byId("copy-link").addEventListener("click", () => this.#copyLink());
    byId("theme").addEventListener("click", toggleTheme);
    byId("add-coverage").addEventListener("click", () => this.#addCoverage());
    window.addEventListener("hashchange", () => this.#openLink());
    window.addEventListener("keydown", (event) => this.#pressKey(event));
    for (const type of ["dragover", "drop"]) window.addEventListener(type, keepPage);
  }

  // A text field has its own history.
  #pressKey(event) {
    const isText = event.target.matches?.("textarea, input");
    if (isText || event.altKey || !(event.ctrlKey || event.metaKey) || event.key.toLowerCase() !== "z") return;
    event.preventDefault();
    if (event.shiftKey) this.#redo();
    else this.#undo();
  }

  // Returns parts of the page as they are now.
  #capture(parts) {
    const all = {
      coverages: () => this.#panes.map(({ content }) => content),
      settings: () => Object.fromEntries(Object.entries(SETTINGS).map(([name, id]) => [name, byId(id).value])),
      script: () => this.#script.script,
    };
    return Object.fromEntries(parts.map((part) => [part, all[part]()]));
  }

  #restore({ coverages, settings, script }) {
    if (coverages) this.#restoreCoverages(coverages);
    for (const [name, id] of Object.entries(SETTINGS)) {
      if (settings && Object.hasOwn(settings, name)) setValue(byId(id), settings[name]);
    }
    if (settings) this.#picture.changeOrder();
    if (script !== undefined) this.#script.script = script;
    this.#showHistory();
    this.#updateTask.request();
  }

  // The page has at least two coverages. Those that the contents lack are empty.
  #restoreCoverages(contents) {
    const count = Math.max(LEAST_PANES, contents.length);
    while (this.#panes.length > count) this.#panes.pop().root.remove();
    Array.from({ length: count }, (_, index) => contents[index] ?? emptyContent()).forEach((content, index) => {
      const pane = this.#panes[index] ?? this.#appendPane();
      pane.content = content;
    });
    byId("add-coverage").disabled = this.#panes.length === MAX_PANES;
  }

  #appendPane() {
    const pane = new CoveragePane(this.#panes.length, this.#client, this.#activity, {
      beforeReplace: () => this.#record(["coverages"]),
      onChange: () => this.#updateTask.request(),
      onRemove: (removed) => this.#removeCoverage(removed),
    });
    this.#panes.push(pane);
    byId("coverages").append(pane.root);
    return pane;
  }

  #record(parts) {
    this.#history.record(this.#capture(parts));
    this.#showHistory();
  }

  #change(state) {
    this.#record(Object.keys(state));
    this.#restore(state);
    if (state.script !== undefined) byId("script").open = true;
  }

  #undo() {
    this.#move(this.#history.undo((state) => this.#capture(Object.keys(state))), "Undone.");
  }

  #redo() {
    this.#move(this.#history.redo((state) => this.#capture(Object.keys(state))), "Redone.");
  }

  #move(state, message) {
    if (!state) return;
    this.#restore(state);
    setText(this.#status, message);
  }

  #showHistory() {
    byId("undo").disabled = !this.#history.canUndo;
    byId("redo").disabled = !this.#history.canRedo;
  }

  #addCoverage() {
    const { coverages } = this.#capture(["coverages"]);
    this.#restoreCoverages([...coverages, emptyContent()]);
    this.#panes.at(-1).focus();
  }

  #removeCoverage(removed) {
    const { coverages } = this.#capture(["coverages"]);
    this.#change({ coverages: coverages.filter((_, index) => this.#panes[index] !== removed) });
    byId("add-coverage").focus();
  }

  // A NUNIQ list is never detected.
  #useResult() {
    const { bytes, format } = this.#result.result;
    this.#panes[0].replace(fileContent("Result", bytes, format === Format.NUNIQ ? format : Format.DETECT));
    setText(this.#status, "The result is coverage A now.");
  }

  async #update() {
    await this.#result.update(this.#panes);
    const { result } = this.#result;
    const columns = this.#panes.slice(0, LEAST_PANES).filter(({ isValid }) => isValid)
      .map(({ letter, examination }) => ({ name: letter, statistics: examination.statistics }));
    if (result) columns.push({ name: "Result", statistics: result.statistics });
    showStatistics(byId("statistics-table"), columns);
    await this.#picture.update(this.#panes, result);
  }

  async #copyLink() {
    const state = this.#capture(["coverages", "settings", ...(byId("script").open ? ["script"] : [])]);
    if (state.coverages.some(({ file }) => file)) {
      setText(this.#status, "A file is too long for a link.");
      return;
    }
    const coverages = state.coverages.map(({ text, format }) => ({ text, format }));
    const fragment = await encodeState({ ...state, coverages });
    if (fragment === null) setText(this.#status, "The texts are too long for a link.");
    else await copyText(location.href.split("#")[0] + fragment, this.#status, "Link");
  }

  async #openLink() {
    try {
      const state = await decodeState(location.hash);
      if (state) this.#change(state);
    } catch {
      setText(this.#status, "The link is damaged.");
    }
  }
}

/** @returns {PageState} */
function exampleState(name) {
  const { coverages, settings, script } = EXAMPLES[name], state = {};
  if (coverages) state.coverages = coverages.map(({ text, format }) => textContent(text, Format[format]));
  if (settings) state.settings = { ...settings, output: String(Format[settings.output]) };
  if (script !== undefined) state.script = script;
  return state;
}

// A value that a select does not have leaves it as it is.
function setValue(control, value) {
  const old = control.value;
  control.value = value;
  if (control.value !== value) control.value = old;
}

// The browser would open a dropped file in place of the page.
function keepPage(event) {
  if (hasFiles(event)) event.preventDefault();
}

function toggleTheme() {
  const root = document.documentElement;
  const theme = root.dataset.theme ?? (matchMedia("(prefers-color-scheme: dark)").matches ? "dark" : "light");
  root.dataset.theme = theme === "dark" ? "light" : "dark";
}

async function startPage() {
  try {
    const client = new WorkerClient(byId("worker-source").textContent);
    const result = await client.start(decodeBase64(byId("module-data").textContent));
    if (result.status !== Status.DONE) {
      showStartFailure(result.error);
      return;
    }
    await new Page(client).start();
    document.documentElement.dataset.ready = "true";
  } catch (error) {
    showStartFailure(error);
  }
}

function showStartFailure(error) {
  byId("page-status").classList.add("invalid");
  setText(byId("page-status"), `This browser cannot run the page: ${error}`);
}

startPage();
