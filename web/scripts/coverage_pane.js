import { MAX_SHOWN, contentBytes, emptyContent, fileContent, formatToRead, isBlank, textContent } from "./content.js";
import { acceptDrops, copyText, create, setText } from "./dom.js";
import { characterRange, errorRange, excerpt } from "./error_place.js";
import { describeFailure, offerFor, parseReport } from "./error_report.js";
import { FORMAT_NAMES } from "./formats.js";
import { Status } from "./module.js";
import { groupDigits, splitExamination } from "./statistics.js";
import { LatestTask } from "./tasks.js";

const EXAMINATION_DELAY = 150;
const LETTERS = "ABCDEFGH";

/** The greatest number of coverages on the page. */
export const MAX_PANES = LETTERS.length;

/** The states of a coverage. */
export const PaneState = Object.freeze({ EMPTY: "empty", VALID: "valid", INVALID: "invalid" });

/**
 * What a pane calls: before its content is replaced, after its state has changed, and to be removed.
 * @typedef {{ beforeReplace: () => void, onChange: () => void, onRemove: (pane: CoveragePane) => void }} PaneListener
 */

/** The field of a coverage, with its errors. */
export class CoveragePane {
  #client;
  #listener;
  #parts;
  #task;
  #file = null;
  #error = null;
  #offer = null;
  #lastText = "";
  #changes = 0;
  #reads = 0;

  state = PaneState.EMPTY;

  /** The statistics and the picture of a valid coverage. */
  examination = null;

  /**
   * @param {number} index
   * @param {import("./worker_client.js").WorkerClient} client
   * @param {import("./tasks.js").Activity} activity
   * @param {PaneListener} listener
   */
  constructor(index, client, activity, listener) {
    this.letter = LETTERS[index];
    this.#client = client;
    this.#listener = listener;
    this.root = document.getElementById("coverage-template").content.cloneNode(true).firstElementChild;
    const parts = [...this.root.querySelectorAll("[data-part]")];
    this.#parts = Object.fromEntries(parts.map((part) => [part.dataset.part, part]));
    this.#task = new LatestTask(activity, EXAMINATION_DELAY, () => this.#examine());
    this.#label();
    this.#listen();
  }

  get name() {
    return `Coverage ${this.letter}`;
  }

  /** @returns {import("./content.js").Content} */
  get content() {
    return { text: this.#parts.text.value, format: Number(this.#parts.format.value), file: this.#file };
  }

  set content({ text, format, file }) {
    this.#parts.text.value = text;
    this.#parts.format.value = String(format);
    this.#file = file;
    this.#contentChanged();
  }

  get isValid() {
    return this.state === PaneState.VALID;
  }

  /** The bytes, and the format in which they are read. */
  get operand() {
    const { format } = this.content, bytes = contentBytes(this.content);
    return { bytes, format: formatToRead(format, bytes) };
  }

  /** Replaces the content by one that can be undone. */
  replace(content) {
    this.#listener.beforeReplace();
    this.content = content;
  }

  focus() {
    (this.#file ? this.#parts.clear : this.#parts.text).focus();
  }

  #label() {
    const { root, letter, name } = this, parts = this.#parts;
    root.dataset.letter = letter;
    root.setAttribute("aria-labelledby", `title-${letter}`);
    parts.title.id = `title-${letter}`;
    parts.title.append(name);
    parts.status.id = `status-${letter}`;
    parts.text.setAttribute("aria-label", name);
    parts.text.setAttribute("aria-describedby", parts.status.id);
    parts.format.setAttribute("aria-label", `Format of coverage ${letter}`);
    parts.open.setAttribute("aria-label", `Open a file as coverage ${letter}`);
    parts.clear.setAttribute("aria-label", `Clear coverage ${letter}`);
    parts.remove.setAttribute("aria-label", `Remove coverage ${letter}`);
    parts.remove.hidden = letter < "C";
  }

  #listen() {
    const parts = this.#parts;
    parts.text.addEventListener("input", () => this.#typed());
    parts.text.addEventListener("scroll", () => { parts.marks.scrollTop = parts.text.scrollTop; });
    parts.format.addEventListener("change", () => this.#contentChanged());
    parts.open.addEventListener("click", () => parts.chooser.click());
    parts.chooser.addEventListener("change", () => this.#openFile(parts.chooser.files[0]));
    parts.clear.addEventListener("click", () => this.replace(emptyContent()));
    parts.remove.addEventListener("click", () => this.#listener.onRemove(this));
    parts.goto.addEventListener("click", () => this.#goToError());
    parts.hint.addEventListener("click", () => this.#takeHint());
    parts.copy.addEventListener("click", () => copyText(this.#offer.command, parts.copied, "Command"));
    acceptDrops(parts.field, (file) => this.#openFile(file));
    this.root.addEventListener("keydown", (event) => {
      if (event.key !== "F8" || !this.#error) return;
      event.preventDefault();
      this.#goToError();
    });
  }

  #typed() {
    const { text, format } = this.content;
    if (text.length <= MAX_SHOWN) {
      this.#contentChanged();
      return;
    }
    // Undo returns to the text before the long one.
    this.#parts.text.value = this.#lastText;
    this.replace(textContent(text, format));
    this.focus();
  }

  async #openFile(file) {
    if (!file) return;
    this.#reads += 1;
    const read = this.#reads, bytes = await readFile(file);
    this.#parts.chooser.value = "";
    if (read !== this.#reads) return;
    if (bytes) this.replace(fileContent(file.name, bytes, this.content.format));
    else this.#showStatus("invalid", `The browser cannot read the file ${file.name}.`);
  }

  // The marks do not fit the new text. They are shown again after the examination.
  #contentChanged() {
    this.#changes += 1;
    this.#lastText = this.#parts.text.value;
    this.#error = null;
    this.#parts.goto.hidden = true;
    const { file, text, card, fileName, excerpt: place } = this.#parts;
    text.hidden = this.#file !== null;
    card.hidden = this.#file === null;
    if (this.#file) setText(fileName, `${this.#file.name}, ${groupDigits(this.#file.bytes.length)} bytes`);
    place.hidden = true;
    this.#parts.marks.replaceChildren();
    this.#task.request();
  }

  async #examine() {
    const { content } = this, bytes = contentBytes(content), changes = this.#changes;
    if (isBlank(bytes)) {
      this.#setState(PaneState.EMPTY, null);
      this.#showStatus("", "Empty. Paste or drop a coverage, or open a file.");
      return;
    }
    const result = await this.#client.call("examine", [content.format], bytes);
    // Another examination follows if the content has changed.
    if (changes !== this.#changes) return;
    if (result.status === Status.DONE) this.#showValid(content, bytes, result);
    else this.#showInvalid(bytes, result);
  }

  #setState(state, examination) {
    Object.assign(this, { state, examination });
    this.#error = null;
    this.#parts.text.toggleAttribute("aria-invalid", false);
    this.#showOffer(null);
    this.#parts.goto.hidden = true;
    this.#parts.excerpt.hidden = true;
    this.#parts.marks.replaceChildren();
    this.#listener.onChange();
  }

  #showStatus(kind, message) {
    this.#parts.status.className = `status ${kind}`;
    setText(this.#parts.status, message);
  }

  #showValid({ format }, bytes, result) {
    const examination = splitExamination(result.output), { cells } = examination.statistics;
    this.#setState(PaneState.VALID, examination);
    const name = FORMAT_NAMES[formatToRead(format, bytes)];
    this.#showStatus("valid", `Valid: ${name}, ${groupDigits(cells)} ${cells === 1n ? "cell" : "cells"}.`);
  }

  #showInvalid(bytes, result) {
    this.#setState(PaneState.INVALID, null);
    this.#parts.text.setAttribute("aria-invalid", "true");
    this.#showStatus("invalid", describeFailure(result));
    if (result.status !== Status.ERROR) return;
    const { position, hint } = parseReport(new TextDecoder().decode(result.output));
    this.#showOffer(offerFor(hint));
    this.#showPlace(bytes, errorRange(bytes, position));
  }

  #showPlace(bytes, range) {
    this.#error = range;
    this.#parts.goto.hidden = range === null;
    if (range === null) return;
    if (this.#file) this.#showExcerpt(excerpt(bytes, range));
    else this.#showMark(characterRange(bytes, range));
  }

  #showExcerpt({ line, before, marked, after }) {
    const { excerpt: place } = this.#parts;
    const heading = create("span", { class: "line" }, `From line ${line}:`);
    place.replaceChildren(heading, "\n", before, create("mark", {}, marked), after);
    place.hidden = false;
  }

  // A range without characters is at the end of the text.
  #showMark([from, to]) {
    const { marks, text } = this.#parts, shown = text.value;
    this.#error = [from, to];
    marks.replaceChildren(shown.slice(0, from), create("mark", {}, shown.slice(from, to)), `${shown.slice(to)}\n`);
    marks.scrollTop = text.scrollTop;
  }

  #goToError() {
    const { excerpt: place, text, marks } = this.#parts;
    if (this.#file) {
      place.focus();
      return;
    }
    text.focus();
    text.setSelectionRange(...this.#error);
    const mark = marks.querySelector("mark");
    if (mark) text.scrollTop = Math.max(0, mark.offsetTop - text.clientHeight / 2);
  }

  #showOffer(offer) {
    const { hint, advice, adviceText, command, copy, copied } = this.#parts;
    this.#offer = offer;
    hint.hidden = offer?.format === undefined;
    if (!hint.hidden) setText(hint, offer.label);
    advice.hidden = !offer?.advice;
    setText(adviceText, offer?.advice ?? "");
    setText(command, offer?.command ?? "");
    for (const part of [command, copy]) part.hidden = !offer?.command;
    setText(copied, "");
  }

  #takeHint() {
    this.#parts.format.value = String(this.#offer.format);
    this.focus();
    this.#contentChanged();
  }
}

// The bytes of a file, or null if the browser cannot read it.
async function readFile(file) {
  return file.arrayBuffer().then((buffer) => new Uint8Array(buffer), () => null);
}
