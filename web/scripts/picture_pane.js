import { PaneState } from "./coverage_pane.js";
import { byId, saveFile, setText } from "./dom.js";
import { describeFailure } from "./error_report.js";
import { Status } from "./module.js";
import { joinOperands } from "./operands.js";
import { cellAt, cellOfNumber, centre, centreOnSky, diamonds, neighbour, nuniq, MAX_ORDER } from "./projection.js";
import { groupDigits } from "./statistics.js";
import { Activity, LatestTask } from "./tasks.js";

const MEASUREMENT_DELAY = 40;
const DEFAULT_GRID_ORDER = 3;
const DIRECTIONS = Object.freeze({ ArrowUp: "north", ArrowDown: "south", ArrowLeft: "east", ArrowRight: "west" });
const DIRECTIONS_NOTE = "North is up, east is left.";
const SVG_NAMESPACE = "http://www.w3.org/2000/svg";
const VIEW_BOX = /viewBox="(-?\d+) (-?\d+) (\d+) (\d+)"/;
const MAX_HEAD = 300;
const ANGLE_DIGITS = 9;
const PENDING = "…";
const NO_VALUE = "–";

/**
 * A coverage of which the picture shows shares of cells.
 * @typedef {{ name: string, bytes: Uint8Array, format: number }} MeasuredCoverage
 */

/** The picture, and the cell under the pointer. */
export class PicturePane {
  #client;
  #shown = byId("shown");
  #gridOrder = byId("grid-order");
  #sky = byId("sky");
  #image = byId("sky-image");
  #overlay = byId("sky-overlay");
  #status = byId("picture-status");
  #measureTask;
  #picture = null;
  #viewBox = [0, 0, 1, 1];
  #cell = null;
  #measured = null;

  /**
   * @param {import("./worker_client.js").WorkerClient} client
   * @param {{ onSettings: () => void }} listener
   */
  constructor(client, listener) {
    this.#client = client;
    this.#measureTask = new LatestTask(new Activity([byId("cell")]), MEASUREMENT_DELAY, () => this.#measure());
    for (let order = 0; order <= MAX_ORDER; order += 1) this.#gridOrder.add(new Option(String(order), String(order)));
    this.#gridOrder.value = String(DEFAULT_GRID_ORDER);
    this.#shown.addEventListener("input", listener.onSettings);
    this.#gridOrder.addEventListener("input", () => this.changeOrder());
    this.#sky.addEventListener("pointermove", (event) => this.#point(event));
    this.#sky.addEventListener("pointerdown", (event) => this.#point(event));
    this.#sky.addEventListener("keydown", (event) => this.#pressKey(event));
    byId("save-picture").addEventListener("click", () => saveFile(this.#picture, "coverage.svg", "image/svg+xml"));
  }

  /**
   * Shows the picture of the first two coverages or of the result.
   * @param {import("./coverage_pane.js").CoveragePane[]} panes
   * @param {object | null} result
   */
  async update(panes, result) {
    const { picture, message, measured } = await this.#draw(panes, result);
    this.#measured = measured;
    setText(this.#status, message);
    await this.#show(picture);
    this.#showCell(false);
  }

  async #draw(panes, result) {
    if (this.#shown.value === "result") return drawResult(result);
    const [first, second] = panes;
    if (first.isValid && second.isValid) return this.#drawTwo(first, second);
    return drawOne([first, second]);
  }

  async #drawTwo(first, second) {
    const measured = measuredPane(first), joined = await joinOperands(this.#client, [first.operand, second.operand]);
    if (joined.status !== Status.DONE) return { picture: null, message: describeFailure(joined), measured };
    const result = await this.#client.call("draw", [joined.format], joined.text);
    if (result.status !== Status.DONE) return { picture: null, message: describeFailure(result), measured };
    const message = `The first is coverage ${first.letter}, the second is coverage ${second.letter}.`;
    return { picture: result.output, message: `${message} ${DIRECTIONS_NOTE}`, measured };
  }

  async #show(picture) {
    const old = this.#image.src;
    this.#picture = picture;
    byId("save-picture").disabled = picture === null;
    this.#sky.hidden = picture === null;
    if (picture === null) {
      this.#image.removeAttribute("src");
    } else {
      this.#viewBox = VIEW_BOX.exec(new TextDecoder().decode(picture.subarray(0, MAX_HEAD))).slice(1).map(Number);
      this.#overlay.setAttribute("viewBox", this.#viewBox.join(" "));
      this.#image.width = this.#viewBox[2];
      this.#image.height = this.#viewBox[3];
      this.#image.src = URL.createObjectURL(new Blob([picture], { type: "image/svg+xml" }));
      await this.#image.decode().catch(() => {});
    }
    if (old) URL.revokeObjectURL(old);
  }

  get #order() {
    return Number(this.#gridOrder.value);
  }

  /** Selects the cell of the chosen order that has the centre of the selected cell. */
  changeOrder() {
    if (this.#cell && this.#cell.order !== this.#order) {
      const { x, y } = centre(this.#cell);
      this.#cell = this.#order >= this.#cell.order
        ? cellAt(x, y, this.#order)
        : cellOfNumber(this.#order, this.#cell.cell >> BigInt(2 * (this.#cell.order - this.#order)));
    }
    this.#showCell(false);
  }

  #point(event) {
    const frame = this.#overlay.getBoundingClientRect(), [left, top, width, height] = this.#viewBox;
    const x = left + ((event.clientX - frame.left) / frame.width) * width;
    const y = top + ((event.clientY - frame.top) / frame.height) * height;
    const cell = cellAt(x, y, this.#order);
    if (!cell || (this.#cell?.order === cell.order && this.#cell.cell === cell.cell)) return;
    this.#cell = cell;
    this.#showCell(false);
  }

  #pressKey(event) {
    const direction = DIRECTIONS[event.key];
    if (!direction || event.ctrlKey || event.altKey || event.metaKey) return;
    event.preventDefault();
    this.#cell = this.#cell ? neighbour(this.#cell, direction) : cellOfNumber(this.#order, 0n);
    this.#showCell(true);
  }

  // Screen readers announce a cell that a key selects, and none of the cells under a moving pointer.
  #showCell(isAnnounced) {
    const cell = this.#cell;
    byId("cell").setAttribute("aria-live", isAnnounced ? "polite" : "off");
    byId("cell-help").hidden = cell !== null;
    byId("cell-values").hidden = cell === null;
    this.#overlay.replaceChildren();
    if (!cell) return;
    this.#overlay.replaceChildren(...diamonds(cell).flatMap(outline));
    setText(byId("cell-order"), String(cell.order));
    setText(byId("cell-nested"), groupDigits(cell.cell));
    setText(byId("cell-nuniq"), groupDigits(nuniq(cell)));
    const { longitude, latitude } = centreOnSky(cell);
    setText(byId("cell-longitude"), `${longitude.toFixed(ANGLE_DIGITS)}°`);
    setText(byId("cell-latitude"), `${latitude.toFixed(ANGLE_DIGITS)}°`);
    setText(byId("cell-share-name"), this.#measured ? `Share in ${this.#measured.name}` : "Share");
    showMeasurement(PENDING, PENDING, PENDING);
    this.#measureTask.request();
  }

  async #measure() {
    const cell = this.#cell, measured = this.#measured;
    if (!cell || !measured) {
      showMeasurement(NO_VALUE, NO_VALUE, NO_VALUE);
      return;
    }
    const result = await this.#client.call("measure", [measured.format, cell.order, cell.cell], measured.bytes);
    // Another measurement follows if the cell or the coverage has changed.
    if (cell !== this.#cell || measured !== this.#measured) return;
    const values = result.status === Status.DONE ? parseMeasurement(new TextDecoder().decode(result.output)) : {};
    const { ring, share, pixels } = values;
    showMeasurement(ring ? groupDigits(ring) : NO_VALUE, share ?? NO_VALUE, pixels ? groupDigits(pixels) : NO_VALUE);
  }
}

function showMeasurement(ring, share, pixels) {
  setText(byId("cell-ring"), ring);
  setText(byId("cell-share"), share);
  setText(byId("cell-pixels"), pixels);
}

function drawResult(result) {
  if (!result) return { picture: null, message: "There is no result to draw.", measured: null };
  const measured = { name: "the result", ...result };
  return { picture: result.picture, message: `The result. ${DIRECTIONS_NOTE}`, measured };
}

// The picture of the only valid one of two coverages, if there is one.
function drawOne(panes) {
  const pane = panes.find(({ isValid }) => isValid), invalid = panes.find(({ state }) => state === PaneState.INVALID);
  if (!pane) return { picture: null, message: "There is no valid coverage to draw.", measured: null };
  const note = invalid ? ` ${invalid.name} has an error and is not drawn.` : "";
  const message = `${pane.name}. ${DIRECTIONS_NOTE}${note}`;
  return { picture: pane.examination.picture, message, measured: measuredPane(pane) };
}

/** @returns {MeasuredCoverage} */
function measuredPane(pane) {
  return { name: pane.letter, ...pane.operand };
}

// Two outlines, so that the cell is visible on light and on dark colours.
function outline(points) {
  return ["halo", "edge"].map((kind) => {
    const polygon = document.createElementNS(SVG_NAMESPACE, "polygon");
    polygon.setAttribute("points", points);
    polygon.setAttribute("class", kind);
    return polygon;
  });
}

/**
 * Parses the lines of `web_measure`.
 * @param {string} text
 * @returns {{ ring?: string, pixels?: string, share?: string }}
 */
export function parseMeasurement(text) {
  return Object.fromEntries(text.trimEnd().split("\n").map((line) => line.split(" ")));
}
