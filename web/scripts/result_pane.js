import { PaneState } from "./coverage_pane.js";
import { byId, copyText, saveFile, setText } from "./dom.js";
import { describeFailure } from "./error_report.js";
import { Format } from "./formats.js";
import { Status } from "./module.js";
import { joinOperands } from "./operands.js";
import { groupDigits, splitExamination } from "./statistics.js";

const MAX_RESULT_SHOWN = 20_000;
const COMPLEMENT = 255;
const OPERATIONS = Object.freeze({ union: 0, intersection: 1, difference: 2, symmetric: 3 });
const FILE_NAMES = ["coverage.txt", "coverage.json", "coverage_nuniq.txt"];

/** A reason why there is no result, as a message for the user. */
class NoResult extends Error {}

/** The result of an operation on the coverages. */
export class ResultPane {
  #client;
  #operation = byId("operation");
  #order = byId("degrade-order");
  #output = byId("output-format");
  #text = byId("result-text");
  #status = byId("result-status");

  /** The bytes of the result, its format, its statistics and its picture, or null. */
  result = null;

  /**
   * @param {import("./worker_client.js").WorkerClient} client
   * @param {{ onSettings: () => void, onUse: () => void }} listener
   */
  constructor(client, listener) {
    this.#client = client;
    for (const control of [this.#operation, this.#order, this.#output]) {
      control.addEventListener("input", listener.onSettings);
    }
    byId("copy-result").addEventListener("click", () => copyText(this.#decoded(), this.#status, "Result"));
    byId("save-result").addEventListener("click", () => this.#save());
    byId("use-result").addEventListener("click", listener.onUse);
  }

  /**
   * Computes the result, and shows it.
   * @param {import("./coverage_pane.js").CoveragePane[]} panes
   */
  async update(panes) {
    byId("degrade-order-label").hidden = this.#operation.value !== "degrade";
    try {
      this.result = await this.#compute(panes);
      this.#show("", sizeOf(this.result.bytes));
    } catch (error) {
      if (!(error instanceof NoResult)) throw error;
      this.result = null;
      this.#show(error.cause ? "invalid" : "", error.message);
    }
  }

  async #compute(panes) {
    const [first] = panes, format = Number(this.#output.value), operation = this.#operation.value;
    requireCoverage(first);
    const { examination } = first;
    const bytes = await this.#outputOf(first, panes.slice(1).filter(({ state }) => state !== PaneState.EMPTY), format);
    if (operation === "same") return { bytes, format, ...examination };
    return { bytes, format, ...splitExamination(await this.#job("examine", [format], bytes)) };
  }

  async #outputOf(first, others, output) {
    const { bytes, format } = first.operand, operation = this.#operation.value;
    if (operation === "same") return this.#job("convert", [format, output], bytes);
    if (operation in OPERATIONS) return this.#combine(OPERATIONS[operation], [first, ...others], output);
    const change = operation === "complement" ? COMPLEMENT : this.#degradeOrder();
    return this.#convert(await this.#job("change", [change, format], bytes), format, output);
  }

  async #combine(operation, panes, output) {
    panes.forEach(requireCoverage);
    const joined = await joinOperands(this.#client, panes.map(({ operand }) => operand));
    if (joined.status !== Status.DONE) throw failure(joined);
    const combined = await this.#job("combine", [operation, joined.format], joined.text);
    const isFirstConverted = joined.format === Format.DETECT && panes[0].operand.format === Format.NUNIQ;
    return this.#convert(combined, isFirstConverted ? Format.ASCII : panes[0].operand.format, output);
  }

  #convert(bytes, from, to) {
    return from === to ? bytes : this.#job("convert", [from, to], bytes);
  }

  async #job(job, numbers, text) {
    const result = await this.#client.call(job, numbers, text);
    if (result.status !== Status.DONE) throw failure(result);
    return result.output;
  }

  #degradeOrder() {
    const isOrder = this.#order.validity.valid && this.#order.value !== "";
    if (!isOrder) throw new NoResult("The order must be a whole number from 0 to 29.");
    return this.#order.valueAsNumber;
  }

  #show(kind, message) {
    for (const id of ["copy-result", "save-result", "use-result"]) byId(id).disabled = this.result === null;
    const bytes = this.result?.bytes ?? new Uint8Array();
    setText(this.#text, new TextDecoder().decode(bytes.subarray(0, MAX_RESULT_SHOWN)));
    this.#status.className = `status ${kind}`;
    const note = bytes.length > MAX_RESULT_SHOWN ? ` The first ${groupDigits(MAX_RESULT_SHOWN)} bytes are shown.` : "";
    setText(this.#status, message + note);
  }

  #decoded() {
    return new TextDecoder().decode(this.result.bytes);
  }

  #save() {
    const { bytes, format } = this.result;
    saveFile(bytes, FILE_NAMES[format], format === Format.JSON ? "application/json" : "text/plain");
  }
}

function requireCoverage({ name, state }) {
  if (state === PaneState.EMPTY) throw new NoResult(`${name} is empty.`);
  if (state === PaneState.INVALID) throw new NoResult(`${name} has an error.`);
}

function failure(result) {
  return new NoResult(describeFailure(result), { cause: result });
}

function sizeOf(bytes) {
  if (bytes.length === 0) return "The result is the empty set, as an empty NUNIQ list.";
  return `${groupDigits(bytes.length)} bytes.`;
}
