import { Status, emptyResult } from "./module.js";

/**
 * The side of the page: sends jobs to the worker, and returns promises of their results. If the worker fails, the jobs
 * that wait end with the status TRAPPED, and the next job starts a new worker.
 */
export class WorkerClient {
  #address;
  #compressed = null;
  #worker = null;
  #start = null;
  #waiting = new Map();
  #lastId = 0;

  /** @param {string} source the script of the worker */
  constructor(source) {
    this.#address = URL.createObjectURL(new Blob([source], { type: "text/javascript" }));
  }

  /**
   * Starts the module.
   * @param {Uint8Array} compressed the module, compressed by gzip
   * @returns {Promise<object>} a result with the status DONE, or with an error
   */
  start(compressed) {
    this.#compressed = compressed;
    this.#start = this.#open();
    return this.#start;
  }

  /**
   * Runs a job of the module.
   * @param {string} job
   * @param {(number | bigint)[]} numbers
   * @param {Uint8Array} text
   * @returns {Promise<{ status: number, output: Uint8Array, milliseconds: number, error?: string }>}
   */
  async call(job, numbers, text) {
    this.#start ??= this.#open();
    const start = this.#start, started = await start;
    if (started.status === Status.DONE) return this.#send({ job, numbers, text });
    if (start === this.#start) this.#start = null;
    return started;
  }

  async #open() {
    this.#worker?.terminate();
    try {
      const worker = new Worker(this.#address);
      worker.onmessage = ({ data }) => this.#settle(data);
      worker.onerror = ({ message }) => this.#fail(worker, message);
      worker.onmessageerror = () => this.#fail(worker, "a message cannot be read");
      this.#worker = worker;
    } catch (error) {
      return trapped(error);
    }
    return this.#send({ compressed: this.#compressed });
  }

  #send(message) {
    return new Promise((resolve) => {
      this.#lastId += 1;
      this.#waiting.set(this.#lastId, resolve);
      this.#worker.postMessage({ id: this.#lastId, ...message });
    });
  }

  #settle(result) {
    this.#waiting.get(result.id)?.(result);
    this.#waiting.delete(result.id);
  }

  // Without a worker no job ends.
  #fail(worker, error) {
    if (worker !== this.#worker) return;
    worker.terminate();
    this.#worker = null;
    this.#start = null;
    for (const id of [...this.#waiting.keys()]) this.#settle({ id, ...trapped(error) });
  }
}

function trapped(error) {
  return { ...emptyResult(Status.TRAPPED), milliseconds: 0, error: String(error) };
}
