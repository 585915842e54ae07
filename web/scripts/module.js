/** How a job ended. TRAPPED is not a status of the module: the call threw an exception. */
export const Status = Object.freeze({
  DONE: 0,
  ERROR: 1,
  SHORT_BUFFER: 2,
  BAD_NUMBER: 3,
  OUT_OF_MEMORY: 4,
  TRAPPED: 5,
});

/**
 * The result of a job. The output is a report if the status is ERROR, and empty if it is neither ERROR nor DONE.
 * @typedef {{ status: number, output: Uint8Array }} JobResult
 */

const RESULT_SIZE = 16;
const LENGTH_OFFSET = 8;
const LEAST_CAPACITY = 1 << 20;

// The first capacities of jobs whose output is short. Other jobs have one that depends on the length of the text.
const SHORT_CAPACITIES = Object.freeze({ measure: 1 << 10 });

/** An instance of the module `moc_web`. */
export class CoverageModule {
  #compiled;
  #exports = null;

  /** @param {WebAssembly.Module} compiled */
  constructor(compiled) {
    this.#compiled = compiled;
  }

  /**
   * Compiles the module.
   * @param {Uint8Array} bytes
   * @returns {Promise<CoverageModule>}
   */
  static async compile(bytes) {
    return new CoverageModule(await WebAssembly.compile(bytes));
  }

  /**
   * Calls a job. After an exception the instance is not used again.
   * @param {string} job the name of the job without `web_`
   * @param {(number | bigint)[]} numbers
   * @param {Uint8Array} text
   * @returns {JobResult}
   */
  call(job, numbers, text) {
    this.#exports ??= new WebAssembly.Instance(this.#compiled, {}).exports;
    try {
      const capacity = SHORT_CAPACITIES[job] ?? LEAST_CAPACITY + 2 * text.length;
      return this.#run(this.#exports[`web_${job}`], numbers, text, capacity);
    } catch (error) {
      this.#exports = null;
      throw error;
    }
  }

  #run(job, numbers, text, firstCapacity) {
    const result = this.#allocate(RESULT_SIZE), input = this.#allocate(text.length);
    try {
      if (!result || !input) return emptyResult(Status.OUT_OF_MEMORY);
      this.#bytes(input, text.length).set(text);
      const callJob = (output, capacity) => {
        job(result, ...numbers, input, BigInt(text.length), output, BigInt(capacity));
        return this.#read(result, output);
      };
      return this.#callWithBuffer(callJob, firstCapacity);
    } finally {
      this.#free(result, input);
    }
  }

  // Calls a job with a buffer, and again with a longer one if the job needs it.
  #callWithBuffer(call, capacity) {
    const output = this.#allocate(capacity);
    if (!output) return emptyResult(Status.OUT_OF_MEMORY);
    let result;
    try {
      result = call(output, capacity);
    } finally {
      this.#free(output);
    }
    return result.status === Status.SHORT_BUFFER ? this.#callWithBuffer(call, result.length) : result;
  }

  #read(result, output) {
    const view = new DataView(this.#exports.memory.buffer, Number(result), RESULT_SIZE);
    const status = view.getUint32(0, true), length = Number(view.getBigUint64(LENGTH_OFFSET, true));
    if (status === Status.SHORT_BUFFER) return { status, length };
    if (status !== Status.DONE && status !== Status.ERROR) return emptyResult(status);
    return { status, output: this.#bytes(output, length).slice() };
  }

  // The buffer of the memory is another one after the memory has grown.
  #bytes(address, length) {
    return new Uint8Array(this.#exports.memory.buffer, Number(address), length);
  }

  #allocate(size) {
    return this.#exports.page_alloc(BigInt(Math.max(1, size)));
  }

  #free(...addresses) {
    for (const address of addresses) if (address) this.#exports.page_free(address);
  }
}

/**
 * Returns a result without output.
 * @param {number} status
 * @returns {JobResult}
 */
export function emptyResult(status) {
  return { status, output: new Uint8Array() };
}
