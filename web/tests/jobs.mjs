// Calls the jobs of the module of WebAssembly in node. The addresses and lengths of the module are BigInts.
import { CoverageModule } from "../scripts/module.js";

export const DONE = 0, ERROR = 1, SHORT_BUFFER = 2, NO_SUCH_NUMBER = 3, OUT_OF_MEMORY = 4;
const RESULT_SIZE = 16, FIRST_CAPACITY = 1 << 20;

// An error: the module has too little memory for the arguments of a job.
export class ArgumentsDoNotFit extends Error {}

// Returns the exports of a new instance of a module.
export function instantiate(module) {
  return new WebAssembly.Instance(module).exports;
}

// Allocates memory of the module.
function allocate(exported, size) {
  const address = exported.page_alloc(BigInt(size));
  if (address === 0n) throw new ArgumentsDoNotFit(`no ${size} bytes can be allocated`);
  return address;
}

// Calls a job once. The output is a copy of the whole buffer, whose bytes are 0xAA before the call. `status` and `length` are those that
// the job writes.
export function callOnce(exported, name, numbers, text, capacity) {
  const addresses = [];
  const reserve = (size) => {
    addresses.push(allocate(exported, size));
    return addresses.at(-1);
  };
  try {
    const result = reserve(RESULT_SIZE), input = reserve(text.length), output = reserve(capacity);
    new Uint8Array(exported.memory.buffer, Number(input), text.length).set(text);
    new Uint8Array(exported.memory.buffer, Number(output), capacity).fill(0xaa);
    exported[name](result, ...numbers, input, BigInt(text.length), output, BigInt(capacity));
    // The memory has another buffer if it has grown.
    const view = new DataView(exported.memory.buffer, Number(result), RESULT_SIZE);
    return { status: view.getUint32(0, true), length: Number(view.getBigUint64(8, true)),
      output: Buffer.from(new Uint8Array(exported.memory.buffer, Number(output), capacity)) };
  } finally {
    addresses.reverse().forEach(exported.page_free);
  }
}

// Calls a job, with a longer buffer if the first one is too short. The output has the length that the job writes.
export function callJob(exported, name, numbers, text, capacity = FIRST_CAPACITY) {
  let answer = callOnce(exported, name, numbers, text, capacity);
  if (answer.status === SHORT_BUFFER) answer = callOnce(exported, name, numbers, text, answer.length);
  const { status, length, output } = answer;
  return { status, output: output.subarray(0, status === DONE || status === ERROR ? length : 0) };
}

// Returns a function that calls a job of a module in the way of the page. Its arguments and its result are those of `callJob`.
export function openJobs(module) {
  const coverageModule = new CoverageModule(module);
  return (name, numbers, text) => coverageModule.call(name.replace("web_", ""), numbers, text);
}
