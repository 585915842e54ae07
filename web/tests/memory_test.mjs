// Calls the jobs of the module of the page while its memory is limited, on large texts.
//
// usage: node web/tests/memory_test.mjs MODULE
//
// Each job is called with more and more memory, from the least with which the module starts up to the first size with which the job
// succeeds. With less memory the job must report `fault Memory` or status 4, unless its arguments cannot be allocated. Directly after each
// call, the same instance must convert a small text. Each job is called in a second instance too, whose memory has its maximal size before
// the call. The largest block that this instance can allocate must be the same before and after the call, so the job frees all memory. The
// last line printed is `N passed, M failed`.
import { readFileSync } from "node:fs";
import { ArgumentsDoNotFit, DONE, ERROR, OUT_OF_MEMORY, callJob, callOnce, instantiate } from "./jobs.mjs";
import { check, finish, randomNumbers } from "./counts.mjs";

const ASCII = 0, JSON_FORMAT = 1, COMPLEMENT = 255, DETECT = 3, UNION = 0;
const MEMORY_SECTION = 5, HAS_MAXIMUM = 1, HEADER_SIZE = 8;
// The sizes of the memory in pages of 64 KiB: each is at least a tenth larger than the one before it.
const GROWTH = 1.1, MAX_PAGES = 16384;
// Each job fails with at least this number of sizes.
const MIN_FAILURES = 5;
// The first buffer for the output is small, so that the job itself runs out of memory.
const CAPACITY = 4096;
// The size of the blocks that fill the memory.
const BLOCK_SIZE = 4096n;
const REPORT = /^fault Memory\n(text \d+\n)?$/;

// Returns the unsigned number in LEB128 at a position, and the position after it.
function readNumber(bytes, start) {
  let value = 0, position = start;
  for (let scale = 1; ; scale *= 128) {
    value += (bytes[position] & 127) * scale;
    position += 1;
    if (bytes[position - 1] < 128) return [value, position];
  }
}

// Returns an unsigned number in LEB128.
function numberBytes(value) {
  return value < 128 ? [value] : [value % 128 | 128, ...numberBytes(Math.floor(value / 128))];
}

// Returns the least number of pages of the memory of a module, and a function that returns the module with a maximal number of pages.
function memoryOf(bytes) {
  for (let position = HEADER_SIZE; position < bytes.length;) {
    const [size, start] = readNumber(bytes, position + 1), end = start + size;
    if (bytes[position] === MEMORY_SECTION) {
      const minimum = readNumber(bytes, start + 2)[0], before = bytes.subarray(0, position), after = bytes.subarray(end);
      return { minimum, limited: (pages) => {
        const section = [1, HAS_MAXIMUM, ...numberBytes(minimum), ...numberBytes(pages)];
        const memory = Buffer.from([MEMORY_SECTION, ...numberBytes(section.length), ...section]);
        return new WebAssembly.Module(Buffer.concat([before, memory, after]));
      } };
    }
    position = end;
  }
  throw new Error("the module has no memory");
}

// Returns an ASCII text with random cells of order 12.
function largeText(seed, cells) {
  const { below } = randomNumbers(seed);
  return `12/${Array.from({ length: cells }, () => below(12 * 4 ** 12)).join(" ")}`;
}

// Returns a script that adds random cells and reads all of them.
function largeScript() {
  const lines = Array.from({ length: 60 }, (_, seed) => `add ${largeText(seed, 500)}`);
  return [...lines, "read 0/0-11", "invert", "read 0/0-11", ""].join("\n");
}

const TEXT = Buffer.from(largeText(1, 60_000)), PAIR = Buffer.from(`${TEXT};${largeText(2, 60_000)}`);
const JOBS = [["web_examine", [DETECT], TEXT], ["web_draw", [ASCII], TEXT], ["web_draw", [ASCII], PAIR],
  ["web_convert", [ASCII, JSON_FORMAT], TEXT], ["web_change", [COMPLEMENT, ASCII], TEXT], ["web_change", [8, ASCII], TEXT],
  ["web_combine", [UNION, ASCII], PAIR], ["web_measure", [ASCII, 3, 100n], TEXT], ["web_run", [], Buffer.from(largeScript())]];

// The number of calls that ended in each way.
const endings = { "succeeded": 0, "reported `fault Memory`": 0, "had status 4": 0, "had no memory for their arguments": 0 };

// Calls a job. Returns whether it succeeds. A failure that is not one of memory is a failed check.
function call(exported, name, numbers, text, size) {
  let ending = null, problem = "";
  try {
    const { status, output } = callJob(exported, name, numbers, text, CAPACITY);
    if (status === DONE) ending = "succeeded";
    if (status === ERROR && REPORT.test(output.toString())) ending = "reported `fault Memory`";
    if (status === OUT_OF_MEMORY) ending = "had status 4";
    problem = `status ${status}, ${output.toString("latin1").slice(0, 100)}`;
  } catch (error) {
    if (error instanceof ArgumentsDoNotFit) ending = "had no memory for their arguments";
    problem = `${error}`;
  }
  check(ending !== null, `${name} with ${size} pages: ${problem}`);
  if (ending !== null) endings[ending] += 1;
  return ending === "succeeded";
}

// Checks that the instance converts a small text.
function checkSmallText(exported, name, size) {
  let output = "an exception";
  try {
    const answer = callOnce(exported, "web_convert", [ASCII, ASCII], Buffer.from("1/0-3"), 100);
    output = `${answer.status} ${answer.output.subarray(0, answer.length)}`;
  } catch (error) {
    output = `${error}`;
  }
  check(output === `${DONE} 0/0 1/\n`, `a small text after ${name} with ${size} pages: ${output}`);
}

// Allocates blocks until the memory is full, and frees them. The memory then has its maximal size.
function growToLimit(exported) {
  const blocks = [];
  for (let block = exported.page_alloc(BLOCK_SIZE); block !== 0n; block = exported.page_alloc(BLOCK_SIZE)) blocks.push(block);
  for (const block of blocks) exported.page_free(block);
}

// Returns the size of the largest block that can be allocated.
function largestBlock(exported) {
  let possible = 0n, impossible = BigInt(exported.memory.buffer.byteLength);
  while (impossible - possible > 1n) {
    const size = (possible + impossible) / 2n, block = exported.page_alloc(size);
    if (block === 0n) impossible = size;
    else possible = size;
    exported.page_free(block);
  }
  return possible;
}

const { minimum, limited } = memoryOf(readFileSync(process.argv[2]));
const modules = new Map();
for (const [name, numbers, text] of JOBS) {
  let failures = 0, succeeds = false;
  for (let size = minimum; !succeeds && size <= MAX_PAGES; size = Math.ceil(size * GROWTH)) {
    if (!modules.has(size)) modules.set(size, limited(size));
    const growing = instantiate(modules.get(size)), full = instantiate(modules.get(size));
    succeeds = call(growing, name, numbers, text, size);
    failures += !succeeds;
    checkSmallText(growing, name, size);
    growToLimit(full);
    const before = largestBlock(full);
    call(full, name, numbers, text, size);
    const after = largestBlock(full);
    check(after === before, `${name} with ${size} pages: the largest block had ${before} bytes before the call, and has ${after} after it`);
  }
  check(succeeds, `${name} succeeds with enough memory`);
  check(failures >= MIN_FAILURES, `${name} fails with ${failures} sizes only`);
}
console.log(Object.entries(endings).map(([ending, count]) => `${count} calls ${ending}`).join(", "));
finish();
