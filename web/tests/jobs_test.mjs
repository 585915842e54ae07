// Compares the jobs of the module of the page with the program `moc`, byte for byte.
//
// usage: node web/tests/jobs_test.mjs MODULE PROGRAM [ROUNDS]
//
// A round calls each job on a random text in a random format, whose bytes are changed in one of three rounds. The output must be that of the
// program, and the report of an error must be what the program writes on standard error. Ring numbers are compared with the formulas of
// Górski et al. 2005 (ApJ 622, 759), and shares with exact fractions. Then each job gets each buffer that is too short, and samples of
// numbers out of range. At the end, the same calls must not need more memory. The last line printed is `N passed, M failed`.
import { spawnSync } from "node:child_process";
import { readFileSync } from "node:fs";
import { DONE, ERROR, NO_SUCH_NUMBER, SHORT_BUFFER, callJob, callOnce, instantiate, openJobs } from "./jobs.mjs";
import { check, finish, randomNumbers } from "./counts.mjs";

const [, , moduleFile, program, roundCount = "200"] = process.argv;
const module = new WebAssembly.Module(readFileSync(moduleFile));
const exported = instantiate(module), call = openJobs(module);
const { bits, below, choose } = randomNumbers(2005);

const MAX_ORDER = 29, COMPLEMENT = 255, DETECT = 3, MAX_OUTPUT = 1 << 28, SHOWN = 200;
const FORMATS = ["ascii", "json", "uniq", "auto"], ASCII = 0, JSON_FORMAT = 1, NUNIQ = 2;
const OPERATIONS = ["union", "intersection", "difference", "symmetric"];
const SHARE_UNITS = 10n ** 12n;
// A line of a script has at most 1 MiB.
const MAX_LINE = 1 << 20;

const cellCount = (order) => 12n * 4n ** BigInt(order);
const pixelCount = (order) => 4n ** BigInt(MAX_ORDER - order);
const randomCell = (order) => bits(64) % cellCount(order);
const randomOrder = () => below(MAX_ORDER + 1);
const list = (maxLength, item) => Array.from({ length: below(maxLength + 1) }, item);

function asciiText() {
  const groups = list(5, () => {
    const order = randomOrder();
    const items = list(5, () => {
      const first = randomCell(order), last = first + BigInt(below(20));
      return below(2) && last < cellCount(order) ? `${first}-${last}` : `${first}`;
    });
    return `${order}/${items.join(choose([" ", ",", ", ", "\n"]))}`;
  });
  return groups.join(choose([" ", "\n", "\r\n", ", "]));
}

function jsonText() {
  const entries = list(5, () => {
    const order = randomOrder();
    return `${choose(["", " ", "\n"])}"${order}": [${list(5, () => randomCell(order)).join(choose([",", ", ", ",\n"]))}]`;
  });
  return `{${entries.join(",")}}`;
}

function nuniqText() {
  return list(11, () => {
    const order = randomOrder();
    return `${4n ** BigInt(order + 1) + randomCell(order)}\n`;
  }).join("");
}

const TEXTS = [asciiText, jsonText, nuniqText];

// Returns a text of which some bytes are replaced or doubled.
function changeBytes(text) {
  const bytes = Buffer.from(text);
  for (let changes = bytes.length ? 1 + below(3) : 0; changes > 0; changes -= 1) {
    const at = below(bytes.length);
    if (below(2)) bytes[at] = choose([..."/-,x9\"}[;\n `\\", "\0", "\xc8"]).charCodeAt(0);
    else bytes.copyWithin(at, Math.min(bytes.length, at + 1));
  }
  return bytes;
}

// Returns a random text, in a third of the cases with changed bytes.
const randomText = (kind) => below(3) ? Buffer.from(TEXTS[kind]()) : changeBytes(TEXTS[kind]());

// Returns a script with lines of each command, and invalid ones.
function randomScript() {
  const operand = () => asciiText().replace(/[\r\n]/g, " ");
  return list(19, () => choose([
    () => `add ${operand()}`, () => `remove ${operand()}`, () => `keep ${operand()}`, () => `count @${below(30)} ${operand()}`,
    () => "invert", () => "read 0/0-11", () => `degrade ${below(31)}`, () => `near ${below(30)} ${below(100)}`,
    () => `claim ${operand()} ; count 0/0-11`, () => changeBytes(`add ${operand()}`), () => ""])()).join("\n");
}

// Returns the format that detection finds: JSON if the first byte that is not a blank is `{`, else ASCII.
const detect = (text) => /^[ \t\r\n]*\{/.test(text.toString("latin1")) ? JSON_FORMAT : ASCII;

// Runs the program. Returns the result that a job has to have.
function run(argumentsOfProgram, input) {
  const { status, stdout, stderr } = spawnSync(program, argumentsOfProgram, { input, maxBuffer: MAX_OUTPUT });
  return status === 0 ? { status: DONE, output: stdout } : { status: status === 1 ? ERROR : `of the program: ${status}`, output: stderr };
}

// Returns the result of the first run, followed by that of the second if both succeed.
function joined(first, second) {
  const next = first.status === DONE ? second() : first;
  return next === first || next.status !== DONE ? next : { status: DONE, output: Buffer.concat([first.output, next.output]) };
}

let errorCount = 0;

// Calls a job, and compares its result with the expected one.
function compare(name, numbers, text, expected) {
  const { status, output } = call(name, numbers, text);
  errorCount += status === ERROR;
  const shown = (bytes) => JSON.stringify(Buffer.from(bytes).toString("latin1").slice(0, SHOWN));
  check(status === expected.status && expected.output.equals(output), `${name}(${numbers}) of ${shown(text)}
  expected ${expected.status} ${shown(expected.output)}
  actual   ${status} ${shown(output)}`);
}

// Returns the ring number of a nested cell, by section 4.1 of Górski et al. 2005 and the order of base pixels in it.
function ringNumber(order, cell) {
  const side = 1n << BigInt(order), base = Number(cell / (side * side));
  let x = 0n, y = 0n;
  for (let bit = 0n; bit < BigInt(order); bit += 1n) {
    x |= (cell >> 2n * bit & 1n) << bit;
    y |= (cell >> 2n * bit + 1n & 1n) << bit;
  }
  const row = BigInt(Math.floor(base / 4)), column = BigInt(base % 4);
  // The ring counted from 1 at the north pole, and the position in units of half a cell to the east of longitude 0.
  const ring = (row + 2n) * side - x - y - 1n;
  const east = 2n * column + (row === 1n ? 0n : 1n);
  const isNorth = ring < side, isSouth = ring > 3n * side, isCap = isNorth || isSouth;
  const quarter = isNorth ? ring : isSouth ? 4n * side - ring : side;
  const before = isNorth ? 2n * ring * (ring - 1n) : isSouth ? 12n * side * side - 2n * quarter * (quarter + 1n)
    : 2n * side * (side - 1n) + (ring - side) * 4n * side;
  const shift = isCap ? 0n : (ring - side) & 1n;
  const position = (east * quarter + x - y + 1n + shift) / 2n;
  return before + (position + 4n * quarter - 1n) % (4n * quarter);
}

// Returns the number of order-29 pixels of a cell in the coverage of an ASCII text without line feeds, by a script.
function countPixels(coverage, order, cell) {
  const { output } = run(["run"], Buffer.from(`add ${coverage}\ncount ${order}/${cell}\n`));
  return BigInt(/^changed \d+\ntotal (\d+)\n$/.exec(output.toString())[1]);
}

// Returns the result that `web_measure` has to have on a text.
function measured(format, order, cell, text) {
  const ascii = run(["convert", FORMATS[format === DETECT ? detect(text) : format], "ascii"], text);
  if (ascii.status !== DONE) return run(["check", FORMATS[format]], text);
  const pixels = countPixels(ascii.output.toString().trim(), order, cell), units = pixels * SHARE_UNITS / pixelCount(order);
  const share = `${units / SHARE_UNITS}.${`${units % SHARE_UNITS}`.padStart(12, "0")}`;
  return { status: DONE, output: Buffer.from(`ring ${ringNumber(order, cell)}\npixels ${pixels}\nshare ${share}\n`) };
}

// Returns a random cell, often one near a number of the text.
function cellNear(text, order) {
  const numbers = text.toString("latin1").match(/\d{1,19}/g);
  return numbers && below(3) ? BigInt(choose(numbers)) % cellCount(order) : randomCell(order);
}

function testRound() {
  const kind = below(3), text = randomText(kind), format = kind === NUNIQ || below(2) ? kind : DETECT, name = FORMATS[format];
  compare("web_examine", [format], text, joined(run(["describe", name], text), () => run(["draw", name], text)));
  compare("web_draw", [format], text, run(["draw", name], text));
  const other = format === DETECT ? below(2) : kind, pair = Buffer.concat([text, Buffer.from(";"), randomText(other)]);
  compare("web_draw", [format], pair, run(["draw", name], pair));
  const target = below(3), source = format === DETECT ? detect(text) : format;
  const converted = run(["convert", FORMATS[source], FORMATS[target]], text);
  compare("web_convert", [format, target], text, converted.status === DONE ? converted : run(["check", name], text));
  compare("web_change", [COMPLEMENT, format], text, run(["complement", name], text));
  const order = randomOrder();
  compare("web_change", [order, format], text, run(["degrade", `${order}`, name], text));
  const operation = below(OPERATIONS.length), more = list(2, () => randomText(format === DETECT ? below(2) : kind));
  const several = Buffer.concat([pair, ...more.flatMap((next) => [Buffer.from(";"), next])]);
  compare("web_combine", [operation, format], several, run(["combine", OPERATIONS[operation], name], several));
  const cell = cellNear(text, order);
  compare("web_measure", [format, order, cell], text, measured(format, order, cell, text));
  const script = Buffer.from(randomScript());
  compare("web_run", [], script, run(["run"], script));
}

// Texts that random ones seldom are: empty texts, blanks, single pixels, the whole sky, texts without an order, and lines at the limit.
function testSpecialTexts() {
  const texts = ["", " \n", "29/0", "0/0-11", "3/", "{}", "{\"3\":[]}", "4\n", "\ufeff0/1", "SIMPLE  =", "<html>", "0/0;", ";",
    "0/0;1/1;2/2"];
  for (const text of texts.map((each) => Buffer.from(each))) {
    for (const [format, name] of FORMATS.entries()) {
      compare("web_examine", [format], text, joined(run(["describe", name], text), () => run(["draw", name], text)));
      compare("web_draw", [format], text, run(["draw", name], text));
      compare("web_combine", [0, format], text, run(["combine", "union", name], text));
      compare("web_change", [COMPLEMENT, format], text, run(["complement", name], text));
      compare("web_measure", [format, 0, 11n], text, measured(format, 0, 11n, text));
    }
  }
  for (const script of ["", "\n", `${" ".repeat(MAX_LINE)}\nread 0/0-11`, `add 0/0\n${" ".repeat(MAX_LINE + 1)}\nread 0/0-11\n`]) {
    compare("web_run", [], Buffer.from(script), run(["run"], Buffer.from(script)));
  }
}

function testRingNumbers() {
  for (const order of [0, 1, 2, 3]) {
    for (let cell = 0n; cell < cellCount(order); cell += 1n) {
      const { output } = callJob(exported, "web_measure", [ASCII, order, cell], Buffer.from("0/0-11"));
      check(output.toString() === `ring ${ringNumber(order, cell)}\npixels ${pixelCount(order)}\nshare 1.000000000000\n`,
        `web_measure of ${order}/${cell}: ${output}`);
    }
  }
}

// Calls of each job with a valid and an invalid text.
const CALLS = [
  ["web_examine", [ASCII], "1/3 2/4-5"], ["web_draw", [ASCII], "1/3"], ["web_draw", [DETECT], "1/3;{\"0\":[1]}"],
  ["web_convert", [ASCII, JSON_FORMAT], "1/3"], ["web_change", [COMPLEMENT, DETECT], "{\"0\":[1]}"], ["web_change", [1, ASCII], "2/7"],
  ["web_combine", [1, ASCII], "0/0-5;0/3-9;1/20-30"], ["web_measure", [ASCII, 1, 3n], "2/13"], ["web_run", [], "add 1/3\nread 0/0-11\n"],
  ["web_examine", [ASCII], "1/99"], ["web_draw", [ASCII], "0/0;0/12"], ["web_convert", [NUNIQ, ASCII], "3\n"],
  ["web_change", [COMPLEMENT, DETECT], "{"], ["web_combine", [1, ASCII], "0/0;1/3-1"],
  ["web_measure", [JSON_FORMAT, 1, 3n], "{\"30\":[]}"]];

function testShortBuffers() {
  for (const [name, numbers, text] of CALLS) {
    const input = Buffer.from(text), { status, output } = callJob(exported, name, numbers, input);
    check(status === DONE || status === ERROR, `${name} of ${text} has status ${status}`);
    let areRight = true;
    for (let capacity = 0; capacity < output.length; capacity += 1) {
      const short = callOnce(exported, name, numbers, input, capacity);
      areRight &&= short.status === SHORT_BUFFER && short.length === output.length && short.output.every((byte) => byte === 0xaa);
    }
    check(areRight, `${name} of ${text} writes nothing into a buffer that is too short, and the needed length`);
    const exact = callOnce(exported, name, numbers, input, output.length);
    const isExact = exact.status === status && exact.length === output.length && exact.output.equals(output);
    check(isExact, `${name} of ${text} fills a buffer of the needed length`);
    const longer = callOnce(exported, name, numbers, input, output.length + 9);
    check(longer.output.subarray(output.length).every((byte) => byte === 0xaa), `${name} of ${text} writes nothing after its output`);
  }
}

function testNumbers() {
  const text = Buffer.from("1/3"), wrong = [4, 5, 254, 256, 2 ** 31, 2 ** 32 - 1];
  const calls = [...[30, ...wrong.slice(2)].map((number) => ["web_change", [number, ASCII]]), ["web_convert", [ASCII, DETECT]],
    ...wrong.flatMap((number) => [["web_examine", [number]], ["web_draw", [number]], ["web_convert", [number, ASCII]],
      ["web_convert", [ASCII, number]], ["web_change", [0, number]], ["web_combine", [0, number]], ["web_combine", [number, ASCII]],
      ["web_measure", [number, 0, 0n]]]),
    ...[30, 255, 2 ** 32 - 1].map((order) => ["web_measure", [ASCII, order, 0n]])];
  for (let order = 0; order <= MAX_ORDER; order += 1) {
    for (const cell of [cellCount(order), 2n ** 63n, 2n ** 64n - 1n]) calls.push(["web_measure", [ASCII, order, cell]]);
    const last = callJob(exported, "web_measure", [ASCII, order, cellCount(order) - 1n], text);
    check(last.status === DONE, `web_measure of the last cell of order ${order}`);
  }
  for (const [name, numbers] of calls) {
    check(callJob(exported, name, numbers, text).status === NO_SUCH_NUMBER, `${name}(${numbers}) has the status of a wrong number`);
  }
}

function testMemory() {
  const callAll = () => CALLS.forEach(([name, numbers, text]) => callJob(exported, name, numbers, Buffer.from(text)));
  callAll();
  const size = exported.memory.buffer.byteLength;
  for (let turn = 0; turn < 200; turn += 1) callAll();
  check(exported.memory.buffer.byteLength === size, "calls free their memory");
}

check(WebAssembly.Module.imports(module).length === 0, "the module has no imports");
for (let round = 0; round < Number(roundCount); round += 1) testRound();
check(errorCount > Number(roundCount), `a part of the texts is invalid: ${errorCount} errors`);
testSpecialTexts();
testRingNumbers();
testShortBuffers();
testNumbers();
testMemory();
finish();
