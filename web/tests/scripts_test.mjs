// Tests the scripts of the page that need no browser, and the tool that bundles them.
//
// usage: node web/tests/scripts_test.mjs
//
// The cells of the picture are compared with the nested numbering of HEALPix (Górski et al. 2005), computed here from
// declination and right ascension. The last line printed is `N passed, M failed`.
import { spawnSync } from "node:child_process";
import { cpSync, mkdtempSync, readFileSync, rmSync, writeFileSync } from "node:fs";
import { tmpdir } from "node:os";
import { dirname, join } from "node:path";
import { fileURLToPath } from "node:url";
import { deflateRawSync } from "node:zlib";
import { contentBytes, fileContent, formatToRead, isBlank, textContent } from "../scripts/content.js";
import { characterRange, errorRange, excerpt } from "../scripts/error_place.js";
import { describeReport, offerFor, parseReport } from "../scripts/error_report.js";
import { Format } from "../scripts/formats.js";
import { MAX_LINK_BYTES, decodeBase64, decodeState, encodeBase64, encodeState } from "../scripts/link.js";
import { Status, CoverageModule } from "../scripts/module.js";
import { parseMeasurement } from "../scripts/picture_pane.js";
import {
  cellAt, cellOfNumber, centre, centreOnSky, diamonds, neighbour, nuniq, rowCells,
} from "../scripts/projection.js";
import { repliesByLine } from "../scripts/script_pane.js";
import { groupDigits, parseStatistics, splitExamination } from "../scripts/statistics.js";
import { UndoHistory } from "../scripts/undo_history.js";
import { WorkerClient } from "../scripts/worker_client.js";
import { check, checkEqual, finish } from "./counts.mjs";

const WEB = dirname(dirname(fileURLToPath(import.meta.url)));
const utf8 = new TextEncoder();

// ---- places of errors

// Each text has its error between the marks 〈 and 〉, and a position that a report states.
const PLACES = [
  ["1/0-3 2/20\n5/1 〈3/7-5〉 6/1", "byte 17, line 2, byte 6 of it: `3/7-5`"],
  ["1/0-3 〈é〉 2/20", "byte 6, line 1, byte 6 of it: `\\xc3\\xa9`"],
  ["é 1/0 〈2/x〉", "byte 9, line 1, byte 9 of it: `2/x`"],
  ["1/0-3,〈2/20-〉,3", "byte 11, line 1, byte 11 of it: `2/20-`"],
  ["1/0-3\t〈2/20-〉", "byte 11, line 1, byte 11 of it: `2/20-`"],
  ["〈1/\u00a02〉 3", "byte 2, line 1, byte 2 of it: `1/\\xc2\\xa02`"],
  ['{"1":[0,1,〈48〉],"2":[7]}', "order 1, number 2: `48`"],
  ['{"2":[0, 1, 〈true〉 ,4]}', "order 2, number 2: `true`"],
  ['{"2":[0],"2":[1,〈"]"〉]}', 'order 2, number 1: `"]"`'],
  ['{"2":[[1,{"2":[5]}],〈{"a":[1,"}"]}〉]}', "order 2, number 1: `{\"a\":[1,\"}\"]}`"],
  ['{"é":[1],"2":[〈-1〉]}', "order 2, number 0: `-1`"],
  ['{"2":[1],"02":[〈1.5〉]}', "order 2, number 0: `1.5`"],
  ['{"2":[0,〈193〉],"02":[0,1]}', "order 2, number 1: `193`"],
  ['{"\\u0032":[〈null〉]}', "order 2, number 0: `null`"],
  ['{"1":[0],〈"2"〉:7}', "order 2: `2`"],
  ['{"02":[],〈"2"〉:{"x":[]}}', "order 2: `2`"],
  ['{"2":[],〈"x"〉:[]}', "name 1: `x`"],
  ['{〈"30"〉:[],"4":[]}', "name 0: `30`"],
  ['{"é":[],〈"z"〉:[]}', "name 0: `z`"],
  ['{"2":[1,2〈}〉', "line 1, column 10"],
  ['{\n"é":〈x〉}', "line 2, column 6"],
  ['{"2":[1〈]〉', "line 1, column 9"],
  ["16\n17\n〈x9〉\n", "line 3: `x9`"],
  ["16\n〈3〉", "line 2: `3`"],
  ["〈3/7-5〉", "text 2, byte 0, line 1, byte 0 of it: `3/7-5`"],
  ["7", "text 1"],
  ['{"1":[0],〈"line 1, column 2"〉:[1]}', "name 1: `line 1, column 2`"],
  ['{"1":[0],〈"byte 3, line 1, byte 3 of it"〉:[1]}', "name 1: `byte 3, line 1, byte 3 of it`"],
  ['{〈"order 3"〉:[1]}', "name 0: `order 3`"],
  ["16\n〈order 3〉\n", "line 2: `order 3`"],
  ['〈"order 3〉\n', 'line 1: `"order 3`'],
  ['"order 3\n', "order 3"],
  [`〈1/${"é".repeat(700)}〉 2/3`, "byte 2, line 1, byte 2 of it: `1/\\xc3`"],
];

function testPlaces() {
  for (const [marked, position] of PLACES) {
    const text = marked.replace(/[〈〉]/g, ""), from = marked.indexOf("〈"), bytes = utf8.encode(text);
    const range = errorRange(bytes, position);
    const expected = from < 0 ? null : [from, marked.indexOf("〉") - 1];
    checkEqual(range && characterRange(bytes, range), expected, `the place of ${position} in ${text}`);
  }
  checkEqual(errorRange(utf8.encode("{}"), ""), null, "a place without a position");
  checkEqual(errorRange(utf8.encode("1\n2"), "line 9: `2`"), null, "the place of a line that does not exist");
}

function testExcerpts() {
  const lines = Array.from({ length: 50_000 }, (_, at) => `5/${at}`), text = lines.join("\n"),
    bytes = utf8.encode(text);
  const from = text.indexOf("5/30000");
  const { line, before, marked, after } = excerpt(bytes, [from, from + 7]);
  checkEqual([line, before, marked, after],
    [29998, "5/29997\n5/29998\n5/29999\n", "5/30000", "\n5/30001\n5/30002\n5/30003…"],
    "the excerpt of a long text");
  const long = utf8.encode(`${"1/0 ".repeat(1000)}x`), cut = excerpt(long, [4000, 4001]);
  check(cut.before.startsWith("…") && cut.before.length < 200 && cut.marked === "x" && cut.after === "",
    "a long line is cut");
  checkEqual(cut.line, 1, "the line of the excerpt of a long line");
  const word = excerpt(utf8.encode("x".repeat(100_000)), [0, 100_000]);
  check(word.marked.length + word.after.length < 1000, "the excerpt of a long word is short");
}

// ---- reports

function testReports() {
  const full = parseReport(
    "fault NoOrder\nbyte 0, line 1, byte 0 of it: `4`\nan order comes first, as in 3/\nthis looks like a NUNIQ list\n");
  checkEqual(full, { name: "NoOrder", position: "byte 0, line 1, byte 0 of it: `4`",
    expected: "an order comes first, as in 3/",
    hint: "this looks like a NUNIQ list" }, "a report of four lines");
  checkEqual(describeReport(full),
    "NoOrder (cell without an order) at byte 0, line 1, byte 0 of it: `4`. An order comes first, as in 3/.",
      "its description");
  checkEqual(offerFor(full.hint)?.format, Format.NUNIQ, "the format of its hint");
  const object = parseReport("fault NotObject\na text is one object, as in {\"3\":[10,12]}\n");
  checkEqual([object.position, object.expected, object.hint], ["", 'a text is one object, as in {"3":[10,12]}', ""],
    "NotObject");
  const large = parseReport("fault OrderTooLarge\nbyte 0, line 1, byte 0 of it: `30/1`\norders go up to 29\n");
  checkEqual(large.expected, "orders go up to 29", "what OrderTooLarge expects");
  const line = parseReport(
    "fault BadByte\nline 2: `x`\neach line is one number, of digits only\nthis looks like ASCII\n");
  checkEqual([line.position, line.expected], ["line 2: `x`", "each line is one number, of digits only"],
    "BadByte of a list");
  checkEqual(parseReport("fault NotObject\ntext 17\n").position, "text 17", "the position of a text");
  const position = "text 2, byte 2, line 1, byte 2 of it: `12`", expected = "cells of order 0 go up to 11";
  const second = parseReport(`fault CellTooLarge\n${position}\n${expected}\n`);
  checkEqual([second.position, second.expected], [position, expected], "the report about a second text");
  checkEqual(describeReport(parseReport("fault TooLong\n")), "TooLong (text too long).", "a report of one line");
  checkEqual(offerFor("this looks like FITS; python -m ploverchaise convert reads it")?.command,
    "python -m ploverchaise convert FILE", "the command for FITS");
  for (const hint of ["gzip", "UTF-16", "HTML or XML", "UTF-8 with a byte order mark"]) {
    check(offerFor(`this looks like ${hint}`)?.advice, `there is advice for ${hint}`);
  }
  for (const [hint, format] of [["JSON", Format.JSON], ["ASCII", Format.ASCII]]) {
    checkEqual(offerFor(`this looks like ${hint}`)?.format, format, `the format of ${hint}`);
  }
  checkEqual(offerFor(""), null, "the offer without a hint");
}

// ---- statistics

function testStatistics() {
  const text = "deepest 3\npixels 90071992547409920\nshare 0.026041666666\narea 1074.295865870293\nranges 1\ncells 2\n"
    + "order 1 1\norder 2 1\n";
  const expected = { mocOrder: 3, pixels: 90071992547409920n, share: "0.026041666666", area: "1074.295865870293",
    ranges: 1n, cells: 2n,
    orders: [{ order: 1, cells: 1n }, { order: 2, cells: 1n }] };
  checkEqual(parseStatistics(text), expected, "statistics");
  const { statistics, picture } = splitExamination(utf8.encode(`${text}<svg>é</svg>\n`));
  checkEqual(statistics, expected, "the statistics of an examination");
  checkEqual(new TextDecoder().decode(picture), "<svg>é</svg>\n", "its picture");
  const empty = "deepest none\npixels 0\nshare 0.000000000000\narea 0.000000000000\nranges 0\ncells 0\n";
  checkEqual([parseStatistics(empty).mocOrder, parseStatistics(empty).orders], [null, []],
    "the statistics of the empty set");
  checkEqual([groupDigits(0), groupDigits(123), groupDigits(1234n), groupDigits("3458764513820540928")],
    ["0", "123", "1,234", "3,458,764,513,820,540,928"], "numbers with commas");
  checkEqual(parseMeasurement("ring 27\npixels 5\nshare 0.250000000000\n"),
    { ring: "27", pixels: "5", share: "0.250000000000" },
    "a measurement");
}

// ---- the projection

// The centre of a cell of the nested numbering: z = sin(declination) and right ascension, as pix2ang_nest of HEALPix
// computes them.
function directionOf(order, cell) {
  const side = 2 ** order, area = side * side, face = Math.floor(cell / area);
  let x = 0, y = 0;
  for (let bit = 0; bit < order; bit += 1) {
    x += Math.floor(cell / 4 ** bit) % 2 * 2 ** bit;
    y += Math.floor(cell / 4 ** bit / 2) % 2 * 2 ** bit;
  }
  const ring = (Math.floor(face / 4) + 2) * side - x - y - 1;
  const longitudeFactor = [1, 3, 5, 7, 0, 2, 4, 6, 1, 3, 5, 7][face];
  let cellsInQuarter, z, shift;
  if (ring < side) [cellsInQuarter, z, shift] = [ring, 1 - ring ** 2 / (3 * area), 0];
  else if (ring > 3 * side) [cellsInQuarter, z, shift] = [4 * side - ring, (4 * side - ring) ** 2 / (3 * area) - 1, 0];
  else [cellsInQuarter, z, shift] = [side, (2 * side - ring) * 2 / (3 * side), (ring - side) % 2];
  let place = (longitudeFactor * cellsInQuarter + x - y + 1 + shift) / 2;
  if (place > 4 * side) place -= 4 * side;
  if (place < 1) place += 4 * side;
  return { z, longitude: (place - (shift + 1) / 2) * Math.PI / 2 / cellsInQuarter };
}

// The HEALPix projection of a direction (Górski et al. 2005, section 5), in units of the picture.
function project({ z, longitude }) {
  const quarter = Math.PI / 4;
  let x = longitude, y = 3 * Math.PI / 8 * z;
  if (Math.abs(z) > 2 / 3) {
    const sigma = 2 - Math.sqrt(3 * (1 - Math.abs(z)));
    x = longitude - (Math.abs(sigma) - 1) * (longitude % (2 * quarter) - quarter);
    y = Math.sign(z) * quarter * sigma;
  }
  return { x: 1024 - x * 1024 / (2 * Math.PI), y: 256 - y * 1024 / (2 * Math.PI) };
}

const isClose = (one, other) => Math.abs(one - other) < 1e-6 || Math.abs(Math.abs(one - other) - 1024) < 1e-6;

function testProjection() {
  for (let order = 0; order <= 3; order += 1) {
    let isRight = true;
    for (let number = 0; number < 12 * 4 ** order; number += 1) {
      const point = project(directionOf(order, number)), cell = cellOfNumber(order, BigInt(number)),
        middle = centre(cell);
      const half = 128 / 2 ** order;
      isRight &&= isClose(middle.x, point.x) && Math.abs(middle.y - point.y) < 1e-6;
      for (const [right, down] of [[0, 0], [0.4, 0.4], [-0.4, 0.4], [0.4, -0.4], [-0.4, -0.4]]) {
        const x = (point.x + right * half + 1024) % 1024, found = cellAt(x, point.y + down * half, order);
        isRight &&= found?.cell === BigInt(number) && found.row === cell.row && found.column === cell.column;
      }
    }
    check(isRight, `each cell of order ${order} is at its place in the picture`);
  }
  checkEqual(cellAt(10, 10, 3), null, "the cell between the northern base pixels");
  checkEqual([cellAt(-5, 256, 3), cellAt(1030, 256, 3), cellAt(512, -1, 3), cellAt(512, 513, 3)],
    [null, null, null, null],
    "the cells outside of the sky");
  const deep = 12n * 4n ** 29n - 12345678901n, cell = cellOfNumber(29, deep), { x, y } = centre(cell);
  checkEqual(cellAt(x, y, 29)?.cell, deep, "a cell of order 29");
  checkEqual([nuniq(cellOfNumber(0, 0n)), nuniq(cellOfNumber(1, 4n))], [4n, 20n], "NUNIQ numbers");
  checkEqual([diamonds(cellOfNumber(0, 4n)).length, diamonds(cellOfNumber(0, 5n))],
    [2, ["768,128 896,256 768,384 640,256"]], "diamonds");
}

function testDirections() {
  const shown = (order, cell) => {
    const { longitude, latitude } = centreOnSky(cellOfNumber(order, cell));
    return [longitude.toFixed(7), latitude.toFixed(7)];
  };
  checkEqual([shown(0, 0n), shown(0, 4n), shown(0, 8n)],
    [["45.0000000", "41.8103149"], ["0.0000000", "0.0000000"], ["45.0000000", "-41.8103149"]], "centres of order 0");
  for (let order = 0; order <= 4; order += 1) {
    let isRight = true;
    for (let number = 0; number < 12 * 4 ** order; number += 1) {
      const expected = directionOf(order, number);
      const { longitude, latitude } = centreOnSky(cellOfNumber(order, BigInt(number)));
      const turn = longitude - expected.longitude * 180 / Math.PI;
      isRight &&= Math.abs(turn - 360 * Math.round(turn / 360)) < 1e-10 && longitude >= 0 && longitude < 360;
      isRight &&= Math.abs(Math.sin(latitude * Math.PI / 180) - expected.z) < 1e-14;
    }
    check(isRight, `each cell of order ${order} has its centre`);
  }
  // The colatitude of the cell at a pole is 2 arcsin(1 / (2^29 sqrt 6)).
  const { longitude, latitude } = centreOnSky(cellOfNumber(29, 4n ** 29n - 1n));
  const expected = 2 / (2 ** 29 * Math.sqrt(6)) * 180 / Math.PI;
  checkEqual([longitude, ((90 - latitude) / expected).toFixed(5)], [45, "1.00000"], "the centre of the cell at a pole");
}

function testNeighbours() {
  const opposite = { north: "south", south: "north", east: "west", west: "east" };
  let isInverse = true, isAdjacent = true;
  for (let number = 0n; number < 768n; number += 1n) {
    const cell = cellOfNumber(3, number);
    for (const direction of ["north", "south", "east", "west"]) {
      const next = neighbour(cell, direction), isVertical = direction === "north" || direction === "south";
      const isAtPole = (direction === "north" && cell.row === 1) || (direction === "south" && cell.row === 31);
      isAdjacent &&= isAtPole ? next.cell === number : next.cell !== number
        && Math.abs(next.row - cell.row) === (isVertical ? 1 : 0);
      const isReversible = !isVertical || (cell.row > 9 && cell.row < 23);
      if (isReversible) isInverse &&= neighbour(next, opposite[direction]).cell === number;
    }
  }
  check(isInverse, "west is the inverse of east, and south that of north except near the poles");
  check(isAdjacent, "north and south are the next rows, and a pole has none");
  const pole = (base) => (BigInt(base) + 1n) * 4n ** 29n - 1n;
  for (const [base, direction, next] of [[0, "east", 1], [0, "west", 3], [3, "east", 0]]) {
    const found = neighbour(cellOfNumber(29, pole(base)), direction).cell;
    checkEqual(found, pole(next), `the cell ${direction} of the pole in base pixel ${base}`);
  }
  for (const row of [1, 5, 8, 16, 27, 31]) {
    const cells = rowCells(3, row);
    checkEqual(cells.length, 4 * Math.min(row, 8, 32 - row), `the number of cells in row ${row}`);
    let at = cells[0];
    for (let step = 0; step < cells.length; step += 1) at = neighbour(at, "east");
    checkEqual(at.cell, cells[0].cell, `the cell after a way round row ${row}`);
  }
}

// ---- the history

function testHistory() {
  const history = new UndoHistory();
  let now = "one";
  const change = (next) => { history.record(now); now = next; };
  const capture = () => now;
  checkEqual([history.canUndo, history.undo(capture), history.canRedo, history.redo(capture)],
    [false, null, false, null], "no history");
  change("two");
  change("three");
  now = history.undo(capture);
  checkEqual([now, history.canUndo, history.canRedo], ["two", true, true], "the state after an undo");
  now = history.undo(capture);
  checkEqual([now, history.canUndo], ["one", false], "the state after two undos");
  now = history.redo(capture);
  now = history.redo(capture);
  checkEqual([now, history.canRedo], ["three", false], "the state after two redos");
  now = history.undo(capture);
  change("four");
  checkEqual(history.canRedo, false, "a change ends the states to redo");
  for (let step = 0; step < 500; step += 1) change(String(step));
  let steps = 0;
  while (history.undo(capture) !== null) steps += 1;
  checkEqual(steps, 100, "the number of states that are kept");
}

// ---- contents, links, replies

function testContents() {
  const isFile = (bytes) => fileContent("name", bytes).file !== null;
  check(!isFile(utf8.encode("1/0")), "a text is shown");
  for (const text of ["SIMPLE  = T", "1/0\0", "1".repeat(200_001)]) {
    check(isFile(utf8.encode(text)), `${text.slice(0, 20)} is not shown`);
  }
  for (const bytes of [[0x1f, 0x8b], [0xff, 0xfe, 0x31, 0]]) {
    check(isFile(new Uint8Array(bytes)), `${bytes} is not shown`);
  }
  checkEqual([...contentBytes(fileContent("name", utf8.encode("\ufeff1/0")))].slice(0, 3), [0xef, 0xbb, 0xbf],
    "a byte order mark");
  checkEqual(fileContent("name", utf8.encode("16\r\n17\r\n")).text, "16\n17\n", "the text of a file with CR");
  checkEqual(textContent("1".repeat(200_001)).file?.bytes.length, 200_001, "a text that is too long");
  checkEqual([isBlank(utf8.encode(" \n\t\r")), isBlank(utf8.encode(" 0"))], [true, false], "blanks");
  const read = (text) => formatToRead(Format.DETECT, utf8.encode(text));
  checkEqual([read(" \n{"), read("1/"), read("16"), formatToRead(Format.NUNIQ, utf8.encode("{"))],
    [Format.JSON, Format.ASCII, Format.ASCII, Format.NUNIQ], "formats");
}

async function testLinks() {
  const bytes = Uint8Array.from({ length: 256 }, (_, at) => at);
  checkEqual([...decodeBase64(encodeBase64(bytes))], [...bytes], "bytes through base64url");
  const state = { coverages: [{ text: "1/0 é", format: 2 }, { text: "", format: 3 }], settings: { output: "1" },
    script: "add 0/0" };
  const fragment = await encodeState(state);
  check(/^#1[\w-]+$/.test(fragment), "a fragment has characters of base64url only");
  checkEqual(await decodeState(fragment),
    { ...state, coverages: state.coverages.map((it) => ({ ...it, file: null })) }, "a state in a link");
  checkEqual(await decodeState("#other"), null, "another fragment");
  const odd = await decodeState(
    await encodeState({ coverages: Array(20).fill({ text: 5, format: "9" }), settings: { output: { a: 1 } } }));
  checkEqual([odd.coverages.length, odd.coverages[0], odd.settings.output, "script" in odd],
    [8, { text: "5", format: 3, file: null }, "[object Object]", false], "values of other types");
  const withText = (length) => ({ coverages: [{ text: "1".repeat(length), format: 3 }], settings: {} });
  const wrapped = JSON.stringify(withText(0)).length;
  checkEqual(await encodeState(withText(MAX_LINK_BYTES - wrapped + 1)), null, "the fragment of too long a text");
  const longest = await decodeState(await encodeState(withText(MAX_LINK_BYTES - wrapped)));
  checkEqual([longest.coverages[0].text, longest.coverages[0].file.bytes.length],
    ["", MAX_LINK_BYTES - wrapped], "the longest text in a link");
  const large = `#1${encodeBase64(deflateRawSync(JSON.stringify(withText(5_000_000))))}`;
  for (const damaged of ["#1", "#1%", "#1AAAA", `${fragment.slice(0, -8)}`, await encodeState({}), large]) {
    const isRejected = await decodeState(damaged).then(() => false, () => true);
    check(isRejected, `the fragment ${damaged.slice(0, 20)} is rejected`);
  }
}

function testReplies() {
  checkEqual(repliesByLine("add 0/0\n\n \t\ncount 0/0\nx", ["changed 1", "total 1", "fault UnknownWord"]),
    ["changed 1", "", "", "total 1", "fault UnknownWord"], "replies beside their lines");
  checkEqual(repliesByLine("add 0/0\n", []), ["", ""], "lines without replies");
}

// ---- the calls of the module

// The exports of a module with one job, which needs a buffer of a length, and fails for some texts.
function fakeModule(needed) {
  const memory = new WebAssembly.Memory({ initial: 2, maximum: 400 });
  const allocated = new Set(), calls = [];
  let next = 16n;
  const exported = {
    memory,
    page_alloc(size) {
      const end = Number(next + size);
      if (size > 20_000_000n) return 0n;
      if (end > memory.buffer.byteLength) memory.grow(Math.ceil((end - memory.buffer.byteLength) / 65536));
      const address = next;
      next += (size + 15n) / 16n * 16n;
      allocated.add(address);
      return address;
    },
    page_free(address) {
      check(allocated.delete(address), "only allocated blocks are freed");
    },
    web_job(result, number, text, length, output, capacity) {
      calls.push({ number, capacity });
      const bytes = new Uint8Array(memory.buffer, Number(text), Number(length)),
        view = new DataView(memory.buffer, Number(result), 16);
      if (bytes[0] === 33) throw new WebAssembly.RuntimeError("trap");
      view.setUint32(0, capacity < BigInt(needed) ? Status.SHORT_BUFFER : number, true);
      view.setBigUint64(8, BigInt(needed), true);
      if (capacity >= BigInt(needed)) new Uint8Array(memory.buffer, Number(output), needed).fill(bytes[0]);
    },
  };
  exported.web_measure = exported.web_job;
  return { exported, allocated, calls };
}

function testModuleCalls() {
  const original = WebAssembly.Instance;
  let made = 0, fake;
  WebAssembly.Instance = function Instance() {
    made += 1;
    return { exports: fake.exported };
  };
  try {
    fake = fakeModule(5);
    const caller = new CoverageModule(null), first = caller.call("job", [0], utf8.encode("abc"));
    checkEqual([first.status, [...first.output], fake.allocated.size], [Status.DONE, [97, 97, 97, 97, 97], 0],
      "a call");
    checkEqual(caller.call("job", [1], utf8.encode("b")).status, Status.ERROR, "a call that reports an error");
    checkEqual(caller.call("job", [3], utf8.encode("b")), { status: Status.BAD_NUMBER, output: new Uint8Array() },
      "a call with a bad number");
    checkEqual([caller.call("job", [0], new Uint8Array(20_000_001)).status, fake.allocated.size],
      [Status.OUT_OF_MEMORY, 0], "a text without space");
    checkEqual(made, 1, "the number of instances");
    let isThrown = false;
    try {
      caller.call("job", [0], utf8.encode("!"));
    } catch {
      isThrown = true;
    }
    fake = fakeModule(3_000_000);
    const long = caller.call("job", [0], utf8.encode("c"));
    checkEqual([isThrown, made], [true, 2], "an instance is not used after a trap");
    checkEqual([long.output.length, fake.calls.length, Number(fake.calls[1].capacity), fake.allocated.size],
      [3_000_000, 2, 3_000_000, 0],
      "a call with too short a buffer");
    fake = fakeModule(1500);
    const measured = new CoverageModule(null).call("measure", [0], new Uint8Array(5000));
    checkEqual([measured.output.length, fake.calls.map(({ capacity }) => Number(capacity))], [1500, [1024, 1500]],
      "the capacities of a measurement");
    fake = fakeModule(30_000_000);
    checkEqual([new CoverageModule(null).call("job", [0], utf8.encode("c")).status, fake.allocated.size],
      [Status.OUT_OF_MEMORY, 0],
      "a call without space for the output");
  } finally {
    WebAssembly.Instance = original;
  }
}

// ---- the client of the worker

// Workers that answer nothing by themselves.
function fakeWorkers() {
  const workers = [];
  return { workers, Worker: class {
    messages = [];
    isTerminated = false;

    constructor() {
      workers.push(this);
    }

    postMessage(message) {
      this.messages.push(message);
    }

    terminate() {
      this.isTerminated = true;
    }

    reply(status) {
      this.onmessage({ data: { id: this.messages.at(-1).id, status } });
    }
  } };
}

async function testWorkerClient() {
  const original = globalThis.Worker, { workers, Worker } = fakeWorkers();
  const turn = () => new Promise((resolve) => { setTimeout(resolve, 0); });
  globalThis.Worker = Worker;
  try {
    const client = new WorkerClient(""), start = client.start(new Uint8Array([1, 2]));
    workers[0].reply(Status.DONE);
    checkEqual((await start).status, Status.DONE, "the status of the start");
    const jobs = [client.call("one", [], new Uint8Array()), client.call("two", [], new Uint8Array())];
    await turn();
    checkEqual(workers[0].messages.map(({ job }) => job ?? "start"), ["start", "one", "two"], "the messages");
    workers[0].onerror({ message: "broken" });
    const ended = await Promise.all(jobs);
    checkEqual(ended.map(({ status, error }) => [status, error]),
      [[Status.TRAPPED, "broken"], [Status.TRAPPED, "broken"]], "the jobs of a worker that fails");
    const next = client.call("three", [], new Uint8Array());
    await turn();
    checkEqual([workers[0].isTerminated, workers.length, [...workers[1].messages[0].compressed]], [true, 2, [1, 2]],
      "the new worker");
    workers[1].reply(Status.DONE);
    await turn();
    workers[0].onerror({ message: "late" });
    workers[1].reply(Status.DONE);
    checkEqual([(await next).status, workers[1].messages.at(-1).job], [Status.DONE, "three"],
      "the job of the new worker");
    workers[1].onmessageerror();
    globalThis.Worker = class { constructor() { throw new Error("no workers"); } };
    const without = await client.call("four", [], new Uint8Array());
    checkEqual([without.status, without.error], [Status.TRAPPED, "Error: no workers"], "a job without a worker");
    globalThis.Worker = Worker;
    const last = client.call("five", [], new Uint8Array());
    workers[2].onerror({ message: "not started" });
    checkEqual((await last).error, "not started", "the job of a worker that does not start");
  } finally {
    globalThis.Worker = original;
  }
}

// ---- the tool for bundles

function runBundle(folder) {
  const module = join(folder, "module.wasm"), output = join(folder, "page.html");
  writeFileSync(module, new Uint8Array([0, 97, 115, 109, 1, 0, 0, 0]));
  const { status, stderr } = spawnSync("python3", [join(folder, "bundle.py"), module, output], { encoding: "utf8" });
  return { status, stderr, page: () => readFileSync(output, "utf8") };
}

function testBundle() {
  const top = mkdtempSync(join(tmpdir(), "bundle-test-")), folder = join(top, "web");
  const script = join(folder, "scripts", "formats.js"), worker = join(folder, "scripts", "worker.js");
  try {
    for (const name of ["bundle.py", "page.html", "page.css", "scripts"]) cpSync(join(WEB, name), join(folder, name),
      { recursive: true });
    cpSync(join(WEB, "..", "docs", "SCRIPTS.md"), join(top, "docs", "SCRIPTS.md"), { recursive: true });
    const { status, stderr, page } = runBundle(folder);
    checkEqual([status, stderr], [0, ""], "the result of the tool");
    const text = page();
    check(!/^(import|export)\b/m.test(text), "no import or export is left");
    check(!/(src|href)="(?!data:,|#)/.test(text), "the page has no address of another file");
    checkEqual(text.match(/<!--[A-Z]+-->/g), null, "the places that are not filled");
    checkEqual(runBundle(folder).page(), text, "a second bundle");
    const damage = [
      [script, "const Status = 1;\n", "Status is also declared in"],
      [script, "const one = 1;\nconst one = 2;\n", "one is declared twice"],
      [script, "const { one } = two;\n", "unknown declaration"],
      [script, "let one;\n", "unknown declaration"],
      [worker, 'import { other } from "./module.js";\n', "module.js does not export other"],
      [worker, 'import { detectFormat } from "./none.js";\n', "unknown file none.js"],
      [worker, 'import * as all from "./module.js";\n', "an import has another form"],
      [worker, 'import fs from "fs";\n', "an import has another form"],
      [script, 'import { Format } from "./formats.js";\n', "the imports have a cycle"],
      [script, 'const tag = "</script>";\n', "markup"],
    ];
    for (const [file, addition, message] of damage) {
      const source = readFileSync(file, "utf8");
      writeFileSync(file, addition + source);
      const damaged = runBundle(folder);
      check(damaged.status === 1 && damaged.stderr.includes(message),
        `${addition.trim()} is an error: ${damaged.stderr}`);
      writeFileSync(file, source);
    }
  } finally {
    rmSync(top, { recursive: true });
  }
}

testPlaces();
testExcerpts();
testReports();
testStatistics();
testProjection();
testDirections();
testNeighbours();
testHistory();
testContents();
await testLinks();
testReplies();
testModuleCalls();
await testWorkerClient();
testBundle();
finish();
