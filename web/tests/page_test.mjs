// Tests the page in Chromium, and compares what it shows with what the program `moc` prints.
//
// usage: node web/tests/page_test.mjs PAGE PROGRAM
//
// PAGE is the output of web/bundle.py. The environment variable CHROMIUM may name the browser. The last line printed is
// `N passed, M failed`.
import { spawnSync } from "node:child_process";
import { mkdtempSync, readFileSync, rmSync, writeFileSync } from "node:fs";
import { createServer } from "node:http";
import { tmpdir } from "node:os";
import { join } from "node:path";
import { pathToFileURL } from "node:url";
import { EXAMPLES } from "../scripts/examples.js";
import { encodeState } from "../scripts/link.js";
import { cellOfNumber, centre, centreOnSky, neighbour } from "../scripts/projection.js";
import { Browser } from "./browser.mjs";
import { check, checkEqual, finish } from "./counts.mjs";

const [, , PAGE, PROGRAM] = process.argv;
const URL_OF_PAGE = pathToFileURL(PAGE).href;
const LARGE_TEXT_LIMIT = 10_000;
const FORMATS = { 0: "ascii", 1: "json", 2: "uniq", 3: "auto" };
const LEAST_CONTRAST = 4.5;

function moc(input, ...words) {
  const { stdout, stderr } = spawnSync(PROGRAM, words, { input, maxBuffer: 2 ** 28, encoding: "utf8" });
  return stdout || stderr;
}

// What the tests use in the page. Blobs are kept, because the policy of the page does not allow to fetch them.
const HELPERS = `globalThis.blobs = [];
const createURL = URL.createObjectURL;
URL.createObjectURL = (blob) => { blobs.push(blob); return createURL.call(URL, blob); };
Object.defineProperty(navigator, "clipboard", { value: { writeText: async (text) => { helpers.copied = text; } } });
const OriginalWorker = Worker;
globalThis.Worker = class extends OriginalWorker {
  constructor(address) {
    if (location.hash === "#no-worker") throw new Error("no workers");
    super(address);
    helpers.worker = this;
  }
};
globalThis.helpers = {
  id: (id) => document.getElementById(id),
  part: (letter, name) => document.querySelector('[data-letter="' + letter + '"] [data-part="' + name + '"]'),
  set(element, value) {
    element.value = value;
    for (const type of ["input", "change"]) element.dispatchEvent(new Event(type, { bubbles: true }));
  },
  setPane(letter, text, format) {
    helpers.part(letter, "format").value = format;
    helpers.set(helpers.part(letter, "text"), text);
  },
  drop(letter, name, bytes) {
    const transfer = new DataTransfer();
    transfer.items.add(new File([bytes], name));
    helpers.part(letter,
      "field").dispatchEvent(new DragEvent("drop", { dataTransfer: transfer, bubbles: true, cancelable: true }));
  },
  // Runs an action once, after a job with a name is sent and before its result arrives.
  afterSending(job, action) {
    const { worker } = helpers;
    worker.postMessage = (message) => {
      OriginalWorker.prototype.postMessage.call(worker, message);
      if (message.job !== job) return;
      delete worker.postMessage;
      action();
    };
  },
  texts: () => [...document.querySelectorAll('[data-part="text"]')].map((field) => field.value),
  isShown: (element) => element.checkVisibility(),
};`;

const browser = await Browser.open();

const quote = (value) => JSON.stringify(value);
const settle = () => browser.until("document.querySelector('[aria-busy=\"true\"]') === null");
const textOf = (id) => browser.run(`helpers.id(${quote(id)}).textContent`);

async function setPane(letter, text, format = "3") {
  await browser.run(`helpers.setPane(${quote(letter)}, ${quote(text)}, ${quote(format)})`);
  await settle();
}

async function setControl(id, value) {
  await browser.run(`helpers.set(helpers.id(${quote(id)}), ${quote(value)})`);
  await settle();
}

async function click(id) {
  await browser.run(`helpers.id(${quote(id)}).click()`);
  await settle();
}

async function clickPart(letter, part) {
  await browser.run(`helpers.part(${quote(letter)}, ${quote(part)}).click()`);
  await settle();
}

async function drop(letter, name, bytes) {
  const encoded = Buffer.from(bytes).toString("base64");
  await browser.run(`helpers.drop(${quote(letter)}, ${quote(name)},
    Uint8Array.from(atob(${quote(encoded)}), (character) => character.charCodeAt(0)))`);
  await new Promise((resolve) => { setTimeout(resolve, 100); });
  await settle();
}

async function load(url) {
  await browser.goTo("about:blank");
  await browser.goTo(url);
  await browser.until("document.documentElement.dataset.ready === 'true'");
  await settle();
}

const paneState = (letter) => browser.run(`({
  status: helpers.part("${letter}", "status").textContent,
  mark: helpers.part("${letter}", "marks").querySelector("mark")?.textContent ?? null,
  isInvalid: helpers.part("${letter}", "text").getAttribute("aria-invalid") === "true",
  hint: helpers.isShown(helpers.part("${letter}", "hint")) ? helpers.part("${letter}", "hint").textContent : null,
})`);

// ---- errors

// Each text has its error between 〈 and 〉.
const ERRORS = [
  ["1/0-3 2/20\n5/1 〈3/7-5〉 6/1", "3", "Backwards"],
  ["1/0-3 〈é〉 2/20", "3", "BadByte"],
  ["1/3 〈2/x〉", "3", "BadByte"],
  ["1/0-3 〈2/20-〉", "3", "Unfinished"],
  ["〈30/1〉", "3", "OrderTooLarge"],
  ["〈7〉 1/0", "3", "NoOrder"],
  ["1/0, 2,〈99〉", "0", "CellTooLarge"],
  ['{"1":[0,1,〈48〉],"2":[7]}', "3", "CellTooLarge"],
  ['{"2":[0, 1, 〈true〉 ,4]}', "3", "NotWhole"],
  ['{〈"2"〉:7}', "3", "NotArray"],
  ['{"2":[],〈"x"〉:[]}', "3", "BadOrder"],
  ['{"2":[1,2〈}〉', "3", "NotJson"],
  ["[1,2]", "1", "NotObject"],
  ["16\n17\n〈x9〉\n", "2", "BadByte"],
  ["16\n〈3〉\n", "2", "NotUniq"],
];

const sentence = (line) => `${line[0].toUpperCase()}${line.slice(1)}.`;

async function testErrors() {
  for (const [marked, format, name] of ERRORS) {
    const text = marked.replace(/[〈〉]/g, ""), mark = /〈(.*)〉/s.exec(marked)?.[1] ?? null;
    await setPane("A", text, format);
    const state = await paneState("A");
    checkEqual([state.mark, state.isInvalid], [mark, true], `the mark in ${text}`);
    const [first, ...lines] = moc(text, "check", FORMATS[format]).trimEnd().split("\n");
    checkEqual(first, `fault ${name}`, `the error of the program in ${text}`);
    check(state.status.startsWith(name), `the error line of ${text} begins with ${name}: ${state.status}`);
    for (const line of lines.filter((it) => !it.startsWith("this looks like"))) {
      check(state.status.includes(line) || state.status.includes(sentence(line)),
        `the error line of ${text} has ${line}: ${state.status}`);
    }
  }
  checkEqual(await browser.run("helpers.id('result-status').textContent"), "Coverage A has an error.",
    "the result of an invalid coverage");
  await setPane("A", "1/0-3 2/20");
  const { status, mark, isInvalid } = await paneState("A");
  checkEqual([status, mark, isInvalid], ["Valid: ASCII, 2 cells.", null, false], "a valid text");
}

async function testGoingToErrors() {
  const text = `${"1/0 2/5 3/7\n".repeat(200)}3/7-5 and more`;
  await setPane("A", text);
  const selection = `[document.activeElement === helpers.part("A", "text"),
    helpers.part("A", "text").value.slice(helpers.part("A", "text").selectionStart,
      helpers.part("A", "text").selectionEnd)]`;
  await clickPart("A", "goto");
  checkEqual(await browser.run(selection), [true, "3/7-5"], "the selection after Go to the error");
  const isVisible = `(() => { const mark = helpers.part("A", "marks").querySelector("mark").getBoundingClientRect();
    const field = helpers.part("A", "text").getBoundingClientRect();
    return mark.top >= field.top && mark.bottom <= field.bottom; })()`;
  await new Promise((resolve) => { setTimeout(resolve, 100); });
  check(await browser.run(isVisible), "the marked error is visible");
  await browser.run("helpers.part('A', 'text').scrollTop = 0; helpers.part('A', 'text').setSelectionRange(0, 0)");
  await browser.until(`!(${isVisible})`);
  await browser.press("F8");
  checkEqual(await browser.run(selection), [true, "3/7-5"], "the selection after F8");
}

async function testHints() {
  for (const [text, format, label, taken] of [
    ["16\n17\n", "3", "Read as a NUNIQ list", "2"],
    ['{"1":[2]}', "0", "Read as JSON", "1"],
    ["1/2 3", "1", "Read as ASCII", "0"],
  ]) {
    await setPane("A", text, format);
    checkEqual((await paneState("A")).hint, label, `the hint for ${text}`);
    await clickPart("A", "hint");
    const { status, hint } = await paneState("A");
    check(status.startsWith("Valid") && hint === null, `${text} is valid after its hint: ${status}`);
    checkEqual(await browser.run("helpers.part('A', 'format').value"), taken, `the format after the hint for ${text}`);
  }
}

async function testFiles() {
  const fits = Buffer.concat([Buffer.from("SIMPLE  =                    T".padEnd(2880)), Buffer.alloc(2880)]);
  for (const [name, bytes, command] of [
    ["map.fits", fits, "python -m ploverchaise convert FILE"],
    ["small.fits", Buffer.from("SIMPLE  =                    T"), "python -m ploverchaise convert FILE"],
    ["map.gz", Buffer.from([0x1f, 0x8b, 8, 0, 1, 2, 3]), "gunzip FILE"],
    ["map.txt", Buffer.from("\ufeff1/0", "utf16le"), "iconv -f UTF-16 -t UTF-8 FILE > NEW_FILE"],
    ["map.html", Buffer.from("<!doctype html><p>"), ""],
  ]) {
    await drop("A", name, bytes);
    const advice = await browser.run(`[helpers.isShown(helpers.part("A", "advice")),
      helpers.part("A", "command").textContent, helpers.part("A", "adviceText").textContent !== ""]`);
    checkEqual(advice, [true, command, true], `the advice for ${name}`);
  }
  await drop("A", "good.txt", Buffer.from("1/0-3"));
  checkEqual(await browser.run(`[helpers.texts()[0], helpers.isShown(helpers.part("A", "advice"))]`), ["1/0-3", false],
    "a dropped text");
}

// ---- results, statistics and pictures

const FIRST = "1/0-3 2/20 5/4000-5200", SECOND = '{"1":[2,3,4,5],"4":[1000,1001,1002]}', THIRD = "16\n70\n4098\n";
const OPERATIONS = ["union", "intersection", "difference", "symmetric"];

async function resultOf(operation, format = "0") {
  await setControl("output-format", format);
  await setControl("operation", operation);
  return textOf("result-text");
}

async function testOperations() {
  await setPane("A", FIRST);
  await setPane("B", SECOND);
  for (const operation of OPERATIONS) {
    checkEqual(await resultOf(operation), moc(`${FIRST};${SECOND}`, "combine", operation, "auto"),
      `${operation} of two`);
  }
  await click("add-coverage");
  await setPane("C", THIRD, "2");
  const third = moc(THIRD, "convert", "uniq", "ascii").trimEnd();
  for (const operation of OPERATIONS) {
    const expected = moc(`${FIRST};${SECOND};${third}`, "combine", operation, "auto");
    checkEqual(await resultOf(operation), expected, `${operation} of three`);
    checkEqual(await resultOf(operation, "1"), moc(expected, "convert", "ascii", "json"),
      `${operation} of three as JSON`);
  }
  await setPane("C", "5/x");
  checkEqual([await resultOf("union"), await textOf("result-status")], ["", "Coverage C has an error."],
    "the union with an error");
  await setPane("C", "");
  checkEqual(await resultOf("union"), moc(`${FIRST};${SECOND}`, "combine", "union", "auto"),
    "the union with an empty coverage");
  await clickPart("C", "remove");
}

async function testListsOnly() {
  await setPane("A", THIRD, "2");
  await setPane("B", "70\n71\n", "2");
  for (const operation of OPERATIONS) {
    checkEqual(await resultOf(operation, "2"), moc(`${THIRD};70\n71\n`, "combine", operation, "uniq"),
      `${operation} of lists`);
  }
}

async function testChanges() {
  for (const [text, format] of [[FIRST, "3"], [SECOND, "3"], [THIRD, "2"]]) {
    await setPane("A", text, format);
    const own = { "{": "json", 1: text === THIRD ? "uniq" : "ascii" }[text[0]];
    for (const [at, output] of ["ascii", "json", "uniq"].entries()) {
      const converted = (result) => (own === output ? result : moc(result, "convert", own, output));
      checkEqual(await resultOf("same", String(at)), moc(text, "convert", own, output), `${text} as ${output}`);
      checkEqual(await resultOf("complement", String(at)), converted(moc(text, "complement", own)),
        `the complement of ${text} as ${output}`);
      await setControl("degrade-order", "1");
      checkEqual(await resultOf("degrade", String(at)), converted(moc(text, "degrade", "1", own)),
        `${text} degraded as ${output}`);
    }
  }
  await setControl("degrade-order", "30");
  checkEqual(await textOf("result-text"), "", "the result for order 30");
  await setControl("degrade-order", "3");
}

const pictureText = () => browser.run(`helpers.id("save-picture").click(), blobs.at(-1).text()`);

async function testPictures() {
  await setPane("A", FIRST);
  await setPane("B", SECOND);
  await setControl("shown", "coverages");
  checkEqual(await pictureText(), moc(`${FIRST};${SECOND}`, "draw", "auto"), "the picture of two");
  await setPane("B", THIRD, "2");
  const list = moc(THIRD, "convert", "uniq", "ascii");
  checkEqual(await pictureText(), moc(`${FIRST};${list}`, "draw", "auto"), "the picture of a text and a list");
  await setPane("B", "");
  checkEqual(await pictureText(), moc(FIRST, "draw", "auto"), "the picture of one");
  await resultOf("complement");
  await setControl("shown", "result");
  checkEqual(await pictureText(), moc(moc(FIRST, "complement", "auto"), "draw", "auto"), "the picture of the result");
  checkEqual(await browser.run("helpers.id('sky-image').naturalWidth > 0 && helpers.isShown(helpers.id('sky'))"), true,
    "it is shown");
  await setControl("shown", "coverages");
  await setPane("A", "");
  checkEqual(await browser.run("[helpers.isShown(helpers.id('sky')), helpers.id('save-picture').disabled]"),
    [false, true], "no picture");
}

const ROW_NAMES = { share: "Share of the sky", area: "Square degrees", deepest: "MOC order", pixels: "Order-29 pixels",
  ranges: "Ranges of pixels", cells: "Cells" };

async function testStatistics() {
  await setPane("A", FIRST);
  await setPane("B", SECOND);
  await resultOf("complement");
  const rows = await browser.run(
    `[...helpers.id("statistics-table").rows].map((row) => [...row.cells].map((cell) => cell.textContent))`);
  checkEqual(rows[0], ["", "A", "B", "Result"], "the columns of the statistics");
  const texts = [FIRST, SECOND, moc(FIRST, "complement", "auto")];
  let isShown = true;
  for (const [at, text] of texts.entries()) {
    for (const line of moc(text, "describe", "auto").trimEnd().split("\n")) {
      const [name, ...values] = line.split(" "),
        label = name === "order" ? `Cells of order ${values[0]}` : ROW_NAMES[name];
      isShown &&= rows.find((row) => row[0] === label)?.[at + 1].replaceAll(",", "") === values.at(-1);
    }
  }
  check(isShown, `the statistics are those of the program: ${JSON.stringify(rows)}`);
}

async function testCells() {
  await setPane("A", FIRST);
  await setPane("B", "");
  await setControl("shown", "coverages");
  const shown = async () => {
    await settle();
    const values = await Promise.all(["order", "nested", "ring", "nuniq", "pixels", "share"]
      .map((name) => textOf(`cell-${name}`)));
    return values.map((value) => value.replaceAll(",", ""));
  };
  const expected = (order, cell) => {
    const common = moc(`${FIRST};${order}/${cell}`, "combine", "intersection", "auto");
    const pixels = BigInt(/pixels (\d+)/.exec(moc(common, "describe", "ascii"))[1]),
      share = pixels * 10n ** 12n / 4n ** BigInt(29 - order);
    const number = (name) => moc("", name, String(order), String(cell)).trim();
    return [String(order), String(cell), number("ring"), number("uniq"), String(pixels),
      `${share / 10n ** 12n}.${String(share % 10n ** 12n).padStart(12, "0")}`];
  };
  await browser.run("helpers.id('sky').scrollIntoView({ block: 'center' })");
  const [left, top, scale] = await browser.run(`(() => { const overlay = helpers.id("sky-overlay"),
    frame = overlay.getBoundingClientRect(), box = overlay.viewBox.baseVal, scale = frame.width / box.width;
    return [frame.left - box.x * scale, frame.top - box.y * scale, scale]; })()`);
  for (const [order, number] of [[3, 0], [3, 80], [3, 81], [3, 300], [1, 16], [1, 5], [5, 5000], [5, 4100]]) {
    await setControl("grid-order", String(order));
    const { x, y } = centre(cellOfNumber(order, BigInt(number)));
    await browser.movePointer(left + ((x + 1023.9) % 1024) * scale, top + y * scale);
    checkEqual(await shown(), expected(order, number), `the cell ${order}/${number} under the pointer`);
  }
  const start = Number(await textOf("cell-nested").then((text) => text.replaceAll(",", "")));
  let cell = cellOfNumber(5, BigInt(start));
  await browser.run("helpers.id('sky').focus()");
  for (const [key, direction] of [["ArrowLeft", "east"], ["ArrowDown", "south"], ["ArrowRight", "west"],
    ["ArrowUp", "north"]]) {
    await browser.press(key);
    cell = neighbour(cell, direction);
    checkEqual(await shown(), expected(5, cell.cell), `the cell after ${key}`);
  }
  check(await browser.run("helpers.id('sky-overlay').children.length > 0"), "the cell has an outline");
  await setControl("grid-order", "3");
  checkEqual((await shown())[1], String(cell.cell >> 4n), "the cell of a coarser order");
  await setControl("grid-order", "29");
  checkEqual((await shown())[0], "29", "the cell of order 29");
  await resultOf("complement");
  await setControl("shown", "result");
  check((await textOf("cell-share-name")).includes("result"), "the share is that of the result");
  await setControl("shown", "coverages");
  await setControl("grid-order", "3");
}

// ---- the history

async function testHistory() {
  await load(URL_OF_PAGE);
  await setPane("A", "1/0");
  await setPane("B", "1/1");
  const texts = () => browser.run("helpers.texts()");
  await clickPart("A", "clear");
  checkEqual(await texts(), ["", "1/1"], "the texts after Clear");
  await click("undo");
  checkEqual(await texts(), ["1/0", "1/1"], "the texts after Undo");
  await click("redo");
  checkEqual(await texts(), ["", "1/1"], "the texts after Redo");
  await browser.run("helpers.id('sky').focus(); helpers.id('undo').focus()");
  await browser.press("z", ["Control"]);
  await settle();
  checkEqual(await texts(), ["1/0", "1/1"], "the texts after Ctrl+Z");
  await browser.press("z", ["Control", "Shift"]);
  await settle();
  checkEqual(await texts(), ["", "1/1"], "the texts after Ctrl+Shift+Z");
  await browser.run("helpers.part('B', 'text').focus()");
  await browser.press("z", ["Control"]);
  await settle();
  checkEqual((await texts())[0], "", "Coverage A after Ctrl+Z in a text field");
  await click("undo");
  await drop("B", "dropped.txt", Buffer.from("2/7"));
  checkEqual(await texts(), ["1/0", "2/7"], "the texts after a drop");
  await click("add-coverage");
  await setPane("C", "3/9");
  await resultOf("union");
  await click("use-result");
  const union = await texts();
  checkEqual(union, [moc("1/0;2/7;3/9", "combine", "union", "ascii"), "2/7", "3/9"], "the texts after Use as A");
  await clickPart("C", "remove");
  checkEqual(await texts(), union.slice(0, 2), "the texts after the removal of C");
  await browser.run("helpers.id('example').value = 'json'");
  await click("load-example");
  check((await texts())[0].startsWith("{"), "an example is loaded");
  for (const expected of [union.slice(0, 2), union, ["1/0", "2/7", "3/9"]]) {
    await click("undo");
    checkEqual(await texts(), expected, "the texts after another Undo");
  }
  await click("undo");
  checkEqual((await texts()).slice(0, 2), ["1/0", "1/1"], "the texts before the drop");
  await browser.run(`helpers.set(helpers.part("A", "text"), "7".repeat(200_001))`);
  await settle();
  checkEqual([(await texts())[0], await browser.run("helpers.part('A', 'fileName').textContent")],
    ["", "Text, 200,001 bytes"], "a long text in the field");
  await click("undo");
  checkEqual([(await texts())[0], await browser.run("helpers.isShown(helpers.part('A', 'card'))")], ["1/0", false],
    "the text before the long one");
  check(await browser.run("helpers.id('undo').disabled && !helpers.id('redo').disabled"),
    "there is nothing more to undo");
}

async function testOperands() {
  await load(URL_OF_PAGE);
  for (let count = 2; count < 8; count += 1) await click("add-coverage");
  const letters = `[...document.querySelectorAll(".coverage")].map((pane) => pane.dataset.letter).join("")`;
  checkEqual([await browser.run(letters), await browser.run("helpers.id('add-coverage').disabled")],
    ["ABCDEFGH", true], "eight coverages");
  await setPane("D", "3/1");
  await setPane("E", "3/2");
  await clickPart("D", "remove");
  checkEqual([await browser.run(letters), (await browser.run("helpers.texts()"))[3]], ["ABCDEFG", "3/2"],
    "the coverages after a removal");
  check(await browser.run("helpers.part('B', 'remove').hidden && !helpers.part('C', 'remove').hidden"),
    "A and B cannot be removed");
}

// ---- links, examples, scripts

async function testLinks() {
  await load(URL_OF_PAGE);
  await setPane("A", FIRST);
  await setPane("B", THIRD, "2");
  await setControl("grid-order", "5");
  await resultOf("difference", "1");
  await browser.run("helpers.id('script').open = true");
  await setControl("script-text", "add 0/1 é\nread 0/0-11");
  await browser.run("helpers.id('copy-link').click()");
  await browser.until("helpers.copied !== undefined");
  const link = await browser.run("helpers.copied"), result = await textOf("result-text");
  checkEqual([link.startsWith(`${URL_OF_PAGE}#1`), await browser.run("location.href"), await textOf("page-status")],
    [true, URL_OF_PAGE, "Link copied."], "the copied link, and the address of the page");
  await load(link);
  const state = await browser.run(`[...helpers.texts(), helpers.part("B", "format").value,
    ...["operation", "output-format", "grid-order", "script-text"].map((id) => helpers.id(id).value),
    helpers.id("script").open]`);
  checkEqual(state, [FIRST, THIRD, "2", "difference", "1", "5", "add 0/1 é\nread 0/0-11", true],
    "the state after a link");
  checkEqual(await textOf("result-text"), result, "the result after a link");
  await load(`${URL_OF_PAGE}#1damaged`);
  checkEqual(await textOf("page-status"), "The link is damaged.", "the message about a damaged link");
  check((await paneState("A")).status.startsWith("Valid"), "the page works after a damaged link");
  const openState = async (coverages) => {
    await browser.run(`location.hash = ${quote(await encodeState({ coverages, settings: { gridOrder: "2" } }))}`);
    await browser.until("helpers.id('grid-order').value === '2'");
    await settle();
  };
  await setControl("grid-order", "4");
  await browser.run("helpers.id('sky').focus()");
  await browser.press("ArrowLeft");
  await openState([{ text: FIRST, format: 3 }]);
  checkEqual([await browser.run("helpers.texts()"), await textOf("cell-order")], [[FIRST, ""], "2"],
    "the texts and the order of the cell after a link with one coverage");
  await click("undo");
  checkEqual(await textOf("cell-order"), "4", "the order of the cell after Undo");
  await openState([{ text: "1".repeat(200_001), format: 3 }]);
  checkEqual(await browser.run("[helpers.texts()[0], helpers.part('A', 'fileName').textContent]"),
    ["", "Text, 200,001 bytes"], "a long text of a link");
  await click("undo");
  for (const letter of ["A", "B"]) {
    await browser.run(`helpers.part("${letter}", "text").value = "é".repeat(190_000)`);
  }
  await setControl("script-text", "x".repeat(3_500_000));
  await browser.run("helpers.id('script').open = true; helpers.id('copy-link').click()");
  await browser.until("helpers.id('page-status').textContent.includes('link')");
  checkEqual(await textOf("page-status"), "The texts are too long for a link.", "the message about long texts");
}

// The page does not show the result of a job about a text that has changed since.
async function testStaleResults() {
  await load(URL_OF_PAGE);
  await setPane("A", "1/0 2/x");
  await browser.run(`helpers.set(helpers.part("A", "text"), "1/0 2/3")`);
  checkEqual(await browser.run(`[helpers.isShown(helpers.part("A", "goto")), helpers.part("A", "marks").textContent]`),
    [false, ""], "the button and the mark after a change");
  await settle();
  await browser.run(`helpers.marks = [];
    new MutationObserver(() => helpers.marks.push(helpers.part("A", "marks").textContent))
      .observe(helpers.part("A", "marks"), { childList: true });
    helpers.afterSending("examine", () => {
      helpers.hasChanged = true;
      helpers.set(helpers.part("A", "text"), "1/0 1/1 1/2");
    });
    helpers.set(helpers.part("A", "text"), "1/0 2/x")`);
  await settle();
  checkEqual(await browser.run("[helpers.hasChanged, helpers.marks.filter(Boolean)]"), [true, []],
    "the marks of the text before");
  checkEqual((await paneState("A")).status, "Valid: ASCII, 3 cells.", "the status of the new text");
}

async function testDrops() {
  await load(URL_OF_PAGE);
  await setPane("A", "1/0", "2");
  await drop("A", "list.txt", Buffer.from("16\n17\n"));
  checkEqual((await paneState("A")).status, "Valid: a NUNIQ list, 2 cells.", "a dropped list");
  const twice = `(() => { const read = File.prototype.arrayBuffer;
    File.prototype.arrayBuffer = async function () {
      if (this.name === "slow") await new Promise((resolve) => setTimeout(resolve, 100));
      return read.call(this);
    };
    helpers.drop("A", "slow", new TextEncoder().encode("18"));
    helpers.drop("A", "quick", new TextEncoder().encode("19"));
    return new Promise((resolve) => setTimeout(resolve, 200)); })()`;
  await browser.run(twice);
  await settle();
  checkEqual((await browser.run("helpers.texts()"))[0], "19", "the text after two drops");
  const dropText = `(() => { const transfer = new DataTransfer();
    transfer.setData("text/plain", "1/0");
    return ["dragover", "drop"].map((type) => helpers.part("A", "text").dispatchEvent(
      new DragEvent(type, { dataTransfer: transfer, bubbles: true, cancelable: true }))); })()`;
  checkEqual(await browser.run(dropText), [true, true], "a text may be dropped into a field");
  const dropFile = `(() => { const transfer = new DataTransfer();
    transfer.items.add(new File(["1/0"], "file.txt"));
    return ["dragover", "drop"].map((type) => document.body.dispatchEvent(
      new DragEvent(type, { dataTransfer: transfer, bubbles: true, cancelable: true }))); })()`;
  checkEqual(await browser.run(dropFile), [false, false], "the browser does not open a dropped file");
}

// The fields of the cell are those of the new cell at once, or "…".
async function testSelection() {
  await load(URL_OF_PAGE);
  await browser.run("helpers.id('sky').focus()");
  await browser.press("ArrowLeft");
  await settle();
  const { longitude, latitude } = centreOnSky(cellOfNumber(3, 0n));
  checkEqual([await textOf("cell-longitude"), await textOf("cell-latitude")],
    [`${longitude.toFixed(9)}°`, `${latitude.toFixed(9)}°`], "the centre of the selected cell");
  const fields = `["live", "ring", "share", "pixels"].map((name) => (
    name === "live" ? helpers.id("cell").ariaLive : helpers.id("cell-" + name).textContent))`;
  await browser.press("ArrowLeft");
  await settle();
  const press = (key) => `helpers.id("sky").dispatchEvent(new KeyboardEvent("keydown", { key: "${key}" }))`;
  checkEqual(await browser.run(`${press("ArrowDown")}, ${fields}`), ["polite", "…", "…", "…"],
    "the fields before the measurement");
  await settle();
  check(!(await browser.run(fields)).includes("…"), "the fields after the measurement");
  await browser.run(`helpers.afterSending("measure", () => {
      ${press("ArrowDown")};
      helpers.rings = [];
      new MutationObserver(() => helpers.rings.push(helpers.id("cell-ring").textContent))
        .observe(helpers.id("cell-ring"), { childList: true });
    });
    ${press("ArrowDown")}`);
  await settle();
  checkEqual(await browser.run("helpers.rings"), [await textOf("cell-ring")],
    "the ring numbers that are shown after a change of the cell during a measurement");
  const [x, y] = await browser.run(`(() => { helpers.id("sky").scrollIntoView({ block: "center" });
    const { left, top, width, height } = helpers.id("sky").getBoundingClientRect();
    return [left + width / 2, top + height / 2]; })()`);
  await browser.movePointer(x, y);
  await settle();
  checkEqual(await browser.run("helpers.id('cell').ariaLive"), "off", "the announcement of the cell under the pointer");
}

async function testWorkerFailure() {
  await load(URL_OF_PAGE);
  await browser.run(`globalThis.failed = helpers.worker;
    failed.dispatchEvent(new ErrorEvent("error", { message: "the worker failed" }))`);
  await setPane("A", "1/0 1/1");
  checkEqual([(await paneState("A")).status, await browser.run("failed !== helpers.worker")],
    ["Valid: ASCII, 2 cells.", true], "the status after a failure of the worker");
  await browser.goTo("about:blank");
  await browser.goTo(`${URL_OF_PAGE}#no-worker`);
  await browser.until("helpers.id('page-status').textContent !== ''");
  checkEqual(await textOf("page-status"), "This browser cannot run the page: Error: no workers",
    "the message without a worker");
}

async function testExamples() {
  await load(URL_OF_PAGE);
  const names = await browser.run("[...helpers.id('example').options].map((option) => option.value)");
  check(names.length >= 4, `there are examples: ${names}`);
  for (const name of names) {
    await browser.run(`helpers.id("example").value = ${quote(name)}`);
    await click("load-example");
    const { status } = await paneState("A");
    check(status.startsWith("Valid"), `the example ${name} is valid: ${status}`);
    const shown = await textOf("result-text");
    check(shown.length > 0, `the example ${name} has a result`);
  }
  await load(URL_OF_PAGE);
  await setControl("script-text", "");
  for (const [name, { coverages, script }] of Object.entries(EXAMPLES)) {
    await browser.run(`helpers.id("example").value = ${quote(name)}`);
    await click("load-example");
    if (coverages) checkEqual(await browser.run("helpers.texts()"), coverages.map(({ text }) => text),
      `the texts of the example ${name}`);
    if (!script) continue;
    const replies = await shownReplies();
    check(replies.every((reply) => !reply.startsWith("fault")), `the example ${name} has no error: ${replies}`);
    checkEqual(replies, moc(script, "run").trimEnd().split("\n"), `the replies of the example ${name}`);
  }
}

const shownReplies = () => browser.run(
  "[...helpers.id('script-replies').children].map((line) => line.textContent.trim())");

async function testScripts() {
  const script = "add 3/10 12-15\n\ncount 3/10\nclaim 3/12 ; near 1 1\nnonsense\nread 0/0-11";
  await browser.run("helpers.id('script').open = true");
  await setControl("script-text", script);
  const replies = await shownReplies();
  const expected = moc(script, "run").trimEnd().split("\n");
  expected.splice(1, 0, "");
  checkEqual(replies, expected, "the replies beside the lines");
  const [field, reply] = await browser.run(`["script-text", "script-replies"].map((id) => helpers.id(id))
    .map((element) => element.getBoundingClientRect().top + parseFloat(getComputedStyle(element).paddingTop)
      + element.clientTop)`);
  check(Math.abs(field - reply) <= 2, `the first line and its reply are at one height: ${field}, ${reply}`);
}

// ---- connections

// The ways to reach a server that the test tries in a page. Each has the result "sent" or "rejected".
const CONNECTIONS = {
  fetch: (address) => `fetch(${quote(address)}).then(() => "sent", () => "rejected")`,
  image: (address) => connectBy("img", "src", address),
  script: (address) => connectBy("script", "src", address),
  frame: (address) => `(() => { const frame = document.createElement("iframe"); frame.src = ${quote(address)};
    document.body.append(frame); return new Promise((resolve) => setTimeout(() => resolve("unknown"), 500)); })()`,
  beacon: (address) => `(() => { navigator.sendBeacon(${quote(address)}, "text");
    return new Promise((resolve) => setTimeout(() => resolve("unknown"), 500)); })()`,
};

function connectBy(tag, attribute, address) {
  return `new Promise((resolve) => { const element = document.createElement("${tag}");
    element.onload = () => resolve("sent"); element.onerror = () => resolve("rejected");
    element.${attribute} = ${quote(address)}; document.body.append(element); })`;
}

const RESPONSES = { image: ["image/svg+xml", '<svg xmlns="http://www.w3.org/2000/svg" width="1" height="1"/>'],
  script: ["text/javascript", ""] };

// A copy of the page without the policy must reach the server, so that the tests of the page can fail.
async function testPolicy() {
  const received = new Set();
  const server = createServer((request, response) => {
    const name = request.url.slice(1), [type, text] = RESPONSES[name] ?? ["text/plain", "received"];
    received.add(name);
    response.writeHead(200, { "Content-Type": type, "Access-Control-Allow-Origin": "*" }).end(text);
  });
  await new Promise((resolve) => { server.listen(0, "127.0.0.1", resolve); });
  const attempt = async (url) => {
    await load(url);
    received.clear();
    const results = [];
    for (const [name, connect] of Object.entries(CONNECTIONS)) {
      results.push(await browser.run(connect(`http://127.0.0.1:${server.address().port}/${name}`)));
    }
    return results;
  };
  const folder = mkdtempSync(join(tmpdir(), "page-test-")), copy = join(folder, "page.html");
  writeFileSync(copy, readFileSync(PAGE, "utf8").replace(/<meta http-equiv="Content-Security-Policy"[^>]*>/, ""));
  checkEqual(await attempt(pathToFileURL(copy).href), ["sent", "sent", "sent", "unknown", "unknown"],
    "the results without the policy");
  checkEqual([...received].sort(), Object.keys(CONNECTIONS).sort(),
    "the requests that the server receives without the policy");
  checkEqual(await attempt(URL_OF_PAGE), ["rejected", "rejected", "rejected", "unknown", "unknown"],
    "the results in the page");
  checkEqual([...received], [], "the requests that the server receives from the page");
  server.close();
  rmSync(folder, { recursive: true });
}

// ---- large texts

function largeText() {
  const numbers = [];
  for (let cell = 0, length = 5; length < 8_000_000; length += String(cell).length + 1) {
    cell += 2 + (cell * 7 + numbers.length) % 13;
    numbers.push(cell);
  }
  return `11/${numbers.filter((cell) => cell < 12 * 4 ** 11).join(" ")}`;
}

async function testLargeTexts() {
  const text = largeText();
  check(text.length > 7_900_000, `the large text has ${text.length} bytes`);
  await load(URL_OF_PAGE);
  await setPane("B", "");
  await resultOf("same");
  await browser.run("globalThis.pieces = []");
  for (let at = 0; at < text.length; at += 2 ** 20) await browser.run(
    `pieces.push(${quote(text.slice(at, at + 2 ** 20))}), 0`);
  const begin = performance.now();
  await browser.run("helpers.drop('A', 'large.txt', new TextEncoder().encode(pieces.join('')))");
  await browser.until("helpers.isShown(helpers.part('A', 'card'))");
  await settle();
  const milliseconds = performance.now() - begin;
  check(milliseconds < LARGE_TEXT_LIMIT, `a text of 8 MB takes ${milliseconds.toFixed(0)} ms`);
  console.log(`a text of ${text.length} bytes is read, drawn and converted after ${milliseconds.toFixed(0)} ms`);
  const cells = /cells (\d+)/.exec(moc(text, "describe", "ascii"))[1].replace(/\B(?=(\d{3})+$)/g, ",");
  checkEqual((await paneState("A")).status, `Valid: ASCII, ${cells} cells.`, "the status of a large text");
  check((await browser.run("helpers.part('A', 'fileName').textContent")).startsWith("large.txt, 8,0"),
    "the name and the size of the file");
  const at = text.indexOf(" ", 5_000_000);
  await browser.run(`{ const text = pieces.join("");
    helpers.drop("A", "damaged.txt", new TextEncoder().encode(text.slice(0, ${at}) + " 5-x " + text.slice(${at}))); }`);
  await browser.until("helpers.part('A', 'fileName').textContent.startsWith('damaged.txt')");
  await settle();
  const excerpt = await browser.run(`[helpers.isShown(helpers.part("A", "excerpt")),
    helpers.part("A", "excerpt").querySelector("mark").textContent,
    helpers.part("A", "excerpt").textContent.length < 1000]`);
  checkEqual(excerpt, [true, "5-x", true], "the excerpt of a damaged large text");
  await clickPart("A", "goto");
  check(await browser.run("document.activeElement === helpers.part('A', 'excerpt')"),
    "Go to the error focuses the excerpt");
  await browser.run("helpers.id('copy-link').click()");
  checkEqual(await textOf("page-status"), "A file is too long for a link.", "the message about a link with a file");
}

// ---- access

// Each control that is shown and can have the focus, in the order of the page.
const FOCUSABLE = `[...document.querySelectorAll("a[href], button, select, input, textarea, summary, [tabindex='0']")]
  .filter((element) => !element.disabled && element.type !== "file" && element.checkVisibility())`;

async function testKeyboard() {
  await load(URL_OF_PAGE);
  await browser.run("helpers.id('script').open = true");
  await setPane("A", "3/7-5");
  await browser.run(`globalThis.controls = ${FOCUSABLE}; document.activeElement.blur(); window.focus()`);
  const count = await browser.run("controls.length"), order = [], outlines = [];
  for (let step = 0; step < count; step += 1) {
    await browser.press("Tab");
    order.push(await browser.run("controls.indexOf(document.activeElement)"));
    outlines.push(await browser.run(`(() => { const style = getComputedStyle(document.activeElement);
      return style.outlineStyle !== "none" && parseFloat(style.outlineWidth) >= 2; })()`));
  }
  checkEqual(order, Array.from({ length: count }, (_, at) => at), "the order of the controls by Tab");
  check(count > 25 && outlines.every(Boolean), `each of ${count} controls shows its focus: ${outlines.indexOf(false)}`);
}

async function testNames() {
  await browser.send("Accessibility.enable");
  const { nodes } = await browser.send("Accessibility.getFullAXTree");
  const isFocusable = ({ properties = [] }) => properties.some(({ name, value }) => name === "focusable"
    && value.value);
  const controls = nodes.filter((node) => !node.ignored && isFocusable(node) && node.role.value !== "RootWebArea"
    && node.role.value !== "main");
  check(controls.length > 25, `there are ${controls.length} controls`);
  checkEqual(controls.filter(({ name }) => !name?.value).map(({ role }) => role.value), [], "controls without a name");
  const names = controls.filter(({ role }) => role.value === "button").map(({ name }) => name.value);
  checkEqual(names.filter((name, at) => names.indexOf(name) !== at), [], "buttons with the same name");
  const invalid = nodes.filter(
    ({ properties = [] }) => properties.some(({ name, value }) => name === "invalid" && value.value === "true"));
  checkEqual(invalid.map(({ name, description }) => [name.value, description?.value.startsWith("Backwards")]),
    [["Coverage A", true]],
    "the invalid field and its description");
  await browser.send("Accessibility.disable");
}

// The least contrast of a text that is shown with its background.
const CONTRAST = `(() => {
  const parse = (color) => { const canvas =
    document.createElement("canvas").getContext("2d", { willReadFrequently: true });
    canvas.fillStyle = color; canvas.fillRect(0, 0, 1, 1); return [...canvas.getImageData(0, 0, 1, 1).data]; };
  const linear = (value) => (value <= 0.04045 ? value / 12.92 : ((value + 0.055) / 1.055) ** 2.4);
  const luminance = ([red, green, blue]) => 0.2126 * linear(red / 255) + 0.7152 * linear(green / 255) + 0.0722 * linear(
    blue / 255);
  const background = (element) => { for (; element; element = element.parentElement) {
    const color = parse(getComputedStyle(element).backgroundColor); if (color[3] === 255) return color; } return [255,
      255, 255, 255]; };
  let least = [21, ""];
  const hasText = (element) => [...element.childNodes].some((node) => node.nodeType === 3 && node.data.trim());
  for (const element of document.querySelectorAll("body *")) {
    if (!element.checkVisibility() || element.disabled || element.closest(".marks, template, script")) continue;
    if (!hasText(element) && !element.matches("textarea, input, select")) continue;
    for (const style of [getComputedStyle(element),
      ...(element.placeholder ? [getComputedStyle(element, "::placeholder")] : [])]) {
      const [one, other] = [luminance(parse(style.color)), luminance(background(element))].sort((x, y) => y - x);
      const ratio = (one + 0.05) / (other + 0.05);
      if (ratio < least[0]) least =
        [ratio, element.tagName + "." + element.className + " " + element.textContent.slice(0, 30)];
    }
  }
  return least;
})()`;

async function testContrast() {
  await setPane("B", "");
  const backgrounds = [];
  for (const theme of ["light", "dark"]) {
    await browser.send("Emulation.setEmulatedMedia", { features: [{ name: "prefers-color-scheme", value: theme }] });
    backgrounds.push(await browser.run("getComputedStyle(document.body).backgroundColor"));
    const [ratio, element] = await browser.run(CONTRAST);
    check(ratio >= LEAST_CONTRAST,
      `the contrast in the ${theme} theme is at least ${LEAST_CONTRAST}: ${ratio} of ${element}`);
  }
  check(backgrounds[0] !== backgrounds[1], "the themes differ");
  await click("theme");
  checkEqual(await browser.run("getComputedStyle(document.body).backgroundColor"), backgrounds[0],
    "the background after the toggle");
  await browser.run("helpers.set(helpers.part('B', 'text'), '1/1')");
  await settle();
  await browser.send("Emulation.setEmulatedMedia", { features: [] });
}

async function testWidths() {
  for (let count = 2; count < 8; count += 1) await click("add-coverage");
  await setPane("C", "1/0-".padEnd(300, "9"));
  await setPane("D", "16\n17\n18");
  await browser.run("helpers.id('sky').focus()");
  await browser.press("ArrowRight");
  for (const width of [320, 768, 1400, 4096]) {
    await browser.setWidth(width);
    const shown = await browser.run(`[innerWidth, document.documentElement.scrollWidth,
      Math.max(...[...document.querySelectorAll("body *")]
      .filter((element) => element.checkVisibility() && !element.closest(".scroll, .hidden-text, .skip, .marks"))
      .map((element) => Math.ceil(element.getBoundingClientRect().right)))]`);
    checkEqual(shown.slice(0, 2), [width, width], `the width of the page at ${width}`);
    check(shown[2] <= width, `no element is beyond ${width}: ${shown[2]}`);
  }
  await browser.setWidth(1400);
}

async function testPrint() {
  await browser.send("Emulation.setEmulatedMedia", { media: "print" });
  await browser.run("helpers.id('script').open = false");
  const ids = ["undo", "script", "sky", "statistics-table"];
  const shown = await browser.run(`${quote(ids)}.map((id) => helpers.isShown(helpers.id(id)))`);
  checkEqual(shown, [false, false, true, true], "what is printed");
  await browser.send("Emulation.setEmulatedMedia", { media: "" });
}

try {
  await browser.send("Page.addScriptToEvaluateOnNewDocument", { source: HELPERS });
  await load(URL_OF_PAGE);
  const tests = [testErrors, testGoingToErrors, testHints, testFiles, testOperations, testListsOnly, testChanges,
    testPictures, testStatistics, testCells, testScripts, testHistory, testOperands, testLinks, testExamples,
    testStaleResults, testDrops, testSelection, testWorkerFailure, testLargeTexts, testKeyboard, testNames,
    testContrast, testWidths, testPrint];
  for (const test of tests) await test();
  checkEqual(browser.log, [], "the messages of the page");
  const others = browser.requests
    .filter((url) => !url.startsWith("blob:") && !url.startsWith("data:") && !url.startsWith(URL_OF_PAGE));
  checkEqual(others.filter((url) => url !== "about:blank"), [], "the requests of the page");
  await testPolicy();
} catch (error) {
  check(false, `the test ends: ${error.stack}`);
} finally {
  await browser.close();
}
finish();
