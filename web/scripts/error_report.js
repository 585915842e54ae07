import { Format } from "./formats.js";
import { Status } from "./module.js";

/**
 * The report of an error: its name, its position with a quotation, what the text must have there, and what it looks
 * like.
 * @typedef {{ name: string, position: string, expected: string, hint: string }} ErrorReport
 */

const MEANINGS = Object.freeze({
  BadByte: "invalid byte",
  Unfinished: "incomplete word",
  OrderTooLarge: "order above 29",
  NoOrder: "cell without an order",
  CellTooLarge: "cell number too large",
  Backwards: "descending range",
  NotJson: "invalid JSON",
  NotObject: "not a JSON object",
  BadOrder: "invalid order",
  NotArray: "value is not an array",
  NotWhole: "not a whole number",
  NotUniq: "not a NUNIQ number",
  TooLong: "text too long",
  LineTooLong: "line too long",
  Memory: "out of memory",
});

const HINT = /^this looks like /;
const POSITION = /^(text \d+$|(text \d+, )?(byte|line|order|name) \d+)/;

/** What the page offers for a hint: a format to read the text in, or advice with a command to copy. */
const HINTS = Object.freeze([
  { looksLike: "JSON", format: Format.JSON, label: "Read as JSON" },
  { looksLike: "ASCII", format: Format.ASCII, label: "Read as ASCII" },
  { looksLike: "a NUNIQ list", format: Format.NUNIQ, label: "Read as a NUNIQ list" },
  {
    looksLike: "FITS",
    advice: "This is a FITS file, which this page does not read. The Python package converts it to ASCII:",
    command: "python -m ploverchaise convert FILE",
  },
  { looksLike: "gzip", advice: "This is a gzip file. Decompress it first:", command: "gunzip FILE" },
  {
    looksLike: "UTF-16",
    advice: "This text is UTF-16. Convert it to UTF-8 first:",
    command: "iconv -f UTF-16 -t UTF-8 FILE > NEW_FILE",
  },
  { looksLike: "HTML or XML", advice: "This is a web page or an XML file, perhaps an error message of a server." },
  { looksLike: "UTF-8 with a byte order mark", advice: "Save the file as UTF-8 without a byte order mark." },
]);

/**
 * Parses the report of an error.
 * @param {string} report
 * @returns {ErrorReport}
 */
export function parseReport(report) {
  const [first, ...lines] = report.trimEnd().split("\n");
  const find = (isPart) => lines.find(isPart) ?? "";
  return {
    name: first.replace(/^fault /, ""),
    position: find((line) => POSITION.test(line)),
    expected: find((line) => !POSITION.test(line) && !HINT.test(line)),
    hint: find((line) => HINT.test(line)),
  };
}

/**
 * Returns what the page offers for a hint, or null.
 * @param {string} hint
 * @returns {{ format?: number, label?: string, advice?: string, command?: string } | null}
 */
export function offerFor(hint) {
  const looksLike = hint.replace(HINT, "").split(";")[0];
  return HINTS.find((offer) => offer.looksLike === looksLike) ?? null;
}

/**
 * Returns the sentences that state an error.
 * @param {ErrorReport} report
 * @returns {string}
 */
export function describeReport({ name, position, expected }) {
  const meaning = MEANINGS[name];
  const title = meaning ? `${name} (${meaning})` : name;
  return [position ? `${title} at ${position}` : title, expected].filter(Boolean).map(sentence).join(" ");
}

function sentence(words) {
  return `${words[0].toUpperCase()}${words.slice(1)}.`;
}

/**
 * Returns the message about a job that did not end with the status DONE.
 * @param {{ status: number, output: Uint8Array, error?: string }} result
 * @returns {string}
 */
export function describeFailure(result) {
  if (result.status === Status.ERROR) return describeReport(parseReport(new TextDecoder().decode(result.output)));
  if (result.status === Status.OUT_OF_MEMORY) return "Memory (out of memory).";
  return `The module failed: ${result.error ?? `status ${result.status}`}.`;
}
