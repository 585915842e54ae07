// Finds the part of a text that the position of an error report is about. All positions are positions of bytes. The
// functions search a string that has one character for each byte.

/** @typedef {[number, number]} Range the first position, and the position after the last one */

const utf8 = new TextDecoder("utf-8", { ignoreBOM: true });

/**
 * Returns the bytes of a text that an error is about, or null if the position does not state a place.
 * @param {Uint8Array} bytes
 * @param {string} position the line of the report
 * @returns {Range | null}
 */
export function errorRange(bytes, position) {
  const place = position.replace(TEXT_NUMBER, ""), text = new TextDecoder("latin1").decode(bytes);
  try {
    for (const [pattern, find] of FINDERS) {
      const match = pattern.exec(place);
      if (match) return find(text, bytes, ...match.slice(1).map(Number));
    }
  } catch {
    // The text is not what the position describes.
  }
  return null;
}

const TEXT_NUMBER = /^text \d+, /;

// A position ends with a quotation of the text, so each pattern matches the beginning of the position only.
const FINDERS = [
  [/^byte (\d+), line \d+, byte \d+ of it/, (text, bytes, at) => wordAround(text, at)],
  [/^line (\d+), column (\d+)/, (text, bytes, line, column) => columnRange(text, line, column)],
  [/^order (\d+), number (\d+)/, itemRange],
  [/^order (\d+)/, valueNameRange],
  [/^name (\d+)/, nameRange],
  [/^line (\d+)/, (text, bytes, line) => lineRange(text, line)],
];

/**
 * Returns the range of characters that has the bytes of a range.
 * @param {Uint8Array} bytes
 * @param {Range} range
 * @returns {Range}
 */
export function characterRange(bytes, [from, to]) {
  const start = utf8.decode(bytes.subarray(0, from)).length;
  return [start, start + utf8.decode(bytes.subarray(from, to)).length];
}

// The word of an ASCII text at or before a position.
function wordAround(text, at) {
  let from = at, to = at;
  while (from > 0 && !WORD_ENDS.has(text[from - 1])) from -= 1;
  while (to < text.length && !WORD_ENDS.has(text[to])) to += 1;
  return from < to ? [from, to] : [Math.max(0, at - 1), Math.max(1, at)];
}

const WORD_ENDS = new Set(" ,\t\r\n");

// The line with a number, counted from 1, without its end.
function lineRange(text, number) {
  let from = 0;
  for (let line = 1; line < number; line += 1) {
    const end = text.indexOf("\n", from);
    if (end < 0) return null;
    from = end + 1;
  }
  const end = text.indexOf("\n", from);
  return [from, end < 0 ? text.length : end];
}

// The byte of a line at a column, counted from 1, or the last byte before it if the line is shorter.
function columnRange(text, line, column) {
  const range = lineRange(text, line);
  if (!range) return null;
  const last = Math.max(0, text.length - 1), at = Math.min(last, range[0] + Math.max(0, column - 1));
  return wholeCharacter(text, at);
}

// The bytes of the character of UTF-8 that has a byte.
function wholeCharacter(text, at) {
  let from = at, to = at + 1;
  while (from > 0 && isContinuation(text, from)) from -= 1;
  while (to < text.length && isContinuation(text, to)) to += 1;
  return [from, Math.min(to, text.length)];
}

const CONTINUATION = new Set(new TextDecoder("latin1").decode(Uint8Array.from({ length: 64 }, (_, at) => 128 + at)));

function isContinuation(text, at) {
  return CONTINUATION.has(text[at]);
}

/**
 * The members of the object that a text of JSON has, in their order in the text.
 * @param {string} text
 * @param {Uint8Array} bytes
 * @returns {{ name: string, range: Range, value: Range }[]}
 */
function members(text, bytes) {
  const found = [];
  let at = text.indexOf("{") + 1;
  for (;;) {
    at = skipBlanks(text, at);
    if (text[at] !== '"') return found;
    const nameEnd = skipString(text, at), start = skipBlanks(text, text.indexOf(":", nameEnd) + 1);
    const end = skipValue(text, start);
    const name = JSON.parse(utf8.decode(bytes.subarray(at, nameEnd)));
    found.push({ name, range: [at, nameEnd], value: [start, end] });
    at = skipBlanks(text, end) + 1;
  }
}

// The last member of each name counts. Names are sorted by their bytes.
function membersThatCount(text, bytes) {
  const last = new Map(members(text, bytes).map((member) => [member.name, member]));
  const key = (member) => [...new TextEncoder().encode(member.name)].map((byte) => String.fromCharCode(byte)).join("");
  return [...last.values()].sort((one, other) => (key(one) < key(other) ? -1 : 1));
}

function membersOfOrder(text, bytes, order) {
  return membersThatCount(text, bytes).filter(({ name }) => /^\d+$/.test(name) && Number(name) === order);
}

function nameRange(text, bytes, index) {
  return membersThatCount(text, bytes)[index]?.range ?? null;
}

// The name of an order whose value is not an array.
function valueNameRange(text, bytes, order) {
  const candidates = membersOfOrder(text, bytes, order);
  return (candidates.find(({ value }) => text[value[0]] !== "[") ?? candidates[0])?.range ?? null;
}

// The item of the array of an order. If two names such as "9" and "09" spell the order, it is the first invalid item.
function itemRange(text, bytes, order, index) {
  const arrays = membersOfOrder(text, bytes, order);
  const ranges = arrays.map(({ value }) => arrayItem(text, value[0], index)).filter(Boolean);
  return ranges.find((range) => !isCell(text.slice(...range), order)) ?? ranges[0] ?? null;
}

function isCell(item, order) {
  return /^\d+$/.test(item) && BigInt(item) < 12n * 4n ** BigInt(order);
}

function arrayItem(text, start, index) {
  let at = start + 1;
  for (let number = 0; ; number += 1) {
    const from = skipBlanks(text, at), to = skipValue(text, from);
    if (text[from] === "]" || from >= text.length) return null;
    if (number === index) return [from, to];
    at = skipBlanks(text, to);
    if (text[at] !== ",") return null;
    at += 1;
  }
}

function skipBlanks(text, at) {
  while (" \t\r\n".includes(text[at] ?? "x")) at += 1;
  return at;
}

function skipString(text, at) {
  for (at += 1; at < text.length && text[at] !== '"'; at += 1) if (text[at] === "\\") at += 1;
  return at + 1;
}

// The position after the value that begins at a position.
function skipValue(text, at) {
  let depth = 0;
  while (at < text.length) {
    if (text[at] === '"') {
      at = skipString(text, at);
    } else if ("[{".includes(text[at])) {
      depth += 1;
      at += 1;
    } else if ("]}".includes(text[at])) {
      if (depth === 0) return at;
      depth -= 1;
      at += 1;
    } else if (depth === 0 && " ,\t\r\n".includes(text[at])) {
      return at;
    } else {
      at += 1;
    }
    if (depth === 0 && '"]}'.includes(text[at - 1])) return at;
  }
  return at;
}

const LINES_AROUND = 3;
const BYTES_AROUND = 160;

/**
 * Returns the lines around a place of a long text, cut if they are long.
 * @param {Uint8Array} bytes
 * @param {Range} range
 * @returns {{ line: number, before: string, marked: string, after: string }} with the number of the first line, from 1
 */
export function excerpt(bytes, [from, to]) {
  const markEnd = Math.min(to, from + BYTES_AROUND);
  const start = startOfLines(bytes, from), end = endOfLines(bytes, markEnd);
  let line = 1;
  for (let at = 0; at < start; at += 1) if (bytes[at] === LINE_FEED) line += 1;
  const parts = [[start, from], [from, markEnd], [markEnd, end]]
    .map(([first, last]) => utf8.decode(bytes.subarray(first, last)));
  const isCut = start > 0 && bytes[start - 1] !== LINE_FEED;
  const [before, marked, after] = parts;
  return { line, before: (isCut ? "…" : "") + before, marked, after: after + (end < bytes.length ? "…" : "") };
}

const LINE_FEED = 0x0a;

function startOfLines(bytes, from) {
  const least = Math.max(0, from - BYTES_AROUND);
  let lines = 0;
  for (let at = from; at > least; at -= 1) {
    if (bytes[at - 1] === LINE_FEED) lines += 1;
    if (lines > LINES_AROUND) return at;
  }
  return least;
}

function endOfLines(bytes, to) {
  const most = Math.min(bytes.length, to + BYTES_AROUND);
  let lines = 0;
  for (let at = to; at < most; at += 1) {
    if (bytes[at] === LINE_FEED) lines += 1;
    if (lines > LINES_AROUND) return at;
  }
  return most;
}
