import { Format, detectFormat, firstByte } from "./formats.js";

/**
 * What a field has: a text, or the bytes of a file that is not shown. The text is then empty.
 * @typedef {{ text: string, format: number, file: { name: string, bytes: Uint8Array } | null }} Content
 */

/** The number of characters from which a text is not shown. */
export const MAX_SHOWN = 200_000;

const encoder = new TextEncoder();
const FITS_START = "SIMPLE";

/** @returns {Content} */
export function emptyContent() {
  return textContent("");
}

/**
 * @param {string} text
 * @param {number} format
 * @returns {Content}
 */
export function textContent(text, format = Format.DETECT) {
  if (text.length <= MAX_SHOWN) return { text, format, file: null };
  return { text: "", format, file: { name: "Text", bytes: encoder.encode(text) } };
}

/**
 * Returns the content for the bytes of a file: a text if it can be shown and edited.
 * @param {string} name
 * @param {Uint8Array} bytes
 * @param {number} format
 * @returns {Content}
 */
export function fileContent(name, bytes, format = Format.DETECT) {
  const text = bytes.length <= MAX_SHOWN ? decodeText(bytes) : null;
  return text === null ? { text: "", format, file: { name, bytes } } : { text, format, file: null };
}

// A text of UTF-8 with the ends of lines that a text field has, or null.
function decodeText(bytes) {
  try {
    const text = new TextDecoder("utf-8", { fatal: true, ignoreBOM: true }).decode(bytes);
    return text.includes("\0") || text.startsWith(FITS_START) ? null : text.replace(/\r\n?/g, "\n");
  } catch {
    return null;
  }
}

/**
 * @param {Content} content
 * @returns {Uint8Array}
 */
export function contentBytes({ text, file }) {
  return file ? file.bytes : encoder.encode(text);
}

/**
 * Reports whether a content has no coverage: an empty text, or only blanks.
 * @param {Uint8Array} bytes
 * @returns {boolean}
 */
export function isBlank(bytes) {
  return firstByte(bytes) === undefined;
}

/**
 * Returns the format in which bytes are read.
 * @param {number} format
 * @param {Uint8Array} bytes
 * @returns {number}
 */
export function formatToRead(format, bytes) {
  return format === Format.DETECT ? detectFormat(bytes) : format;
}
