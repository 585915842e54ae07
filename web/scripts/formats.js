/** The numbers of the formats, as the jobs of the module take them. DETECT is JSON or ASCII, by the first byte. */
export const Format = Object.freeze({ ASCII: 0, JSON: 1, NUNIQ: 2, DETECT: 3 });

/** The names of the formats, by number. */
export const FORMAT_NAMES = Object.freeze(["ASCII", "JSON", "a NUNIQ list"]);

const BLANKS = new Set([0x20, 0x09, 0x0d, 0x0a]);
const BRACE = 0x7b;

/**
 * Returns the first byte of a text that is not a blank, or undefined if all bytes are blank.
 * @param {Uint8Array} bytes
 * @returns {number | undefined}
 */
export function firstByte(bytes) {
  return bytes.find((byte) => !BLANKS.has(byte));
}

/**
 * Returns the format in which the module reads a text if the format is to be detected.
 * @param {Uint8Array} bytes
 * @returns {number}
 */
export function detectFormat(bytes) {
  return firstByte(bytes) === BRACE ? Format.JSON : Format.ASCII;
}
