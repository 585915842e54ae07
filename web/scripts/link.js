import { textContent } from "./content.js";
import { Format } from "./formats.js";

const PREFIX = "#1";

/** The greatest number of bytes of a state in a link, before the compression. */
export const MAX_LINK_BYTES = 4_000_000;

const MAX_COVERAGES = 8;

/**
 * Encodes bytes as base64url.
 * @param {Uint8Array} bytes
 * @returns {string}
 */
export function encodeBase64(bytes) {
  const characters = Array.from(bytes, (byte) => String.fromCharCode(byte)).join("");
  return btoa(characters).replaceAll("+", "-").replaceAll("/", "_").replace(/=+$/, "");
}

/**
 * Decodes base64url.
 * @param {string} text
 * @returns {Uint8Array}
 */
export function decodeBase64(text) {
  const characters = atob(text.trim().replaceAll("-", "+").replaceAll("_", "/"));
  return Uint8Array.from(characters, (character) => character.charCodeAt(0));
}

/**
 * Returns the fragment of a link that has a state, or null if the state is too long for a link.
 * @param {object} state
 * @returns {Promise<string | null>}
 */
export async function encodeState(state) {
  const bytes = new TextEncoder().encode(JSON.stringify(state));
  if (bytes.length > MAX_LINK_BYTES) return null;
  return PREFIX + encodeBase64(await readAll(bytes, new CompressionStream("deflate-raw"), Infinity));
}

/**
 * Returns the state of a link's fragment, or null if it is not one of `encodeState`. Throws an error if the
 * fragment is damaged.
 * @param {string} fragment
 * @returns {Promise<object | null>}
 */
export async function decodeState(fragment) {
  if (!fragment.startsWith(PREFIX)) return null;
  const packed = decodeBase64(fragment.slice(PREFIX.length));
  const bytes = await readAll(packed, new DecompressionStream("deflate-raw"), MAX_LINK_BYTES);
  return validState(JSON.parse(new TextDecoder().decode(bytes)));
}

async function readAll(bytes, transform, limit) {
  const reader = new Blob([bytes]).stream().pipeThrough(transform).getReader(), chunks = [];
  let length = 0;
  for (let { done, value } = await reader.read(); !done; { done, value } = await reader.read()) {
    chunks.push(value);
    length += value.length;
    if (length > limit) throw new RangeError("the link has too long a text");
  }
  return new Uint8Array(await new Blob(chunks).arrayBuffer());
}

// A link may come from anyone: only values of the right types are taken from it, and a long text is not shown.
function validState(state) {
  const coverages = state.coverages.slice(0, MAX_COVERAGES).map(({ text, format }) => (
    textContent(String(text), Object.values(Format).includes(format) ? format : Format.DETECT)));
  const settings = Object.fromEntries(Object.entries(state.settings).map(([name, value]) => [name, String(value)]));
  return { coverages, settings, ...(state.script !== undefined && { script: String(state.script) }) };
}
