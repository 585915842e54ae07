import { Format } from "./formats.js";
import { Status, emptyResult } from "./module.js";

const SEPARATOR = ";".charCodeAt(0);

/**
 * A valid coverage: its bytes, and the format in which they are read.
 * @typedef {{ bytes: Uint8Array, format: number }} Operand
 */

/**
 * Returns one text of all operands, for `web_combine` and `web_draw`. A NUNIQ list is never detected, so it is
 * converted to ASCII if the formats differ.
 * @param {import("./worker_client.js").WorkerClient} client
 * @param {Operand[]} operands
 * @returns {Promise<{ status: number, format: number, text: Uint8Array, output: Uint8Array }>}
 */
export async function joinOperands(client, operands) {
  const areLists = operands.every(({ format }) => format === Format.NUNIQ);
  const texts = [];
  for (const { bytes, format } of operands) {
    if (areLists || format !== Format.NUNIQ) {
      texts.push(bytes);
      continue;
    }
    const result = await client.call("convert", [Format.NUNIQ, Format.ASCII], bytes);
    if (result.status !== Status.DONE) return result;
    texts.push(result.output);
  }
  const format = areLists ? Format.NUNIQ : Format.DETECT;
  return { ...emptyResult(Status.DONE), format, text: separate(texts) };
}

function separate(texts) {
  const joined = new Uint8Array(texts.reduce((length, text) => length + text.length + 1, -1));
  let at = 0;
  for (const text of texts) {
    if (at > 0) joined[at - 1] = SEPARATOR;
    joined.set(text, at);
    at += text.length + 1;
  }
  return joined;
}
