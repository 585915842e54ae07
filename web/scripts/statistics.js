/**
 * The statistics of a coverage. Share and area are the printed texts, so that no digit is lost.
 * @typedef {{ mocOrder: number | null, pixels: bigint, share: string, area: string, ranges: bigint, cells: bigint,
 *   orders: { order: number, cells: bigint }[] }} Statistics
 */

/**
 * Parses the lines that `describe` prints.
 * @param {string} text
 * @returns {Statistics}
 */
export function parseStatistics(text) {
  const fields = text.trimEnd().split("\n").map((line) => line.split(" "));
  const value = (name) => fields.find((field) => field[0] === name)[1];
  const orders = fields.filter((field) => field[0] === "order");
  return {
    mocOrder: value("deepest") === "none" ? null : Number(value("deepest")),
    pixels: BigInt(value("pixels")),
    share: value("share"),
    area: value("area"),
    ranges: BigInt(value("ranges")),
    cells: BigInt(value("cells")),
    orders: orders.map(([, order, cells]) => ({ order: Number(order), cells: BigInt(cells) })),
  };
}

/**
 * Splits the output of `web_examine` into the statistics and the picture.
 * @param {Uint8Array} output
 * @returns {{ statistics: Statistics, picture: Uint8Array }}
 */
export function splitExamination(output) {
  const start = output.indexOf("<".charCodeAt(0));
  return {
    statistics: parseStatistics(new TextDecoder().decode(output.subarray(0, start))),
    picture: output.slice(start),
  };
}

/**
 * Writes a whole number with commas between groups of three digits.
 * @param {bigint | number | string} number
 * @returns {string}
 */
export function groupDigits(number) {
  return String(number).replace(/\B(?=(\d{3})+$)/g, ",");
}
