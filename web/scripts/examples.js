import { nuniq, rowCells } from "./projection.js";

// The rows of cells of an order that the examples have.
const ORDER = 3;
const NORTHERN_ROWS = [1, 2, 3, 4, 5];
const EQUATORIAL_ROWS = [14, 15, 16, 17, 18];

/**
 * The examples: a label, the texts of coverages, and settings of the page.
 * @typedef {{ label: string, coverages?: { text: string, format?: string }[], settings?: Record<string, string>,
 *   script?: string }} Example
 */

/** @type {Readonly<Record<string, Example>>} */
export const EXAMPLES = Object.freeze({
  footprints: {
    label: "Two overlapping footprints (ASCII)",
    coverages: [
      { text: "2/97-100 102-104\n3/420 424 426\n4/1685 1687" },
      { text: "2/99 102 105 107-109\n3/404 405 416-419\n4/1732-1735 1740" },
    ],
    settings: { operation: "intersection", output: "ASCII", shown: "coverages" },
  },
  json: {
    label: "A strip along the equator without a field (JSON)",
    coverages: [
      { text: JSON.stringify({ [ORDER]: cellsOfRows(EQUATORIAL_ROWS).map(({ cell }) => Number(cell)) }) },
      { text: '{"2":[99,101,102,105,106,108]}' },
    ],
    settings: { operation: "difference", output: "JSON", shown: "coverages" },
  },
  cap: {
    label: "The cap north of about 60 degrees (NUNIQ list)",
    coverages: [
      { text: cellsOfRows(NORTHERN_ROWS).map((cell) => `${nuniq(cell)}\n`).join(""), format: "NUNIQ" },
      { text: "" },
    ],
    settings: { operation: "complement", output: "ASCII", shown: "coverages" },
  },
  script: {
    label: "A script that claims fields",
    script: "add 3/10 12-15\ncount 3/10\nclaim 3/12\nclaim 3/16\nnear 3 17\ndegrade 2\nread 0/0-11",
  },
});

// The cells of rows, sorted by their nested numbers.
function cellsOfRows(rows) {
  return rows.flatMap((row) => rowCells(ORDER, row)).sort((one, other) => Number(one.cell - other.cell));
}
