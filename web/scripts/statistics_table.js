import { create } from "./dom.js";
import { groupDigits } from "./statistics.js";

/** @typedef {{ name: string, statistics: import("./statistics.js").Statistics }} Column */

const ROWS = [
  ["Share of the sky", ({ share }) => share],
  ["Square degrees", ({ area }) => area.replace(/^\d+/, groupDigits)],
  ["MOC order", ({ mocOrder }) => (mocOrder === null ? "none" : String(mocOrder))],
  ["Order-29 pixels", ({ pixels }) => groupDigits(pixels)],
  ["Ranges of pixels", ({ ranges }) => groupDigits(ranges)],
  ["Cells", ({ cells }) => groupDigits(cells)],
];

/**
 * Shows the statistics of coverages, one column for each.
 * @param {HTMLTableElement} table
 * @param {Column[]} columns
 */
export function showStatistics(table, columns) {
  const caption = table.querySelector("caption");
  if (columns.length === 0) {
    table.replaceChildren(caption, create("tbody", {}, create("tr", {}, create("td", {}, "No valid coverage."))));
    return;
  }
  const heads = columns.map(({ name }) => create("th", { scope: "col" }, name));
  const rows = ROWS.map(([name, value]) => row(name, columns.map(({ statistics }) => value(statistics))));
  const body = create("tbody", {}, ...rows, ...orderRows(columns));
  table.replaceChildren(caption, create("thead", {}, create("tr", {}, create("td"), ...heads)), body);
}

function row(name, cells) {
  return create("tr", {}, create("th", { scope: "row" }, name), ...cells.map((cell) => create("td", {}, cell)));
}

function orderRows(columns) {
  const all = columns.flatMap(({ statistics }) => statistics.orders);
  const orders = [...new Set(all.map(({ order }) => order))].sort((one, other) => one - other);
  const most = Math.max(...all.map(({ cells }) => Number(cells)));
  return orders.map((order) => row(`Cells of order ${order}`, columns.map(({ statistics }) => {
    const cells = statistics.orders.find((entry) => entry.order === order)?.cells ?? 0n;
    return countWithBar(cells, Number(cells) / most);
  })));
}

function countWithBar(cells, fraction) {
  if (cells === 0n) return "0";
  const bar = create("span", { class: "bar", "aria-hidden": "true" });
  bar.style.setProperty("--fraction", String(fraction));
  return create("span", { class: "count" }, groupDigits(cells), bar);
}
