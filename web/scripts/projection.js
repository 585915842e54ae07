// The HEALPix projection as `draw` writes it: the sky is 1024 units wide and 512 high, north is up, east is left, and
// longitude 0 is at both edges. A cell of order k is a diamond with a half diagonal of 128 / 2^k units. Rows and
// columns count half diagonals: rows from the north pole, columns from the right edge.

/** @typedef {{ order: number, cell: bigint, row: number, column: number }} PictureCell */

// The width of the sky, in units of the picture.
const SKY_WIDTH = 1024;
const BASE_HALF_DIAGONAL = 128;
const BASE_PIXELS = 12;

/** The deepest order of HEALPix in MOC 2.0. */
export const MAX_ORDER = 29;

// For each base pixel: the row of its southern corner and the column of its middle, in half diagonals of base pixels.
const SOUTHERN_ROW = [2, 2, 2, 2, 3, 3, 3, 3, 4, 4, 4, 4];
const MIDDLE_COLUMN = [1, 3, 5, 7, 0, 2, 4, 6, 1, 3, 5, 7];
const COLUMNS = 8;
const DEGREES_PER_COLUMN = 360 / COLUMNS;

/**
 * Returns the cell of an order at a point of the picture, or null outside of the sky.
 * @param {number} x units from the left edge of the sky
 * @param {number} y units below the north pole
 * @param {number} order
 * @returns {PictureCell | null}
 */
export function cellAt(x, y, order) {
  const side = 2 ** order, column = (SKY_WIDTH - x) / BASE_HALF_DIAGONAL, row = y / BASE_HALF_DIAGONAL;
  if (x < 0 || x > SKY_WIDTH) return null;
  for (let base = 0; base < BASE_PIXELS; base += 1) {
    const sum = SOUTHERN_ROW[base] - row, difference = wrap(column - MIDDLE_COLUMN[base], COLUMNS);
    const east = (sum + difference) / 2, west = (sum - difference) / 2;
    if (isFraction(east) && isFraction(west)) {
      return pictureCell(order, base, Math.floor(east * side), Math.floor(west * side));
    }
  }
  return null;
}

/**
 * Returns a cell of the nested numbering with its row and its column.
 * @param {number} order
 * @param {bigint} cell
 * @returns {PictureCell}
 */
export function cellOfNumber(order, cell) {
  const bits = BigInt(2 * order), base = Number(cell >> bits), rest = cell & ((1n << bits) - 1n);
  return pictureCell(order, base, evenBits(rest), evenBits(rest >> 1n));
}

/**
 * Returns the corners of the diamonds that show a cell: one, or two at the edges, as points for an SVG polygon.
 * @param {PictureCell} cell
 * @returns {string[]}
 */
export function diamonds(cell) {
  const half = BASE_HALF_DIAGONAL / 2 ** cell.order, y = cell.row * half;
  const centres = cell.column === 0 ? [0, SKY_WIDTH] : [SKY_WIDTH - cell.column * half];
  return centres.map((x) => `${x},${y - half} ${x + half},${y} ${x},${y + half} ${x - half},${y}`);
}

/**
 * Returns the centre of a cell in units of the picture.
 * @param {PictureCell} cell
 * @returns {{ x: number, y: number }}
 */
export function centre({ order, row, column }) {
  const half = BASE_HALF_DIAGONAL / 2 ** order;
  return { x: SKY_WIDTH - column * half, y: row * half };
}

/**
 * Returns the direction of the centre of a cell in degrees. Source: the inverse of the HEALPix projection (Górski et
 * al. 2005, section 5).
 * @param {PictureCell} cell
 * @returns {{ longitude: number, latitude: number }}
 */
export function centreOnSky({ order, row, column }) {
  const side = 2 ** order, rowFromPole = Math.min(row, 4 * side - row);
  if (rowFromPole >= side) {
    const latitude = degrees(Math.asin((2 * (2 * side - row)) / (3 * side)));
    return { longitude: (column / side) * DEGREES_PER_COLUMN, latitude };
  }
  // In a cap, the width of a row is proportional to its distance from the pole.
  const middle = (2 * Math.floor(column / (2 * side)) + 1) * side;
  const longitude = (middle / side + (column - middle) / rowFromPole) * DEGREES_PER_COLUMN;
  const distance = degrees(2 * Math.asin(rowFromPole / (side * Math.sqrt(6))));
  return { longitude, latitude: row < 2 * side ? 90 - distance : distance - 90 };
}

function degrees(angle) {
  return (angle * 180) / Math.PI;
}

/**
 * Returns the next cell in a direction: east and west in the same row, north and south in the next one. At a pole, the
 * cell itself.
 * @param {PictureCell} cell
 * @param {"north" | "south" | "east" | "west"} direction
 * @returns {PictureCell}
 */
export function neighbour(cell, direction) {
  const { order, row, column } = cell;
  if (direction === "east" || direction === "west") {
    const sign = direction === "east" ? 1 : -1;
    return cellInRow(order, row, column + 2 * sign) ?? cellInRow(order, row, column + gapWidth(order, row) * sign);
  }
  const nextRow = direction === "north" ? row - 1 : row + 1, first = row % 2 ? 1 : -1;
  return cellInRow(order, nextRow, column + first) ?? cellInRow(order, nextRow, column - first) ?? cell;
}

/**
 * Returns all cells of a row, from longitude 0 to the east.
 * @param {number} order
 * @param {number} row
 * @returns {PictureCell[]}
 */
export function rowCells(order, row) {
  const columns = Array.from({ length: COLUMNS * 2 ** order }, (_, column) => column);
  return columns.map((column) => cellInRow(order, row, column)).filter(Boolean);
}

/**
 * Returns the NUNIQ number of a cell.
 * @param {PictureCell} cell
 * @returns {bigint}
 */
export function nuniq({ order, cell }) {
  return 4n ** BigInt(order + 1) + cell;
}

// The columns from the last cell of a base pixel in a row near a pole to the first cell of the next base pixel.
function gapWidth(order, row) {
  const side = 2 ** order, cellsInBase = Math.min(row, 4 * side - row);
  return 2 * side - 2 * (cellsInBase - 1);
}

// The cell at a row and a column, or null in the gaps between the base pixels at the poles and off the sky.
function cellInRow(order, row, column) {
  const side = 2 ** order;
  for (let base = 0; base < BASE_PIXELS; base += 1) {
    const sum = SOUTHERN_ROW[base] * side - 1 - row;
    const difference = wrap(column - MIDDLE_COLUMN[base] * side, COLUMNS * side);
    const east = (sum + difference) / 2, west = (sum - difference) / 2;
    const isCell = Number.isInteger(east) && isFraction(east / side) && isFraction(west / side);
    if (isCell) return pictureCell(order, base, east, west);
  }
  return null;
}

function pictureCell(order, base, east, west) {
  const side = 2 ** order, columns = COLUMNS * side;
  return {
    order,
    cell: (BigInt(base) << BigInt(2 * order)) + spreadBits(east) + 2n * spreadBits(west),
    row: SOUTHERN_ROW[base] * side - east - west - 1,
    column: (MIDDLE_COLUMN[base] * side + east - west + columns) % columns,
  };
}

function isFraction(number) {
  return number >= 0 && number < 1;
}

// The number that differs by a multiple of a period, from minus half the period on.
function wrap(number, period) {
  const half = period / 2;
  return ((number + half) % period + period) % period - half;
}

// The number whose even bits are the bits of a number, and whose odd bits are 0.
function spreadBits(number) {
  return [...number.toString(2)].reduce((spread, bit) => 4n * spread + BigInt(bit), 0n);
}

// The number that has the even bits of a number.
function evenBits(number) {
  return [...number.toString(4)].reduce((bits, digit) => 2 * bits + Number(digit) % 2, 0);
}
