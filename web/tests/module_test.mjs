// Tests the heap and the numbers of 128 bits as a module of WebAssembly with 32-bit addresses.
//
// usage: node web/tests/module_test.mjs MODULE
//
// The module has heap.c and wide_numbers.c, and at most 4 MiB of memory. Random blocks are allocated, resized and freed. Each block is
// filled with a byte, and must keep it. Allocations fail when the memory is full, and succeed again when it is free. Products and shifts are
// compared with those of BigInt. The last line printed is `N passed, M failed`.
import { readFileSync } from "node:fs";
import { check, finish, randomNumbers } from "./counts.mjs";

const STEPS = 20_000, SLOTS = 300, ROUNDS = 5_000, MAX_MEMORY = 4 * 2 ** 20;
const exported = new WebAssembly.Instance(new WebAssembly.Module(readFileSync(process.argv[2]))).exports;
const { bits: randomBits, below: randomBelow } = randomNumbers(2005);

// The memory has another buffer after it has grown.
const bytes = () => new Uint8Array(exported.memory.buffer);
const numbers = () => new BigUint64Array(exported.memory.buffer);

const result = exported.page_alloc(32n);

// Returns the address that a function of the heap writes, or 0n if it fails.
function allocate(call, ...values) {
  call(result, ...values);
  return bytes()[Number(result)] ? numbers()[Number(result) / 8 + 1] : 0n;
}

function keepsItsBytes(slot, length) {
  return bytes().subarray(Number(slot.address), Number(slot.address) + length).every((byte) => byte === slot.fill);
}

function fill(slot, size) {
  bytes().fill(slot.fill, Number(slot.address), Number(slot.address) + size);
  slot.size = size;
}

function isInMemory(slot) {
  return slot.address % 16n === 0n && Number(slot.address) + slot.size <= exported.memory.buffer.byteLength;
}

function testHeap() {
  const slots = Array(SLOTS).fill(null);
  let failures = 0, areWhole = true;
  for (let step = 0; step < STEPS; step += 1) {
    const at = randomBelow(SLOTS), slot = slots[at], size = randomBelow(randomBelow(10) ? 2_000 : 200_000);
    if (slot === null) {
      const address = allocate(exported.rattle_alloc, BigInt(size), 8n);
      failures += address === 0n;
      slots[at] = address === 0n ? null : { address, size: 0, fill: step % 251 };
      if (address !== 0n) fill(slots[at], size);
    } else if (randomBelow(2)) {
      areWhole &&= keepsItsBytes(slot, slot.size);
      exported.rattle_dealloc(slot.address);
      slots[at] = null;
    } else {
      const address = allocate(exported.rattle_realloc, slot.address, BigInt(Math.min(slot.size, size)), BigInt(size), 8n);
      failures += address === 0n;
      if (address !== 0n) slot.address = address;
      areWhole &&= keepsItsBytes(slot, address === 0n ? slot.size : Math.min(slot.size, size));
      if (address !== 0n) fill(slot, size);
    }
    areWhole &&= slots[at] === null || isInMemory(slots[at]);
  }
  check(areWhole, "all blocks are in the memory, and keep their bytes");
  check(failures > 10 && failures < STEPS / 2, `some allocations fail: ${failures}`);
  check(exported.memory.buffer.byteLength === MAX_MEMORY, "the memory has grown to its limit");
  for (const slot of slots.filter(Boolean)) exported.page_free(slot.address);
  check(exported.page_alloc(BigInt(MAX_MEMORY)) === 0n, "a block as large as the memory fails");
  check(exported.page_alloc(BigInt(MAX_MEMORY / 2)) !== 0n, "the freed blocks are one block");
  check(allocate(exported.rattle_alloc, 16n, 32n) === 0n, "an alignment above 16 fails");
}

// Returns the number of 128 bits that a function writes.
function wide(call, ...values) {
  call(result, ...values);
  const at = Number(result) / 8;
  return numbers()[at + 1] << 64n | numbers()[at];
}

const halves = (number) => [BigInt.asIntN(64, number), BigInt.asIntN(64, number >> 64n)];
const randomHalf = () => [randomBits(64), 0n, 2n ** 64n - 1n][randomBelow(3)];

function testNumbers() {
  let areRight = true;
  for (let round = 0; round < ROUNDS; round += 1) {
    const x = randomHalf() << 64n | randomHalf(), y = randomHalf() << 64n | randomHalf(), shift = round % 128;
    const expected = [x * y, x << BigInt(shift), x >> BigInt(shift), BigInt.asIntN(128, x) >> BigInt(shift)];
    const actual = [wide(exported.__multi3, ...halves(x), ...halves(y)), wide(exported.__ashlti3, ...halves(x), shift),
      wide(exported.__lshrti3, ...halves(x), shift), wide(exported.__ashrti3, ...halves(x), shift)];
    areRight &&= actual.every((number, at) => number === BigInt.asUintN(128, expected[at]));
  }
  check(areRight, "products and shifts are those of BigInt");
}

testNumbers();
testHeap();
finish();
