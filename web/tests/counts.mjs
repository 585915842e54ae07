// Counts checks in the tests of the page, and prints the line that CI adds up.

const MAX_SHOWN = 10;
let passed = 0, failed = 0;

// Counts a check. Prints the statement if it does not hold.
export function check(holds, statement) {
  if (holds) {
    passed += 1;
    return;
  }
  failed += 1;
  if (failed <= MAX_SHOWN) console.log(`does not hold: ${statement}`);
}

const textOf = (value) => JSON.stringify(value, (_, item) => (typeof item === "bigint" ? `${item}n` : item));

// Counts a check that two values are equal.
export function checkEqual(actual, expected, subject) {
  const [one, other] = [actual, expected].map(textOf);
  check(one === other, `${subject} is ${one}, and should be ${other}`);
}

// Prints `N passed, M failed`, and sets the exit status.
export function finish() {
  console.log(`${passed} passed, ${failed} failed`);
  process.exitCode = passed === 0 || failed ? 1 : 0;
}

// Returns functions for pseudorandom numbers. The same seed makes the same numbers.
export function randomNumbers(seed) {
  let state = BigInt(seed);
  const bits = (count) => {
    state = BigInt.asUintN(64, state * 6364136223846793005n + 1442695040888963407n);
    return state >> BigInt(64 - count);
  };
  const below = (bound) => Number(bits(32) % BigInt(bound));
  return { bits, below, choose: (values) => values[below(values.length)] };
}
