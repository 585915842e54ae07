// Prints how long the jobs of the module of the page take in node, beside the program `moc`, as the table of docs/WEB.md.
//
// usage: node web/tests/timing.mjs MODULE PROGRAM FILE [ROUNDS]
//
// FILE has a coverage in ASCII, for example one of `bench/generate.py`. A time is the least of the rounds in milliseconds. There are seven
// rounds by default. The program reads its input from a file, and its output is not kept. The time of the module includes copying the text
// into its memory and the output out of it. The first call of a job also compiles its code. Run the script on a quiet machine.
import { spawnSync } from "node:child_process";
import { closeSync, mkdtempSync, openSync, readFileSync, rmSync, writeFileSync } from "node:fs";
import { tmpdir } from "node:os";
import { join } from "node:path";
import { DONE, openJobs } from "./jobs.mjs";

const [, , moduleFile, program, inputFile, rounds = "7"] = process.argv;
const ASCII = 0, JSON_FORMAT = 1, NUNIQ = 2, COMPLEMENT = 255, DETECT = 3, UNION = 0, SCRIPT_LINES = 100_000;
const folder = mkdtempSync(join(tmpdir(), "timing-"));
const text = readFileSync(inputFile);
const pair = Buffer.concat([text, Buffer.from(";"), text]);
const script = Buffer.from(`add 0/0 5\n${Array.from({ length: SCRIPT_LINES }, (_, cell) => `near 20 ${cell * 7919}\n`).join("")}`);

// The jobs, each with the input, with the commands of the program that together do the same, and with a note about the input.
const JOBS = [
  ["web_examine", [DETECT], text, [["describe", "auto"], ["draw", "auto"]]],
  ["web_draw", [DETECT], pair, [["draw", "auto"]], " of two texts"],
  ["web_convert", [ASCII, JSON_FORMAT], text, [["convert", "ascii", "json"]]],
  ["web_convert", [ASCII, NUNIQ], text, [["convert", "ascii", "uniq"]]],
  ["web_change", [COMPLEMENT, DETECT], text, [["complement", "auto"]]],
  ["web_change", [6, DETECT], text, [["degrade", "6", "auto"]]],
  ["web_combine", [UNION, DETECT], pair, [["combine", "union", "auto"]], " of two texts"],
  ["web_measure", [DETECT, 3, 100n], text, []],
  ["web_run", [], script, [["run"]], `, ${(SCRIPT_LINES + 1).toLocaleString("en-US")} lines`]];

// Returns the time of a call in milliseconds, and its result.
function timeOf(call) {
  const start = performance.now(), result = call();
  return [performance.now() - start, result];
}

// Runs the program with its input from a file.
function runProgram(argumentsOfProgram, file) {
  const input = openSync(file, "r");
  const { status } = spawnSync(program, argumentsOfProgram, { stdio: [input, "ignore", "inherit"] });
  closeSync(input);
  if (status !== 0) throw new Error(`${argumentsOfProgram.join(" ")}: status ${status}`);
}

const repeat = (call) => Array.from({ length: Number(rounds) }, call);
const start = performance.now();
const call = openJobs(new WebAssembly.Module(readFileSync(moduleFile)));
console.log(`The module of ${readFileSync(moduleFile).length} bytes was compiled in ${(performance.now() - start).toFixed(1)} ms; `
  + `the text has ${text.length} bytes.\n`);
console.log("| Job | Output, bytes | Program, ms | Module, ms | First call, ms |\n|---|---|---|---|---|");
for (const [name, numbers, input, commands, note = ""] of JOBS) {
  const file = join(folder, "input");
  writeFileSync(file, input);
  const ofProgram = repeat(() => timeOf(() => commands.forEach((command) => runProgram(command, file)))[0]);
  const runs = repeat(() => timeOf(() => call(name, numbers, input)));
  const failed = runs.find(([, { status }]) => status !== DONE);
  if (failed) throw new Error(`${name}: status ${failed[1].status}, ${Buffer.from(failed[1].output)}`);
  const ofModule = runs.map(([time]) => time), shown = commands.map((command) => `\`${command.join(" ")}\``).join(", ");
  const cells = [`\`${name}(${numbers})\`${shown && `: ${shown}${note}`}`, runs[0][1].output.length.toLocaleString("en-US"),
    commands.length ? Math.min(...ofProgram).toFixed(0) : "", Math.min(...ofModule).toFixed(0), ofModule[0].toFixed(0)];
  console.log(`| ${cells.join(" | ")} |`.replace("|  |", "| |"));
}
rmSync(folder, { recursive: true });
