import { byId, create, setText } from "./dom.js";
import { describeFailure } from "./error_report.js";
import { Status } from "./module.js";
import { groupDigits } from "./statistics.js";
import { Activity, LatestTask } from "./tasks.js";

const SCRIPT_DELAY = 150;
const MAX_LINES = 5000;

/** The script on one map, with the replies beside its lines. */
export class ScriptPane {
  #client;
  #text = byId("script-text");
  #replies = byId("script-replies");
  #status = byId("script-status");
  #task;

  /** @param {import("./worker_client.js").WorkerClient} client */
  constructor(client) {
    this.#client = client;
    this.#task = new LatestTask(new Activity([this.#replies]), SCRIPT_DELAY, () => this.#run());
    this.#text.addEventListener("input", () => this.#task.request());
    this.#text.addEventListener("scroll", () => { this.#replies.scrollTop = this.#text.scrollTop; });
    this.#replies.addEventListener("scroll", () => { this.#text.scrollTop = this.#replies.scrollTop; });
  }

  get script() {
    return this.#text.value;
  }

  set script(script) {
    this.#text.value = script;
    this.#task.request();
  }

  async #run() {
    const script = this.#text.value;
    const result = await this.#client.call("run", [], new TextEncoder().encode(script));
    const isDone = result.status === Status.DONE;
    const replies = isDone ? new TextDecoder().decode(result.output).split("\n").slice(0, -1) : [];
    const lines = repliesByLine(script, replies);
    this.#replies.replaceChildren(...lines.slice(0, MAX_LINES).map(replyLine));
    const errors = replies.filter(isErrorReply).length;
    const note = lines.length > MAX_LINES ? ` Those to the first ${groupDigits(MAX_LINES)} lines are shown.` : "";
    setText(this.#status, isDone ? summary(replies.length, errors) + note : describeFailure(result));
  }
}

/**
 * Returns the reply to each line of a script. A line of blanks has no reply.
 * @param {string} script
 * @param {string[]} replies
 * @returns {string[]}
 */
export function repliesByLine(script, replies) {
  const remaining = replies.values();
  return script.split("\n").map((line) => (/^[ \t\r]*$/.test(line) ? "" : remaining.next().value ?? ""));
}

function isErrorReply(reply) {
  return reply.startsWith("fault ");
}

function replyLine(reply) {
  return create("div", isErrorReply(reply) ? { class: "invalid" } : {}, reply || "\u00a0");
}

function summary(replies, errors) {
  if (replies === 0) return "The script is empty.";
  return errors === 0 ? `Replies: ${replies}.` : `Replies: ${replies}, of which ${errors} report an invalid line.`;
}
