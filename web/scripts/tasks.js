/** Counts the tasks that are under way, and marks the elements that they change as busy during them. */
export class Activity {
  #elements;
  #count = 0;

  /** @param {Element[]} elements */
  constructor(elements) {
    this.#elements = elements;
    this.#mark();
  }

  begin() {
    this.#count += 1;
    this.#mark();
  }

  end() {
    this.#count -= 1;
    this.#mark();
  }

  #mark() {
    for (const element of this.#elements) element.setAttribute("aria-busy", String(this.#count > 0));
  }
}

/** Runs a task some time after the last request. A request during a run leads to one more run. */
export class LatestTask {
  #work;
  #delay;
  #activity;
  #timer = null;
  #isRunning = false;
  #isRequested = false;

  /**
   * @param {Activity} activity
   * @param {number} delay in milliseconds
   * @param {() => Promise<void>} work
   */
  constructor(activity, delay, work) {
    this.#activity = activity;
    this.#delay = delay;
    this.#work = work;
  }

  request() {
    if (!this.#isRequested) this.#activity.begin();
    this.#isRequested = true;
    if (this.#isRunning) return;
    clearTimeout(this.#timer);
    this.#timer = setTimeout(() => this.#run(), this.#delay);
  }

  async #run() {
    this.#isRunning = true;
    this.#isRequested = false;
    try {
      await this.#work();
    } finally {
      this.#isRunning = false;
      if (this.#isRequested) this.#run();
      this.#activity.end();
    }
  }
}
