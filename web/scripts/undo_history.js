const MAX_STEPS = 100;

/**
 * Keeps states to go back and forth between. A state may be a part of the page: `capture` returns the same part as it
 * is now.
 * @template State
 */
export class UndoHistory {
  #past = [];
  #future = [];

  /**
   * Keeps the state before a change. States that were undone are lost.
   * @param {State} state
   */
  record(state) {
    this.#past.push(state);
    if (this.#past.length > MAX_STEPS) this.#past.shift();
    this.#future = [];
  }

  /** @returns {boolean} */
  get canUndo() {
    return this.#past.length > 0;
  }

  /** @returns {boolean} */
  get canRedo() {
    return this.#future.length > 0;
  }

  /**
   * Returns the state before the last change, or null.
   * @param {(state: State) => State} capture
   * @returns {State | null}
   */
  undo(capture) {
    return move(this.#past, this.#future, capture);
  }

  /**
   * Returns the state that was undone last, or null.
   * @param {(state: State) => State} capture
   * @returns {State | null}
   */
  redo(capture) {
    return move(this.#future, this.#past, capture);
  }
}

function move(from, to, capture) {
  if (from.length === 0) return null;
  const state = from.pop();
  to.push(capture(state));
  return state;
}
