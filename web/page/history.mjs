// Unlimited undo and redo over states that are never changed in place.

export class History {
  #past = [];
  #future = [];
  #state;

  constructor(state) {
    this.#state = state;
  }

  get state() {
    return this.#state;
  }

  get canUndo() {
    return this.#past.length > 0;
  }

  get canRedo() {
    return this.#future.length > 0;
  }

  // Makes a state the current one, as a step of its own.
  push(state) {
    this.#past.push(this.#state);
    this.#future = [];
    this.#state = state;
  }

  // Makes a state the current one, as part of the last step.
  amend(state) {
    this.#state = state;
  }

  // Goes one step back. Returns false at the beginning.
  undo() {
    if (!this.canUndo) return false;
    this.#future.push(this.#state);
    this.#state = this.#past.pop();
    return true;
  }

  // Goes one step forward again. Returns false at the end.
  redo() {
    if (!this.canRedo) return false;
    this.#past.push(this.#state);
    this.#state = this.#future.pop();
    return true;
  }
}
