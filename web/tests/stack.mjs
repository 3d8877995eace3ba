// How deep the module's stack goes. It lies below the module's data and grows down to address 0, where the module traps.

const PATTERN = 0xa5;

export class Stack {
  #calls;

  // Fills the stack with a pattern. No call may be running.
  constructor(calls) {
    this.#calls = calls;
    this.size = calls.stackSize;
    this.fill();
  }

  fill() {
    new Uint8Array(this.#calls.memory.buffer, 0, this.size).fill(PATTERN);
  }

  // Returns how many bytes of the stack have been touched since it was filled.
  depth() {
    const touched = new Uint8Array(this.#calls.memory.buffer, 0, this.size).findIndex((byte) => byte !== PATTERN);
    return touched < 0 ? 0 : this.size - touched;
  }
}
