// Marking as a job: one group per step, so that its caller can do other things in between.

import { textOf } from './bytes.mjs';
import { JOB_LINES, JOB_MARKS, MOST_CELLS, MOST_MARKS, MOST_NET_SHEET } from './limits.mjs';
import { isRefusal, Refusal } from './refusal.mjs';

// How many steps are made before the clock is read again.
const STEPS = 8;

export class Job {
  #sitgurp;
  #lines = new Uint8Array(JOB_LINES);
  #cells = new Uint8Array(MOST_CELLS);
  #marks = new Uint8Array(JOB_MARKS);
  // how many groups have been passed, as 8 bytes
  #passed = new Uint8Array(8);
  #inputs = 0;

  constructor(sitgurp) {
    this.#sitgurp = sitgurp;
  }

  // Opens a job on the bytes of a full table sheet, or answers the sheet's refusal.
  static open(sitgurp, bytes) {
    const job = new Job(sitgurp);
    const answer = sitgurp.calls.call('job_open_parts', bytes, job.#lines, job.#cells, job.#marks, job.#passed);
    const opened = sitgurp.answered(answer, 'table', bytes);
    if (isRefusal(opened)) return opened;
    // an input is a group of one, which the job knows
    while (!isRefusal(job.mark(2 ** job.#inputs))) job.#inputs += 1;
    return job;
  }

  get passed() {
    return Number(new BigUint64Array(this.#passed.buffer)[0]);
  }

  get groups() {
    return 2 ** this.#inputs - 1;
  }

  get toGo() {
    return this.groups - this.passed;
  }

  step() {
    const answer = this.#sitgurp.calls.call('job_step_parts', this.#lines, this.#cells, this.#marks, this.#passed);
    const stepped = this.#sitgurp.answered(answer, 'neither', new Uint8Array());
    return isRefusal(stepped) ? stepped : null;
  }

  // Steps until the time is used up or the job is done. The job stays in the arena meanwhile.
  run(milliseconds) {
    const { calls } = this.#sitgurp;
    const placed = calls.place('job_step_parts', [this.#lines, this.#cells, this.#marks, this.#passed]);
    const end = performance.now() + milliseconds;
    let left = this.toGo;
    while (left > 0) {
      for (let k = 0; k < STEPS && left > 0; k += 1, left -= 1) calls.invoke(placed);
      if (performance.now() >= end) break;
    }
    this.#marks.set(calls.lent(placed, 2));
    this.#passed.set(calls.lent(placed, 3));
    return this.toGo === 0;
  }

  mark(group) {
    const [kind, value] = this.#sitgurp.calls.call('job_mark_parts', this.#lines, this.#marks, this.passed, group).map(Number);
    if (kind > 1) return new Refusal(kind, value, 'neither', new Uint8Array());
    return kind === 0 ? value : null;
  }

  marks() {
    return this.#marks.slice(0, this.groups + 1);
  }

  finish() {
    const [cells, marks, output] = [new Uint8Array(MOST_CELLS), new Uint8Array(MOST_MARKS), new Uint8Array(MOST_NET_SHEET)];
    const answer = this.#sitgurp.calls.call('job_finish_parts', this.#lines, this.#cells, this.passed, cells, marks, output);
    const written = answer[0] === 0n || answer[0] === 16n ? this.#cut(cells, marks) : {};
    // the names of 16's group are in the third of the job's own lines
    const length = this.#sitgurp.answered(answer, 'neither', this.#lines, written);
    return isRefusal(length) ? length : { sheet: textOf(output.subarray(0, length)), ...written };
  }

  // Cuts cells and marks to their lengths.
  #cut(cells, marks) {
    const levels = Number(textOf(this.#lines.subarray(14, 15)));
    return { cells: cells.subarray(0, levels ** this.#inputs), marks: marks.subarray(0, 2 ** this.#inputs / 4) };
  }

  *[Symbol.iterator]() {
    while (this.step() === null) yield [this.passed, this.#marks[this.passed]];
  }
}
