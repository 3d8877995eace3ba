// The trees of a table, in the order of their numbers.

import { isRefusal } from './refusal.mjs';

export class Family {
  #sitgurp;
  #sheet;

  constructor(sitgurp, sheet, size) {
    this.#sitgurp = sitgurp;
    this.#sheet = sheet;
    this.size = size;
    Object.freeze(this);
  }

  // Returns the family of a table sheet; it is empty if no tree computes the table.
  static of(sitgurp, sheet) {
    const answer = sitgurp.familyCount(sheet);
    return isRefusal(answer) ? answer : new Family(sitgurp, sheet, answer.count);
  }

  tree(number) {
    const made = this.#sitgurp.familyTree(this.#sheet, number);
    return isRefusal(made) ? made : this.#sitgurp.net(made.sheet);
  }

  *[Symbol.iterator]() {
    for (let number = 0; number < this.size; number += 1) yield this.tree(number);
  }
}
