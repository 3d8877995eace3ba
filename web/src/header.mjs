// The first lines of an accepted sheet. The library has judged them; nothing is judged here.

export class Header {
  constructor(levels, names) {
    this.levels = levels;
    this.names = Object.freeze([...names]);
    Object.freeze(this);
  }

  // Reads the header of an accepted sheet, table or net.
  static of(sheet) {
    const lines = sheet.split('\n', 3);
    const [levels, inputs] = lines[1].split(' ').map(Number);
    return new Header(levels, lines[2].split(' ').slice(0, inputs));
  }

  // Returns the index of an assignment, the last input fastest; null if it does not have one level below `levels` for each input.
  indexOf(assignment) {
    if (assignment.length !== this.names.length) return null;
    let index = 0;
    for (let k = 0; k < assignment.length; k += 1) {
      const level = assignment[k];
      if (!Number.isInteger(level) || level < 0 || level >= this.levels) return null;
      index = index * this.levels + level;
    }
    return index;
  }

  // Returns the assignment of an index.
  assignment(index) {
    const levels = new Array(this.names.length);
    let rest = index;
    for (let k = levels.length - 1; k >= 0; k -= 1) {
      levels[k] = rest % this.levels;
      rest = Math.floor(rest / this.levels);
    }
    return levels;
  }

  // Returns the names of a group's inputs.
  namesOf(group) {
    return this.names.filter((_, input) => (group >> input) & 1);
  }
}
