// Packed marks.

// Returns the mark of a group: two bits, group 0's the lowest of the first byte.
export function markOf(marks, group) {
  return (marks[group >> 2] >> ((group & 3) * 2)) & 3;
}
