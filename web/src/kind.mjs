// The kinds of refusals, by name and number: the same as `Kind` in the Rust crate and `enum sitgurp_refusal` in C.

export const Kind = Object.freeze({
  Layout: 1,
  Levels: 2,
  Inputs: 3,
  Name: 4,
  Row: 5,
  Digits: 6,
  UnknownReference: 7,
  UsedReference: 8,
  BareSize: 9,
  BareCell: 10,
  Group: 11,
  HeadersDiffer: 12,
  CellsShort: 13,
  MarksShort: 14,
  OutputShort: 15,
  NoTree: 16,
  NoSuchTree: 17,
  ArrivalName: 18,
  ArrivalTime: 19,
  RepeatedRow: 20,
  JobDone: 21,
  JobUnfinished: 22,
  Wiring: 23,
  Picture: 24,
  Offsets: 25,
  UnusedGate: 26,
  OpenCell: 27,
});

const NAMES = new Map(Object.entries(Kind).map(([name, number]) => [number, name]));

// Returns the name of a refusal's number.
export function kindName(number) {
  return NAMES.get(number) ?? 'Unknown';
}
