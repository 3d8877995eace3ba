/**
 * The proved Sitgurp library for browsers, workers and node: tables of shades, and the trees of two-input gates that compute them.
 *
 *     import { load, isRefusal } from './sitgurp.mjs';
 *     const sitgurp = await load(bytesOfSitgurpWasm);
 *     const table = sitgurp.tableFromRule(3, ['day', 'near'], (levels) => Math.max(...levels));
 *     const net = table.settled();
 *     console.log(isRefusal(net) ? net.toString() : net.sheet);
 *
 * A refusal is a value, never an exception. Exceptions are for wrong use only, such as an argument of another type.
 * Every decision is the library's: nothing in this module decides what the library decides.
 */

/** A sheet: text, or its bytes. Text is taken as UTF-8. */
export type Sheet = string | Uint8Array | Table | Net;

/** Bytes of sitgurp.wasm, or the compiled module. */
export type Source = ArrayBuffer | ArrayBufferView | WebAssembly.Module;

/** Compiles and starts the library without blocking. Works everywhere. */
export function load(source: Source): Promise<Sitgurp>;

/** Compiles and starts the library at once. For node and workers; a browser's main thread may refuse to compile this way. */
export function loadSync(source: Source): Sitgurp;

export const VERSION: string;
/** The most cells that a table has. */
export const MOST_CELLS: 4096;
/** The most bytes that a file may have for `Sitgurp.open` and the readers; the command has the same limit. They throw a RangeError for longer ones. */
export const MOST_FILE: number;

// ---- refusals

/** The names of refusals by number, as in the Rust crate and in C. */
export const Kind: {
  readonly Layout: 1;
  readonly Levels: 2;
  readonly Inputs: 3;
  readonly Name: 4;
  readonly Row: 5;
  readonly Digits: 6;
  readonly UnknownReference: 7;
  readonly UsedReference: 8;
  readonly BareSize: 9;
  readonly BareCell: 10;
  readonly Group: 11;
  readonly HeadersDiffer: 12;
  readonly CellsShort: 13;
  readonly MarksShort: 14;
  readonly OutputShort: 15;
  readonly NoTree: 16;
  readonly NoSuchTree: 17;
  readonly ArrivalName: 18;
  readonly ArrivalTime: 19;
  readonly RepeatedRow: 20;
  readonly JobDone: 21;
  readonly JobUnfinished: 22;
  readonly Wiring: 23;
  readonly Picture: 24;
  readonly Offsets: 25;
  readonly UnusedGate: 26;
  readonly OpenCell: 27;
};
export type KindName = keyof typeof Kind;

/** Which sheet a refusal is about. */
export type Named = 'net' | 'table' | 'arrivals' | 'neither';

/** Why the library refused a call, and where. */
export class Refusal {
  private constructor();
  /** The refusal's number, 1 to 27: compare with `Kind`. */
  readonly number: number;
  /** What the place is depends on the kind: a byte of the sheet, a group, an index, a length. */
  readonly place: number;
  /** The name of its kind, `'Unknown'` for a number without a name. */
  readonly name: KindName | 'Unknown';
  readonly sheet: Named;
  /** Line and column of the place in the sheet, from 1; null if the refusal is not a sheet's. */
  readonly position: { readonly line: number; readonly column: number } | null;
  /** The names of the group's inputs if no tree computes the table (NoTree), else empty. */
  readonly inputs: readonly string[];
  /** The inks, if the call wrote them before it refused (NoTree, NoSuchTree, Wiring). */
  readonly cells?: Uint8Array;
  /** Every group's mark, if the call wrote them before it refused (NoTree, NoSuchTree). Packed: read with `markOf`. */
  readonly marks?: Uint8Array;
  /** What is wrong, in general words. The readers, such as `Sitgurp.readTable`, have the command's words, which say what to change. */
  words(): string;
  /** One line: the sheet, the words, number and place. */
  toString(): string;
}

/** Tells a refusal from an answer. */
export function isRefusal(answer: unknown): answer is Refusal;

// ---- answers

export interface Marking {
  /** The whole group's mark. */
  readonly whole: number;
  /** Every group's mark, packed: read with `markOf`. */
  readonly marks: Uint8Array;
}

/** The mark of a group in packed marks: 0, 1 or 2. */
export function markOf(marks: Uint8Array, group: number): number;

export interface Made {
  /** The net sheet. */
  readonly sheet: string;
  readonly cells: Uint8Array;
  readonly marks: Uint8Array;
}

export interface MadeShallow extends Made {
  readonly layers: number;
}

export interface FamilyCount {
  /** How many trees compute the table; 0 if there is none. */
  readonly count: number;
  readonly cells: Uint8Array;
  readonly marks: Uint8Array;
}

/** The one of two net sheets with fewer layers. `which` is 0 if both sheets are refused, and `sheet` is then empty. */
export interface Which {
  readonly which: 0 | 1 | 2;
  readonly sheet: string;
}

export type Verdict =
  | { readonly agree: true; readonly cells: Uint8Array }
  | { readonly agree: false; /** The lowest index that differs. */ readonly index: number; readonly cells: Uint8Array };

export interface Kept {
  /** The net sheet: same wiring, new gate tables. */
  readonly sheet: string;
  /** The numbers of the gates whose tables changed, from 1. */
  readonly changed: readonly number[];
  readonly cells: Uint8Array;
}

export interface Tidied {
  /** The table sheet. */
  readonly sheet: string;
  readonly cells: Uint8Array;
}

/** When the output settles, in microseconds. Both are exact. */
export interface Settling {
  readonly earliest: number;
  readonly latest: number;
}

// ---- the library

/** The library, started. All calls are synchronous, share one arena, and keep nothing from one call to the next. */
export class Sitgurp {
  private constructor();
  // one function per call of include/sitgurp.h. Buffers are of the sizes that always suffice.

  /** The number of classes of a group: bit i of the group is input i. Refusals: 9, 10, 27, 11. */
  multiplicity(levels: number, inputs: number, cells: Uint8Array, group: number): number | Refusal;
  /** Every group's mark. Refusals: 9, 10, 27. */
  marking(levels: number, inputs: number, cells: Uint8Array): Marking | Refusal;
  /** The settled net sheet of a net sheet. */
  settle(netSheet: Sheet): Made | Refusal;
  /** The settled net sheet of a table sheet. Refusals: 1 to 6, 27, 16. */
  make(tableSheet: Sheet): Made | Refusal;
  /** The shallow net sheet of a net sheet. */
  settleShallow(netSheet: Sheet): MadeShallow | Refusal;
  /** The shallow net sheet of a table sheet. */
  makeShallow(tableSheet: Sheet): MadeShallow | Refusal;
  /** How many trees compute the table: 0 if none does. Refusals: 1 to 6, 27. */
  familyCount(tableSheet: Sheet): FamilyCount | Refusal;
  /** The tree of a number, from 0, the settled net. Refusals: 1 to 6, 27, 17. */
  familyTree(tableSheet: Sheet, number: number | bigint): Made | Refusal;
  /** The one of two net sheets with fewer layers; the first if equal. */
  shallower(first: Sheet, second: Sheet): Which;
  /** Checks a net sheet against a table sheet. Open cells are passed over. */
  check(netSheet: Sheet, tableSheet: Sheet): Verdict | Refusal;
  /** Keeps the wiring of a net sheet and fills its gates for a table sheet. Refusal 23 if the wiring cannot have the table: the place is a gate, or 0. */
  keep(netSheet: Sheet, tableSheet: Sheet): Kept | Refusal;
  /** The table sheet of a net sheet. */
  writeTable(netSheet: Sheet): string | Refusal;
  /** The table sheet of a loose table sheet. */
  tidy(looseSheet: Sheet): Tidied | Refusal;
  /** The gate line of gate k + 1, null after the last. */
  gateLine(netSheet: Sheet, k: number): string | null | Refusal;
  /** All gate lines, in order. Reads the sheet once. */
  gateLines(netSheet: Sheet): string[] | Refusal;
  /** The version of the library as one number, two digits each for minor and patch: 203 is 0.2.3. */
  version(): number;
  /** When the net's output settles: an arrival sheet, and the delay of every gate in quarter microseconds, 0 to 255. */
  arrivals(netSheet: Sheet, arrivalSheet: Sheet, delay: number): Settling | Refusal;
  /** Opens a job on a full table sheet. Refusals: 1 to 6, 27. */
  openJob(tableSheet: Sheet): Job | Refusal;
  /** The glyph that a net prints from a picture: one level per cell, row by row; offsets across and down for each input, -2 to 2. */
  glyph(netSheet: Sheet, width: number, height: number, picture: Uint8Array, offsets: Int8Array | readonly number[]): Uint8Array | Refusal;

  // tables and nets as classes

  /** Reads a table sheet. */
  table(sheet: Sheet): Table | Refusal;
  /** Reads a net sheet. */
  net(sheet: Sheet): Net | Refusal;
  /** The table of a rule, which is asked for the ink of every assignment; `levels` leaves the cell open. */
  tableFromRule(levels: number, names: readonly string[], rule: (assignment: number[]) => number): Table | Refusal;
  /** The table of these inks, in the order of the rows; `levels` is an open cell. */
  tableFromInks(levels: number, names: readonly string[], inks: ArrayLike<number>): Table | Refusal;

  // put together from several calls, as in the Rust crate

  /** Every group's number of classes; entry 0 is 0. */
  multiplicities(tableSheet: Sheet): number[] | Refusal;
  /** The fewest levels that the wires between gates would need for a tree. */
  fewestLevels(tableSheet: Sheet): number | Refusal;
  /** The trees of a table. */
  family(tableSheet: Sheet): Family | Refusal;

  // words: the same as the command's

  /** Reads a file of unknown kind: table sheet, net sheet, loose sheet or CSV, whichever the library accepts; else explains it as what it looks most like. */
  open(bytes: Sheet, file?: string): Opened | Explanation;
  /** Reads a table sheet, or says in the command's words why not. */
  readTable(bytes: Sheet, file?: string): Table | Explanation;
  /** Reads a net sheet, or says in the command's words why not. */
  readNet(bytes: Sheet, file?: string): Net | Explanation;
  /** Reads a loose table (`csv`: as a spreadsheet writes it), or says in the command's words why not. */
  readLoose(bytes: Sheet, file?: string, csv?: boolean): Table | Explanation;
  /** Reads an arrival sheet for a net, or says in the command's words why not. */
  readArrivals(net: Net, bytes: Sheet, delay: number, file?: string): Settling | Explanation;
  /** The command's words for a refusal of an accepted table: no tree, no such tree, open cells. */
  explainTable(table: Table, refusal: Refusal, file?: string): Explanation;
  /** The command's words if two sheets differ in levels, inputs or names; null if they do not. */
  explainHeaders(first: Table | Net, second: Table | Net): string | null;
  /** Why a full table has no tree: the group at fault and the ways to split it, as `sitgurp why` has them. Null if it has a tree or an open cell. */
  fault(table: Table): Fault | null;
}

/** What `open` has read. */
export type Opened =
  | { readonly kind: 'table' | 'loose'; readonly table: Table }
  /** `columns` are the inputs and then the ink, each with its name in the sheet and as the file has it. */
  | { readonly kind: 'csv'; readonly table: Table; readonly columns: readonly { readonly name: string; readonly written: string }[] }
  | { readonly kind: 'net'; readonly net: Net };

/** A refusal in the command's words. */
export class Explanation {
  private constructor();
  readonly refusal: Refusal;
  readonly file: string;
  /** Line and column, from 1, as shown; null if the refusal has no place in the file. */
  readonly position: { readonly line: number; readonly column: number } | null;
  /** What is wrong and what is due there. */
  readonly sentence: string;
  /** The line with a caret below it, each indented by four spaces; empty if there is none. */
  readonly excerpt: string;
  readonly causes: readonly string[];
  /** What to do next on the command line, or what separates the fields of CSV; else null. */
  readonly hint: string | null;
  /** What the command prints, without the hint: several lines, each with a line feed. */
  toString(): string;
}

/** Tells an explanation from what was read. */
export function isExplanation(answer: unknown): answer is Explanation;

export interface Fault {
  readonly refusal: Refusal;
  readonly group: number;
  /** The names of the group's inputs. */
  readonly names: readonly string[];
  /** Every way to split the group in two, the one that needs fewest levels first. */
  readonly splits: readonly Split[];
  /** The fewest levels that the wires between gates would need. */
  readonly fewest: number;
}

export interface Split {
  readonly parts: readonly [number, number];
  /** The input names of each part. */
  readonly names: readonly [readonly string[], readonly string[]];
  /** The levels that each part needs. */
  readonly classes: readonly [number, number];
  /** The larger of the two. */
  readonly needs: number;
}

/** A table sheet that the library has accepted. Immutable. */
export class Table {
  private constructor();
  readonly levels: number;
  readonly names: readonly string[];
  /** The inks in the order of the rows; `levels` for an open cell. Do not write to it. */
  readonly inks: Uint8Array;
  /** The sheet itself. */
  readonly sheet: string;
  /** The indices of the open cells. */
  open(): number[];
  isFull(): boolean;
  /** The index of an assignment, null if it is none. */
  indexOf(assignment: ArrayLike<number>): number | null;
  /** The assignment of an index. */
  assignment(index: number): number[];
  /** The ink of an assignment, null if it is none. */
  ink(assignment: ArrayLike<number>): number | null;
  rows(): IterableIterator<{ readonly levels: number[]; readonly ink: number }>;
  /** The table with some inks replaced: index to ink. */
  with(changes: Iterable<readonly [number, number]>): Table | Refusal;
  settled(): Net | Refusal;
  shallow(): { readonly net: Net; readonly layers: number } | Refusal;
  family(): Family | Refusal;
  job(): Job | Refusal;
  multiplicity(group: number): number | Refusal;
  fewestLevels(): number | Refusal;
  /** The names of a group's inputs. */
  namesOf(group: number): string[];
  toString(): string;
}

/** What a gate's left or right is wired to: an input, or an earlier gate, each by its place from 0. */
export type Wire = { readonly input: number } | { readonly gate: number };

export interface Gate {
  readonly left: Wire;
  readonly right: Wire;
  /** levels times levels digits, left's level slowest. */
  readonly digits: Uint8Array;
}

/** A net sheet that the library has accepted. Immutable. */
export class Net {
  private constructor();
  readonly levels: number;
  readonly names: readonly string[];
  readonly gates: readonly Gate[];
  readonly sheet: string;
  /** The inputs that no gate refers to. */
  unused(): number[];
  /** The net's value for an assignment, null if it is none. */
  value(assignment: ArrayLike<number>): number | null;
  /** The table that the net computes. */
  table(): Table;
  settled(): Net;
  shallow(): { readonly net: Net; readonly layers: number };
  /** The most gates on a way from an input to the output. */
  layers(): number;
  check(table: Table): Verdict | Refusal;
  keep(table: Table): { readonly net: Net; readonly changed: readonly number[] } | Refusal;
  settling(arrivalSheet: Sheet, delay: number): Settling | Refusal;
  glyph(width: number, height: number, picture: Uint8Array, offsets: Int8Array | readonly number[]): Uint8Array | Refusal;
  toString(): string;
}

/** The trees of a table, in the order of their numbers; number 0 is the settled net. Iterating makes one net per turn. */
export class Family implements Iterable<Net> {
  private constructor();
  readonly size: number;
  tree(number: number | bigint): Net | Refusal;
  [Symbol.iterator](): IterableIterator<Net>;
}

/** Marking, one group per step. Iterating steps: each turn gives the group just passed and its mark. Leaving the loop early keeps the job where it is. */
export class Job implements Iterable<readonly [number, number]> {
  private constructor();
  /** How many groups have been passed. */
  readonly passed: number;
  /** How many groups there are. */
  readonly groups: number;
  readonly toGo: number;
  /** Marks the next group; refusal 21 if the job is done, else null. */
  step(): Refusal | null;
  /** Steps until the time is used up (milliseconds) or the job is done. Returns true if it is done. */
  run(milliseconds: number): boolean;
  /** The mark of a group, null if it is not reached; refusal 11 if there is no such group. */
  mark(group: number): number | null | Refusal;
  /** Every group's mark at its number, 0 if it has not been passed. A copy. */
  marks(): Uint8Array;
  /** What `make` answers for the sheet the job was opened on; 22 if the job is not done. */
  finish(): Made | Refusal;
  [Symbol.iterator](): IterableIterator<readonly [number, number]>;
}

/** A picture of levels, row by row. */
export interface Picture {
  readonly width: number;
  readonly height: number;
  readonly cells: Uint8Array;
}
/** A picture from text: a line per row, a digit per cell, `.` for 0. Null if it is none. */
export function pictureFromText(text: string): Picture | null;
export function pictureToText(picture: Picture): string;
/** A picture and its levels from a plain portable graymap (P2). Null if it is none. */
export function pictureFromPgm(text: string): { readonly picture: Picture; readonly levels: number } | null;
export function pictureToPgm(picture: Picture, levels: number): string;
