// What the library says about nets, in words: a net against a table, and one net against another. Nothing is decided here.

import { isRefusal } from '../src/sitgurp.mjs';
import { assignmentText, counted, thousands } from './changes.mjs';

// Returns why two sheets cannot be compared.
function unlike(lib, first, second, names, refusal) {
  const words = lib.explainHeaders(first, second, ...names) ?? refusal.words();
  return { good: false, words, index: null };
}

// Returns the words for a net that agrees, in so many rows of which some may be open.
function agreement(rows, open) {
  if (open === 0) return `Yes: the net has this table, all ${counted(rows, 'row')}.`;
  const others = open === 1 ? 'the other is' : `the other ${thousands(open)} are`;
  return `Yes: the net has this table in ${thousands(rows - open)} of ${counted(rows, 'row')}; ${others} open.`;
}

// Checks a net against a table: returns whether it has it, in words, and the index of the first row that differs.
export function checked(lib, net, table) {
  const verdict = net.check(table);
  if (isRefusal(verdict)) return unlike(lib, net, table, ['the net', 'the table'], verdict);
  if (verdict.agree) return { good: true, words: agreement(table.inks.length, table.open().length), index: null };
  const levels = table.assignment(verdict.index);
  const at = assignmentText(table.names, levels);
  const words = `No: at ${at} the net gives ${net.value(levels)} and the table has ${table.ink(levels)} (line ${verdict.index + 4}).`;
  return { good: false, words, index: verdict.index };
}

// Tells whether two nets have the same table: they do when they settle to the same sheet.
export function same(lib, first, second) {
  const table = second.table();
  const verdict = first.check(table);
  if (isRefusal(verdict)) return unlike(lib, first, second, ['net A', 'net B'], verdict);
  if (first.settled().sheet === second.settled().sheet) return { good: true, words: 'Same table: the two nets settle to the same sheet.', index: null };
  const levels = table.assignment(verdict.index);
  const words = `Not the same table: at ${assignmentText(table.names, levels)} net A gives ${first.value(levels)} and net B ${second.value(levels)}.`;
  return { good: false, words, index: verdict.index };
}

// Tells which of two nets is shallower. The library prefers the first of two equal ones, so it is asked both ways round.
export function shallower(lib, first, second) {
  const layers = [first, second].map((net) => counted(net.layers(), 'layer'));
  const firstWins = lib.shallower(first.sheet, second.sheet).which === 1;
  const secondWins = lib.shallower(second.sheet, first.sheet).which === 1;
  if (firstWins && secondWins) return `Equally deep: ${layers[0]} each.`;
  return firstWins ? `Net A is shallower: ${layers[0]}, net B has ${layers[1]}.` : `Net B is shallower: ${layers[1]}, net A has ${layers[0]}.`;
}

// Returns which gates of a net get other tables for another table, in words. Wiring and other gates stay.
export function masks(net, table) {
  if (net === null) return 'The wiring of a tree does not depend on the names of its shades.';
  const kept = net.keep(table);
  if (isRefusal(kept)) return kept.words();
  const { changed } = kept;
  if (changed.length === 0) return 'Every gate keeps its table.';
  const gates = changed.length === 1 ? `Gate ${changed[0]} has a new table` : `Gates ${changed.join(', ')} have new tables`;
  return net.gates.length > changed.length ? `${gates}; the wiring and all other gates stay.` : `${gates}; the wiring stays.`;
}
