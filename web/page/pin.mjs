// The pinned wiring: while the table changes, its gates are refilled. Shows which gate tables (masks) are new, and where it stops being possible.

import { isRefusal } from '../src/sitgurp.mjs';
import { groupsOf } from './decided.mjs';
import { button, el } from './dom.mjs';

const OFFER = 'Keep this wiring and only refill its gates while you paint.';

// Returns a list in words: a, b and c.
export function listed(words) {
  return words.length < 2 ? words.join('') : `${words.slice(0, -1).join(', ')} and ${words.at(-1)}`;
}

// Returns the sentence about the gates whose tables changed since the wiring was pinned.
export function changedWords(changed, gates) {
  if (changed.length === 0) return `All ${gates} gate tables are as pinned.`;
  const which = changed.length === 1 ? `gate ${changed[0]} has` : `gates ${listed(changed.map(String))} have`;
  return `${changed.length} of ${gates} masks changed: ${which} a new table.`;
}

// Returns the inputs of a table that matter: their levels are not all of one class.
export function matteringInputs(table) {
  return table.names.map((_, input) => input).filter((input) => {
    const classes = table.multiplicity(1 << input);
    return !isRefusal(classes) && classes > 1;
  });
}

// Returns why the pinned wiring cannot have a table. The place of refusal 23 is a gate's number, or 0 for an input that is left out.
export function stuckWords(refusal, wiring, table) {
  if (refusal.number !== 23) return refusal.toString();
  if (refusal.place === 0) {
    const unused = new Set(wiring.unused());
    const names = matteringInputs(table).filter((input) => unused.has(input)).map((input) => table.names[input]);
    return `This wiring leaves out ${listed(names)}, and the table needs ${names.length === 1 ? 'it' : 'them'}.`;
  }
  const group = groupsOf(wiring)[refusal.place - 1];
  const classes = table.multiplicity(group);
  const names = table.namesOf(group);
  return `It stops at gate ${refusal.place}: it joins ${listed(names)}, which now have ${classes} classes, and a wire carries ${table.levels} levels.`;
}

// Returns the sentence about a refilled wiring, and whether it is bad news.
export function keepWords(keep, table) {
  if (!keep) return { words: '', bad: false };
  if (keep.refusal) return { words: stuckWords(keep.refusal, keep.wiring, table), bad: true };
  return { words: changedWords(keep.changed, keep.net.gates.length), bad: false };
}

// Mounts the pin's button and its sentence.
export function mount(root, model) {
  const toggle = button('', () => (model.pinned === null ? model.pin(model.net.sheet) : model.unpin()));
  const sentence = el('span', { role: 'status' });
  const anew = button('Pin anew', () => model.pin(model.net.sheet), { class: 'small', title: 'Take the new gate tables as the pinned ones' });
  root.append(toggle, sentence, anew);
  const draw = () => {
    const { result, pinned, net } = model;
    const isPinned = pinned !== null;
    root.hidden = !isPinned && !net && result.state !== 'working';
    toggle.textContent = isPinned ? 'Unpin' : 'Pin the wiring';
    toggle.title = isPinned ? 'Let the wiring change again' : 'Keep this wiring: while you paint, only gate tables change';
    toggle.disabled = !isPinned && !net;
    toggle.classList.toggle('pinned', isPinned);
    anew.hidden = !isPinned || !net || result.keep.changed.length === 0;
    if (isPinned && !model.isCurrent(result)) return;
    const { words, bad } = isPinned ? keepWords(result.keep, model.table) : { words: OFFER, bad: false };
    sentence.textContent = words;
    sentence.className = `pin-words ${bad ? 'bad' : ''} ${isPinned ? '' : 'note'}`;
  };
  for (const event of ['result', 'pin', 'doc']) model.on(event, draw);
  draw();
}
