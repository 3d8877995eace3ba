// Arrival times as bars: when each input arrives, and when the library says that the output settles. Times are in microseconds.

import { isExplanation } from '../src/sitgurp.mjs';
import { arrivalSheet, quarters } from './changes.mjs';
import { clear, el, field, svg } from './dom.mjs';
import { recall, remember } from './memory.mjs';

const FIRST = { from: '0', to: '1' };
// The longest delay of a gate, in quarter microseconds: it is one byte.
const MOST_DELAY = 255;

// Returns a step for the marks of a scale, 1, 2 or 5 times a power of ten, so that there are at most four.
export function stepOf(end) {
  const rough = end / 4;
  const power = 10 ** Math.floor(Math.log10(rough));
  return [1, 2, 5, 10].map((times) => times * power).find((step) => step >= rough);
}

// Returns a time as text: no more digits than it needs.
export function timeText(microseconds) {
  return String(Number(microseconds.toFixed(6)));
}

// Draws a bar from one time to another; a fixed time is a thin line.
function bar(from, to, end, kind) {
  const [left, right] = [from, to].map((time) => (100 * time) / end);
  const width = Math.max(right - left, 0.6);
  return svg('svg', { class: `time-bar ${kind}`, viewBox: '0 0 100 10', preserveAspectRatio: 'none', 'aria-hidden': 'true' },
    svg('rect', { x: Math.min(left, 100 - width), y: 1, width, height: 8 }));
}

// Draws the scale below the bars.
function scale(end) {
  const step = stepOf(end);
  const marks = [];
  for (let time = 0; time <= end + step / 1000; time += step) {
    marks.push(el('span', { text: timeText(time), style: `left:${(100 * time) / end}%` }));
  }
  return el('div', { class: 'scale', 'aria-hidden': 'true' }, marks);
}

// Builds the controls in an element and follows the model.
export function mountArrivals(root, model, lib) {
  const saved = recall('arrivals');
  const times = new Map(Object.entries(saved?.times ?? {}));
  const delay = el('input', { type: 'number', min: 0, max: MOST_DELAY / 4, step: 0.25, value: saved?.delay ?? '1', oninput: () => answer() });
  const rows = el('tbody');
  const words = el('pre', { class: 'bad words' });
  const result = el('p', { class: 'settles', role: 'status' });
  const output = { bar: el('td', { class: 'bars' }), scale: el('td', { class: 'bars' }) };
  let shown = null;

  // Returns the times of an input by its name.
  const timesOf = (name) => times.get(name) ?? FIRST;

  // Makes the row of an input: two fields and a bar.
  function row(name, used) {
    const cell = el('td', { class: 'bars' });
    const fields = ['from', 'to'].map((end) => el('input', { type: 'number', min: 0, max: 16383.75, step: 0.25, value: timesOf(name)[end],
      'aria-label': `${name} arrives ${end === 'from' ? 'at the earliest' : 'at the latest'}, microseconds`,
      oninput: (event) => {
        times.set(name, { ...timesOf(name), [end]: event.target.value });
        answer();
      } }));
    const line = el('tr', { class: used ? '' : 'unused' }, el('th', { scope: 'row', text: name, title: used ? '' : 'no gate uses this input' }),
      fields.map((input) => el('td', {}, input)), cell);
    return { name, used, fields, cell, line };
  }

  // Draws a row for each input of the net that is shown.
  function draw() {
    const { net } = model.result;
    body.hidden = net === null;
    none.hidden = net !== null;
    if (net === null) return;
    const unused = new Set(net.unused());
    const header = `${net.names.join(' ')} ${[...unused]}`;
    if (shown?.header !== header) {
      shown = { header, rows: net.names.map((name, i) => row(name, !unused.has(i))) };
      clear(rows).append(...shown.rows.map((one) => one.line),
        el('tr', { class: 'output' }, el('th', { scope: 'row', text: 'output' }), el('td', { colspan: 2 }), output.bar),
        el('tr', { class: 'scales' }, el('td', { colspan: 3, class: 'note', text: 'microseconds' }), output.scale));
    }
    answer();
  }

  // Asks the library when the output settles.
  function answer() {
    const { net } = model.result;
    if (net === null) return;
    remember('arrivals', { times: Object.fromEntries(times), delay: delay.value });
    const wait = Number(quarters(delay.value));
    const fits = Number.isInteger(wait) && wait >= 0 && wait <= MOST_DELAY;
    delay.setAttribute('aria-invalid', !fits);
    const settling = fits ? lib.readArrivals(net, arrivalSheet(net.names, net.names.map(timesOf)), wait, 'arrivals') : null;
    const refused = isExplanation(settling);
    words.hidden = fits && !refused;
    words.textContent = fits ? '' : `A gate's delay is 0 to ${MOST_DELAY / 4} microseconds in steps of 0.25.`;
    if (refused) words.textContent = settling.toString();
    mark(refused ? settling.position : null);
    bars(settling && !refused ? settling : null);
  }

  // Marks the field that the library refuses: the sheet's second line is the first input's.
  function mark(position) {
    shown.rows.forEach((one, i) => one.fields.forEach((input) => input.setAttribute('aria-invalid', position !== null && position.line === i + 2)));
  }

  // Draws all bars on one scale, or none.
  function bars(settling) {
    const cells = [...shown.rows.map((one) => one.cell), output.bar, output.scale];
    cells.forEach(clear);
    result.textContent = settling ? settlesText(settling) : '';
    if (!settling) return;
    const end = Math.max(settling.latest, ...shown.rows.map((one) => Number(timesOf(one.name).to)), 0.25);
    for (const one of shown.rows) one.cell.append(bar(Number(timesOf(one.name).from), Number(timesOf(one.name).to), end, one.used ? 'input' : 'unused'));
    output.bar.append(bar(settling.earliest, settling.latest, end, 'settled'));
    output.scale.append(scale(end));
  }

  const none = el('p', { class: 'note', text: 'Arrival times need a tree, and there is none now.' });
  const body = el('div', { class: 'stack' },
    el('p', { class: 'note', text: 'When does each input arrive, at the earliest and at the latest? All times are in microseconds, in steps of 0.25.' }),
    field('Delay of every gate, microseconds', delay),
    el('div', { class: 'scroll' }, el('table', { class: 'arrivals' }, el('caption', { class: 'visually-hidden', text: 'Arrival times of the inputs' }),
      el('thead', {}, el('tr', {}, ['input', 'earliest', 'latest'].map((text) => el('th', { scope: 'col', text })), el('td'))), rows)),
    result,
    words);
  root.append(el('h3', { text: 'Arrival times' }), none, body);
  words.hidden = true;
  model.on('result', () => {
    if (model.tab === 'compare') draw();
  });
  model.on('tab', (name) => {
    if (name === 'compare') draw();
  });
  draw();
}

// Says when the output settles.
export function settlesText({ earliest, latest }) {
  return earliest === latest ? `The output settles at ${timeText(earliest)} microseconds.`
    : `The output settles between ${timeText(earliest)} and ${timeText(latest)} microseconds.`;
}
