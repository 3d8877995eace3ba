// Small helpers for building the page's elements.

const SVG = 'http://www.w3.org/2000/svg';

// Sets attributes, listeners (`onclick`), properties (`.value`) and text (`text`) of an element, and appends children.
function fill(element, attributes, children) {
  for (const [key, value] of Object.entries(attributes)) {
    if (value === undefined || value === null || value === false) continue;
    if (key === 'text') element.textContent = value;
    else if (key.startsWith('on')) element.addEventListener(key.slice(2), value);
    else if (key.startsWith('.')) element[key.slice(1)] = value;
    else element.setAttribute(key, value === true ? '' : value);
  }
  for (const child of children.flat()) {
    if (child !== null && child !== undefined && child !== false) element.append(child);
  }
  return element;
}

// Makes an HTML element.
export function el(tag, attributes = {}, ...children) {
  return fill(document.createElement(tag), attributes, children);
}

// Makes an SVG element.
export function svg(tag, attributes = {}, ...children) {
  return fill(document.createElementNS(SVG, tag), attributes, children);
}

// Makes a button.
export function button(text, onclick, attributes = {}) {
  const { class: more = '', ...others } = attributes;
  return el('button', { type: 'button', class: `btn ${more}`.trim(), text, onclick, ...others });
}

// Makes a label with its control below it.
export function field(label, control) {
  return el('label', { class: 'field' }, el('span', { text: label }), control);
}

// Removes all children of an element.
export function clear(element) {
  element.replaceChildren();
  return element;
}

let groups = 0;

// Makes a group of radio buttons that looks like one segmented control. `options` is a list of [value, text, title].
export function segments(label, options, chosen, onchange) {
  const name = `segments-${(groups += 1)}`;
  const inputs = new Map();
  const parts = options.map(([value, text, title]) => {
    const input = el('input', { type: 'radio', name, '.checked': value === chosen, onchange: () => onchange(value) });
    inputs.set(value, input);
    return el('label', { title }, input, el('span', { text }));
  });
  const element = el('div', { class: 'seg', role: 'radiogroup', 'aria-label': label }, parts);
  const choose = (value) => {
    for (const [own, input] of inputs) input.checked = own === value;
  };
  return { element, choose, inputs };
}
