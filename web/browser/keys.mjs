// Returns what the debugging protocol wants for a key, by the name that the page sees in `event.key`.
const NAMED = {
  Enter: ['Enter', 13, '\r'], Tab: ['Tab', 9], Escape: ['Escape', 27], ' ': ['Space', 32, ' '], Backspace: ['Backspace', 8], Delete: ['Delete', 46],
  ArrowLeft: ['ArrowLeft', 37], ArrowUp: ['ArrowUp', 38], ArrowRight: ['ArrowRight', 39], ArrowDown: ['ArrowDown', 40], Home: ['Home', 36],
  End: ['End', 35], PageUp: ['PageUp', 33], PageDown: ['PageDown', 34], '-': ['Minus', 189, '-'], '?': ['Slash', 191, '?'], '+': ['Equal', 187, '+'],
};

export const MODIFIERS = { Alt: 1, Control: 2, Meta: 4, Shift: 8 };

// Returns the parameters of a press of that key, with modifiers as in 'Control+Shift+z'.
export function keyParams(name) {
  const parts = name.length > 1 ? name.split('+') : [name];
  const key = parts.pop() || '+';
  const modifiers = parts.reduce((sum, part) => sum | MODIFIERS[part], 0);
  const [code, windowsVirtualKeyCode, text] = NAMED[key] ?? plain(key);
  // a key together with Control or Alt types no text
  const typed = modifiers & (MODIFIERS.Control | MODIFIERS.Alt | MODIFIERS.Meta) ? undefined : text;
  return { key, code, windowsVirtualKeyCode, modifiers, text: typed };
}

// Returns code, key code and text of a letter or a digit.
function plain(key) {
  const upper = key.toUpperCase();
  const code = /[0-9]/.test(key) ? `Digit${key}` : /[A-Z]/.test(upper) ? `Key${upper}` : '';
  return [code, upper.charCodeAt(0), key];
}
