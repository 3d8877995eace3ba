// The tabs of the right column. Arrow keys move between them.

import { el } from './dom.mjs';

const TABS = [['tree', 'Tree'], ['compare', 'Compare'], ['glyph', 'Glyph'], ['take', 'Take it away']];

// Mounts the tab list; the panels are the elements `panel-NAME`.
export function mount(root, model) {
  const panels = new Map(TABS.map(([name]) => [name, document.getElementById(`panel-${name}`)]));
  const buttons = new Map(TABS.map(([name, text]) => [name, el('button', {
    type: 'button', role: 'tab', id: `tab-${name}`, 'aria-controls': `panel-${name}`, text, onclick: () => model.showTab(name),
  })]));
  for (const [name, panel] of panels) {
    panel.setAttribute('role', 'tabpanel');
    panel.setAttribute('aria-labelledby', `tab-${name}`);
  }
  root.append(...buttons.values());
  root.addEventListener('keydown', (event) => {
    const steps = { ArrowRight: 1, ArrowLeft: -1 };
    const step = steps[event.key];
    if (!step) return;
    const names = TABS.map(([name]) => name);
    const next = names[(names.indexOf(model.tab) + step + names.length) % names.length];
    model.showTab(next);
    buttons.get(next).focus();
    event.preventDefault();
  });
  const show = () => {
    const shown = panels.has(model.tab) ? model.tab : 'tree';
    for (const [name, panel] of panels) {
      panel.hidden = name !== shown;
      buttons.get(name).setAttribute('aria-selected', name === shown);
      buttons.get(name).tabIndex = name === shown ? 0 : -1;
    }
  };
  model.on('tab', show);
  show();
}
