// Looks at the page with the eyes of a screen reader and of a person with weak sight.

const CONTROLS = new Set(['button', 'textbox', 'searchbox', 'combobox', 'listbox', 'spinbutton', 'slider', 'checkbox', 'radio', 'switch', 'tab', 'link',
  'application', 'grid', 'radiogroup', 'tablist', 'tabpanel', 'img', 'image', 'region']);

// Returns the controls and pictures that a screen reader finds without a name.
export async function unnamed(tab) {
  const { nodes } = await tab.send('Accessibility.getFullAXTree');
  const bad = nodes.filter((node) => !node.ignored && CONTROLS.has(node.role?.value) && !(node.name?.value ?? '').trim());
  return Promise.all(bad.map(async (node) => {
    const described = await tab.send('DOM.describeNode', { backendNodeId: node.backendDOMNodeId }).catch(() => null);
    const attributes = described?.node.attributes?.join(' ') ?? '';
    return `${node.role.value} <${described?.node.localName ?? '?'} ${attributes}>`;
  }));
}

// Finds texts in the page that have too little contrast with what is behind them: below 4.5, or 3 for large letters.
function weakTexts() {
  const parse = (text) => (text.match(/[\d.]+/g) ?? []).map(Number);
  // Returns the relative luminance of a colour.
  const light = (rgb) => {
    const [r, g, b] = rgb.map((part) => (part / 255 <= 0.04045 ? part / 255 / 12.92 : ((part / 255 + 0.055) / 1.055) ** 2.4));
    return 0.2126 * r + 0.7152 * g + 0.0722 * b;
  };
  // Returns the colour of one that lies on another.
  const over = (top, under) => {
    const opacity = top[3] ?? 1;
    return [0, 1, 2].map((k) => top[k] * opacity + under[k] * (1 - opacity));
  };
  // Returns the colour behind the text of an element.
  const ground = (element) => {
    if (!element) return matchMedia('(prefers-color-scheme: dark)').matches ? [18, 18, 18] : [255, 255, 255];
    const own = parse(getComputedStyle(element).backgroundColor);
    return (own[3] ?? 1) === 1 && own.length >= 3 ? own.slice(0, 3) : over(own, ground(element.parentElement));
  };
  // Returns the contrast of a colour with what is behind an element.
  const contrast = (colour, element) => {
    const behind = ground(element);
    const [high, low] = [light(over(parse(colour), behind)), light(behind)].sort((a, b) => b - a);
    return (high + 0.05) / (low + 0.05);
  };
  const seen = (element) => element.checkVisibility({ opacityProperty: true, visibilityProperty: true });
  const weak = [];
  const walker = document.createTreeWalker(document.body, NodeFilter.SHOW_TEXT);
  for (let node = walker.nextNode(); node; node = walker.nextNode()) {
    const element = node.parentElement;
    if (node.data.trim() === '' || element.closest('svg, script, style, noscript, option, :disabled, .visually-hidden, [hidden]') || !seen(element)) continue;
    const { color, fontSize, fontWeight } = getComputedStyle(element);
    const large = parseFloat(fontSize) >= 24 || (parseFloat(fontSize) >= 18.66 && Number(fontWeight) >= 700);
    const ratio = contrast(color, element);
    if (ratio < (large ? 3 : 4.5)) weak.push(`${ratio.toFixed(2)} "${node.data.trim().slice(0, 40)}" in <${element.localName} class="${element.className}">`);
  }
  for (const field of document.querySelectorAll('input:enabled, textarea:enabled, select:enabled')) {
    const { color } = getComputedStyle(field, field.value === '' && field.placeholder ? '::placeholder' : null);
    if (seen(field) && contrast(color, field) < 4.5) weak.push(`${contrast(color, field).toFixed(2)} "${field.value || field.placeholder}" in a field`);
  }
  return weak;
}

// Returns the texts of the page that are too faint to read.
export function faint(tab) {
  return tab.run(weakTexts);
}

// Returns the elements that stick out of the page to the right, and the width of the page if it has to be scrolled sideways.
export function wide(tab) {
  return tab.run(() => {
    const width = document.documentElement.clientWidth;
    if (document.documentElement.scrollWidth <= width) return [];
    const out = [...document.body.querySelectorAll('*')].filter((element) => element.getBoundingClientRect().right > width + 1 && element.checkVisibility());
    return [`the page is ${document.documentElement.scrollWidth} pixels wide on a screen of ${width}`,
      ...out.slice(0, 8).map((element) => `${element.localName}#${element.id}.${element.getAttribute('class')}`)];
  });
}
