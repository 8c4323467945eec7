/** Makes elements. A text given as a child is a text of the page: nothing is read as HTML. */

/**
 * An element with attributes, properties and children.
 * @template {keyof HTMLElementTagNameMap} T
 * @param {T} tag
 * @param {Record<string, any>} given attributes; one that begins with `on` is a listener, null and false are left out
 * @param {...(Node|string|null|Array<Node|string|null>)} children
 * @returns {HTMLElementTagNameMap[T]}
 */
export function el(tag, given = {}, ...children) {
  const made = document.createElement(tag);
  for (const [name, value] of Object.entries(given)) {
    if (name.startsWith('on')) made.addEventListener(name.slice(2), value);
    else if (value !== null && value !== false) made.setAttribute(name, value === true ? '' : value);
  }
  made.append(...children.flat().filter((child) => child !== null));
  return made;
}

/** A count with its word. */
export const counted = (number, one, many) => `${number} ${number === 1 ? one : many}`;

/** A table that may scroll sideways by itself; its first column heads the rows. */
export function table(label, heads, rows) {
  const head = el('tr', {}, heads.map((text, place) => (place === 0 ? el('td', {}, text) : el('th', { scope: 'col' }, text))));
  const body = rows.map(([first, ...rest]) => el('tr', {}, el('th', { scope: 'row' }, first), rest.map((cell) => el('td', {}, cell))));
  return el('div', { class: 'wide', role: 'group', tabindex: '0', 'aria-label': `${label}, a table that may scroll sideways` },
    el('table', {}, el('thead', {}, head), el('tbody', {}, body)));
}

/** The things of a list by a key of theirs, in the list's order. */
export function grouped(things, key) {
  const found = new Map();
  for (const thing of things) {
    if (!found.has(key(thing))) found.set(key(thing), []);
    found.get(key(thing)).push(thing);
  }
  return found;
}
