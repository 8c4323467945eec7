/** Choices of what a view shows, which stand in the address. */

import { el } from './dom.js';

/** A choice among values, the first of which is all of them. */
export function filter(app, name, label, all, options) {
  const chosen = app.words[name] ?? '';
  return el('div', {}, el('label', { for: name }, label), el('select', { id: name, name },
    el('option', { value: '' }, all), options.map(([value, text]) => el('option', { value, selected: value === chosen }, text))));
}

/** The choices, which count when they are sent: a list that moved on at each arrow key couldn't be walked by keyboard. */
export function choices(app, ...filters) {
  const choose = (event) => { event.preventDefault(); app.go({ ...app.words, ...Object.fromEntries(new FormData(event.target)) }); };
  return el('form', { class: 'choose', 'aria-label': 'What to show', onsubmit: choose },
    filters, el('div', {}, el('button', { type: 'submit', class: 'second' }, 'Show these')));
}
