/** Fields for names as the desk takes them. */

import { el } from './dom.js';

const NAME = '[a-z0-9._\\-]{1,64}';
const HINT = 'Small letters, digits, dots, underscores and hyphens, at most 64.';

/** A field for a name, with what a name is. */
export function nameField(id, label, value = '') {
  const hint = `${id}-hint`;
  return el('div', {}, el('label', { for: id }, label),
    el('input', { type: 'text', id, name: id, value, required: true, pattern: NAME, autocomplete: 'off', spellcheck: 'false', autocapitalize: 'none', 'aria-describedby': hint }),
    el('p', { class: 'quiet', id: hint }, HINT));
}

/** A form with one name, and what is done with it. */
export function nameForm(id, label, button, done) {
  const take = (event) => { event.preventDefault(); done(event.target.elements[id].value); };
  return el('form', { class: 'choose named', onsubmit: take }, nameField(id, label), el('div', {}, el('button', { type: 'submit' }, button)));
}
