/** The members of a site and their roles, which its owners set. */

import * as desk from './desk.js';
import { el, table } from './dom.js';
import { nameField } from './naming.js';

const ROLES = [['reader', 'Reader: looks at everything'], ['judge', 'Judge: judges what waits for a person'],
  ['editor', 'Editor: puts, edits and takes away pages'], ['owner', 'Owner: does all of it, and sets roles'],
  ['none', 'None: is no member any more']];
const WORDS = { reader: 'reader', judge: 'judge', editor: 'editor', owner: 'owner' };

/** The role of a person among members; undefined for a stranger. */
export const roleOf = (members, caller) => members.find(({ member }) => member === caller)?.role;

/** Whether a role is one of some; what else is needed is said in place of a form. */
export const mayOr = (role, roles, form, needed) => (roles.includes(role) ? form()
  : el('p', { class: 'card' }, `You can look at this, and not change it: that takes ${desk.roleNamed(needed)}.`));

/** What became of a member, as a sentence. */
const doneWords = ({ member, role }) => (role === 'none' ? `${member} is no member any more.` : `${member} is ${desk.roleNamed(role)} now.`);

/** A form for somebody's role. */
class Setting {
  constructor(app, site, done) {
    this.app = app;
    this.site = site;
    this.done = done;
    this.isSending = false;
    this.told = el('div', { role: 'alert' });
  }

  form() {
    const { words: { member = '' } } = this.app;
    const send = (event) => { event.preventDefault(); this.send(new FormData(event.target)); };
    return el('form', { 'aria-label': 'Set a role', class: 'choose', onsubmit: send }, nameField('member', 'Person', member),
      el('div', {}, el('label', { for: 'role' }, 'Role'), el('select', { id: 'role', name: 'role' },
        ROLES.map(([role, text]) => el('option', { value: role }, text)))),
      el('div', {}, el('button', { type: 'submit' }, 'Set the role')), this.told);
  }

  async send(data) {
    if (this.isSending) return;
    this.told.replaceChildren();
    this.isSending = true;
    this.app.say('Sending the role…');
    try {
      await this.done(await desk.putMember(this.site, data.get('member'), data.get('role')));
    } catch (error) {
      this.told.replaceChildren(el('div', { class: 'told' }, el('p', {}, `${desk.told(error)} Nothing was changed.`)));
      this.app.say('');
    }
    this.isSending = false;
  }
}

/** The members in a table; for an owner with a way to each one's role. */
function list(app, site, members, mine) {
  const change = (member) => (mine === 'owner' && member !== desk.session.caller
    ? app.link({ site, show: 'members', member }, `Change the role of ${member}`) : '');
  return table('Members with their roles', ['Person', 'Role', ...(mine === 'owner' ? ['Change'] : [])],
    members.map(({ member, role }) => [el('bdi', {}, member), WORDS[role] ?? role, ...(mine === 'owner' ? [change(member)] : [])]));
}

/** Shows a site's members. */
export async function showMembers(app, site, current) {
  const members = await desk.members(site);
  if (!current()) return;
  const mine = roleOf(members, desk.session.caller);
  const held = el('div', {}, list(app, site, members, mine));
  const again = async (said) => {
    const now = await desk.members(site);
    held.replaceChildren(list(app, site, now, roleOf(now, desk.session.caller)));
    app.say(`The desk has it: ${doneWords(said)}`);
  };
  app.put(`Members of ${site}`,
    el('section', { 'aria-labelledby': 'members' }, el('h2', { id: 'members' }, 'Who may do what'), held),
    el('section', { 'aria-labelledby': 'change' }, el('h2', { id: 'change' }, 'Set a role'),
      el('p', {}, 'A person who is no member yet becomes one. Nobody sets the own role: another owner does.'),
      mayOr(mine, ['owner'], () => new Setting(app, site, again).form(), 'owner')),
    el('p', {}, app.link({ site }, `All pages of ${site}`)));
}
