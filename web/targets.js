/** What is said of one outcome: where it is, what it rests on, what it means, and who judged it. */

import { el } from './dom.js';

/** The outcome's place among those of a page, as a word of the address. */
export const placeOf = (outcome) => `${outcome.rule}-${outcome.node}`;

/** Whether it is a composite's, which follows from those of other rules. */
export const isMerged = (outcome) => outcome.reason === 'merged';

/** Whether a person may judge it: the rule itself can't tell, and it is no merge of others. */
export const isForPeople = (outcome) => outcome.automatic === 'cantTell' && !isMerged(outcome);

/** Whether it waits for a person. */
export const isOpen = (outcome) => isForPeople(outcome) && outcome.by === '';

const fact = (name, ...value) => el('div', {}, el('dt', {}, name), el('dd', {}, ...value));
const quiet = (text) => el('span', { class: 'quiet' }, text);
const code = (text) => el('code', {}, text);
const quote = (text) => (text ? el('bdi', {}, text) : quiet('none'));
const outside = (href, text) => el('a', { href, rel: 'noreferrer' }, text);

/** An address as a link where it is one of the web, by the page's own; else as it stands. */
function addressLink(address, base) {
  const full = /** @type {any} */ (URL).canParse(address, base) ? new URL(address, base) : null;
  return full && /^https?:$/.test(full.protocol) ? outside(full.href, address) : code(address || 'none');
}

/** An image's alternative text, or that it has none. */
function altOf(alt) {
  if (alt) return el('bdi', {}, `“${alt}”`);
  return quiet(alt === null ? 'no alternative text' : 'an empty alternative text');
}

/** Each image's alternative text beside its address; of many the first few. */
function imageFacts({ nodes, address }, number, most) {
  const images = nodes.images(number);
  const rows = images.slice(0, most).map((image) => fact('Image', altOf(image.alt), ' ', addressLink(image.address, address)));
  return images.length > most && most > 0 ? [...rows, fact('Images', `${images.length - most} more`)] : rows;
}

function headingFact(nodes, number) {
  const heading = nodes.headingAbove(number);
  return fact('Heading above', heading ? [quote(heading.text), ' ', quiet(heading.tag)] : quiet('none'));
}

const MOST_OWNERS = 3;

/** Each element that owns a node by aria-owns; of many the first few. */
function ownerFacts(nodes, number) {
  const owners = nodes.owners(number);
  const rows = owners.slice(0, MOST_OWNERS).map((owner) => fact('Owned by', code(nodes.startTag(owner)), ' ', quiet(`node ${owner}`)));
  return owners.length > MOST_OWNERS ? [...rows, fact('Owned by', `${owners.length - MOST_OWNERS} more`)] : rows;
}

/** The element and the evidence of an outcome. */
export function facts(page, outcome) {
  const { nodes } = page;
  const isPage = outcome.node === nodes.root;
  const isImage = /^(img|input)$/i.test(nodes.element(outcome.node).tag);
  if (isPage) return el('dl', {}, fact('Start tag', code(nodes.startTag(outcome.node))), evidenceFacts(outcome));
  return el('dl', {}, headingFact(nodes, outcome.node), fact('Start tag', code(nodes.startTag(outcome.node))),
    fact('Text', quote(nodes.text(outcome.node))), isImage ? imageFacts(page, outcome.node, 1) : [], evidenceFacts(outcome),
    fact('CSS path', code(nodes.path(outcome.node))), ownerFacts(nodes, outcome.node));
}

/** What the rule rests on, and who judged it. */
function evidenceFacts({ evidence, by }) {
  const shown = evidence.trim() ? el('pre', {}, evidence) : quiet(evidence ? 'blank' : 'none');
  return [fact('Evidence', shown), ...(by ? [fact('Judged by', el('bdi', {}, by))] : [])];
}

/** What stands before and after an element, with its own text between them; where that is empty, its start tag. */
function inPlace(nodes, number) {
  const { before, own, after } = nodes.around(number);
  return el('div', { class: 'place' }, el('dt', {}, 'In its place'),
    el('dd', {}, el('bdi', {}, before), el('mark', {}, own || code(nodes.startTag(number))), el('bdi', {}, after)));
}

/** A link to the page, to the place of the node where an id leads near it. */
function pageLink({ nodes, address }, number) {
  const to = new URL(address);
  const id = nodes.nearestId(number);
  if (id) to.hash = id;
  return outside(to.href, id ? `The page, near this place (#${id})` : 'The page');
}

const MOST_IMAGES = 3;

/** All that a person who judges sees of an outcome: its place in the page beside the element and the evidence. */
export function closeFacts(page, outcome) {
  const { nodes } = page;
  const { node } = outcome;
  const isPage = node === nodes.root;
  return el('dl', {}, isPage ? [] : [headingFact(nodes, node), inPlace(nodes, node)],
    evidenceFacts(outcome), fact('Start tag', code(nodes.startTag(node))),
    isPage ? [] : [...imageFacts(page, node, MOST_IMAGES), fact('CSS path', code(nodes.path(node))), ...ownerFacts(nodes, node)], fact('Link', pageLink(page, node)));
}

/** What a reason means, and what to do. */
export function adviceOf(rules, outcome) {
  const advice = rules.advice(outcome);
  if (!advice) return outcome.reason === 'ok' ? null : el('p', { class: 'means' }, 'The reason is ', code(outcome.reason), '.');
  if (outcome.automatic === 'passed') return el('p', { class: 'means' }, advice.means);
  return el('dl', { class: 'advice' }, el('div', {}, el('dt', {}, 'What it means'), el('dd', {}, advice.means)),
    el('div', {}, el('dt', {}, outcome.automatic === 'cantTell' ? 'What to do' : 'What usually mends it'), el('dd', {}, advice.mends)));
}

/** The rule's published page and its criteria. */
export function ruleMeta(rules, id) {
  const rule = rules.rule(id);
  const criteria = rules.criteria.filter(({ number }) => rule.criteria.includes(number));
  return el('p', { class: 'meta' }, outside(rules.link(id), `ACT rule ${id}`),
    criteria.map((one) => el('a', { class: 'criterion', href: rules.criterionLink(one), rel: 'noreferrer' }, `WCAG 2.2, ${one.number} ${one.name} (level ${one.level})`)));
}
