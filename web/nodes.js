/** What is said of a node to a person who looks for it: from a page's snapshot, whose rows stand in the order of the page. */

import { grouped } from './dom.js';
import { ownersIn } from './owning.js';

const MOST = 240;
const AROUND = 160;
const LINES = 5;
// What is read along with the words around it; all else begins and ends words.
const INLINE = new Set(['a', 'abbr', 'b', 'bdi', 'bdo', 'cite', 'code', 'data', 'del', 'dfn', 'em', 'font', 'i', 'ins', 'kbd', 'mark', 'q', 's',
  'samp', 'small', 'span', 'strong', 'sub', 'sup', 'time', 'tt', 'u', 'var', 'wbr']);
const HEADING = /^h[1-6]$/;
// What the collector adds to the ids of shadow trees, and the ids that it makes: the page itself hasn't those.
const MADE = /@(shadow|made)-/;

const tidy = (text) => text.replace(/\s+/g, ' ').trim();
const shortened = (text, most) => (text.length <= most ? text : `${text.slice(0, most - 1).trimEnd()}…`);
/** The end of a text, so long and of so many lines at most. */
function lastOf(text) {
  const lines = text.split('\n').slice(-LINES).join('\n');
  return lines.length === text.length && text.length <= AROUND ? text : `…${lines.slice(1 - AROUND).trimStart()}`;
}
/** The beginning of a text, so long and of so many lines at most. */
function firstOf(text) {
  const lines = text.split('\n').slice(0, LINES).join('\n');
  return lines.length === text.length && text.length <= AROUND ? text : `${lines.slice(0, AROUND - 1).trimEnd()}…`;
}
const isText = (row) => row.text !== undefined;
const solid = (pieces) => pieces.filter(({ text }) => text.trim());
const isDrawn = (row) => row.f.includes('v');
const tagOf = (row) => row.tag.toLowerCase();
const attribute = (row, name) => row.attrs?.find(([given]) => given.toLowerCase() === name)?.[1];

export class Nodes {
  constructor(snapshot) {
    this.list = snapshot.nodes;
    this.rows = new Map(this.list.map((row) => [row.n, row]));
    this.places = new Map(this.list.map((row, place) => [row.n, place]));
    this.kids = grouped(this.list, (row) => row.p);
    this.root = this.list[0].n;
    this.counts = null;
    this.ownersOf = null;
  }

  /** The element of a node: itself, or the one that a text stands in. */
  element(number) {
    const row = this.rows.get(number);
    return row && isText(row) ? this.rows.get(row.p) : row;
  }

  /** The element's start tag as HTML would write it, long values shortened. */
  startTag(number) {
    const row = this.element(number);
    const attrs = row.attrs.map(([name, value]) => (value === '' ? name : `${name}="${shortened(value, 100).replaceAll('"', '&quot;')}"`));
    return `<${[row.tag, ...attrs].join(' ')}>`;
  }

  /** The value of a node's attribute; undefined where it has none. */
  attribute(number, name) {
    return attribute(this.rows.get(number), name);
  }

  /** The numbers of the elements that own a node by aria-owns, in the order of the page. */
  owners(number) {
    this.ownersOf ??= ownersIn(this);
    return this.ownersOf.get(number) ?? [];
  }

  /** Whether a node is another one, or stands in it. */
  holds(outer, number) {
    const place = this.places.get(number);
    return this.places.get(outer) <= place && place < this.end(outer);
  }

  /** Where in the list the row behind a node and all that is in it stands. */
  end(number) {
    let last = this.rows.get(number);
    for (let kids = this.kids.get(last.n); kids; kids = this.kids.get(last.n)) last = kids[kids.length - 1];
    return this.places.get(last.n) + 1;
  }

  /** The element around a row that begins and ends words. */
  block(row) {
    let up = this.rows.get(row.p);
    while (up && INLINE.has(tagOf(up))) up = this.rows.get(up.p);
    return up;
  }

  /** What a row gives its readers, with the block that it stands in; null where that is nothing. What isn't drawn counts where the whole is wanted. */
  piece(row, isWhole) {
    if (isText(row)) return isWhole || isDrawn(row) ? { text: row.text, block: this.block(row) } : null;
    const alt = tagOf(row) === 'img' ? attribute(row, 'alt') ?? '' : null;
    return alt === null && tagOf(row) !== 'br' ? null : { text: ` ${alt ?? ''} `, block: this.block(row) };
  }

  /** Pieces as one text, with a mark where another block begins. */
  joined(pieces, mark = ' ') {
    return pieces.map(({ text, block }, place) => (place > 0 && pieces[place - 1].block !== block ? mark + text : text)).join('');
  }

  /** The pieces of the rows from one place on, in steps of 1 or -1, until they are long enough or the end is reached. */
  pieces(from, end, most, step = 1, isWhole = false) {
    const found = [];
    let size = 0;
    for (let place = from; place !== end && size <= most; place += step) {
      const piece = this.piece(this.list[place], isWhole);
      if (piece) found.push(piece);
      size += piece ? piece.text.trim().length : 0;
    }
    return step === 1 ? found : found.reverse();
  }

  /** The texts in a node that are drawn, and the alternatives of its images; all its texts where it isn't drawn. Of a long text it is the front. */
  text(number) {
    const row = this.rows.get(number);
    return shortened(tidy(this.joined(this.pieces(this.places.get(number), this.end(number), 4 * MOST, 1, !isDrawn(row)))), MOST);
  }

  /** The text of an element, and what is drawn just before it and just after it; each block of the page is a line. */
  around(number) {
    const row = this.element(number);
    const [start, end] = [this.places.get(row.n), this.end(row.n)];
    const before = this.pieces(start - 1, -1, AROUND, -1);
    const own = this.pieces(start, end, Infinity);
    const after = this.pieces(end, this.list.length, AROUND);
    const ownBlocks = solid(own).length ? solid(own).map(({ block }) => block) : [this.block(row)];
    const breaks = (piece, block) => piece !== undefined && piece.block !== block;
    const [textBefore, textAfter] = [this.lines(before).trimStart(), this.lines(after).trimEnd()];
    return {
      before: breaks(solid(before).pop(), ownBlocks[0]) ? `${lastOf(textBefore.trimEnd())}\n` : lastOf(textBefore),
      own: this.text(row.n),
      after: breaks(solid(after)[0], ownBlocks[ownBlocks.length - 1]) ? `\n${firstOf(textAfter.trimStart())}` : firstOf(textAfter),
    };
  }

  /** Pieces as text, each block a line; spaces at the ends stay, as they part words. */
  lines(pieces) {
    const spaced = pieces.map(({ text, block }) => ({ text: text.replace(/\s+/g, ' '), block }));
    return this.joined(spaced, '\n').replace(/ +/g, ' ').replace(/\s*\n\s*/g, '\n');
  }

  /** The last heading with a text that is drawn before a node; null where there is none. */
  headingAbove(number) {
    for (let place = this.places.get(number) - 1; place >= 0; place -= 1) {
      const row = this.list[place];
      if (this.isHeading(row) && this.text(row.n)) return { tag: row.tag, text: this.text(row.n) };
    }
    return null;
  }

  isHeading(row) {
    if (isText(row) || !isDrawn(row)) return false;
    const role = (attribute(row, 'role') ?? '').trim().toLowerCase();
    return role === 'heading' || (role === '' && row.ns === 'html' && HEADING.test(tagOf(row)));
  }

  /** The text of the first title element; empty where there is none. */
  get title() {
    const title = this.list.find((row) => !isText(row) && row.ns === 'html' && tagOf(row) === 'title');
    return title ? tidy((this.kids.get(title.n) ?? []).map((kid) => kid.text ?? '').join('')) : '';
  }

  /** The images in an element, itself among them: the alternative text, null where there is none, and the address as the page has it. */
  images(number) {
    const row = this.element(number);
    return this.list.slice(this.places.get(row.n), this.end(row.n)).filter((one) => !isText(one))
      .filter((one) => tagOf(one) === 'img' || (tagOf(one) === 'input' && attribute(one, 'type')?.toLowerCase() === 'image'))
      .map((one) => ({ alt: attribute(one, 'alt') ?? null, address: attribute(one, 'src') ?? '' }));
  }

  /** How often each id occurs that the page itself gave. */
  get ids() {
    this.counts ??= grouped(this.list.filter((row) => !isText(row) && this.idOf(row)), (row) => this.idOf(row));
    return this.counts;
  }

  idOf(row) {
    const id = attribute(row, 'id') ?? '';
    return MADE.test(id) ? '' : id;
  }

  /** The id of the nearest element from a node upwards that has one of its own; empty where none has. */
  nearestId(number) {
    for (let at = this.element(number); at; at = this.rows.get(at.p)) {
      const id = this.idOf(at);
      if (id && this.ids.get(id).length === 1) return id;
    }
    return '';
  }

  /** The CSS path of a node's element: steps from the nearest element with an id of its own, or from the root. */
  path(number) {
    const steps = [];
    for (let at = this.element(number); at; at = this.rows.get(at.p)) {
      const id = this.idOf(at);
      if (id && this.ids.get(id).length === 1) return [`#${CSS.escape(id)}`, ...steps].join(' > ');
      steps.unshift(this.step(at));
    }
    return steps.join(' > ');
  }

  /** The selector of an element among the children of its parent. A selector's tag is folded for elements of HTML, and exact for others. */
  step(row) {
    const siblings = (this.kids.get(row.p) ?? []).filter((one) => !isText(one));
    const alike = siblings.filter((one) => tagOf(one) === tagOf(row));
    if (row.ns === 'html' && row.tag !== tagOf(row)) return `*:nth-child(${siblings.indexOf(row) + 1})`;
    if (alike.length === 1) return CSS.escape(row.tag);
    if (alike.every((one) => one.tag === row.tag && one.ns === row.ns)) return `${CSS.escape(row.tag)}:nth-of-type(${alike.indexOf(row) + 1})`;
    return `*:nth-child(${siblings.indexOf(row) + 1})`;
  }

  /** How a target is called: the page as a whole, or its tag. */
  kind(number) {
    return number === this.root ? 'The page as a whole' : this.element(number).tag;
  }
}
