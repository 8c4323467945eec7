/** The picture of a page that somebody sent beside it, and the part of it around an element. */

import { el } from './dom.js';

const PATIENCE = 30_000;
const MARGIN = 40;
const LEAST_WIDTH = 480;
const GREATEST_WIDTH = 800;
const LEAST_HEIGHT = 240;
const GREATEST_HEIGHT = 640;

const path = (site, page, ending) => `shots/${encodeURIComponent(site)}/${encodeURIComponent(page)}.${ending}`;
const isBox = (box) => Array.isArray(box) && box.length === 4 && box.every(Number.isFinite);
const percent = (part, whole) => `${(100 * part) / whole}%`;

/** The picture of a page: its image, its revision and the boxes of its nodes; null where there is none, or none that can be read. */
export async function loadPicture(site, page) {
  try {
    const reply = await fetch(path(site, page, 'json'), { signal: /** @type {any} */ (AbortSignal).timeout(PATIENCE) });
    if (!reply.ok) return null;
    const { rev, boxes } = await reply.json();
    const image = new Image();
    image.src = path(site, page, 'png');
    await image.decode();
    return Number.isInteger(rev) && boxes && image.naturalWidth ? { image, rev, boxes, address: image.src } : null;
  } catch {
    return null;
  }
}

/** Where a part begins and how long it is, in one direction: a box and a margin, within the picture. */
function span(start, length, whole, least, most) {
  const wanted = Math.min(Math.max(length + 2 * MARGIN, least), most, whole);
  const spare = Math.max(wanted - length, 2 * MARGIN);
  return [Math.max(0, Math.min(start - Math.floor(spare / 2), whole - wanted)), wanted];
}

/** Whether some of a box lies in the picture. */
const isIn = (image, [x, y, width, height]) => x < image.naturalWidth && y < image.naturalHeight && x + width > 0 && y + height > 0;

/** The nearest element from a node upwards that lies in the picture, with its box; null for the page as a whole. */
function drawn({ image, boxes }, nodes, number) {
  for (let at = nodes.element(number); at && at.n !== nodes.root && at.tag.toLowerCase() !== 'body'; at = nodes.rows.get(at.p)) {
    const box = boxes[at.n];
    if (isBox(box) && isIn(image, box)) return { row: at, box };
  }
  return null;
}

/** Gives an element its place in a part of the picture, in percent; the page's content policy allows that to scripts alone. */
function placed(element, [left, top, width, height], part) {
  Object.assign(element.style, { left: percent(left - part.left, part.width), top: percent(top - part.top, part.height),
    width: percent(width, part.width), height: percent(height, part.height) });
  return element;
}

/** A part of the picture, with a frame around the box in it. */
function crop(image, alt, part, box) {
  image.alt = alt;
  placed(image, [0, 0, image.naturalWidth, image.naturalHeight], part);
  const made = el('div', { class: 'crop' }, image, box ? placed(el('div', { class: 'mark' }), box, part) : null);
  Object.assign(made.style, { width: `${part.width}px`, aspectRatio: `${part.width} / ${part.height}` });
  return made;
}

/** The part of a picture around a box, or its upper part where there is no box. */
function partAround({ naturalWidth, naturalHeight }, box) {
  if (!box) return { left: 0, top: 0, width: naturalWidth, height: Math.min(naturalHeight, GREATEST_HEIGHT) };
  const [left, width] = span(box[0], box[2], naturalWidth, LEAST_WIDTH, GREATEST_WIDTH);
  const [top, height] = span(box[1], box[3], naturalHeight, LEAST_HEIGHT, GREATEST_HEIGHT);
  return { left, top, width, height };
}

/** What a person has to know of a picture: whose frame it shows, and whether it is of another revision. */
function caption(picture, row, own, isPage, rev) {
  const said = [];
  if (!row) said.push(`${isPage ? '' : 'The element is not drawn. '}This is the upper part of the page.`);
  else if (row.n !== own.n) said.push(`The element itself is not drawn: the frame is around the ${row.tag} that it stands in.`);
  else said.push('The frame is around the element.');
  const age = picture.rev < rev ? 'an older' : 'a newer';
  if (picture.rev !== rev) said.push(`This picture is of ${age} revision, ${picture.rev}: what you judge, of revision ${rev}, may look different.`);
  return said.join(' ');
}

/** The part of a picture around a node, or its upper part for the page as a whole. */
export function pictureOf(picture, nodes, number, rev) {
  const { image } = picture;
  const own = nodes.element(number);
  const { row, box } = drawn(picture, nodes, number) ?? {};
  const alt = row ? `The page around ${row.tag}, node ${row.n}, as it looked` : 'The upper part of the page, as it looked';
  return el('figure', { class: 'shot' }, crop(image, alt, partAround(image, box), box),
    el('figcaption', { class: picture.rev === rev ? null : 'older' },
      caption(picture, row, own, number === nodes.root, rev), ' ', el('a', { href: picture.address }, 'The whole picture')));
}
