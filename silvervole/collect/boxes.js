/*
 * Measures where each node of a snapshot is drawn, for pictures of findings.
 *
 * Takes the list that snapshot.js gives to its option `nodes`. Returns the width
 * and the height of the whole page in CSS pixels, and by the number of each row
 * its box [x, y, width, height], from the page's upper left corner. A node that
 * isn't drawn has no box.
 */
function silvervoleBoxes(rows) {
  'use strict';

  // Read through prototypes: a page's images and fields may hide a property by their names.
  const getter = (type, name) => {
    const get = Object.getOwnPropertyDescriptor(type.prototype, name).get;
    return (object) => get.call(object);
  };
  const nodeType = getter(Node, 'nodeType');
  const localName = getter(Element, 'localName');
  const getAttribute = (element, name) => Element.prototype.getAttribute.call(element, name);
  const getRootNode = (node) => Node.prototype.getRootNode.call(node);
  const range = Document.prototype.createRange.call(document);

  const placed = ({ left, top, right, bottom }) => {
    const x = Math.floor(left + window.scrollX);
    const y = Math.floor(top + window.scrollY);
    return [x, y, Math.ceil(right + window.scrollX) - x, Math.ceil(bottom + window.scrollY) - y];
  };
  const around = (all) => {
    if (all.length === 0) return null;
    const left = Math.min(...all.map((box) => box[0]));
    const top = Math.min(...all.map((box) => box[1]));
    return [left, top, Math.max(...all.map((box) => box[0] + box[2])) - left,
      Math.max(...all.map((box) => box[1] + box[3])) - top];
  };

  const root = rows[0].node;
  const images = rows.map(({ node }) => node)
    .filter((node) => nodeType(node) === 1 && localName(node) === 'img' && getAttribute(node, 'usemap'));

  // The shape of an area lies on the image that uses its map.
  const areaBox = (area) => {
    const map = Element.prototype.closest.call(area, 'map');
    const name = map && (getAttribute(map, 'name') || getAttribute(map, 'id'));
    const image = name && images.find((one) => getAttribute(one, 'usemap') === `#${name}` && getRootNode(one) === getRootNode(map));
    if (!image) return null;
    const [left, top, width, height] = placed(image.getBoundingClientRect());
    const at = (getAttribute(area, 'coords') || '').split(',').map(Number);
    const shape = (getAttribute(area, 'shape') || 'rect').toLowerCase();
    if (at.some(Number.isNaN) || at.length < 3) return [left, top, width, height];
    if (shape.startsWith('circ')) return [left + at[0] - at[2], top + at[1] - at[2], 2 * at[2], 2 * at[2]];
    const across = at.filter((value, place) => place % 2 === 0);
    const down = at.filter((value, place) => place % 2 === 1);
    return [left + Math.min(...across), top + Math.min(...down),
      Math.max(...across) - Math.min(...across), Math.max(...down) - Math.min(...down)];
  };

  const ownBox = (node) => {
    if (nodeType(node) === 1 && localName(node) === 'area') return areaBox(node);
    if (nodeType(node) === 1) return placed(Element.prototype.getBoundingClientRect.call(node));
    range.selectNodeContents(node);
    return placed(range.getBoundingClientRect());
  };

  const boxes = {};
  const below = rows.map(() => []);
  // From the last row to the first, so that what stands below a row comes before it.
  for (let n = rows.length; n > 0; n -= 1) {
    const { node, parent } = rows[n - 1];
    let box = ownBox(node);
    // An element with display: contents is drawn as its children are.
    if (box === null || box[2] <= 0 || box[3] <= 0) box = around(below[n - 1]);
    if (box !== null) {
      boxes[n] = box;
      if (parent > 0) below[parent - 1].push(box);
    }
  }
  return { width: root.scrollWidth, height: Math.max(root.scrollHeight, root.clientHeight), boxes };
}
