/*
 * Takes a snapshot of the document it runs in, and returns it as JSON text in
 * the form that the desk's `audit` command reads.
 *
 * This file is one function and nothing else, so that it can be used as it is:
 *
 *   browser console   paste the file, then call  silvervoleSnapshot()
 *   any driver        evaluate  "(" + source + ")(" + JSON.stringify(address) + ")"
 *   Selenium          execute_script("return (" + source + ")(arguments[0])", address)
 *
 * address   optional: the page's address to write, http or https. Without it
 *           the document's own address is written.
 * options   optional, with optional members:
 *   exact   true refuses a page that passes a limit. Otherwise texts and values
 *           that no rule looks at are cut where they pass one.
 *   told    is called with a line for each cut; without it console.warn is.
 *   shadow  true writes the flat tree, as it is shown: open shadow trees below
 *           their hosts, and in the place of a slot what it is given; and as
 *           attributes what scripts say in ElementInternals, of which
 *           internals.js took note. Otherwise shadow trees are left out.
 *   state   a name for the state the page is in, written beside its address.
 *   frame   the number of the frame that the document stands in, written too.
 *   unheard is called with each field whose change event the page won't hear
 *           any more, since the focus left an edit that wasn't committed.
 *   nodes   is called with a list that has, for each row, its node and its
 *           parent's number.
 *
 * Where the page cannot be written in the snapshot form, nothing is returned:
 * an error with a message of one line is thrown. Its name says what kind it is:
 *
 *   SnapshotLimit     the page passes a limit of the form
 *   SnapshotAddress   the address is none that the desk takes
 *   SnapshotBrowser   the browser or the document cannot give what is needed
 *
 * docs/use/collecting.md says what each letter means and what is left out.
 */
function silvervoleSnapshot(address, options) {
  'use strict';

  const LIMITS = { nodes: 10000, depth: 128, attrs: 64, textBytes: 65536, snapshotBytes: 8388608 };
  const given = options || {};
  const exact = Boolean(given.exact);
  const shadow = Boolean(given.shadow);
  const told = given.told || ((line) => console.warn(line));

  const stop = (name, message) => {
    const error = new Error(message);
    error.name = name;
    throw error;
  };
  const limit = (message) => stop('SnapshotLimit', message);

  if (typeof Element.prototype.checkVisibility !== 'function') {
    stop('SnapshotBrowser', 'this browser has no Element.checkVisibility; '
      + 'Chromium 105, Firefox 106 or Safari 17.4 is the oldest that can take a snapshot');
  }

  // A form's controls and a document's images can hide DOM properties by their
  // names (an input named "attributes" hides form.attributes), so every
  // property is read through the prototype that defines it.
  const getter = (type, name) => {
    const get = Object.getOwnPropertyDescriptor(type.prototype, name).get;
    return (object) => get.call(object);
  };
  const method = (type, name) => {
    const call = type.prototype[name];
    return (object, ...given) => call.apply(object, given);
  };
  const nodeType = getter(Node, 'nodeType');
  const firstChild = getter(Node, 'firstChild');
  const nextSibling = getter(Node, 'nextSibling');
  const parentNode = getter(Node, 'parentNode');
  const parentElement = getter(Node, 'parentElement');
  const getRootNode = method(Node, 'getRootNode');
  const characters = getter(CharacterData, 'data');
  const localName = getter(Element, 'localName');
  const namespaceURI = getter(Element, 'namespaceURI');
  const attributes = getter(Element, 'attributes');
  const getAttribute = method(Element, 'getAttribute');
  const hasAttribute = method(Element, 'hasAttribute');
  const hasAttributes = method(Element, 'hasAttributes');
  const closest = method(Element, 'closest');
  const checkVisibility = method(Element, 'checkVisibility');
  const shadowRoot = getter(Element, 'shadowRoot');
  const slotOfElement = getter(Element, 'assignedSlot');
  const slotOfText = getter(Text, 'assignedSlot');
  const assignedNodes = method(HTMLSlotElement, 'assignedNodes');
  const activeIn = getter(ShadowRoot, 'activeElement');
  const isContentEditable = getter(HTMLElement, 'isContentEditable');
  const inputType = getter(HTMLInputElement, 'type');
  const inputChecked = getter(HTMLInputElement, 'checked');
  const inputForm = getter(HTMLInputElement, 'form');
  const focused = getter(Document, 'activeElement');
  const activeElement = () => {
    let active = focused(document);
    // A shadow tree's host stands for what has the focus in it.
    while (active !== null && openTree(active) && activeIn(openTree(active))) active = activeIn(openTree(active));
    return active;
  };
  const documentElement = () => getter(Document, 'documentElement')(document);
  const body = () => getter(Document, 'body')(document);
  const queryAll = (selector) => Document.prototype.querySelectorAll.call(document, selector);
  const matches = method(Element, 'matches');
  const openTree = (element) => (shadow ? shadowRoot(element) : null);
  // What stands above a node in the flat tree, by which styles and inertness come down.
  const hostOf = (tree) => (nodeType(tree) === 11 ? getter(ShadowRoot, 'host')(tree) : null);
  const flatParent = (node) => (nodeType(node) === 1 ? slotOfElement(node) : slotOfText(node))
    || parentElement(node) || hostOf(getRootNode(node));
  const style = (element) => window.getComputedStyle(element);

  // --- Texts and numbers -------------------------------------------------

  // A DOM string may hold half a surrogate pair, which no UTF-8 text can:
  // it becomes U+FFFD, as String.prototype.toWellFormed does it.
  const wellFormed = (text) => text.replace(/[\uD800-\uDBFF][\uDC00-\uDFFF]|[\uD800-\uDFFF]/g,
    (found) => (found.length === 2 ? found : '\uFFFD'));

  const utf8Length = (text) => {
    let bytes = 0;
    for (let i = 0; i < text.length; i += 1) {
      const unit = text.charCodeAt(i);
      // Each half of a pair counts two of the pair's four bytes.
      bytes += unit < 0x80 ? 1 : unit < 0x800 || (unit >= 0xD800 && unit <= 0xDFFF) ? 2 : 3;
    }
    return bytes;
  };
  const grouped = (number) => String(number).replace(/\B(?=(\d{3})+$)/g, ',');
  const refuseLong = (what, bytes) => limit(`${what} has ${grouped(bytes)} bytes; the form allows ${grouped(LIMITS.textBytes)}`);
  const bounded = (text, what) => {
    const good = wellFormed(text);
    const bytes = utf8Length(good);
    if (bytes > LIMITS.textBytes) refuseLong(what(), bytes);
    return good;
  };
  const asciiLower = (text) => text.replace(/[A-Z]/g, (letter) => letter.toLowerCase());
  // Only texts are given to JSON.stringify: a page's own toJSON methods are
  // called for objects and lists alone.
  const quote = (text) => JSON.stringify(text);

  // HTML's rules for parsing integers; null where the attribute does not count.
  const tabIndexOf = (element) => {
    const found = /^[\t\n\f\r ]*([+-]?[0-9]+)/.exec(getAttribute(element, 'tabindex') || '');
    const number = found ? Number(found[1]) : NaN;
    return Math.abs(number) <= 0x7FFFFFFF ? number : null;
  };

  // --- Cuts --------------------------------------------------------------

  // The attributes that rules look at, besides all whose name begins with "aria-".
  const LOOKED_AT = new Set(['alt', 'autocomplete', 'colspan', 'content', 'disabled', 'for', 'headers', 'href',
    'http-equiv', 'id', 'label', 'lang', 'list', 'multiple', 'name', 'placeholder', 'role', 'rowspan', 'scope',
    'selected', 'size', 'title', 'type', 'value', 'xml:lang']);
  const isLookedAt = (folded) => folded.startsWith('aria-') || LOOKED_AT.has(folded);
  // Elements whose text is for programs. No rule looks at it where it isn't
  // rendered, unless it stands in what names another element.
  const UNREAD = new Set(['script', 'style', 'noscript', 'template']);
  // What is left of a text that is cut: enough to tell what it was.
  const FRONT_BYTES = 256;

  // A text or an attribute's value. What no rule looks at is loose, and may be cut.
  const valueOf = (text, loose, what) => {
    const good = wellFormed(text);
    const value = { text: good, bytes: utf8Length(good), loose, what };
    if (value.bytes > LIMITS.textBytes) {
      if (exact || !loose()) refuseLong(what(), value.bytes);
      cut(value);
    }
    return value;
  };
  const cut = (value) => {
    let kept = 0;
    let front = '';
    for (const character of value.text) {
      kept += utf8Length(character);
      if (kept > FRONT_BYTES) break;
      front += character;
    }
    told(`cut: ${value.what()} has ${grouped(value.bytes)} bytes, of which the first ${utf8Length(front)} are kept`);
    value.text = front;
    value.bytes = utf8Length(front);
  };

  // --- The address -------------------------------------------------------

  const writtenAddress = () => {
    const asked = address === undefined || address === null ? window.location.href : String(address);
    let parsed;
    try {
      parsed = new URL(wellFormed(asked));
    } catch (error) {
      stop('SnapshotAddress', `the address ${quote(asked.slice(0, 200))} is no URL`);
    }
    if (parsed.protocol !== 'http:' && parsed.protocol !== 'https:') {
      stop('SnapshotAddress', `the address ${quote(asked.slice(0, 200))} is neither http nor https; give one that is`);
    }
    return bounded(parsed.href, () => 'the address');
  };

  // --- The flat tree -----------------------------------------------------

  const SPACES = { 'http://www.w3.org/1999/xhtml': 'html', 'http://www.w3.org/2000/svg': 'svg' };
  const spaceOf = (element) => SPACES[namespaceURI(element)] || 'other';
  const isHtml = (element, tag) => localName(element) === tag && spaceOf(element) === 'html';

  // The open shadow trees and their numbers: from 1, as their hosts stand, each
  // followed by those within it. And all elements that stand in the document
  // or in such a tree.
  const trees = new Map();
  const elements = [];
  const findTrees = (found) => {
    for (const element of found) {
      elements.push(element);
      const tree = openTree(element);
      if (tree) {
        trees.set(tree, trees.size + 1);
        findTrees(DocumentFragment.prototype.querySelectorAll.call(tree, '*'));
      }
    }
  };
  const treeOf = (node) => trees.get(getRootNode(node)) || 0;

  // A slot is a place and no more where it has no box, and says nothing that
  // rules look at: it has no row, and what stands in it is its parent's.
  const isSlot = (node) => trees.size > 0 && nodeType(node) === 1 && isHtml(node, 'slot') && treeOf(node) > 0;
  const isPlace = (node) => isSlot(node) && /^(contents|none|)$/.test(style(node).display)
    && [...attributes(node)].every(({ name }) => name === 'name' || !isLookedAt(asciiLower(name)));

  const listed = (above) => {
    const kids = [];
    for (let kid = firstChild(above); kid; kid = nextSibling(kid)) kids.push(kid);
    return kids;
  };
  const kidsOf = (element) => {
    const assigned = isSlot(element) ? assignedNodes(element) : [];
    return assigned.length > 0 ? assigned : listed(openTree(element) || element);
  };

  // The place of an element among the elements of its own parent, from 1.
  const placesBelow = new Map();
  const placeOf = (element) => {
    const above = parentNode(element);
    if (!placesBelow.has(above)) {
      placesBelow.set(above, new Map(listed(above).filter((kid) => nodeType(kid) === 1).map((kid, i) => [kid, i + 1])));
    }
    return placesBelow.get(above).get(element);
  };
  // The same, after the places of the slots without a row around it.
  const placesOf = (element) => {
    const places = [placeOf(element)];
    for (let up = parentNode(element); nodeType(up) === 1 && isPlace(up); up = parentNode(up)) places.unshift(placeOf(up));
    return places;
  };

  // --- What scripts say of an element -------------------------------------

  // internals.js takes note of each ElementInternals; nobody else can ask for them.
  const internalsOf = (shadow && window[Symbol.for('silvervole.internals')]) || (() => undefined);
  // Properties that take their elements by reference have names that end so.
  const BY_ELEMENTS = /Elements?$/;
  const attributeOf = (property) => asciiLower(property.replace(BY_ELEMENTS, '').replace('aria', 'aria-'));
  const ariaOf = (type) => Object.getOwnPropertyNames(type.prototype).filter((name) => /^aria[A-Z]/.test(name)).sort()
    .map((property) => ({ name: attributeOf(property), read: getter(type, property), byElements: BY_ELEMENTS.test(property) }));
  const listOf = (value) => (value === null ? [] : Array.isArray(value) ? value : [value]);

  // The attributes of an element that scripts set otherwise than by a text: by
  // name the text, or a list of elements.
  const said = new Map();
  // The elements that others name by reference, and ids for those that have none.
  const named = new Set();
  const made = new Map();
  const say = (element, name, value) => {
    if (!said.has(element)) said.set(element, new Map());
    said.get(element).set(name, value);
    for (const other of Array.isArray(value) ? value : []) {
      named.add(other);
      if (!getAttribute(other, 'id') && !made.has(other)) made.set(other, `@made-${made.size + 1}`);
    }
  };
  const sayInternals = (element, internals, properties) => {
    const role = internals.role;
    if (role && !hasAttribute(element, 'role')) say(element, 'role', role);
    for (const { name, read, byElements } of properties) {
      const value = hasAttribute(element, name) ? null : read(internals);
      if (byElements ? listOf(value).length > 0 : value !== null) say(element, name, byElements ? listOf(value) : value);
    }
    // The labels of an element that is a field of forms by its internals.
    if (['aria-labelledby', 'aria-label'].some((name) => hasAttribute(element, name) || (said.has(element) && said.get(element).has(name)))) return;
    let labels = [];
    try { labels = [...internals.labels]; } catch (error) { /* it is no field */ }
    if (labels.length > 0) say(element, 'aria-labelledby', labels);
  };
  const hear = () => {
    const reflected = ariaOf(Element).filter(({ byElements }) => byElements);
    const properties = ariaOf(ElementInternals);
    for (const element of elements) {
      for (const { name, read } of hasAttributes(element) ? reflected : []) {
        // Set by elements, the attribute is there and empty.
        if (getAttribute(element, name) === '' && listOf(read(element)).length > 0) say(element, name, listOf(read(element)));
      }
      const internals = internalsOf(element);
      if (internals) sayInternals(element, internals, properties);
    }
  };

  // --- Ids -----------------------------------------------------------------

  // Attributes that hold one id, and that hold ids parted by white space.
  const ONE_ID = new Set(['aria-activedescendant', 'commandfor', 'for', 'form', 'interestfor', 'list', 'popovertarget']);
  const IDS = new Set(['aria-actions', 'aria-controls', 'aria-describedby', 'aria-details', 'aria-errormessage', 'aria-flowto',
    'aria-labelledby', 'aria-owns', 'headers', 'itemref']);

  const referenceTarget = (tree) => ('referenceTarget' in ShadowRoot.prototype ? getter(ShadowRoot, 'referenceTarget')(tree) : null);
  const byId = (tree, id) => (tree === document ? Document : DocumentFragment).prototype.getElementById.call(tree, id);
  const marked = (element, id) => (treeOf(element) > 0 ? `${id}@shadow-${treeOf(element)}` : id);
  const writtenId = (element) => {
    const id = getAttribute(element, 'id');
    return id ? marked(element, id) : made.get(element) || '';
  };
  // An id as an element refers by it: where a host hands references on to an
  // element of its shadow tree, to that.
  const reference = (element, id) => {
    const first = byId(getRootNode(element), id);
    let found = first;
    while (found && openTree(found) && referenceTarget(openTree(found))) {
      found = byId(openTree(found), referenceTarget(openTree(found)));
    }
    return found && found !== first ? writtenId(found) : marked(element, id);
  };
  // A link within the page leads to the document's elements, where its own tree has none of that id.
  const fragment = (element, value) => {
    let id = value.slice(1);
    try { id = decodeURIComponent(id); } catch (error) { /* then it stands for itself */ }
    return byId(getRootNode(element), id) ? marked(element, value) : value;
  };
  const writtenValue = (element, folded, value) => {
    if (trees.size === 0 || value === '') return value;
    if (folded === 'id') return marked(element, value);
    if (IDS.has(folded) || (folded === 'for' && localName(element) === 'output')) {
      return value.replace(/[^\t\n\f\r ]+/g, (id) => reference(element, id));
    }
    if (ONE_ID.has(folded)) return reference(element, value);
    if ((folded === 'href' || folded === 'xlink:href') && value.startsWith('#')) return fragment(element, value);
    return value;
  };
  // The attributes to write: those of the DOM, and after them what is said otherwise.
  const writtenAttributes = (element) => {
    if (trees.size === 0 && !said.has(element) && !made.has(element)) return attributes(element);
    const told = new Map(said.get(element));
    if (made.has(element)) told.set('id', made.get(element));
    const written = [...attributes(element)].map(({ name, value }) => ({ name, value: told.has(name) ? null : writtenValue(element, asciiLower(name), value) }));
    const own = new Set(written.map(({ name }) => name));
    for (const name of told.keys()) if (!own.has(name)) written.push({ name, value: null });
    const textOf = (value) => (Array.isArray(value) ? value.map(writtenId).join(' ') : value);
    return written.map(({ name, value }) => ({ name, value: value === null ? textOf(told.get(name)) : value }));
  };

  // --- Rendered and visible ----------------------------------------------

  // Elements of HTML whose own children are fallback content, or are drawn by
  // the control itself: no browser gives these children boxes.
  const HTML_CHILDLESS = new Set(['audio', 'br', 'canvas', 'embed', 'frame', 'iframe', 'img', 'input',
    'meter', 'progress', 'textarea', 'video', 'wbr']);
  // Elements of SVG that are never drawn where they stand. title and desc are
  // not among them: they give their parent's tooltip and its name.
  const SVG_NEVER = new Set(['clipPath', 'defs', 'filter', 'linearGradient', 'marker', 'mask', 'metadata',
    'pattern', 'radialGradient', 'script', 'style', 'symbol']);
  const SVG_WORDS = new Set(['title', 'desc']);
  // Boxes that take no size containment, and so no content-visibility.
  const UNCONTAINED = /^(inline|contents|ruby.*|table|inline-table|table-(?!caption).*)$/;

  const showsContents = (objectElement) => {
    const range = Document.prototype.createRange.call(document);
    range.selectNodeContents(objectElement);
    return range.getClientRects().length > 0;
  };
  // Whether a text that is slotted into an open shadow tree lands in a part
  // that is shown. For elements checkVisibility tells the same.
  const slotShown = (slot, host) => {
    for (let up = slot; up && up !== host; up = flatParent(up)) {
      if (style(up).display === 'none') return false;
    }
    return slot !== null;
  };
  const detailsShow = (details) => hasAttribute(details, 'open')
    || (CSS.supports('selector(::details-content)')
      && window.getComputedStyle(details, '::details-content').contentVisibility === 'visible');

  const summaryOf = (details) => {
    for (let kid = firstChild(details); kid; kid = nextSibling(kid)) {
      if (nodeType(kid) === 1 && localName(kid) === 'summary' && spaceOf(kid) === 'html') return kid;
    }
    return null;
  };

  // What an element means for its children: whether they are drawn at all, and
  // the one child that is drawn although the others are not.
  const childrenOf = (element, ns, tag, rendered, css, within) => {
    const place = { tag, drawn: rendered, only: null, host: null, visible: css.visibility === 'visible',
      inSelect: within.inSelect || (ns === 'html' && tag === 'select'),
      inCanvas: within.inCanvas || (ns === 'html' && tag === 'canvas' && rendered),
      passedOver: within.passedOver || ((openTree(element) || isSlot(element)) && tabIndexOf(element) < 0) };
    if (!rendered) return place;
    if (ns === 'html' && HTML_CHILDLESS.has(tag)) place.drawn = false;
    else if (ns === 'html' && tag === 'object') place.drawn = showsContents(element);
    else if (ns === 'html' && tag === 'details' && !detailsShow(element)) {
      place.drawn = false;
      place.only = summaryOf(element);
    }
    if (css.contentVisibility === 'hidden' && !UNCONTAINED.test(css.display)) {
      place.drawn = false;
      place.only = null;
    }
    if (!shadow && shadowRoot(element)) place.host = element;
    return place;
  };

  const isRendered = (element, ns, tag, css, within) => {
    if (!within.drawn && within.only !== element) return false;
    // No display at all: not slotted, or fallback content.
    if (css.display === 'none' || css.display === '') return false;
    if (ns === 'svg' && SVG_NEVER.has(tag)) return false;
    // The parts of a drop-down list get boxes when it opens.
    if (within.inSelect || (ns === 'svg' && SVG_WORDS.has(tag))) return true;
    // Such an element has no box of its own; its children stand in its place.
    if (css.display === 'contents') return true;
    return checkVisibility(element);
  };

  // --- The walk ----------------------------------------------------------

  // One record for each node: its row without the facts, and what they need.
  const records = [];

  const attrsOf = (element, n, tag) => {
    const list = shadow ? writtenAttributes(element) : attributes(element);
    if (list.length > LIMITS.attrs) {
      limit(`node ${n} (${tag}) has ${list.length} attributes; the form allows ${LIMITS.attrs}`);
    }
    const seen = new Set();
    const pairs = [];
    for (let i = 0; i < list.length; i += 1) {
      const name = bounded(list[i].name, () => `an attribute name of node ${n} (${tag})`);
      const folded = asciiLower(name);
      if (seen.has(folded)) {
        limit(`node ${n} (${tag}) has two attributes named ${quote(folded.slice(0, 200))} when letter case is left aside; the form allows one`);
      }
      seen.add(folded);
      const value = valueOf(list[i].value, () => !isLookedAt(folded),
        () => `the attribute ${quote(name.slice(0, 200))} of node ${n} (${tag})`);
      pairs.push({ name, value });
    }
    return pairs;
  };

  // The ids by which elements are named, gathered where they are first wanted.
  let references = null;
  const isReferredTo = (element) => {
    if (references === null) {
      references = new Set();
      for (const other of shadow ? elements : queryAll('*')) {
        for (const { name, value } of attributes(other)) {
          if (/^aria-(labelledby|owns)$/i.test(name)) {
            value.split(/[\t-\r \x85\xa0\u1680\u2000-\u200a\u2028\u2029\u202f\u205f\u3000]+/).forEach((id) => references.add(id));
          }
        }
      }
      references.delete('');
    }
    return references.has(getAttribute(element, 'id')) || named.has(element) || localName(element) === 'label';
  };
  // Whether no rule looks at a text: it is a program's, isn't rendered, and
  // stands in nothing that names an element, since a name may come from hidden parts.
  const isUnread = (text, tag, rendered) => {
    if (rendered || !UNREAD.has(tag)) return false;
    for (let up = flatParent(text); up; up = flatParent(up)) if (isReferredTo(up)) return false;
    return true;
  };

  // What tells where a row of a shadow tree, or beside one, stands in the DOM:
  // the tree's number, and the places where the rows around don't show them.
  const whereOf = (node, isElement, parent, within) => {
    if (trees.size === 0) return '';
    const tree = treeOf(node);
    const apart = isElement && parent > 0 && (within.mixed || parentNode(node) !== records[parent - 1].node);
    return (tree > 0 ? `,"in":${tree}` : '') + (apart ? `,"at":[${placesOf(node)}]` : '');
  };
  // Rows are mixed where they have one parent, and their nodes may not.
  const visitBelow = (element, n, depth, place, isMixed) => {
    const kids = kidsOf(element);
    place.mixed = isMixed || kids.some(isPlace);
    for (const kid of kids) visit(kid, n, depth, place);
  };

  const visit = (node, parent, depth, within) => {
    const type = nodeType(node);
    // Elements, texts and CDATA sections. Comments, processing instructions
    // and doctypes have no row.
    if (type !== 1 && type !== 3 && type !== 4) return;
    if (isPlace(node)) {
      const css = style(node);
      const place = childrenOf(node, 'html', within.tag, isRendered(node, 'html', 'slot', css, within), css, within);
      visitBelow(node, parent, depth, place, true);
      return;
    }
    const n = records.length + 1;
    if (n > LIMITS.nodes) limit(`the page has more than ${grouped(LIMITS.nodes)} nodes; the form allows no more`);
    if (depth > LIMITS.depth) {
      limit(`node ${n} stands at depth ${depth}, where the root has depth 1; the form allows ${LIMITS.depth}`);
    }
    const row = `{"n":${n},"p":${parent === 0 ? 'null' : parent}${whereOf(node, type === 1, parent, within)}`;
    if (type !== 1) {
      const rendered = within.drawn && (within.host === null || slotShown(slotOfText(node), within.host));
      const text = valueOf(characters(node), () => isUnread(node, within.tag, rendered),
        () => `the text of node ${n}, in node ${parent} (${within.tag}),`);
      records.push({ row, text, node, n, parent, element: false,
        rendered, visible: rendered && within.visible, focusable: false, tabbable: false });
      return;
    }
    const ns = spaceOf(node);
    const tag = localName(node);
    const css = style(node);
    const rendered = isRendered(node, ns, tag, css, within);
    const written = bounded(tag, () => `the tag of node ${n}`);
    const attrs = attrsOf(node, n, written.slice(0, 200));
    records.push({ row: `${row},"ns":"${ns}","tag":${quote(written)}`, attrs, node, n, parent, element: true,
      ns, tag, rendered, visible: rendered && css.visibility === 'visible', ownVisible: css.visibility === 'visible',
      inCanvas: within.inCanvas, passedOver: within.passedOver, focusable: false, tabbable: false });
    visitBelow(node, n, depth + 1, childrenOf(node, ns, tag, rendered, css, within), false);
  };

  // --- Image maps --------------------------------------------------------

  // An area has no box: its shape lies on each image that uses its map, so it
  // is rendered and visible as those images are.
  const placeAreas = () => {
    const isTag = (record, tag) => record.element && record.ns === 'html' && record.tag === tag;
    const areas = records.filter((record) => isTag(record, 'area'));
    if (areas.length === 0) return;
    const maps = records.filter((record) => isTag(record, 'map')).map((record) => record.node);
    const images = records.filter((record) => isTag(record, 'img') && record.rendered);
    const used = images.map((image) => {
      const reference = getAttribute(image.node, 'usemap') || '';
      const key = reference.slice(reference.indexOf('#') + 1);
      if (!reference.includes('#') || key === '') return null;
      return maps.find((map) => getRootNode(map) === getRootNode(image.node)
        && (getAttribute(map, 'id') === key || getAttribute(map, 'name') === key)) || null;
    });
    for (const area of areas) {
      const map = closest(area.node, 'map');
      const shown = images.filter((image, i) => map !== null && used[i] === map);
      area.rendered = shown.length > 0;
      area.visible = area.ownVisible && shown.some((image) => image.visible);
    }
  };

  // --- Focusable ---------------------------------------------------------

  const focusOf = { html: HTMLElement.prototype.focus, svg: SVGElement.prototype.focus,
    other: window.MathMLElement && window.MathMLElement.prototype.focus };
  const blurOf = { html: HTMLElement.prototype.blur, svg: SVGElement.prototype.blur,
    other: window.MathMLElement && window.MathMLElement.prototype.blur };
  const give = (calls, element, options) => {
    const call = calls[spaceOf(element)];
    // An element of another space may still have no such method.
    try { if (call) call.call(element, options); } catch (error) { /* then it takes no focus */ }
  };

  const isFrame = (record) => record.ns === 'html' && (record.tag === 'iframe' || record.tag === 'frame');
  const isInert = (element) => {
    const above = [];
    for (let up = element; up; up = flatParent(up)) above.push(up);
    if (above.some((up) => hasAttribute(up, 'inert'))) return true;
    const modals = records.filter((record) => record.element && record.tag === 'dialog' && matches(record.node, ':modal'));
    return modals.length > 0 && !modals.some((modal) => above.includes(modal.node));
  };

  // For the ring around what has the focus a browser lays out all that stands
  // beside it, which takes most of the time. Leaves the rings out, and returns
  // what brings them back.
  const withoutRings = () => {
    const back = [];
    try {
      const sheet = new CSSStyleSheet();
      sheet.replaceSync('*:focus { outline: none !important }');
      for (const place of [document, ...trees.keys()]) {
        const type = place === document ? Document : ShadowRoot;
        const { get, set } = Object.getOwnPropertyDescriptor(type.prototype, 'adoptedStyleSheets');
        const own = [...get.call(place)];
        set.call(place, [...own, sheet]);
        back.push(() => set.call(place, own));
      }
    } catch (error) { /* then it takes its time */ }
    return () => back.forEach((put) => put());
  };

  // Calls focus() on each element that could take it, from the state in which
  // the page was found, and puts the focus, the selection and with
  // preventScroll the scroll positions back. Listeners of the page hear none
  // of it, except those it set on the window for the capturing phase before.
  const unheard = new Set();
  const probeFocus = () => {
    const first = activeElement();
    // What the document names as active when nothing has the focus.
    const resting = body() || documentElement();
    const selection = window.getSelection();
    const chosen = selection && selection.rangeCount > 0
      ? [selection.anchorNode, selection.anchorOffset, selection.focusNode, selection.focusOffset] : null;
    const sameSelection = () => (chosen === null ? selection.rangeCount === 0
      : selection.rangeCount > 0 && selection.anchorNode === chosen[0] && selection.anchorOffset === chosen[1]
        && selection.focusNode === chosen[2] && selection.focusOffset === chosen[3]);
    const restore = () => {
      const now = activeElement();
      if (now === first) return;
      if (first !== null && first !== resting) give(focusOf, first, { preventScroll: true });
      else if (now !== null) give(blurOf, now);
    };
    const hush = (event) => {
      event.stopImmediatePropagation();
      if (event.type === 'change') unheard.add(event.composedPath()[0]);
    };
    const heard = ['focus', 'blur', 'focusin', 'focusout', 'DOMFocusIn', 'DOMFocusOut', 'change', 'select'];
    // Where the focus moves within one shadow tree, the window hears nothing of it.
    const places = [window, ...trees.keys()];
    for (const name of heard) for (const place of places) place.addEventListener(name, hush, true);
    // Where something has the focus, its ring is seen.
    const bringBack = first === null || first === resting ? withoutRings() : () => undefined;
    try {
      for (const record of records) {
        // Besides what is visible, only the fallback content of a canvas takes
        // focus: it stands for what is drawn on the canvas.
        if (!record.element || !(record.visible || record.inCanvas)) continue;
        const element = record.node;
        if (element === resting || element === documentElement() || isFrame(record)) {
          // Asking a frame would move the focus into another document; the
          // resting element is named as active without having the focus; and
          // asked on the root, some browsers give the focus to the viewport.
          record.focusable = !isInert(element) && (isFrame(record) || tabIndexOf(element) !== null
            || (record.ns === 'html' && isContentEditable(element)));
          continue;
        }
        if (element !== first) give(focusOf, element, { preventScroll: true });
        record.focusable = activeElement() === element;
        restore();
      }
    } finally {
      restore();
      if (selection && !sameSelection()) {
        if (chosen === null) selection.removeAllRanges();
        else selection.setBaseAndExtent(...chosen);
        restore();
      }
      bringBack();
      for (const name of heard) for (const place of places) place.removeEventListener(name, hush, true);
    }
  };

  // --- Tabbable ----------------------------------------------------------

  const NATIVE_STOPS = new Set(['a', 'area', 'audio', 'button', 'embed', 'frame', 'iframe', 'input', 'object',
    'select', 'summary', 'textarea', 'video']);

  // The Tab key takes what can be focused and has no negative tabindex, with
  // three exceptions that browsers make where no tabindex decides: an open
  // dialog takes focus from scripts alone; a scrolling box is a stop only where
  // nothing in it is one; and of a radio group one button is a stop.
  const markStops = () => {
    const groups = new Map();
    for (const record of records) {
      if (record.element && record.ns === 'html' && record.tag === 'input' && inputType(record.node) === 'radio') {
        const name = getAttribute(record.node, 'name') || '';
        // Without a form the buttons of one tree belong together.
        const form = inputForm(record.node) || getRootNode(record.node);
        if (!groups.has(form)) groups.set(form, new Map());
        const byName = groups.get(form);
        // A button without a name is a group of its own.
        record.group = (name !== '' && byName.get(name)) || { first: null, checked: null };
        byName.set(name, record.group);
        if (record.focusable && !(tabIndexOf(record.node) < 0)) {
          record.group.first = record.group.first || record;
          if (inputChecked(record.node)) record.group.checked = record;
        }
      }
    }
    const holdsStop = new Set();
    // From the last row to the first, so that a row's descendants come before it.
    for (let i = records.length - 1; i >= 0; i -= 1) {
      const record = records[i];
      if (record.focusable) {
        const index = tabIndexOf(record.node);
        if (index !== null) record.tabbable = index >= 0;
        else if (record.ns === 'html' && record.tag === 'dialog') record.tabbable = false;
        else if ((record.ns !== 'other' && NATIVE_STOPS.has(record.tag)) || (!shadow && shadowRoot(record.node))
          || (record.ns === 'html' && isContentEditable(record.node))) record.tabbable = true;
        else record.tabbable = !holdsStop.has(record.n);
        // Tab goes into a host and a slot or, with a negative tabindex, past all in it; a slot itself is no stop.
        if (record.passedOver || isSlot(record.node)) record.tabbable = false;
        if (record.tabbable && record.group) {
          record.tabbable = record === (record.group.checked || record.group.first);
        }
      } else if (record.element && record.ns === 'html' && record.tag === 'details' && record.visible
        && summaryOf(record.node) === null && !(tabIndexOf(record.node) < 0) && !isInert(record.node)) {
        // A browser gives details without a summary one of its own, which
        // scripts cannot reach but the Tab key can.
        record.tabbable = true;
      }
      if (record.tabbable || holdsStop.has(record.n)) holdsStop.add(record.parent);
    }
  };

  // --- The text ----------------------------------------------------------

  const url = writtenAddress();
  const root = documentElement();
  if (root === null) stop('SnapshotBrowser', 'the document has no root element');
  if (shadow) {
    findTrees(queryAll('*'));
    hear();
  }
  visit(root, 0, 1, { tag: '', drawn: true, only: null, host: null, visible: true, inSelect: false, inCanvas: false, passedOver: false });
  placeAreas();
  probeFocus();
  markStops();
  const line = (record) => {
    const held = record.element
      ? `"attrs":[${record.attrs.map(({ name, value }) => `[${quote(name)},${quote(value.text)}]`).join(',')}]`
      : `"text":${quote(record.text.text)}`;
    return `${record.row},${held},"f":"${record.rendered ? 'r' : ''}${record.visible ? 'v' : ''}${
      record.focusable ? 'f' : ''}${record.tabbable ? 't' : ''}"}`;
  };
  // One row a line: the row of node n stands on line n + 1.
  const state = given.state === undefined || given.state === null ? ''
    : `,"state":${quote(bounded(String(given.state), () => 'the name of the state'))}`;
  const frame = given.frame === undefined || given.frame === null ? '' : `,"frame":${Number(given.frame)}`;
  const whole = () => `{"url":${quote(url)}${state}${frame},"nodes":[\n${records.map(line).join(',\n')}\n]}\n`;
  const text = whole();
  const bytes = utf8Length(text);
  if (given.unheard) unheard.forEach((field) => given.unheard(field));
  if (given.nodes) given.nodes(records.map(({ node, parent }) => ({ node, parent })));
  if (bytes <= LIMITS.snapshotBytes) return text;

  // --- The whole is too long ----------------------------------------------

  const values = records.flatMap((record) => (record.element ? record.attrs.map((pair) => pair.value) : [record.text]));
  // Of equal length the earlier comes first.
  values.sort((one, other) => other.bytes - one.bytes);
  const written = (value) => utf8Length(quote(value.text));
  let left = bytes;
  for (const value of exact ? [] : values) {
    if (left <= LIMITS.snapshotBytes || value.bytes <= FRONT_BYTES) break;
    if (value.loose()) {
      left -= written(value);
      cut(value);
      left += written(value);
    }
  }
  if (left > LIMITS.snapshotBytes) {
    const longest = values.find((value) => !value.loose());
    limit(`the snapshot has ${grouped(left)} bytes${left < bytes ? ' after all cuts' : ''}; the form allows ${
      grouped(LIMITS.snapshotBytes)}${longest ? `; the longest that a rule looks at: ${longest.what()} with ${grouped(longest.bytes)}` : ''}`);
  }
  return whole();
}
