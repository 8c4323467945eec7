/*
 * Takes note of the ElementInternals of a page's custom elements, so that
 * snapshot.js can write as attributes what a component says by them: nobody but
 * the component can ask for them afterwards.
 *
 * It is a whole script, and has to run before those of the page: Playwright's
 * addInitScript, or Page.addScriptToEvaluateOnNewDocument of Chromium's drivers.
 */
(() => {
  'use strict';

  const noted = new WeakMap();
  const attach = HTMLElement.prototype.attachInternals;
  const attachInternals = {
    attachInternals() {
      const internals = attach.call(this);
      noted.set(this, internals);
      return internals;
    },
  }.attachInternals;
  Object.defineProperty(HTMLElement.prototype, 'attachInternals', { value: attachInternals, writable: true, enumerable: true, configurable: true });
  Object.defineProperty(window, Symbol.for('silvervole.internals'), { value: (element) => noted.get(element) });
})();
