'use strict';
(() => {
  let marked = [], kept = null;
  const clear = () => { for (const [it, name] of marked) it.classList.remove(name); marked = []; };
  const mark = (selector, name) => { for (const it of document.querySelectorAll(selector)) { it.classList.add(name); marked.push([it, name]); } };
  const where = (name, value) => '[data-' + name + '="' + CSS.escape(value) + '"]';
  const show = it => {
    clear();
    if (!it) return;
    const about = it.dataset;
    if (about.key) mark(where('key', about.key), 'same-key');
    if (about.key && about.wid) mark(where('key', about.key) + where('wid', about.wid), 'same-write');
    const told = it.closest('[data-edge]');
    if (told) mark(where('edge', told.dataset.edge), 'pointed');
  };
  const at = event => event.target instanceof Element ? event.target.closest('[data-key], [data-edge]') : null;
  document.addEventListener('mouseover', event => show(at(event) || kept));
  document.addEventListener('focusin', event => show(at(event) || kept));
  document.addEventListener('click', event => { const it = at(event); kept = it && it !== kept ? it : null; show(kept); });
  document.addEventListener('keydown', event => { if (event.key === 'Escape') { kept = null; show(null); } });
  const fold = open => { for (const it of document.querySelectorAll('details')) it.open = open; };
  for (const [name, open] of [['unfold', true], ['fold', false]]) {
    const button = document.getElementById(name);
    if (button) button.addEventListener('click', () => fold(open));
  }
  const unfoldTarget = () => {
    const it = location.hash.length > 1 && document.getElementById(decodeURIComponent(location.hash.slice(1)));
    if (!it) return;
    for (let up = it; up; up = up.parentElement) if (up.tagName === 'DETAILS') up.open = true;
    it.scrollIntoView();
  };
  addEventListener('hashchange', unfoldTarget);
  unfoldTarget();
})();
