// Elements, words and questions that every view draws with. All that comes from a server is shown
// as text, never as HTML.

export const $ = (id) => document.getElementById(id);

/** An element. An attribute of null or false is left out; one that begins with `on` listens. */
export function h(tag, attributes, ...inner) {
  const element = document.createElement(tag);
  for (const [name, value] of Object.entries(attributes ?? {})) {
    if (name.startsWith('on')) element.addEventListener(name.slice(2), value);
    else if (value != null && value !== false) element.setAttribute(name, value);
  }
  element.append(...inner.flat(2).filter((it) => it != null));
  return element;
}

export const paragraph = (...inner) => h('p', null, ...inner);
export const dim = (...inner) => h('p', { class: 'dim' }, ...inner);
export const warning = (...inner) => h('p', { class: 'fault' }, ...inner);
export const rowHead = (...inner) => h('th', { scope: 'row' }, ...inner);
export const data = (...inner) => h('td', null, ...inner);
export const number = (n) => h('td', { class: 'num' }, n.toLocaleString());
export const counted = (n, what) => `${n.toLocaleString()} ${what}${n === 1 ? '' : 's'}`;
export const pause = (ms) => new Promise((go) => setTimeout(go, ms));
/** c2 before c10. */
export const byName = new Intl.Collator('en', { numeric: true }).compare;

/** A button; `label` says more than its text, for a screen reader. */
export function button(text, onclick, label, colour) {
  return h('button', { type: 'button', onclick, 'aria-label': label, class: colour }, text);
}

/** The button that removes a maildrop or a clerk. */
export function removing(what, name, remove) {
  return button('Remove…', () => remove(name), `Remove ${what} ${name}`, 'weak bad');
}

export function tableHead(...names) {
  return h('thead', null, h('tr', null, names.map((name) => h('th', { scope: 'col' }, name))));
}

export function say(text, isBad = false) {
  $('status').textContent = text;
  $('status').classList.toggle('bad', isBad);
}

/** What became of a form, beside it. */
export function tell(id, text, isBad) {
  $(id).textContent = text;
  $(id).className = isBad ? 'fault' : 'good';
}

/** Whether the person agrees. "No" has the focus, and Escape is no. */
export function agrees(title, body, yes) {
  const dialog = $('ask');
  $('ask-title').textContent = title;
  $('ask-body').replaceChildren(...body.filter(Boolean));
  $('ask-yes').textContent = yes;
  dialog.returnValue = 'no';
  dialog.showModal();
  $('ask-no').focus();
  return new Promise((go) => {
    dialog.addEventListener('close', () => go(dialog.returnValue === 'yes'), { once: true });
  });
}

/** Does something with each of many, and lets the browser answer in between. */
export async function slowly(all, run, isDone = () => false) {
  for (let n = 0, began = performance.now(); n < all.length && !isDone(); n++) {
    run(all[n], n);
    if (performance.now() - began > 12) {
      await pause(0);
      began = performance.now();
    }
  }
}

/** Something that opens by a click, and is drawn only then. */
export function folded(title, draw, isOpen = false) {
  const box = h('details', null, h('summary', null, title));
  const fill = () => box.childElementCount === 1 && box.append(...draw());
  box.addEventListener('toggle', () => box.open && fill());
  if (isOpen) fill();
  box.open = isOpen;
  return box;
}

/** Has each element with one of these ids call something when this happens to it. */
export function on(event, calls) {
  for (const [id, call] of Object.entries(calls)) $(id).addEventListener(event, call);
}
