// Draws the policy in force, and the history: who is in, and the policies that were in force.

import { $, button, counted, data, dim, h, tableHead } from './dom.js';
import { putOf, state } from './store.js';

/** Each `[[rule]]` and `[[group]]` is a block, with its lines' numbers; `edit` changes one. */
export function drawForce(edit) {
  const blocks = [];
  let count = 0;
  state.force.trimEnd().split('\n').forEach((text, n) => {
    if (text.startsWith('[[') || n === 0) blocks.push(h('div', { class: 'block', tabindex: -1 }));
    if (text === '[[rule]]') {
      const at = ++count;
      blocks.at(-1).id = `rule-${at}`;
      blocks.at(-1).append(button('Change…', () => edit(at), `Change rule ${at}`, 'weak'));
    }
    blocks.at(-1).append(h('div', { class: 'line', 'data-n': n + 1 }, text));
  });
  $('force').classList.toggle('many', blocks.length > 100);
  $('force').replaceChildren(...blocks);
  const { by, at } = putOf(state.name);
  const since = by ? `, put in force by ${by}, ${timeOf(at)}` : '';
  const title = 'its name, in the event log and of its kept text';
  const name = count ? [': policy ', h('code', { title }, state.name)] : [];
  $('force-of').replaceChildren(count ? counted(count, 'rule') : 'No rule', ...name, `${since}.`);
}

/** `2026-11-29T10-15-02Z` as a person reads it. */
export function timeOf(moment) {
  const [, day, h, m, s] = /(\d{4}-\d\d-\d\d)T(\d\d)-(\d\d)-(\d\d)Z/.exec(moment);
  return new Date(`${day}T${h}:${m}:${s}Z`).toLocaleString();
}

/** The policies that were in force before, each with who put it in force. */
export function drawBefore(take) {
  const all = (state.puts ?? []).map((it, n) => ({ ...it, next: state.puts[n + 1] }));
  const before = all.filter(({ name, next }) => next || name !== state.name).reverse();
  const line = ({ what, at, name, by, next }) => {
    const until = next ? timeOf(next.at) : 'not known';
    const text = button('Take as the draft', () => take(name), `Take as the draft, until ${until}`);
    const who = what === 'was' ? 'not known' : `${by}, ${timeOf(at)}`;
    const end = next?.what === 'back' ? `${until} (taken back)` : until;
    return h('tr', null, data(end, h('div', null, h('code', null, name))), data(who), data(text));
  };
  const lacks = state.puts ? 'None is kept yet.' : 'The companion that keeps them is down.';
  const none = () => h('tr', null, h('td', { colspan: 3 }, dim(lacks)));
  const rows = before.length ? before.map(line) : none();
  const head = tableHead('in force until', 'put in force by', '');
  $('before-list').replaceChildren(head, h('tbody', null, rows));
}

export function showRule(n) {
  const block = $(`rule-${n}`);
  if (block) $('force-box').open = true;
  block?.classList.add('here');
  block?.scrollIntoView({ block: 'center' });
  block?.focus({ preventScroll: true });
}
