// Draws the maildrops, the messages of one, and the form that adds one.

import { ask, change, lines, rows } from './ask.js';
import {
  $, agrees, counted, data, folded, h, number, paragraph, removing, rowHead, tableHead, tell,
  warning,
} from './dom.js';
import { load } from './load.js';
import { state } from './store.js';

export function drawMaildrops() {
  const all = state.maildrops;
  const sum = (key) => number(all.reduce((n, it) => n + it[key], 0));
  const count = rowHead(counted(all.length, 'maildrop'));
  $('m-list').replaceChildren(
    tableHead('name', 'messages', 'octets', ''),
    h('tbody', null, all.map(drawMaildrop)),
    h('tfoot', null, h('tr', null, count, sum('n'), sum('octets'), data())),
  );
}

function drawMaildrop({ name, n, octets }) {
  const link = h('a', { href: `#maildrops/${name}` }, name);
  const remove = removing('maildrop', name, removeMaildrop);
  return h('tr', null, rowHead(link), number(n), number(octets), data(remove));
}

export async function addMaildrop(event) {
  event.preventDefault();
  const name = $('m-name').value, answer = await change('PUT', `/api/maildrops/${name}`);
  if (answer.status === 201) $('m-name').value = '';
  await load();
  tell('m-told', `${name}: ${answer.told}`, ![200, 201].includes(answer.status));
}

async function removeMaildrop(name) {
  const body = [paragraph('Only an empty maildrop that nobody has open can be removed.')];
  if (!await agrees(`Remove the maildrop ${name}?`, body, 'Remove')) return;
  const answer = await change('DELETE', `/api/maildrops/${name}`);
  await load();
  tell('m-told', `${name}: ${answer.told}`, answer.status !== 200);
}

/** The messages of a maildrop: how many of each class, and their unique-ids. */
export async function showMaildrop(name) {
  const answer = await ask('GET', `/api/maildrops/${name}`);
  const told = answer.status === 200 ? drawMessages(answer.text) : [warning(answer.told)];
  $('m-one').replaceChildren(h('h3', null, name), ...told);
  $('m-one').focus();
}

function drawMessages(text) {
  const classes = new Map(), all = lines(text);
  for (const [uid, size] of rows(text)) {
    const name = uid.slice(0, uid.lastIndexOf('.'));
    const [n, sum] = classes.get(name) ?? [0, 0];
    classes.set(name, [n + 1, sum + Number(size)]);
  }
  const line = ([name, [n, sum]]) => h('tr', null, rowHead(name), number(n), number(sum));
  const body = h('tbody', null, [...classes].map(line));
  const more = all.length > 2000 ? [`and ${all.length - 2000} more`] : [];
  const some = [...all.slice(0, 2000), ...more].map((it) => h('div', null, it));
  return [
    h('table', null, tableHead('class', 'messages', 'octets'), body),
    folded('unique-ids and octets', () => [h('div', { class: 'code' }, some)]),
  ];
}
