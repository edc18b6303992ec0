// Draws the clerks and the form of a credential, and shows a new password until it is closed.

import { change } from './ask.js';
import { allows, OTHERS } from './decisions.js';
import {
  $, agrees, button, byName, counted, data, dim, h, paragraph, removing, rowHead, tableHead, tell,
} from './dom.js';
import { load } from './load.js';
import { existing, kindOf, state } from './store.js';

const KINDS = { pass: 'password', apop: 'APOP secret', '?': 'not known' };
const NO_LIST = 'The server does not list its clerks (serve --list-clerks): these are the names in '
  + 'the policy and in sessions. A clerk whom neither names is missing.';

export function drawClerks() {
  $('c-of').textContent = state.hasList ? `${counted(existing().length, 'clerk')}.`
    : `${counted(existing().length, 'clerk')}. ${NO_LIST}`;
  const all = [...state.clerks].sort(([a], [b]) => byName(a, b));
  const body = h('tbody', null, all.map(drawClerk));
  $('c-list').replaceChildren(tableHead('name', 'logs in by', 'is in', ''), body);
}

function drawClerk([name, kind]) {
  const maildrops = state.sessions.filter((it) => it.clerk === name).map((it) => it.maildrop);
  const text = { apop: 'New secret', null: 'Add' }[kind] ?? 'New password';
  const what = kind ? 'New credential for' : 'Add';
  const credential = button(text, () => beginClerk(name, kind), `${what} ${name}`, 'weak');
  const remove = kind ? removing('clerk', name, removeClerk) : '';
  const by = h('td', { class: kind ? null : 'down' }, KINDS[kind] ?? 'no such clerk');
  const buttons = h('td', { class: 'buttons' }, credential, ' ', remove);
  return h('tr', null, rowHead(name), by, data(maildrops.join(', ')), buttons);
}

function beginClerk(name, kind) {
  $('c-name').value = name;
  if (kind in KINDS && kind !== '?') $('c-kind').value = kind;
  $('c-secret').focus();
}

// Whether the page made what stands in the field, and nobody typed in it since.
let isMade = false;

export function forgetSecret() {
  $('c-secret').value = '';
  showSecret(false);
}

export function showSecret(isShown) {
  $('c-secret').type = isShown ? 'text' : 'password';
  $('c-show').checked = isShown;
}

/** What popbox refuses in a password is said before it is sent. */
export function checkSecret(event) {
  isMade = !event;
  const [odd] = $('c-secret').value.match(/[^ -~]/u) ?? [];
  const told = odd ? `“${odd}” can't be in a password: it has letters without accents, digits, `
    + 'spaces and the signs of an American keyboard' : '';
  $('c-secret').setCustomValidity(told);
  if (told) tell('c-told', told, true);
  else if ($('c-told').textContent.includes('can\'t be in')) tell('c-told', '', false);
}

export async function putClerk(event) {
  event.preventDefault();
  const [name, secret, way] = [$('c-name').value, $('c-secret').value, $('c-kind').value];
  const { kind, told } = await kindOf(name);
  if (kind === '?') {
    const why = `whether there is such a clerk isn't known: ${told}`;
    tell('c-told', `${name}: nothing was sent, since ${why}`, true);
    return;
  }
  const body = [paragraph('The password or secret that the clerk has now works no more.')];
  if (kind && !await agrees(`Replace the credential of ${name}?`, body, 'Replace')) return;
  const answer = await change('PUT', `/api/clerks/${name}`, `${way} ${secret}`);
  const isDone = [200, 201].includes(answer.status);
  if (isDone) {
    if (isMade || $('c-show').checked) showMade(name, way, secret);
    forgetSecret();
    $('c-name').value = '';
    state.clerks.set(name, way);
  }
  await load();
  tell('c-told', `${name}: ${answer.told}`, !isDone);
}

/** The password that was set, until it is closed, and how the clerk's mail program is set up. */
function showMade(name, way, secret) {
  const copied = h('output', null);
  const copy = button('Copy', async () => {
    const mark = () => getSelection().selectAllChildren($('made-secret'));
    await navigator.clipboard.writeText(secret).catch(mark);
    copied.textContent = ' copied, or marked to be copied';
  });
  const { clerks, maildrops } = state.alone ?? { clerks: [], maildrops: [] };
  const clerk = clerks.indexOf(clerks.includes(name) ? name : OTHERS);
  const opens = (it, m) => it !== OTHERS && allows(state.alone.cell(clerk, m).open);
  const places = maildrops.filter(opens);
  const users = places.map((it) => h('div', null, h('code', null, `${name}/${it}`)));
  if (!users.length) users.push(`No rule lets ${name} open a maildrop yet; as ${name}/orders then`);
  const line = (what, ...told) => h('tr', null, rowHead(what), data(...told));
  const title = h('h3', null, `For ${name}'s mail program`);
  $('made').replaceChildren(
    h('div', { class: 'head' }, title, button('Close', closeMade)),
    h('table', { class: 'plain' }, h('tbody', null,
      line(KINDS[way], h('code', { id: 'made-secret' }, secret), ' ', copy, copied),
      line('user name', users),
      line('server', 'POP3; port 995 if a proxy does TLS, else 1110, or as popbox was started'))),
    dim('The password is shown nowhere again once this is closed.'),
  );
  $('made').hidden = false;
}

export function closeMade() {
  $('made').hidden = true;
  $('made').replaceChildren();
}

async function removeClerk(name) {
  const body = [
    paragraph('A session that the clerk is in goes on: end it under “History”.'),
    paragraph('The policy keeps the name.'),
  ];
  if (!await agrees(`Remove the clerk ${name}?`, body, 'Remove')) return;
  const answer = await change('DELETE', `/api/clerks/${name}`);
  await load();
  tell('c-told', `${name}: ${answer.told}`, answer.status !== 200);
}

/** A password of 20 letters and digits that aren't taken for each other. */
export function makeSecret() {
  const from = 'abcdefghjkmnpqrstuvwxyz23456789';
  const bytes = [...crypto.getRandomValues(new Uint8Array(400))].filter((byte) => byte < 248);
  $('c-secret').value = bytes.slice(0, 20).map((byte) => from[byte % 31]).join('');
  showSecret(true);
  checkSecret();
}
