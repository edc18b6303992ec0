// Draws who is in, and ends a session.

import { ask, change, rows } from './ask.js';
import { $, agrees, button, data, dim, h, paragraph, rowHead, tableHead, tell } from './dom.js';
import { load } from './load.js';
import { state } from './store.js';

export function drawSessions() {
  const nobody = h('tr', null, h('td', { colspan: 4 }, dim('Nobody is in.')));
  const body = h('tbody', null, state.sessions.length ? state.sessions.map(drawSession) : nobody);
  $('s-list').replaceChildren(tableHead('connection', 'clerk', 'maildrop', ''), body);
}

function drawSession(session) {
  const { n, clerk, maildrop } = session;
  const end = button('End…', () => endSession(session), `End session ${n} of ${clerk}`, 'weak bad');
  return h('tr', null, rowHead(n), data(clerk), data(maildrop), data(end));
}

/** Whether the number still has the same clerk and maildrop; else why nothing is ended. After a
 *  restart of the server its numbers begin at 1 again. */
async function isStill({ n, clerk, maildrop }) {
  const { status, text, told } = await ask('GET', '/api/sessions');
  if (status !== 200) return told;
  const now = rows(text).find(([number]) => number === n);
  if (!now) return 'it has ended already';
  if (now[1] === clerk && now[2] === maildrop) return '';
  return `it isn't ${clerk}'s in ${maildrop} any more, but ${now[1]}'s in ${now[2]}`;
}

async function endSession(session) {
  const { n, clerk, maildrop } = session;
  const body = [paragraph('It removes nothing, and its connection is closed.')];
  if (!await agrees(`End the session of ${clerk} in ${maildrop}?`, body, 'End')) return;
  const other = await isStill(session);
  const answer = other ? { told: `nothing was ended: ${other}` }
    : await change('DELETE', `/api/sessions/${n}`);
  await load();
  tell('s-told', `${n}: ${answer.told}`, answer.status !== 200);
}
