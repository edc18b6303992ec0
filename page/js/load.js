// Asks the server for everything, and has every view drawn from it.

import { ask } from './ask.js';
import { begin } from './begin.js';
import { drawClerks } from './clerks.js';
import { counted, say } from './dom.js';
import { editRule, replaceDraft, reviewLater, showDraft } from './draft.js';
import { drawTable } from './grid.js';
import { drawMaildrops } from './maildrops.js';
import { drawBefore, drawForce } from './policy.js';
import { drawSessions } from './sessions.js';
import { existing, fetchAll, hasDraft, state } from './store.js';

let loading = Promise.resolve();
/** Asks for everything, after any earlier loading is over. Whether it came. */
export function load() {
  loading = loading.then(loadNow).catch((error) => {
    say(`this page failed: ${error.message}`, true);
    return false;
  });
  return loading;
}

async function loadNow() {
  say('asking …');
  const before = state.force;
  const refused = await fetchAll(drawTable);
  if (refused) {
    say(refused.told, true);
    return false;
  }
  if (state.force !== before && hasDraft()) reviewLater();
  drawForce((n) => editRule(n));
  drawBefore(takeBefore);
  showDraft();
  drawTable();
  begin();
  drawMaildrops();
  drawClerks();
  drawSessions();
  sayCounts();
  return true;
}

async function takeBefore(name) {
  const { status, text, told } = await ask('GET', `/policies/${name}`);
  if (status === 200) await replaceDraft(text);
  else say(told, true);
}

function sayCounts() {
  const all = [[state.maildrops, 'maildrop'], [existing(), 'clerk'], [state.sessions, 'session']];
  const counts = all.map(([it, what]) => counted(it.length, what));
  const who = state.user ? `Signed in as ${state.user}. ` : '';
  say(`${who}${counts.join(', ')}, as of ${new Date().toLocaleTimeString()}`);
}
