// What the server holds, as it was asked last, and what this browser keeps: the draft, the policy
// on which it began, and the filters; no password. Draws nothing.

import { ask, policyName, review, rows } from './ask.js';
import { byName } from './dom.js';
import { OTHERS, tableFrom } from './decisions.js';

export const kept = {
  get(key, otherwise) {
    try {
      return JSON.parse(localStorage.getItem(`popbox.${key}`)) ?? otherwise;
    } catch {
      return otherwise;
    }
  },
  /** Whether there was room for it. */
  set(key, value) {
    try {
      localStorage.setItem(`popbox.${key}`, JSON.stringify(value));
      return true;
    } catch {
      return false;
    }
  },
};

// Which of the two tables is shown, and the filters; `equal` is null until somebody chooses.
const NO_FILTER = { changed: false, clerks: '', maildrops: '', kind: '' };
export const VIEW = { which: 'force', equal: null, ...NO_FILTER };

export const state = {
  user: '', // who is signed in
  maildrops: [],
  sessions: [],
  clerks: new Map(), // a name's kind: pass, apop, null for no such clerk, '?' if that isn't known
  hasList: false, // whether the server lists its clerks
  force: null, // the policy in force, as popbox writes it
  name: '', // its name
  puts: null, // which policies came into force: { what, at, name, by }
  alone: null, // who may do what by the policy in force
  beside: null, // the same by it and by the draft, over the names of both, and the changes
  noTable: '', // why there is no table
  draft: kept.get('draft', null) || null, // null if there is none
  base: kept.get('base', ''), // the policy on which the draft began, as its author saw it
  review: null, // what popbox says of the draft
  view: { ...VIEW, ...kept.get('view', {}) },
};

export const hasDraft = () => state.draft !== null;
/** Whether another policy came into force since the draft's author looked. */
export const isStale = () => hasDraft() && state.force !== null && state.base !== state.force;

export function setView(view) {
  Object.assign(state.view, view);
  kept.set('view', state.view);
}

/** The names that the server has. */
export function serverNames() {
  return { clerks: existing(), maildrops: state.maildrops.map((it) => it.name) };
}

export const existing = () => {
  return [...state.clerks].filter(([, kind]) => kind).map(([name]) => name).sort(byName);
};

/** Asks for everything, and gives what was refused, or nothing. `drawn` is called once there is a
 *  table, if clerks are to be asked for one by one, which takes a while. */
export async function fetchAll(drawn) {
  const paths = ['/api/policy', '/api/maildrops', '/api/sessions', '/api/clerks', '/policies'];
  const asked = paths.map((path) => ask('GET', path));
  const table = tableOnce(await asked[0]); // what takes longest begins first
  const [policy, maildrops, sessions, clerks, policies] = await Promise.all(asked);
  const refused = [maildrops, sessions, policy].find((answer) => answer.status !== 200);
  if (refused) return refused;
  state.user = policy.user ?? '';
  state.maildrops = rows(maildrops.text).map(([name, n, size]) => ({ name, n: +n, octets: +size }));
  state.maildrops.sort((a, b) => byName(a.name, b.name));
  state.sessions = rows(sessions.text).map(([n, clerk, maildrop]) => ({ n, clerk, maildrop }));
  [state.force, state.name] = [policy.text, await policyName(policy.text)];
  const puts = rows(policies.text).map(([what, at, name, by]) => ({ what, at, name, by }));
  state.puts = policies.status === 200 ? puts : null;
  state.alone = await table;
  if (clerks.status !== 200) drawn();
  await loadClerks(clerks);
  state.alone = state.alone?.of(serverNames()) ?? null;
  return null;
}

/** Who put the policy of this name in force last, and when; nothing if that isn't known. */
export function putOf(name) {
  return state.puts?.findLast((it) => it.name === name && it.what !== 'was') ?? {};
}

/** The table of the policy in force; null if it can't be had. */
async function tableOnce(policy) {
  if (policy.status !== 200) return null;
  const answer = await review('table', '', policy.text);
  state.noTable = answer.status === 200 ? '' : answer.told;
  return answer.status === 200 ? tableFrom(answer.text, serverNames()) : null;
}

/** The clerks of the server's list, of the policy and of sessions. */
async function loadClerks(list) {
  const known = state.clerks.keys();
  state.hasList = list.status === 200;
  state.clerks = new Map(state.hasList ? rows(list.text) : []);
  const inside = state.sessions.map((session) => session.clerk);
  await addClerks([...state.alone?.named ?? [], ...inside, ...(state.hasList ? [] : known)]);
}

/** Adds clerks. Without a list it asks for each by name, which takes a while. */
export async function addClerks(names) {
  const added = new Set(names.filter((name) => name !== OTHERS && !state.clerks.has(name)));
  const kinds = [...added].map(async (name) => {
    return [name, state.hasList ? null : (await kindOf(name)).kind];
  });
  for (const [name, kind] of await Promise.all(kinds)) state.clerks.set(name, kind);
}

/** How a clerk logs in: pass, apop, null for no such clerk, and '?' if that isn't known. */
export async function kindOf(name) {
  const { status, told } = await ask('GET', `/api/clerks/${name}`);
  if (status === 200) return { kind: told };
  return { kind: status === 404 ? null : '?', told };
}

/** The text of what is in force as its author wrote it, with comments, if it is kept. */
export async function textInForce() {
  if (!putOf(state.name).at) return state.force;
  const { status, text } = await ask('GET', `/policies/${state.name}`);
  return status === 200 ? text : state.force;
}
