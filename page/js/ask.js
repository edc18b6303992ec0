// Asks popbox's own routes, below /api, and its two companions: /review says what a policy means,
// and /policies puts one in force and keeps those that were. Draws nothing.

import { pause } from './dom.js';

const PROXY = {
  401: 'no password', 403: 'refused', 413: 'too large', 429: 'too many requests',
  502: 'what is behind it is down', 503: 'too many at once', 504: 'no answer in time',
};

// At most four requests at once: popbox has eight places, for everybody who asks.
let running = 0;
const waiting = [];
async function inTurn(run) {
  while (running >= 4) await new Promise((go) => waiting.push(go));
  running++;
  try {
    return await run();
  } finally {
    running--;
    waiting.shift()?.();
  }
}

/** Asks once. `told` is what the server says, in its own words, or why there is no answer; `user`
 *  is who is signed in. */
async function askOnce(method, path, body, signal) {
  const how = { method, body, headers: { 'X-Popbox-Page': '1' }, cache: 'no-store' };
  how.signal = signal ?? AbortSignal.timeout(200_000);
  try {
    const response = await fetch(path, { ...how, redirect: 'error' });
    const [text, { status, headers }] = [await response.text(), response];
    const isOwn = /^(text\/plain|application\/json)/.test(headers.get('content-type') ?? '');
    const told = isOwn ? text.trim() : `the proxy says ${status}: ${PROXY[status] ?? 'no answer'}`;
    return { status, isOwn, text, told, user: headers.get('x-popbox-user') };
  } catch (error) {
    if (error.name === 'AbortError') throw error;
    return { status: 0, isOwn: false, text: '', told: `no answer (${error.message})` };
  }
}

/** Asks, and asks again while all places are taken, if nothing changes by it. */
export async function ask(method, path, body, signal) {
  const changes = method !== 'GET' && !path.startsWith('/review/');
  for (let wait = 100; ; wait *= 2) {
    const answer = await inTurn(() => askOnce(method, path, body, signal));
    const isBusy = !answer.isOwn && [429, 502, 503].includes(answer.status);
    if (changes || !isBusy || wait > 3200) return answer;
    await pause(wait);
  }
}

/** Asks for a change. One that isn't answered by popbox itself may be done or not. */
export async function change(method, path, body) {
  const answer = await ask(method, path, body);
  const isSure = answer.isOwn || [401, 403, 404, 413, 429, 503].includes(answer.status);
  if (!isSure) answer.told += '; it may be done or not: look';
  return answer;
}

export const octets = (text) => new TextEncoder().encode(text).length;
export const lines = (text) => text.split('\n').filter(Boolean);
export const rows = (text) => lines(text).map((line) => line.split(' '));

/** popbox's review of a policy beside an old one. */
export function review(what, old, text, signal) {
  return ask('POST', `/review/${what}?old=${octets(old)}`, old + text, signal);
}

/** The name of a policy that popbox has written: the first 16 digits of its SHA-256. */
export async function policyName(text) {
  const digest = await crypto.subtle.digest('SHA-256', new TextEncoder().encode(text));
  const first = [...new Uint8Array(digest, 0, 8)];
  return first.map((it) => it.toString(16).padStart(2, '0')).join('');
}
