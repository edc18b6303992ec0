// Draws what popbox says of the draft: its fault, or what it changes, as lines and as decisions.

import { lines, review } from './ask.js';
import { diff, nearest } from './diff.js';
import { $, counted, dim, folded, h } from './dom.js';
import { allows, besideOf, OTHERS, shownName, tableFrom } from './decisions.js';
import { goToFault } from './draft.js';
import { drawTable } from './grid.js';
import { tablesOf } from './rules.js';
import { addClerks, hasDraft, isStale, serverNames, state } from './store.js';

let aborter = null;
export function forgetReview() {
  $('draft-of').textContent = 'popbox reviews it …';
  aborter?.abort();
  aborter = new AbortController();
  state.review = state.beside = null;
  $('d-put').disabled = true;
  $('fault').hidden = true;
  $('review').replaceChildren();
}

export async function reviewDraft() {
  forgetReview();
  const { signal } = aborter;
  try {
    if (hasDraft() && state.force === null) noReview('what is in force is not known');
    else if (hasDraft()) await reviewNow(state.draft, state.force, signal);
  } catch (error) {
    if (error.name === 'AbortError') return;
    noReview(error.message);
  }
  drawTable();
}

async function reviewNow(draft, force, signal) {
  const answers = await Promise.all([
    review('written', '', draft, signal),
    review('changes', force, draft, signal),
    review('table', draft, force, signal),
    review('table', force, draft, signal),
  ]);
  const fault = answers.find((answer) => answer.status === 422);
  const refused = answers.find((answer) => answer.status !== 200);
  if (fault) drawFault(fault.told);
  else if (refused) noReview(refused.told);
  if (refused) return;
  const [written, changes, before, after] = answers.map((answer) => answer.text);
  const tables = [before, after].map((text) => tableFrom(text, serverNames()));
  const beside = besideOf(...await Promise.all(tables));
  if (signal.aborted) return;
  state.beside = beside;
  const told = sorted(changes), unnamed = unnamedIn(written, told.given, beside.draft);
  if (unnamed) told.notes.push(unnamed);
  state.review = { draft, force, written, unnamed, ...told };
  drawReview();
  await addClerks(beside.draft.named);
  if (!signal.aborted) drawLacking();
}

/** The lines of a review by what they say. */
function sorted(text) {
  const some = (form) => lines(text).filter((line) => form.test(line));
  return {
    gives: some(/ -> allow /),
    takes: some(/ -> deny /),
    never: some(/ never decides: /),
    notes: some(/^note: /).map((line) => line.slice(6)),
    given: some(/^class /).map((line) => line.slice(6)),
  };
}

/** The classes that rules of a policy name. */
const namedIn = (policy) => [...policy.matchAll(/^class = "([^"*]+)"$/gm)].map(([, name]) => name);

/** Says who may read classes that the sorting gives and no rule names; nothing if nobody may. */
function unnamedIn(policy, given, { classes, told }) {
  const unnamed = given.filter((name) => !namedIn(policy).includes(name));
  const may = ({ open, read }) => allows(open) && allows(read[classes.indexOf(OTHERS)]);
  const clerks = [...new Set(told.cells.filter(may).map((cell) => shownName(cell.clerk)))];
  if (!unnamed.length || !clerks.length) return '';
  return `No rule names what ${clerks.join(', ')} may read: ${unnamed.join(', ')}`;
}

// ---- A fault

/** What popbox says of a fault: its second line, which says what is there and what may be. */
function drawFault(told) {
  const why = /^why: (?:draft, )?(.*)/m.exec(told)?.[1] ?? told;
  const text = why.replace(/^./, (it) => it.toUpperCase());
  $('fault').replaceChildren(text, ' ', goToFault(told));
  $('fault').hidden = false;
  $('draft-of').textContent = 'The draft has a fault, and can\'t be put in force.';
}

/** The line that a fault speaks of: `line 12`, or that of the key of `rule 3`; 0 for none. */
export function faultLine(fault, draft) {
  const line = /, line (\d+): /.exec(fault);
  if (line) return Number(line[1]);
  const [, kind, n] = /\b(rule|group) (\d+)(?: \S+)?: /.exec(fault) ?? [];
  const all = draft.split('\n'), place = tablesOf(all, kind)[n - 1];
  if (!place) return 0;
  const key = /: `(\w+)` /.exec(fault)?.[1];
  const at = all.slice(0, place.end)
    .findIndex((text, m) => m > place.head && text.trimStart().startsWith(`${key} `));
  return (at < 0 ? place.head : at) + 1;
}

function noReview(why) {
  const rest = 'Without it nothing is put in force from here.';
  $('draft-of').textContent = `popbox's review can't be had (${why}). ${rest}`;
}

// ---- What the draft changes

function drawReview() {
  const { gives, takes, never, notes, written, force } = state.review;
  const isSame = written === force, all = [...gives, ...takes];
  $('d-put').disabled = isSame || isStale();
  $('draft-of').textContent = toldOf(isSame, gives.length, takes.length);
  const isFew = all.length <= 40;
  const lines = isSame ? [] : drawLinesOf(diff(force, written));
  $('review').replaceChildren(h('div', { id: 'lacking' }), ...[
    ...section('Who may do what', all.length, () => drawClerks(all, isFew)),
    ...section('Rules that never decide', never.length, () => plain(never), 'never'),
    ...section('Notes', notes.length, () => plain(notes)),
    ...section('Lines', lines.length, () => lines),
  ]);
}

function toldOf(isSame, gives, takes) {
  if (isSame) return 'The draft says what is in force.';
  if (gives + takes === 0) return 'By this draft everybody may do just what they may do now.';
  const told = [[gives, 'allows', 'more'], [takes, 'denies', 'more']].filter(([n]) => n);
  return `The draft ${told.map(([n, verb, more]) => `${verb} ${n.toLocaleString()} ${more}`)
    .join(' and ')} than what is in force.`;
}

const section = (title, count, draw, name) => {
  return count ? [h('h3', { class: name }, title), ...draw()] : [];
};
const plain = (all) => [h('div', { class: 'code wrap' }, firstOf(all, 1000))];

function firstOf(all, most) {
  const some = all.slice(0, most).map((line) => h('div', null, line));
  return all.length > most ? [...some, h('div', null, `and ${all.length - most} more`)] : some;
}

const RULE = '(\\w+) by rule (\\S+)';
const CHANGE = new RegExp(`^(\\S+) (\\S+) (?:(\\S+) )?(open|read|remove): ${RULE} -> ${RULE}$`);

/** The changes as lists by clerk and maildrop, which open one by one. */
function drawClerks(all, isOpen) {
  const by = (key, some) => [...Map.groupBy(some, (it) => it[key])];
  const changes = all.map((line) => CHANGE.exec(line)).filter(Boolean), { draft } = state.beside;
  const placeName = (name) => shownName(name, draft.namedMaildrops, 'maildrop');
  return by(1, changes).map(([clerk, some]) => {
    const drops = by(2, some), named = drops.filter(([name]) => name !== OTHERS).length;
    const drop = ([name, few]) => {
      return folded(summary(placeName(name), few), () => drawDecisions(few), isOpen);
    };
    const where = [...named ? [counted(named, 'maildrop')] : [],
      ...named < drops.length ? [placeName(OTHERS)] : []].join(' and ');
    const title = summary(shownName(clerk, draft.named, 'clerk'), some, where);
    return folded(title, () => drops.map(drop), isOpen);
  });
}

function summary(name, some, where) {
  const gives = some.filter((it) => it[7] === 'allow').length, takes = some.length - gives;
  const told = [gives ? `▲ ${gives} allowed` : null, takes ? `▼ ${takes} denied` : null];
  return `${name}: ${told.filter(Boolean).join(', ')}${where ? `, in ${where}` : ''}`;
}

function drawDecisions(some) {
  const { classes } = state.beside.draft, by = (effect, rule) => {
    if (rule === 'default') return 'denied, as no rule matches';
    return `${effect === 'allow' ? 'allowed' : 'denied'} by ${rule}`;
  };
  const line = ([, , , kind, action, was, old, effect, rule]) => h('tr', null,
    h('td', { class: effect === 'allow' ? 'up' : 'down' }, effect === 'allow' ? '▲' : '▼'),
    h('td', null, kind ? `${action} ${shownName(kind, classes, 'class')}` : action),
    h('td', null, by(effect, rule)), h('td', { class: 'dim' }, `was ${by(was, old)}`));
  return [h('table', { class: 'plain' }, h('tbody', null, some.map(line)))];
}

/** The lines of two texts with their marks; of a long run that is equal, three at each end. */
export function drawLinesOf(all) {
  const near = new Set();
  all.forEach(([mark], n) => {
    if (mark !== ' ') for (let m = n - 3; m <= n + 3; m++) near.add(m);
  });
  const drawn = [];
  let gap = 0;
  all.slice(0, 20_000).forEach(([mark, text, at], n) => {
    if (near.has(n)) {
      if (gap) drawn.push(h('div', { class: 'gap' }, `${counted(gap, 'line')} more`));
      gap = 0;
      const name = { '+': 'added', '-': 'gone', ' ': null }[mark];
      drawn.push(h('div', { class: name, 'data-n': at }, `${mark} ${text}`));
    } else gap++;
  });
  return [h('div', { class: 'code diff', tabindex: 0, role: 'region', 'aria-label': 'Lines' },
    drawn.length ? drawn : dim('no line differs'))];
}

/** The names of the draft that the server or its sorting doesn't have, each with the nearest that
 *  it has. Without a sorting its fault is a note. */
function drawLacking() {
  const { draft } = state.beside, { clerks, maildrops } = serverNames(), told = [];
  const { given, written } = state.review;
  const lacks = (what, all, has, isLacking) => {
    for (const name of all.filter((it) => it !== OTHERS && isLacking(it))) {
      const near = nearest(name, has);
      told.push(`No ${what} ${name}${near ? `; there is ${near}` : ''}`);
    }
  };
  lacks('clerk', draft.named, clerks, (name) => state.clerks.get(name) === null);
  lacks('maildrop', draft.namedMaildrops, maildrops, (name) => !maildrops.includes(name));
  const classes = given.length ? [...new Set(namedIn(written))] : [];
  lacks('class', classes, given, (name) => !given.includes(name));
  if (told.length === 0) return;
  const title = h('h3', null, 'Names that the server or its sorting does not have');
  const list = h('ul', { class: 'fault' }, told.map((it) => h('li', null, it)));
  $('lacking').replaceChildren(title, list);
}
