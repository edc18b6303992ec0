// The draft: its text with the numbers of its lines, and whether it still stands on the policy in
// force. The browser keeps it, and the policy on which it began.

import { diff, merged } from './diff.js';
import { $, agrees, button, folded, on, paragraph, say } from './dom.js';
import { drawLinesOf, faultLine, forgetReview, reviewDraft } from './review.js';
import { askRule, ruleAt, tablesOf } from './rules.js';
import { hasDraft, isStale, kept, putOf, setView, state, textInForce, VIEW } from './store.js';
import { timeOf } from './policy.js';

let timer = 0;
/** The draft is reviewed a moment after the last key. */
export function reviewLater() {
  forgetReview();
  clearTimeout(timer);
  timer = setTimeout(reviewDraft, 700);
}

let keeping = 0;
/** The draft is kept a moment after the last key. */
function setDraft(text) {
  const isNew = !hasDraft();
  if (isNew) state.base = state.force;
  state.draft = text;
  clearTimeout(keeping);
  keeping = setTimeout(keepDraft, 250);
  reviewLater();
  if (isNew || $('draft').value !== text) showDraft();
  else drawGutter(0);
}

export function keepDraft() {
  clearTimeout(keeping);
  keeping = 0;
  const isKept = kept.set('draft', state.draft) && kept.set('base', state.base);
  if (!isKept) say('the draft is too large to be kept over a reload', true);
}

export const isKeeping = () => keeping !== 0;

/** The draft is no more, and the view is of what is in force. */
export function forgetDraft() {
  [state.draft, state.base, state.beside] = [null, null, null];
  setView({ ...VIEW, equal: state.view.equal });
  keepDraft();
  forgetReview();
  showDraft();
}

/** Shows the draft if there is one, and how it stands to what is in force. */
export function showDraft() {
  $('draft-box').hidden = !hasDraft();
  $('two').classList.toggle('alone', !hasDraft());
  $('f-begin').hidden = hasDraft() || state.force === null;
  if ($('draft').value !== (state.draft ?? '')) $('draft').value = state.draft ?? '';
  drawStale();
  drawGutter(0);
}

/** Takes the draft that another tab has kept. */
function takeOther() {
  $('d-other').hidden = true;
  [state.draft, state.base] = [kept.get('draft', null) || null, kept.get('base', '')];
  reviewLater();
  showDraft();
}

/** Whether the text came into the draft. */
export async function replaceDraft(text) {
  const isSame = state.review !== null && state.review.written === state.force;
  const isOther = hasDraft() && !isSame && ![text, state.base].includes(state.draft);
  const body = [paragraph('What the draft says now is lost.')];
  if (isOther && !await agrees('Replace the draft?', body, 'Replace')) return false;
  state.draft = null;
  setDraft(text);
  location.hash = '#policy';
  return true;
}

/** Begins with what is in force, with its author's comments if they are known. */
async function beginDraft() {
  if (!hasDraft()) await replaceDraft(await textInForce());
}

/** Changes rule N of the draft by the form, or adds one if N is 0; may begin a draft. */
export async function editRule(n, begin) {
  const text = hasDraft() ? state.draft : await textInForce();
  const done = await askRule(text, n, begin);
  if (!done) return;
  setDraft(done.text);
  location.hash = '#policy';
  goToRule(done.at);
}

async function discard() {
  const body = [paragraph('What is in force stays.')];
  if (await agrees('Discard the draft?', body, 'Discard')) {
    forgetDraft();
    await reviewDraft();
  }
}

// ---- Two people at once

/** Says that another policy came into force since, and shows both changes. */
function drawStale() {
  $('stale').hidden = !isStale();
  if (!isStale()) return;
  const { by, at } = putOf(state.name), { base, force, draft } = state;
  const who = by ? ` ${by} put it in force, ${timeOf(at)}.` : '';
  const isMerged = merged(base, draft, force) !== null;
  const told = isMerged ? 'They touch different lines.'
    : 'Both change the same lines: take theirs into the draft by hand.';
  const takeBoth = () => {
    const both = merged(base, state.draft, force);
    if (both === null) drawStale();
    else goOn(both);
  };
  $('stale').replaceChildren(
    paragraph(`Another policy is in force than the one on which this draft began.${who}`),
    folded('What came into force meanwhile', () => drawLinesOf(diff(base, force)), true),
    folded('What your draft changes', () => drawLinesOf(diff(base, draft))),
    paragraph(told),
    ...(isMerged ? [button('Take both changes', takeBoth, null, 'strong')] : []),
    ' ',
    button('Keep only my draft, which undoes theirs', () => goOn(state.draft)),
  );
}

/** The draft's author has seen what is in force now. */
function goOn(text) {
  state.base = state.force;
  setDraft(text);
  showDraft();
}

// ---- The text and its lines

let faultAt = 0;
/** The numbers of the lines that are in view: a draft may have thousands. */
export function drawGutter(fault = faultAt) {
  faultAt = fault;
  const area = $('draft'), high = parseFloat(getComputedStyle(area).lineHeight);
  const from = Math.floor(area.scrollTop / high), all = area.value.split('\n').length;
  const count = Math.max(0, Math.min(all - from, Math.ceil(area.clientHeight / high) + 2));
  const line = (n) => (n === fault ? `▶ ${n}` : `${n}`);
  const told = Array.from({ length: count }, (_, n) => line(from + n + 1));
  $('gutter').textContent = told.join('\n');
  $('gutter').scrollTop = area.scrollTop - from * high;
}

function goToLine(line) {
  const area = $('draft'), all = area.value.split('\n');
  const from = all.slice(0, line - 1).reduce((n, it) => n + it.length + 1, 0);
  area.focus();
  area.setSelectionRange(from, from + (all[line - 1] ?? '').length);
  area.scrollTop = Math.max(0, (line - 4) * parseFloat(getComputedStyle(area).lineHeight));
  drawGutter();
  nameRule();
}

export function goToRule(n) {
  const at = tablesOf(state.draft.split('\n'), 'rule')[n - 1];
  if (at) goToLine(at.head + 1);
}

/** The button that changes the rule in which the cursor stands. */
function nameRule() {
  const n = ruleHere();
  $('d-rule').disabled = n === 0;
  $('d-rule').textContent = n ? `Change rule ${n}…` : 'Change a rule…';
}

function ruleHere() {
  const { value, selectionStart } = $('draft');
  return ruleAt(value, value.slice(0, selectionStart).split('\n').length - 1);
}

export function goToFault(fault) {
  const line = faultLine(fault, state.draft);
  drawGutter(line);
  return line ? button(`Go to line ${line}`, () => goToLine(line)) : '';
}

function saveDraft() {
  const url = URL.createObjectURL(new Blob([state.draft], { type: 'application/toml' }));
  Object.assign(document.createElement('a'), { href: url, download: 'policy.toml' }).click();
  setTimeout(() => URL.revokeObjectURL(url), 10_000);
}

async function openFile() {
  const [file] = $('d-file').files;
  if (file) await replaceDraft(await file.text());
  $('d-file').value = '';
}

export function listenToDraft() {
  on('input', { draft: () => setDraft($('draft').value) });
  on('scroll', { draft: () => drawGutter() });
  document.addEventListener('selectionchange', () => {
    if (document.activeElement === $('draft')) nameRule();
  });
  on('change', { 'd-file': openFile });
  on('click', {
    'd-take': beginDraft,
    'd-add': () => editRule(0),
    'd-new': () => editRule(0),
    'd-rule': () => editRule(ruleHere()),
    'd-open': () => $('d-file').click(),
    'd-save': saveDraft,
    'd-discard': discard,
    'd-take-other': takeOther,
  });
}
