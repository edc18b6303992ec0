// The administrators' page of popbox: which view is shown, and what is pressed anywhere. The page
// draws what popbox and its companions answer, and decides nothing.

import { openCell, closeCell } from './cell.js';
import { addMaildrop, showMaildrop } from './maildrops.js';
import {
  checkSecret, closeMade, forgetSecret, makeSecret, putClerk, showSecret,
} from './clerks.js';
import { $, on } from './dom.js';
import { drawGutter, goToRule, isKeeping, keepDraft, listenToDraft, showDraft } from './draft.js';
import { drawTable, listenToTable, shown } from './grid.js';
import { load } from './load.js';
import { placeInHash, VIEWS } from './place.js';
import { showRule } from './policy.js';
import { putInForce } from './putting.js';
import { reviewDraft } from './review.js';
import { listenToRule } from './rules.js';
import { hasDraft, setView, state } from './store.js';

function showView() {
  const [view, first, second] = placeInHash();
  const at = VIEWS.includes(view) ? view : 'table';
  for (const it of VIEWS) {
    $(`view-${it}`).hidden = it !== at;
    document.querySelector(`nav a[href="#${it}"]`).ariaCurrent = it === at ? 'page' : null;
  }
  document.title = `popbox: ${$(`view-${at}`).querySelector('h2').textContent}`;
  if (at === 'table') {
    $('cell').hidden = true;
    openCell(shown, true);
  }
  if (at === 'policy') showInPolicy(first, Number(second));
  if (at === 'maildrops' && first) showMaildrop(first);
}

/** Shows rule N of the policy in force, or of the draft. */
function showInPolicy(where, n) {
  document.querySelector('#force .here')?.classList.remove('here');
  drawGutter();
  if (where === 'rule') showRule(n);
  if (where === 'draft' && hasDraft()) goToRule(n);
}

async function reload() {
  if (await load()) await reviewDraft();
}

function showDraftInTable() {
  setView({ which: 'draft', changed: true, clerks: '', maildrops: '', kind: '' });
  drawTable();
  location.hash = '#table';
}

/** Escape closes the cell, `/` leads to the filter, and 1 to 5 to the views. */
function keyAnywhere(event) {
  const isWriting = event.target.matches('input, textarea, select');
  const hasModifier = event.ctrlKey || event.metaKey || event.altKey;
  if ($('ask').open || $('rule').open || hasModifier) return;
  const isTable = !$('view-table').hidden;
  if (event.key === 'Escape' && isTable && !$('cell').hidden) closeCell();
  if (isWriting) return;
  if (VIEWS[event.key - 1]) location.hash = `#${VIEWS[event.key - 1]}`;
  if (event.key === '/' && isTable) {
    event.preventDefault();
    $('f-clerks').focus();
  }
}

function listenToBrowser() {
  addEventListener('hashchange', showView);
  addEventListener('keydown', keyAnywhere);
  addEventListener('pagehide', () => {
    if (isKeeping()) keepDraft();
    forgetSecret();
    closeMade();
  });
  addEventListener('storage', ({ key }) => {
    if (key === 'popbox.draft') $('d-other').hidden = false;
  });
  document.addEventListener('visibilitychange', () => {
    if (!document.hidden && state.force !== null) load();
  });
}

listenToTable();
listenToDraft();
listenToRule();
listenToBrowser();
on('submit', { 'm-form': addMaildrop, 'c-form': putClerk });
on('change', { 'c-show': () => showSecret($('c-show').checked) });
on('input', { 'c-secret': checkSecret });
on('click', { reload, 'c-make': makeSecret, 'd-table': showDraftInTable, 'd-put': putInForce });
showView();
showDraft();
reload().then(showView);
