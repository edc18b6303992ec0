// Draws the table of who may do what, its filters and what is said above it.

import { openCell } from './cell.js';
import { NO_CHANGE, OTHERS, besideOf, glance, shownName, words } from './decisions.js';
import { $, counted, h, slowly } from './dom.js';
import { setView, state } from './store.js';

/** What of the table is shown: the two tables, which of them, the columns, the rows' groups of
 *  clerks, and the draft's change of each cell; `whole` has all classes. */
export let shown = null;

const noChange = () => NO_CHANGE;

/** The tables of the class that is chosen. */
function narrowed({ force, draft, change }) {
  const kind = force.classes.indexOf(state.view.kind);
  if (kind < 0) return { force, draft, change };
  if (!draft) return { force: force.about(kind), change: noChange };
  return besideOf(force.about(kind), draft.about(kind));
}

function chosen() {
  const whole = state.beside ?? { force: state.alone, change: noChange };
  const { force, draft, change } = narrowed(whole), { view } = state;
  const isEqual = view.equal ?? force.clerks.length > 40;
  const isDraft = draft && view.which === 'draft';
  const changes = draft ? changedCells(force, change) : 0, isChanged = changes && view.changed;
  const places = placesOf(force, isChanged ? change : null);
  const groups = isEqual ? equalOnes(places.clerks, force, draft) : places.clerks.map((c) => [c]);
  const table = isDraft ? draft : force, columns = places.maildrops;
  return { whole, force, draft, table, isDraft, isEqual, changes, columns, groups, change };
}

/** In how many cells the draft gives or takes something. */
function changedCells({ clerks, maildrops }, change) {
  const all = clerks.flatMap((_, c) => maildrops.map((_, m) => change(c, m)));
  return all.filter((it) => it.gives || it.takes).length;
}

/** The places of the clerks and maildrops that the filters let through. */
function placesOf({ clerks, maildrops }, change) {
  const { view } = state;
  const differs = (c, m) => change(c, m).gives || change(c, m).takes;
  let rows = fitting(clerks, view.clerks), columns = fitting(maildrops, view.maildrops);
  if (change) {
    rows = rows.filter((c) => columns.some((m) => differs(c, m)));
    columns = columns.filter((m) => rows.some((c) => differs(c, m)));
  }
  return { clerks: rows, maildrops: columns };
}

/** The places of the names that have this part. */
function fitting(names, part) {
  const wanted = part.trim().toLowerCase();
  return [...names.keys()].filter((n) => names[n].includes(wanted));
}

/** Clerks who may do the same everywhere, by the draft too, are one group. */
function equalOnes(clerks, ...tables) {
  const groups = new Map();
  for (const c of clerks) {
    const key = tables.map((table) => table?.row(c)).join();
    groups.set(key, [...(groups.get(key) ?? []), c]);
  }
  return [...groups.values()];
}

let drawing = 0;
/** Draws the table, row by row, so that a key that is pressed meanwhile is answered. */
export async function drawTable() {
  const mine = ++drawing;
  if (!state.alone) {
    $('grid').replaceChildren();
    const why = `popbox's review can't be had (${state.noTable})`;
    $('table-of').textContent = `There is no table: ${why}.`;
    return;
  }
  const focused = focusedNames();
  shown = chosen();
  const { columns, groups, table } = shown, body = h('tbody', { role: 'rowgroup' });
  shown.isRoomy = columns.length <= 6 && groups.length <= 40 && table.classes.length <= 8;
  $('grid').classList.toggle('many', columns.length > 8);
  $('grid').style.setProperty('--columns', columns.length);
  $('grid').classList.toggle('roomy', shown.isRoomy);
  $('legend').hidden = shown.isRoomy;
  $('grid').replaceChildren(drawColumns(), body);
  $('table-of').replaceChildren(...toldOfTable());
  drawFilters();
  await slowly(groups, (group, n) => {
    body.append(drawRow(group));
    if (n === 0) makeReachable(body.querySelector('td'));
  }, () => mine !== drawing);
  if (mine !== drawing) return;
  openCell(shown, false);
  if (focused) focusCell(...focused);
}

/** The clerk and the maildrop of the cell that has the focus. */
function focusedNames() {
  const td = document.activeElement.closest('#grid td[data-c]');
  return td && namesOf(...placeOf(td));
}

function focusCell(clerk, maildrop) {
  const td = cellAt(shown.force.clerks.indexOf(clerk), shown.force.maildrops.indexOf(maildrop));
  makeReachable(td);
  td?.focus();
}

function drawFilters() {
  const { view } = state, { whole, draft, isDraft, isEqual, changes } = shown;
  const kinds = whole.force.classes.map((name) => h('option', { value: name }, shownName(name)));
  $('f-kind').replaceChildren(h('option', { value: '' }, 'all'), ...kinds);
  $('f-kind').value = whole.force.classes.includes(view.kind) ? view.kind : '';
  $('f-clerks').value = view.clerks;
  $('f-maildrops').value = view.maildrops;
  $('f-equal').checked = isEqual;
  $('f-changed').checked = view.changed;
  $('f-changed').disabled = !changes;
  $('f-which').value = isDraft ? 'draft' : 'force';
  $('of-draft').hidden = !draft;
}

/** What the table shows, and of what it shows only a part. */
function toldOfTable() {
  const { force, draft, isDraft, groups, columns, changes } = shown;
  const clerks = groups.flat(), isAll = clerks.length === force.clerks.length;
  const isWhole = isAll && columns.length === force.maildrops.length;
  const isSame = draft && state.review?.written === state.force;
  const by = isDraft ? 'By the draft, which is not in force.' : 'By the policy in force.';
  const told = [isSame ? 'The draft says what is in force.' : by];
  const all = (force.clerks.length * force.maildrops.length).toLocaleString();
  if (changes) told.push(` The draft changes ${counted(changes, 'cell')} of ${all}.`);
  else if (draft && !isSame) told.push(' The draft changes nothing of this.');
  told.push(` ${countedNames(clerks.map((c) => force.clerks[c]), 'clerk')} and `);
  told.push(`${countedNames(columns.map((m) => force.maildrops[m]), 'maildrop')}.`);
  if (!isWhole) told.push(' The filters hide the rest.');
  const labels = [...clerks.map((c) => clerkLabel(force.clerks[c])),
    ...columns.map((m) => maildropLabel(force.maildrops[m]))];
  const lacks = labels.some(([text]) => text.endsWith(' *'));
  if (lacks) told.push(' A * marks a name that the server does not have.');
  if (!draft) told.push(' A click at a cell shows why.');
  return told;
}

function countedNames(names, what) {
  return counted(names.filter((name) => name !== OTHERS).length, what);
}

const clerkLabel = (name) => label(name, state.clerks.get(name) !== null);
const maildropLabel = (name) => label(name, state.maildrops.some((it) => it.name === name));

/** A name of the table as it is shown, and what it means. */
function label(name, has) {
  if (name === OTHERS) return [shownName(name), 'each name that neither a rule nor the server has'];
  return has ? [name, name] : [`${name} *`, 'the server does not have it'];
}

function drawColumns() {
  const head = (text, title) => h('th', { scope: 'col', role: 'columnheader', title }, text);
  const heads = shown.columns.map((m) => head(...maildropLabel(shown.force.maildrops[m])));
  return h('thead', { role: 'rowgroup' }, h('tr', { role: 'row' }, head('clerk'), heads));
}

function drawRow(group) {
  const labels = group.map((c) => clerkLabel(shown.force.clerks[c]));
  const names = labels.map(([text]) => text).join(', ');
  const few = `${labels[0][0]}, ${labels[1]?.[0]} and ${group.length - 2} more`;
  const title = group.length > 1 ? names : labels[0][1];
  const head = h('th', { scope: 'row', role: 'rowheader', title }, group.length > 3 ? few : names);
  return h('tr', { role: 'row' }, head, shown.columns.map((m) => drawCell(group[0], m)));
}

/** A cell: words if there is room, else a mark; and what the draft gives and takes. */
function drawCell(c, m) {
  const cell = shown.table.cell(c, m), change = shown.change(c, m);
  const [mark, colour] = glance(cell);
  const td = document.createElement('td');
  td.className = colour;
  td.classList.toggle('gives', change.gives);
  td.classList.toggle('takes', change.takes);
  const signs = (change.gives ? '▲' : '') + (change.takes ? '▼' : '');
  const told = shown.isRoomy ? words(cell, shown.table.classes) : mark;
  td.textContent = signs ? `${told} ${signs}` : told;
  td.role = 'gridcell';
  td.tabIndex = -1;
  td.dataset.c = c;
  td.dataset.m = m;
  return td;
}

const placeOf = (td) => [Number(td.dataset.c), Number(td.dataset.m)];
const namesOf = (c, m) => [shown.force.clerks[c], shown.force.maildrops[m]];
export const cellAt = (c, m) => document.querySelector(`#grid td[data-c="${c}"][data-m="${m}"]`);

/** Tab reaches one cell of the table; the arrows reach the others. */
export function makeReachable(td) {
  if (!td) return;
  document.querySelectorAll('#grid td[tabindex="0"]').forEach((it) => (it.tabIndex = -1));
  td.tabIndex = 0;
}

/** A cell's name for a screen reader, once it has the focus. */
function nameCell(td) {
  const [c, m] = placeOf(td), { gives, takes } = shown.change(c, m);
  const told = [glance(shown.table.cell(c, m))[2]];
  if (gives) told.push('the draft gives');
  if (takes) told.push('the draft takes');
  td.setAttribute('aria-label', `${namesOf(c, m).join(', ')}: ${told.join(', ')}`);
}

/** Where a key leads from a cell. */
function nextCell(td, key, isFar) {
  const row = td.parentElement, { rows } = row.parentElement;
  const line = row.sectionRowIndex, end = rows.length - 1;
  const at = td.cellIndex, last = row.cells.length - 1;
  const within = (n, low, high) => Math.max(low, Math.min(high, n));
  const cell = (y, x) => rows[within(y, 0, end)].cells[within(x, 1, last)];
  switch (key) {
    case 'ArrowLeft': return cell(line, isFar ? 1 : at - 1);
    case 'ArrowRight': return cell(line, isFar ? last : at + 1);
    case 'ArrowUp': return cell(isFar ? 0 : line - 1, at);
    case 'ArrowDown': return cell(isFar ? end : line + 1, at);
    case 'Home': return cell(isFar ? 0 : line, 1);
    case 'End': return cell(isFar ? end : line, last);
    case 'PageUp': return cell(line - 15, at);
    case 'PageDown': return cell(line + 15, at);
    default: return null;
  }
}

function keyInTable(event) {
  const td = event.target.closest('td[data-c]');
  if (!td) return;
  const next = nextCell(td, event.key, event.ctrlKey);
  const opens = event.key === 'Enter' || event.key === ' ';
  if (!next && !opens) return;
  event.preventDefault();
  if (opens) goToCell(td);
  if (!next) return;
  makeReachable(next);
  next.focus();
  next.scrollIntoView({ block: 'nearest', inline: 'nearest' });
}

const goToCell = (td) => (location.hash = `#table/${namesOf(...placeOf(td)).join('/')}`);

let filtering = 0;
/** Takes the filters at once, and draws the table a moment after the last key. */
function filter() {
  const [clerks, maildrops] = [$('f-clerks').value, $('f-maildrops').value];
  const [equal, changed] = [$('f-equal').checked, $('f-changed').checked];
  const [which, kind] = [$('f-which').value, $('f-kind').value];
  setView({ clerks, maildrops, equal, changed, which, kind });
  clearTimeout(filtering);
  filtering = setTimeout(drawTable, 150);
}

export function listenToTable() {
  $('grid').addEventListener('keydown', keyInTable);
  $('grid').addEventListener('click', ({ target }) => {
    const td = target.closest('td[data-c]');
    if (td) goToCell(td);
  });
  $('grid').addEventListener('focusin', ({ target }) => {
    if (target.matches('td[data-c]')) nameCell(target);
  });
  $('filters').addEventListener('input', filter);
  // Some programs that choose for a person tell the page of nothing else.
  for (const id of ['f-kind', 'f-which']) $(id).addEventListener('change', filter);
  $('filters').addEventListener('submit', (event) => event.preventDefault());
}
