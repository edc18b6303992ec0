// Draws an opened cell: what a clerk may do in a maildrop, class by class, and which rule decides.

import { OTHERS, allows, shownName, words } from './decisions.js';
import { $, button, dim, h, rowHead } from './dom.js';
import { cellAt, makeReachable } from './grid.js';
import { placeInHash } from './place.js';

let shown = null;

/** Opens the cell that the address names, if it names one. */
export function openCell(table, takesFocus) {
  const [view, clerk, maildrop] = placeInHash();
  shown = table;
  if (view !== 'table' || !maildrop || !shown) return;
  const place = (names, name) => names.indexOf(names.includes(name) ? name : OTHERS);
  const { clerks, maildrops } = shown.whole.force;
  draw(place(clerks, clerk), place(maildrops, maildrop), takesFocus);
}

function draw(c, m, takesFocus) {
  const { force, draft } = shown.whole;
  const [clerk, maildrop] = [force.clerks[c], force.maildrops[m]];
  const now = force.cell(c, m), then = draft?.cell(c, m);
  const open = decision(now.open, then?.open);
  open.colSpan = 2;
  const body = h('tbody', null, h('tr', null, rowHead('opens the maildrop'), open),
    h('tr', { class: 'sub' }, ['class', 'reads', 'removes'].map((it) => h('th', null, it))),
    force.classes.map((name, n) => h('tr', null, rowHead(shownName(name, force.classes, 'class')),
      decision(now.read[n], then?.read[n]), decision(now.remove[n], then?.remove[n]))));
  const title = h('h3', { id: 'cell-title', tabindex: -1 },
    `${shownName(clerk)} in ${shownName(maildrop)}`);
  $('cell').replaceChildren(
    h('div', { class: 'head' }, title, button('Close', closeCell, 'Close (Escape)')),
    h('p', null, `${words(now, force.classes)}.`.replace(/^./, (it) => it.toUpperCase())),
    ...draft ? [dim('By the policy in force, and by the draft if it differs.')] : [],
    ...sameAs(c, maildrop),
    h('table', null, body),
  );
  $('cell').hidden = false;
  unselect();
  cellAt(c, m)?.setAttribute('aria-selected', 'true');
  if (takesFocus) title.focus();
}

function unselect() {
  document.querySelector('#grid td[aria-selected]')?.removeAttribute('aria-selected');
}

/** The clerks of the same row, whose rules may be others. */
function sameAs(c, maildrop) {
  const { clerks } = shown.force;
  const group = shown.groups.find((it) => it.includes(c)) ?? [];
  const links = group.filter((it) => it !== c).map((it) => {
    return h('a', { href: `#table/${clerks[it]}/${maildrop}` }, shownName(clerks[it]));
  });
  if (links.length === 0) return [];
  return [dim('The same: ', links.flatMap((link) => [link, ' ']))];
}

/** A decision with its rule, and below it the draft's, if that is another. */
function decision(now, then) {
  const { force, draft } = shown.whole;
  const told = (table, it, where) => [allows(it) ? 'yes, ' : 'no, ', ruleLink(table, it, where)];
  const differs = draft && allows(now) !== allows(then);
  const colour = differs ? 'was' : allows(now) ? 'yes' : 'no';
  const td = h('td', { class: colour }, told(force, now, 'rule'));
  if (!draft || (!differs && force.ruleName(now) === draft.ruleName(then))) return td;
  const mark = !differs ? '' : allows(then) ? '▲ ' : '▼ ';
  const line = h('div', null, `${mark}draft: `, told(draft, then, 'draft'));
  if (differs) line.className = allows(then) ? 'up' : 'down';
  td.append(line);
  return td;
}

function ruleLink(table, it, where) {
  if (it === 0) return h('span', { title: 'by default: the answer if no rule matches' }, 'no rule');
  return h('a', { href: `#policy/${where}/${Math.abs(it)}` }, table.ruleName(it));
}

export function closeCell() {
  const td = document.querySelector('#grid td[aria-selected]');
  $('cell').hidden = true;
  history.replaceState(null, '', '#table');
  unselect();
  makeReachable(td);
  td?.focus();
}
