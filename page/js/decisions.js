// What a policy decides, as `review-policy --format json` has it, and how a cell of it is said.

import { byName, slowly } from './dom.js';

/** What popbox calls each name that no rule and no group names. */
export const OTHERS = '(others)';
/** A name as the page shows it. If it is the only one of a list, it stands for every `what`. */
export function shownName(name, all = [], what = '') {
  if (name !== OTHERS) return name;
  return all.length === 1 ? `any ${what}` : 'any other';
}

/** The names of a policy and those that only the server has, (others) last; and of each its place
 *  in popbox's table, where whom no rule names stands as (others). */
function placed(named, more) {
  const names = [...new Set([...named, ...more])].filter((it) => it !== OTHERS).sort(byName);
  const others = named.indexOf(OTHERS);
  const at = (name) => (named.includes(name) ? named.indexOf(name) : others);
  return [[...names, OTHERS], [...names.map(at), others]];
}

/** Who may do what by a policy. A decision is a number: N above 0 if rule N allows, below 0 if rule
 *  -N denies, 0 if no rule matches. The clerks and maildrops of the server have a row and a column
 *  even if no rule names them. */
class Table {
  constructor(told, marks, server) {
    Object.assign(this, { classes: told.classes, rules: told.rules, cells: told.cells });
    Object.assign(this, { told, allMarks: marks });
    this.named = [...new Set(told.cells.map((cell) => cell.clerk))];
    this.namedMaildrops = [...new Set(told.cells.map((cell) => cell.maildrop))];
    [this.clerks, this.rowsAt] = placed(this.named, server.clerks);
    [this.maildrops, this.columnsAt] = placed(this.namedMaildrops, server.maildrops);
  }

  at(clerk, maildrop) {
    return this.rowsAt[clerk] * this.namedMaildrops.length + this.columnsAt[maildrop];
  }

  cell(clerk, maildrop) {
    return this.cells[this.at(clerk, maildrop)];
  }

  marks(clerk, maildrop) {
    return this.allMarks[this.at(clerk, maildrop)];
  }

  /** The table of one class alone. */
  about(kind) {
    const only = (cell) => ({ ...cell, read: [cell.read[kind]], remove: [cell.remove[kind]] });
    const cells = this.cells.map(only);
    const told = { ...this.told, classes: [this.classes[kind]], cells };
    return new Table(told, cells.map(marksOf), this);
  }

  /** The same table, with the clerks and maildrops that the server has now. */
  of(server) {
    return new Table(this.told, this.allMarks, server);
  }

  /** The same text for clerks who may do the same in each maildrop. */
  row(clerk) {
    return this.maildrops.map((_, m) => this.marks(clerk, m)).join(' ');
  }

  ruleName(decision) {
    return decision === 0 ? 'default' : this.rules[Math.abs(decision) - 1];
  }
}

/** A table of its JSON. A key that is pressed meanwhile is answered. */
export async function tableFrom(text, server) {
  const told = JSON.parse(text), marks = [];
  await slowly(told.cells, (cell) => marks.push(marksOf(cell)));
  return new Table(told, marks, server);
}

export const allows = (decision) => decision > 0;

/** What a cell allows: a 1 or a 0 for each decision. */
function marksOf({ open, read, remove }) {
  return [open, ...read, ...remove].map((it) => (allows(it) ? 1 : 0)).join('');
}

/** What a cell says at a glance: a mark, its colour's class, and words. */
export function glance(cell) {
  const all = cell.read.length;
  const reads = cell.read.filter(allows).length, removes = cell.remove.filter(allows).length;
  if (!allows(cell.open)) {
    if (reads + removes === 0) return ['·', 'nothing', 'nothing'];
    return ['!', 'slip', 'may read or remove, but not open'];
  }
  const marks = [reads === all ? 'R' : reads && 'r', removes === all ? 'D' : removes && 'd'];
  const mark = marks.filter(Boolean).join(' ') || 'o';
  if (!reads) return [mark, 'opens', 'opens, reads nothing'];
  if (reads < all && removes) return [mark, 'takes-some', 'reads and removes some classes'];
  if (reads < all) return [mark, 'some', 'reads some classes'];
  if (removes === all) return [mark, 'all', 'reads and removes all'];
  return removes ? [mark, 'removes', 'reads all, removes some'] : [mark, 'reads', 'reads all'];
}

/** `all but complaint` or `invoice, payment`: those of all classes that are allowed. */
function listed(all, some) {
  const others = all.filter((name) => !some.includes(name));
  if (others.length === 0) return 'everything';
  return some.includes(OTHERS) ? `all but ${others.join(', ')}` : some.map(shownName).join(', ');
}

/** A cell as a person says it, if there is room for words. */
export function words(cell, classes) {
  const reads = classes.filter((_, n) => allows(cell.read[n]));
  const removes = reads.filter((name) => allows(cell.remove[classes.indexOf(name)]));
  if (!allows(cell.open)) return glance(cell)[1] === 'slip' ? 'may not open it' : 'no';
  if (reads.length === 0) return 'opens it, reads nothing';
  const first = classes.length === 1 ? 'it' : listed(classes, reads);
  if (removes.length === 0) return classes.length === 1 ? 'reads it' : `reads ${first}`;
  if (removes.length === reads.length) return `reads and removes ${first}`;
  const stays = reads.filter((name) => !removes.includes(name));
  const these = reads.length < classes.length ? 'these too,' : 'all';
  if (stays.length <= removes.length) {
    return `reads ${first}; removes ${these} except ${stays.map(shownName).join(', ')}`;
  }
  return `reads ${first}; removes ${removes.map(shownName).join(', ')}`;
}

export const NO_CHANGE = { gives: false, takes: false };

/** Whether the draft gives something in a cell, and whether it takes something. */
function changeOf(old, now) {
  if (old === now) return NO_CHANGE;
  const bits = [...now];
  return { gives: bits.some((bit, n) => bit > old[n]), takes: bits.some((bit, n) => bit < old[n]) };
}

/** The tables of what is in force and of the draft, over the same names, and each cell's change. */
export function besideOf(force, draft) {
  const change = (c, m) => changeOf(force.marks(c, m), draft.marks(c, m));
  return { force, draft, change };
}
