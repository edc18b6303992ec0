// Puts the draft in force, over the policy that its author has seen, and says what became of it.

import { change, octets } from './ask.js';
import { allows } from './decisions.js';
import { $, agrees, counted, paragraph, say, warning } from './dom.js';
import { forgetDraft } from './draft.js';
import { load } from './load.js';
import { reviewDraft } from './review.js';
import { state } from './store.js';

export async function putInForce() {
  const { draft, force, written, gives, takes, never, unnamed } = state.review;
  const nobody = !state.beside.draft.told.cells.some((cell) => allows(cell.open));
  const body = [
    paragraph(`Decisions that become allowed: ${gives.length}; denied: ${takes.length}.`),
    never.length ? warning(`Rules that never decide: ${never.length}.`) : null,
    nobody ? warning('By this draft nobody may open any maildrop.') : null,
    unnamed ? warning(`${unnamed}.`) : null,
    paragraph('It binds at once, also clerks who are in.'),
    paragraph('What is in force now is kept: “History” gives it back.'),
  ];
  if (!await agrees('Put the draft in force?', body, 'Put in force')) return;
  $('d-put').disabled = true;
  say('popbox checks it and puts it in force …');
  const path = `/policies?old=${octets(force)}${nobody ? '&nobody=yes' : ''}`;
  await readBack(await change('POST', path, force + draft), written, force, draft);
}

/** Says what is in force after an attempt, whatever was answered. */
async function readBack(answer, wanted, old, draft) {
  if (answer.status === 200) state.base = wanted;
  if (!await load()) {
    say(`${answer.told}; what is in force can't be read now: Reload`, true);
    return;
  }
  const isPut = state.force === wanted;
  if (isPut && state.draft === draft) forgetDraft(); // and none that was begun meanwhile
  await reviewDraft();
  if (answer.status === 200 && isPut) {
    const rules = Number(/in force(?: already)?: (\d+) rules/.exec(answer.told)?.[1]);
    say(`In force: ${counted(rules, 'rule')}. What was before is kept.`);
    return;
  }
  let found = 'another policy is in force: look at both changes';
  if (isPut) found = 'the draft is in force';
  else if (state.force === old) found = 'what was in force still is';
  say(`${answer.told}. Read back: ${found}.`, !isPut);
}
