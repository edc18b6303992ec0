// Draws the three steps of a server that is new: a maildrop, a clerk, the first rule.

import { $, button, h } from './dom.js';
import { editRule, replaceDraft } from './draft.js';
import { existing, hasDraft, state } from './store.js';

const EXAMPLE = `# An example. The first rule that matches decides; if none does, the answer is no.

# Ann runs the office.
[[rule]]
name = "ann-all"
effect = "allow"
clerk = "ann"
maildrop = "*"
class = "*"
actions = ["open", "read", "remove"]

# Payments stay for the books: nobody below removes one.
[[rule]]
name = "keep-payments"
effect = "deny"
clerk = "*"
maildrop = "*"
class = "payment"
actions = ["remove"]

# Orders are Bob's work.
[[rule]]
name = "bob-orders"
effect = "allow"
clerk = "bob"
maildrop = "orders"
class = "*"
actions = ["open", "read", "remove"]
`;

/** Shows the steps until each is done. */
export function begin() {
  const maildrops = state.maildrops.map((it) => it.name), clerks = existing();
  const hasRule = /^\[\[rule\]\]/m.test(state.force);
  $('begin').hidden = maildrops.length > 0 && clerks.length > 0 && hasRule;
  const [maildrop, clerk] = [maildrops[0] ?? '*', clerks[0] ?? '*'];
  const first = { clerk: [clerk], maildrop: [maildrop] };
  const rule = hasDraft() ? [h('a', { href: '#policy' }, 'Put the draft in force')] : [
    button('Write the first rule…', () => editRule(0, first)), ' or ',
    button('Begin with an example', () => replaceDraft(EXAMPLE)),
  ];
  const title = h('h3', null, 'Three steps, and the first clerk can log in');
  $('begin').replaceChildren(title, h('ol', null,
    step(maildrops.length, 'A maildrop', 'is an address that several clerks read, as orders.',
      add('maildrops', 'm-name', 'Add a maildrop')),
    step(clerks.length, 'A clerk', 'logs in with a name and a password.',
      add('clerks', 'c-name', 'Add a clerk')),
    step(hasRule, 'A rule', 'says who may open, read and remove what.', rule)));
  $('begin').querySelector('button')?.classList.add('strong'); // what comes next
}

function step(isDone, what, told, todo) {
  const title = h('b', null, isDone ? `✓ ${what}` : what);
  const rest = isDone ? null : h('p', { class: 'bar' }, todo);
  return h('li', { class: isDone && 'done' }, title, ' ', told, rest);
}

/** Leads to a form. */
function add(view, field, text) {
  return button(text, () => {
    location.hash = `#${view}`;
    setTimeout(() => $(field).focus());
  });
}
