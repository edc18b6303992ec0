"""What the page draws: the table, an opened cell, and how it looks by day, in the dark, on a phone
and on paper."""

import base64
import csv
import io
import os
import random
import re
import subprocess
import time

from place import DRAFT, OFFICE, TOP, PageCase
from selenium.webdriver.common.keys import Keys

OTHERS = "(others)"


def mark_of(cell):
    """The mark of the page's legend for these decisions."""
    reads = [is_so for (_, action), (is_so, _) in cell.items() if action == "read"]
    removes = [is_so for (_, action), (is_so, _) in cell.items() if action == "remove"]
    if not cell["", "open"][0]:
        return "slip" if any(reads + removes) else "nothing"
    if not any(reads):
        return "opens"
    if not all(reads):
        return "takes-some" if any(removes) else "some"
    return "all" if all(removes) else "removes" if any(removes) else "reads"


def change_of(old, new):
    """` gives`, ` takes`, both or nothing, as a cell's class."""
    pairs = [(old[it][0], new[it][0]) for it in old]
    gives, takes = any(now > was for was, now in pairs), any(now < was for was, now in pairs)
    return " gives" * gives + " takes" * takes


DRAWN = """
const heads = [...document.querySelectorAll('#grid thead th')].map((it) => it.textContent);
return [...document.querySelectorAll('#grid tbody tr')].flatMap((row) => [...row.cells].slice(1)
  .map((td, n) => [row.cells[0].textContent, heads[n + 1], td.className]));
"""
HEADS = "return [...document.querySelectorAll('#grid tbody th')].map((it) => it.textContent)"


def name(shown):
    return OTHERS if shown == "any other" else shown.removesuffix(" *")


def drawn(page):
    """Each cell's colour and change, by clerk and maildrop."""
    return {(name(clerk), name(drop)): mark for clerk, drop, mark in page.js(DRAWN)}


def told(is_so, rule):
    return f"{'yes' if is_so else 'no'}, {'no rule' if rule == 'default' else rule}"


def show(page, **view):
    """Sets the filters, and waits until the table is drawn by them."""
    page.js("document.querySelector('#grid tbody').dataset.old = 1")
    for name, value in view.items():
        key = "checked" if isinstance(value, bool) else "value"
        page.js("arguments[0][arguments[1]] = arguments[2]", page.find(f"f-{name}"), key, value)
    page.js("document.getElementById('filters').dispatchEvent(new Event('input'))")
    is_old = "return document.querySelector('#grid tbody').dataset.old"
    page.wait(lambda: not page.js(is_old), "the table isn't drawn")


# The clerks and maildrops of the server, and how many seconds each step may take.
SERVER = {"ann", "bob", "cat", "dan", "old"}, {"orders", "billing", "support"}
MOST = {"rows": 2, "review": 2, "put": 3, "filter": 0.1, "draft": 0.1}
WAITS = """
window.waits = [];
document.addEventListener('keydown', (it) => waits.push(performance.now() - it.timeStamp), true);
"""


class Table(PageCase):
    def decisions(self, new, old=None):
        """What `review-policy --format csv` prints, by cell, then by class and action."""
        words = [self.program, "review-policy", "--format", "csv"]
        words += ["--against", self.write("old.toml", old)] if old is not None else []
        words.append(self.write("new.toml", new))
        ran = subprocess.run(words, capture_output=True, text=True, check=False)
        table = {}
        for row in [*csv.reader(io.StringIO(ran.stdout))][1:]:
            clerk, maildrop, kind, action, allowed, rule = row
            cell = table.setdefault((clerk, maildrop), {})
            cell[kind, action] = (allowed == "allow", rule)
        return table

    def same(self, page, table, mark, clerks=(), maildrops=()):
        """Fails unless the table has these cells; what only the server has is as (others)."""
        rows, columns = ({it[n] for it in table} | {*more}
                         for n, more in ((0, clerks), (1, maildrops)))

        def at(clerk, maildrop):
            clerk = clerk if any(it[0] == clerk for it in table) else OTHERS
            return clerk, maildrop if any(it[1] == maildrop for it in table) else OTHERS

        want = {(c, m): mark(at(c, m)) for c in rows for m in columns}
        found = drawn(page)
        names = [it for it in {**found, **want} if found.get(it) != want.get(it)]
        some = [(it, found.get(it), want.get(it)) for it in names[:3]]
        self.assertEqual((len(names), some), (0, []))

    def opened(self, page, clerk, maildrop, cell, then=None):
        """Fails unless the opened cell says which rule decides each question, and the draft's."""

        def line(question):
            now = told(*cell[question])
            if not then or then[question] == cell[question]:
                return now
            was, will = cell[question][0], then[question][0]
            mark = "▲ " * (will and not was) + "▼ " * (was and not will)
            return f"{now}{mark}draft: {told(*then[question])}"

        page.js("location.hash = arguments[0]", f"#table/{clerk}/{maildrop}")
        shown = [it.replace(OTHERS, "any other") for it in (clerk, maildrop)]
        page.wait(lambda: page.text("cell-title") == " in ".join(shown), f"{shown} isn't open")
        kinds = [kind for kind, action in cell if action == "read"]
        want = [["opens the maildrop", line(("", "open"))], ["class", "reads", "removes"]]
        want += [[it.replace(OTHERS, "any other"), line((it, "read")), line((it, "remove"))]
                 for it in kinds]
        self.assertEqual(page.cells("cell"), want)

    def test_the_table_is_that_of_csv(self):
        """Each cell has popbox's decision, and opened the rule; the filters show a part, and say
        so; a clerk whom no rule names has a row, decided as (others)."""
        place, page = self.office()
        table = self.decisions(OFFICE)
        self.same(page, table, lambda it: mark_of(table[it]), ["old"])
        said = "By the policy in force. 5 clerks and 3 maildrops. A click at a cell shows why."
        self.assertEqual(page.text("table-of"), said)
        self.assertFalse(page.shows("legend"))
        for (clerk, maildrop), cell in table.items():
            self.opened(page, clerk, maildrop, cell)
        rows = page.cells("grid")
        self.assertEqual(rows[1][2], "reads all but complaint; removes these too, except payment")
        self.assertEqual(rows[2][1], "reads everything; removes all except payment")
        show(page, clerks="cat")
        self.assertEqual({clerk for clerk, _ in drawn(page)}, {"cat"})
        self.assertIn("The filters hide the rest.", page.text("table-of"))
        # What is typed while the table is loaded again is left alone.
        page.js("arguments[0].click()", page.find("reload"))
        page.fill(None, f_clerks="da")
        page.loaded()
        page.wait(lambda: {clerk for clerk, _ in drawn(page)} == {"dan"}, "dan isn't alone")
        self.assertEqual(page.value("f-clerks"), "da")
        show(page, clerks="", kind="payment")
        asked = [("", "open"), ("payment", "read"), ("payment", "remove")]
        few = {names: {it: cell[it] for it in asked} for names, cell in table.items()}
        self.same(page, few, lambda it: mark_of(few[it]), ["old"])
        self.assertEqual({it[0] for it, mark in drawn(page).items() if mark == "all"}, {"ann"})

    def test_rows_stand_in_the_order_of_their_numbers(self):
        """c2 before c10; the server's maildrops have columns; equal clerks may be one row."""
        text = OFFICE.replace('"dan"]', '"dan", "c10", "c2"]')
        place = self.site(policy=text)
        for it in ("c2", "c10", "c1"):
            place.put(f"/clerks/{it}", "pass x")
        place.put("/maildrops/sales")
        page = self.browser(place)
        names = ["ann", "bob", "c1", "c2", "c10", "cat", "dan", "old", "any other"]
        self.assertEqual(page.js(HEADS), names)
        self.assertIn(("c1", "sales"), drawn(page))
        show(page, equal=True)
        self.assertIn("c2, c10", page.js(HEADS))
        page.view("table/c10/support")
        page.says("cell", "The same: c2")

    def test_the_drafts_table_is_that_of_csv(self):
        """The draft's cells are its own, with what it gives and takes; an opened one has both."""
        place, page = self.office()
        page.draft(DRAFT)
        old, new = self.decisions(OFFICE, DRAFT), self.decisions(DRAFT, OFFICE)
        page.view("table")
        names = ["ann", "bob", "cat", "dan", "eve *", "old", "any other"]
        page.wait(lambda: page.js(HEADS) == names, f"the rows aren't {names}")
        for which, table in (("force", old), ("draft", new)):
            show(page, which=which)
            mark = lambda it, table=table: mark_of(table[it]) + change_of(old[it], new[it])
            self.same(page, table, mark, ["old"])
        told = "By the draft, which is not in force. The draft changes 2 cells"
        self.assertIn(told, page.text("table-of"))
        for (clerk, maildrop), cell in old.items():
            self.opened(page, clerk, maildrop, cell, new[clerk, maildrop])
        page.view("table/dan/support")
        green = "return [...document.querySelectorAll('#cell td.yes')].map((it) => it.textContent)"
        page.says("cell-title", "dan")
        self.assertFalse([it for it in page.js(green) if "draft: no" in it])
        show(page, changed=True)
        self.assertEqual({*drawn(page)}, {("dan", "support"), ("eve", "support")})

    def first_rows(self, page):
        """After how many seconds a load shows the first rows of the table."""
        page.driver.get("about:blank")
        page.driver.get(f"{page.site.url}/")
        asked = "return document.querySelector('#grid tbody td') && performance.now() / 1000"
        page.wait(lambda: page.js(asked), "there are no rows")
        return page.js(asked)

    def longest_wait(self, page, field, keys):
        """How many seconds a key waits, of some that are pressed in a field, at most."""
        page.js(WAITS)
        page.find(field).click()
        for key in keys:
            page.keys(key)
            time.sleep(0.1)
        page.wait(lambda: keys in page.value(field), "keys are lost")
        return page.js("return Math.max(...waits)") / 1000

    def timed(self, run):
        began = time.monotonic()
        run()
        return time.monotonic() - began

    def test_a_large_policy_is_drawn_soon(self):
        """Of 1,000 rules, 200 clerks and 100 maildrops each cell is popbox's, in force and in the
        draft; the changes are folded; on a machine that has nothing else to do the first rows and a
        review come within 2 s, the policy is in force within 3 s, and no key waits 0.1 s."""
        write = [f"{TOP}/trials/measure", "policies", "--into", self.folder]
        subprocess.run([*write, *["--short"] * self.short], check=True)
        with open(f"{self.folder}/old.toml") as one, open(f"{self.folder}/new.toml") as two:
            texts = one.read(), two.read()
        place, page = self.office(policy=texts[0])
        took = {"rows": self.first_rows(page)}
        page.loaded()
        old, new = self.decisions(*texts), self.decisions(*texts[::-1])
        count = (len({it[0] for it in new} | SERVER[0]), len({it[1] for it in new} | SERVER[1]))
        show(page, equal=False)
        page.wait(lambda: len(page.js(DRAWN)) == count[0] * count[1], "it isn't whole")
        took["filter"] = self.longest_wait(page, "f-clerks", "c-none")
        show(page, clerks="")
        took["review"] = self.timed(lambda: page.draft(texts[1]))
        took["draft"] = self.longest_wait(page, "draft", "# as it is written")
        page.draft(texts[1])
        self.assertEqual(page.js("return document.querySelectorAll('#review table').length"), 0)
        clerk = page.js("const it = document.querySelector('#review details'); it.open = true;"
                        "return it.textContent")
        self.assertRegex(clerk, r"^[a-z0-9-]+: (▲ \d+ allowed)?(, )?(▼ \d+ denied)?, in \d+ ")
        page.view("table")
        show(page, which="draft", equal=False)
        page.wait(lambda: len(page.js(DRAWN)) == count[0] * count[1], "it isn't whole")
        self.same(page, new, lambda it: mark_of(new[it]) + change_of(old[it], new[it]), *SERVER)
        for names in random.Random(1939).sample(sorted(old), 20):
            self.opened(page, *names, old[names], new[names])
        page.view("policy")
        took["put"] = self.timed(page.put_in_force)
        found = ", ".join(f"{key} {it:.2f} s" for key, it in took.items())
        print(f"load {os.getloadavg()[0]:.1f}: {found}", flush=True)
        # A machine with more to do than it has processors has longer.
        slower = max(1, os.getloadavg()[0] / os.cpu_count())
        late = [key for key, most in MOST.items() if took[key] > most * slower]
        self.assertEqual((late, found), ([], found))


# The texts whose contrast is less than WCAG's 4.5, with it.
CONTRAST = """
const light = (rgb) => { const [r, g, b] = rgb.map((it) => { it /= 255;
  return it <= .03928 ? it / 12.92 : ((it + .055) / 1.055) ** 2.4; });
  return .2126 * r + .7152 * g + .0722 * b; };
const rgb = (text) => text.match(/[\\d.]+/g).map(Number);
const paper = (it) => { for (; it; it = it.parentElement) {
  const colour = rgb(getComputedStyle(it).backgroundColor);
  if (colour.length < 4 || colour[3] > 0) return colour.slice(0, 3); } return [255, 255, 255]; };
return [...document.querySelectorAll('body *')].filter((it) => it.offsetParent && !it.disabled
  && [...it.childNodes].some((node) => node.nodeType === 3 && node.data.trim())).map((it) => {
  const a = light(rgb(getComputedStyle(it).color).slice(0, 3)), b = light(paper(it));
  return [it.tagName + '.' + it.className + ' ' + it.textContent.slice(0, 20),
    (Math.max(a, b) + .05) / (Math.min(a, b) + .05)]; }).filter(([, ratio]) => ratio < 4.5);
"""
# What is cut off at the right: of the page, or of a list.
CUT = """
return [document.documentElement, ...document.querySelectorAll('.list, .bar, form')]
  .filter((it) => it.checkVisibility())
  .filter((it) => Math.max(it.getBoundingClientRect().right, it.scrollWidth) > innerWidth + 1)
  .map((it) => it.tagName + it.id);
"""
AT = """
const it = document.activeElement; it.dataset.at ??= Math.random();
return /^(A|BUTTON|INPUT|SELECT|TEXTAREA|SUMMARY)$/.test(it.tagName) ? it.dataset.at : null;
"""
CONTROLS = """
return [...document.querySelectorAll('header :is(a, button),'
  + ' section:not([hidden]) :is(a, button, input:not([type=file]), select, textarea)')]
  .filter((it) => it.checkVisibility() && !it.disabled).length;
"""
TOP_OF = "return document.querySelector(arguments[0]).getBoundingClientRect().top"
HIGH_OF = "return document.querySelector(arguments[0]).getBoundingClientRect().height"
# How many borders lists have, how many looks a clerk's buttons, and what type isn't of the scale.
LOOKS = """
const all = (path, look) => [...new Set([...document.querySelectorAll(path)]
  .filter((it) => it.checkVisibility()).map((it) => look(getComputedStyle(it))))];
return [all('.list :is(th, td)', (it) => it.borderWidth).length,
  all('#c-list .buttons button', (it) => it.height + it.borderColor).length,
  all('body *', (it) => it.fontSize).filter((it) => !/^(13|15|18|22)px$/.test(it))];
"""


RULE = (
    '[[rule]]\nname = "of-CLERK"\neffect = "allow"\nclerk = "CLERK"\nmaildrop = "orders"\n'
    'class = "*"\nactions = ["open", "read"]\n'
)


class Looks(PageCase):
    def looks_well(self, **how):
        page = self.browser(self.site(), **how)
        page.draft(DRAFT)
        for view in ("table/bob/orders", "policy", "maildrops/orders", "clerks", "history"):
            with self.subTest(view):
                page.view(view)
                self.assertEqual(page.js(CONTRAST), [])
                self.assertEqual(page.driver.nameless(), [])
                self.assertEqual(page.js(CUT), [])
                self.assertEqual(page.js(LOOKS)[2], [])
        return page

    def test_it_is_read_by_day(self):
        """Contrast is at least 4.5, all has a name, type is of one scale, nothing is cut off; lists
        have one border, a line's buttons one look, a cell's title no ring, a form one line."""
        page = self.looks_well(width=1280)
        page.view("table/dan/orders")
        page.says("cell-title", "dan")
        ring = "const it = document.activeElement; return it.id + getComputedStyle(it).outlineStyle"
        self.assertEqual(page.js(ring), "cell-titlenone")
        page.view("clerks")
        self.assertEqual(page.js(LOOKS), [1, 1, []])
        self.assertLess(page.js(HIGH_OF, "#c-form"), 50)
        page.view("table")
        self.assertLess(page.js(HIGH_OF, "#filters"), 60)

    def test_it_is_read_in_the_dark(self):
        """The same in dark colours."""
        self.looks_well(is_dark=True)

    def test_it_is_read_on_a_phone(self):
        """The same at 400 px, where the table begins on the first screen, and a clerk's buttons
        have one line."""
        page = self.looks_well(is_phone=True, width=400, height=844)
        page.view("clerks")
        self.assertLess(page.js(HIGH_OF, "#c-list .buttons"), 60)
        page.view("table")
        page.js("scrollTo(0, 0)")
        self.assertLess(page.js(TOP_OF, "#grid"), 500)

    def test_heads_stand_while_others_scroll(self):
        """A table's row of maildrops and its column of clerks stay in view."""
        place = self.site()
        for n in range(40):
            place.put(f"/maildrops/m-{n}")
            place.put(f"/clerks/c-{n}", "pass x")
        page = self.browser(place, width=700, height=600)
        show(page, equal=False)
        page.wait(lambda: len(page.js(HEADS)) == 46, "the rows aren't there")
        at = ("const [box, cell] = ['#view-table .scroll', arguments[0]].map((it) =>"
              " document.querySelector(it)); box.scrollTo(arguments[1], arguments[2]);"
              " const [a, b] = [box, cell].map((it) => it.getBoundingClientRect());"
              " return [Math.abs(a.left - b.left) < 3, Math.abs(a.top - b.top) < 3]")
        self.assertEqual(page.js(at, "#grid thead th:nth-child(9)", 200, 300), [False, True])
        self.assertEqual(page.js(at, "#grid tbody tr:nth-child(20) th", 200, 300), [True, False])

    def test_everything_is_reached_by_the_keyboard(self):
        """Arrows lead through the table, Enter opens a cell, and Tab reaches all else."""
        place, page = self.office()

        def focused(key, wanted):
            page.wait(lambda: page.focused().get_attribute(key) == wanted, f"{wanted} has no focus")

        page.js("document.querySelector('#grid td').focus()")
        page.keys(Keys.ARROW_DOWN, Keys.ARROW_RIGHT)
        focused("aria-label", "bob, orders: reads and removes some classes")
        page.keys(Keys.ENTER)
        focused("id", "cell-title")
        page.driver.find_elements("css selector", '#cell a[href$="/2"]')[0].send_keys(Keys.ENTER)
        focused("id", "rule-2")
        page.keys(Keys.ESCAPE)
        self.assertEqual(page.js("return location.hash"), "#policy/rule/2")
        self.assertIn('name = "keep-payments"', page.focused().text)
        page.driver.back()
        focused("id", "cell-title")
        page.keys(Keys.ESCAPE)
        focused("aria-label", "bob, orders: reads and removes some classes")
        for view in ("table", "policy", "maildrops", "clerks", "history"):
            with self.subTest(view):
                page.view(view)
                page.js("document.querySelector('.skip').focus()")
                count, reached = page.js(CONTROLS), set()
                for _ in range(count + 12):
                    page.keys(Keys.TAB)
                    reached.add(page.js(AT))
                self.assertGreaterEqual(len(reached - {None}), count)

    def printed(self, page):
        """The text of the page as it is printed."""
        words = ["pdftotext", "-layout", "-", "-"]
        pages = base64.b64decode(page.driver.print_page())
        return subprocess.run(words, input=pages, capture_output=True, check=True).stdout.decode()

    def test_it_is_printed_whole(self):
        """On paper stands what is shown, whole, and nothing that can be pressed."""
        clerks = [f"clerk-{n}" for n in range(100, 180)]
        rules = [RULE.replace("CLERK", it) for it in clerks]
        place, page = self.office(policy="\n".join(rules))
        show(page, equal=False)
        page.view("table/clerk-179/orders")
        text = self.printed(page)
        self.assertEqual(re.findall(r"^ *(clerk-\d+) \* ", text, re.MULTILINE), clerks)
        self.assertIn("yes, of-clerk-179", text)
        page.draft("\n".join(rules[1:]))
        text += self.printed(page)
        names = re.findall(r'^ *\d+ +name = "of-(.*)"$', text, re.MULTILINE)
        self.assertEqual((names, "clerk-100: ▼ 2 denied" in text), (clerks, True))
        pressed = ("Reload", "Maildrops", "Close", "Put in", "Change")
        self.assertEqual([it for it in pressed if it in text], [])

    def test_pictures(self):
        """The two pictures of docs/: an opened cell, and a draft that is reviewed."""
        if not os.environ.get("POPBOX_PICTURES"):
            self.skipTest("POPBOX_PICTURES names no folder")
        page = self.browser(self.site(), width=1240, height=1050)
        page.view("table/bob/orders")
        page.driver.save_screenshot(f"{os.environ['POPBOX_PICTURES']}/page-table.png")
        page.draft(DRAFT)
        page.says("review", "Lines")
        page.driver.save_screenshot(f"{os.environ['POPBOX_PICTURES']}/page-draft.png")
