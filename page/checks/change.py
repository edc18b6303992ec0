"""What is changed from the page: from an empty server to a policy, a draft, what two people do at
once, clerks, maildrops and sessions."""

import hashlib
import os
import poplib

from clients import stopped
from place import DRAFT, OFFICE, PageCase
from selenium.webdriver.common.keys import Keys

SAME = "The draft says what is in force."
OTHER = OFFICE.replace('name = "ann-all"', 'name = "ann-any"')
# A password, or a part of it, that stays in the browser.
STAYS = (
    "return JSON.stringify({...localStorage, ...sessionStorage, hash: location.hash})"
    " + document.documentElement.outerHTML + [...document.querySelectorAll('input')]"
    ".map((it) => it.value)"
)
HIDDEN = "return document.getElementById(arguments[0]).hidden"


class Begin(PageCase):
    def rule(self, page, **values):
        """Fills the form of a rule, and sends it."""
        page.wait(lambda: page.shows("rule"), "there is no form")
        page.fill(None, **{f"r_{key}": value for key, value in values.items()})
        page.click("rule-yes")
        page.reviewed()

    def test_an_empty_server_has_a_policy_by_clicks(self):
        """Three steps lead to a maildrop, a clerk and a rule; five rules are written by the form; a
        cell says why bob can't remove payments; the rule is changed, and taken back."""
        place = self.site(policy=None)
        page = self.browser(place)
        for word in ("Add a maildrop", "Add a clerk", "Write the first rule", "an example"):
            self.assertIn(word, page.text("begin"))
        for it in ("orders", "billing"):
            self.adds(page, "maildrops", m_name=it)
        for it in ("ann", "bob"):
            self.adds(page, "clerks", c_name=it, c_secret="a long one")
        page.view("table")
        page.wait(lambda: len(page.cells("grid")) == 3, "the clerks have no rows")
        self.assertIn("✓ A clerk", page.text("begin"))
        page.click("#begin button")
        self.rule(page, name="bob-orders", clerk="bob", maildrop="orders", remove=True)
        for values in (
            {"name": "ann-all", "clerk": "ann", "remove": True, "place": "1"},
            {"name": "keep-payments", "effect": "deny", "class": "payment", "open": False,
             "read": False, "remove": True, "place": "2"},
            {"name": "bob-billing", "clerk": "bob", "maildrop": "billing"},
            {"name": "all-sales", "maildrop": "sale"},
        ):
            page.click("d-add")
            self.rule(page, **values)
        page.says("lacking", "No maildrop sale")
        page.put_in_force("In force: 5 rules.")
        names = [it.split('"')[1] for it in place.get("/policy").split("\n") if it[:4] == "name"]
        wanted = ["ann-all", "keep-payments", "bob-orders", "bob-billing", "all-sales"]
        self.assertEqual(names, wanted)
        self.assertTrue(page.js(HIDDEN, "begin"))
        page.view("table/bob/orders")
        page.says("cell", "no, keep-payments", "Reads everything; removes all except payment.")
        first = place.get("/policy")
        page.view("policy")
        page.click('[aria-label="Change rule 2"]')
        self.rule(page, clerk="ann")
        page.says("review", "bob: ▲ 1 allowed", "remove payment", '- clerk = "*"')
        page.click("d-table")
        page.says("table-of", "By the draft, which is not in force.")
        page.view("policy")
        page.put_in_force()
        page.view("history")
        page.click("#before-list button")
        page.says("draft-of", "The draft denies 1 more than what is in force.")
        page.put_in_force()
        self.assertEqual(place.get("/policy"), first)

    def test_an_example_begins_a_policy(self):
        """The example is a draft without a fault, whose names the server doesn't have."""
        page = self.browser(self.site(policy=None))
        page.click("#begin li:last-child button:last-child")
        page.says("lacking", "No clerk ann", "No maildrop orders")
        self.assertTrue(page.may_be_put())

    def test_a_rules_form_keeps_the_text_beside_it(self):
        """A rule that is changed, added or removed by the form leaves comments, and all else."""
        place, page = self.office()
        page.draft(OFFICE)
        text = 'name = "keep-payments"\neffect = "deny"'
        at = "const it = arguments[0]; it.focus(); it.setSelectionRange(arguments[1], arguments[1])"
        page.js(at, page.find("draft"), OFFICE.index(text))
        page.says("d-rule", "Change rule 2")
        page.click("d-rule")
        self.rule(page, effect="allow")
        self.assertEqual(page.value("draft"), OFFICE.replace(text, text.replace("deny", "allow")))
        page.click("d-rule")
        page.wait(lambda: page.shows("rule"), "there is no form")
        page.click("r-remove-rule")
        page.wait(lambda: "keep-payments" not in page.value("draft"), "it isn't removed")
        before, _, after = OFFICE.partition("# Payments stay")
        self.assertEqual(page.value("draft"), before + after[after.index("# Bob is named") :])
        # What the form can't write back stays as it is.
        odd = OFFICE.replace('actions = ["remove"]', "actions = [\n'remove']", 1)
        page.draft(odd)
        page.js(at, page.find("draft"), odd.index(text))
        page.says("d-rule", "Change rule 2")
        page.click("d-rule")
        page.says("r-fault", "change its text")
        page.click("rule-no")
        self.assertEqual(page.value("draft"), odd)


class Draft(PageCase):
    def test_a_fault_is_shown_at_its_line(self):
        """The fault is said in popbox's words, and leads to the line that has it."""
        place, page = self.office()
        bad = OFFICE.replace('class = "legal"', 'class = "lEgal"')
        page.draft(bad)
        line = bad[: bad.index('class = "lEgal"')].count("\n") + 1
        told = "Rule 9 dan-no-legal: `class` is `lEgal`, and not `*` or 1 to 32 of a-z, 0-9 and -"
        self.assertEqual(page.text("fault"), f"{told} Go to line {line}")
        self.assertFalse(page.may_be_put())
        page.click("#fault button")
        chosen = "const [it] = arguments; return it.value.slice(it.selectionStart, it.selectionEnd)"
        self.assertEqual(page.js(chosen, page.find("draft")), 'class = "lEgal"')
        self.assertIn(f"▶ {line}", page.text("gutter"))
        page.draft("# a\n\nx =\n")
        self.assertRegex(page.text("fault"), "^Line 3: invalid value.* Go to line 3$")

    def test_a_draft_is_put_in_force_and_forgotten(self):
        """It is reviewed, asked about and put in force; then there is no draft and no filter, at
        the next visit too; the text with its comments comes back, and says who put it in force."""
        place, page = self.office()
        first = place.get("/policy")
        page.view("policy")
        page.click("d-take")
        page.says("draft-of", SAME)
        self.assertFalse(page.may_be_put())
        page.draft(DRAFT)
        page.says("draft-of", "The draft allows 6 more and denies 7 more than what is in force.")
        page.says("review", "eve: ▲ 6 allowed, in 1 maildrop", "never decides", "was rule 11")
        page.says("review", "No clerk eve", '- members = ["bob", "dan"]', '+ members = ["bob", "')
        page.click("d-table")
        page.says("table-of", "By the draft")
        page.view("policy")
        page.click("d-put")
        asked = page.asks()
        self.assertIn("become allowed: 6; denied: 7.Rules that never decide: 1.", asked)
        # "No" has the focus, and Escape is no.
        self.assertEqual(page.focused().get_attribute("id"), "ask-no")
        page.keys(Keys.ESCAPE)
        page.wait(lambda: not page.shows("ask"), "Escape closes nothing")
        self.assertEqual((place.get("/policy"), os.listdir(place.keep)), (first, []))
        page.put_in_force("In force: 11 rules. What was before is kept.")
        second = place.get("/policy")
        self.assertIn("dans-support", second)
        self.assertFalse(page.shows("draft-box"))
        for _ in range(2):
            page.view("table")
            page.says("table-of", "By the policy in force. 6 clerks and 3 maildrops. A *")
            self.assertEqual((page.value("f-which"), page.shows("of-draft")), ("force", False))
            self.assertEqual(len(page.cells("grid")), 7)
            page.driver.refresh()
            page.loaded()
        page.view("policy")
        names = [hashlib.sha256(it.encode()).hexdigest()[:16] for it in (first, second)]
        self.assertIn(f"11 rules: policy {names[1]}, put in force by admin", page.text("force-of"))
        page.click("d-take")
        page.wait(lambda: page.value("draft") == DRAFT, "the comments are lost")
        page.says("draft-of", SAME)
        page.view("history")
        page.click("#before-list button")
        page.wait(lambda: page.value("draft") == first, "it isn't taken")
        page.put_in_force()
        self.assertEqual(place.get("/policy"), first)
        page.view("history")
        page.wait(lambda: len(page.cells("before-list")) == 2, "it isn't kept")
        self.assertRegex(page.cells("before-list")[0][1], "^admin, ")
        self.assertEqual([it[0][-16:] for it in page.cells("before-list")], names[::-1])

    def test_a_draft_that_is_begun_meanwhile_stays(self):
        """What is typed while a draft is put in force isn't forgotten with it."""
        place, page = self.office()
        page.draft(DRAFT)
        page.wait(page.may_be_put, "it can't be put in force")
        with stopped(place.server):
            page.click("d-put")
            page.agree()
            page.says("status", "puts it in force")
            page.fill(None, draft=f"{DRAFT}# more\n")
        page.says("status", "In force: 11 rules.")
        self.assertEqual(page.value("draft"), f"{DRAFT}# more\n")

    def test_that_nobody_may_open_is_warned_of(self):
        """A draft without a rule is put in force only after a warning."""
        place, page = self.office()
        page.draft("# nothing\n")
        page.click("d-put")
        self.assertIn("nobody may open any maildrop", page.asks())
        page.click("ask-no")
        page.draft("")
        self.assertIn("nobody may open any maildrop", page.put_in_force("In force: 0 rules."))
        self.assertEqual(place.get("/policy"), "")

    def test_names_that_the_server_lacks_are_said(self):
        """A clerk or a maildrop that the server doesn't have, or a class that the sorting never
        gives, is named, with the nearest that there is. A class that the sorting gives and no rule
        names is said, with who may read it, and the question says it once more."""
        place, page = self.office()
        text = OFFICE.replace('"bob", "dan"', '"bbo", "dan"')
        text = text.replace('maildrop = "billing"', 'maildrop = "biling"')
        text = text.replace('class = "payment"', 'class = "paymnt"', 1)
        page.draft(text.replace('class = "invoice"', 'class = "note"'))
        page.says("lacking", "No maildrop biling; there is billing")
        told = "No clerk bbo; there is bob", "No class paymnt; there is payment"
        found = page.says("lacking", *told)
        self.assertNotIn("note", found)
        place.sort("payments")
        page.draft(DRAFT)
        page.says("lacking", "No class payment; there is payments")
        told = "No rule names what ann, bob, cat, eve may read: payments, note"
        page.says("review", told)
        page.click("d-put")
        self.assertIn(told, page.asks())

    def test_a_reload_and_a_second_tab_keep_the_draft(self):
        """The browser keeps draft, filters and cell; another tab's change is said, and taken."""
        place, page = self.office()
        page.draft(DRAFT)
        page.click("d-table")
        page.view("table/dan/support")
        page.driver.refresh()
        page.loaded()
        page.says("cell", "draft: no, dan-no-legal")
        self.assertEqual((page.value("draft"), page.value("f-which")), (DRAFT, "draft"))
        self.assertTrue(page.js("return document.getElementById('f-changed').checked"))
        first = page.driver.current_window_handle
        page.driver.switch_to.new_window("tab")
        page.open()
        self.assertEqual(page.value("draft"), DRAFT)
        page.draft(DRAFT + "# more\n")
        page.driver.switch_to.window(first)
        page.wait(lambda: not page.js(HIDDEN, "d-other"), "nothing is said of the other tab")
        page.click("d-take-other")
        self.assertEqual(page.value("draft"), DRAFT + "# more\n")
        self.assertTrue(page.js(HIDDEN, "d-other"))


class TwoPeople(PageCase):
    def test_another_administrator_is_not_overwritten(self):
        """If another policy comes into force, nothing is put over it until its change was seen; the
        page shows both, and takes both if they touch different lines."""
        place, page = self.office()
        page.draft(DRAFT)
        place.put("/policy", OTHER)
        page.click("d-put")
        page.agree()
        page.says("status", "another policy is in force (nothing was changed)", "look at both")
        force = place.get("/policy")
        self.assertEqual(("ann-any" in force, "eve" in force), (True, False))
        page.says("stale", "Another policy is in force", '- name = "ann-all"', '+ name = "ann-any"')
        page.reviewed()
        self.assertFalse(page.may_be_put())
        page.click("#stale summary")
        page.js("document.querySelectorAll('#stale details')[1].open = true")
        page.says("stale", '+ members = ["bob", "dan", "eve"]')
        page.click("#stale button.strong")
        page.put_in_force()
        force = place.get("/policy")
        self.assertEqual(("ann-any" in force, "eve" in force), (True, True))

    def test_a_draft_that_undoes_another_says_so(self):
        """A draft whose author wants it alone is put over the other's policy once its author has
        seen that one; if both change one line, both can't be taken."""
        place, page = self.office()
        page.draft(DRAFT)
        place.put("/policy", OFFICE.replace('"dan"]', '"dan", "old"]'))
        page.reload()
        page.says("stale", "Both change the same lines")
        self.assertEqual(len(page.driver.find_elements("css selector", "#stale button.strong")), 0)
        page.driver.refresh()
        page.loaded()
        page.says("stale", "Both change the same lines")
        page.click("#stale button")
        page.says("review", '- members = ["bob", "dan", "old"]')
        page.put_in_force()
        self.assertNotIn("old", place.get("/policy"))

    def test_no_old_review_is_left(self):
        """If what a draft says comes into force from elsewhere, the next answer shows it."""
        place, page = self.office()
        page.draft(DRAFT)
        place.put("/policy", DRAFT)
        self.adds(page, "clerks", c_name="gil", c_secret="x")
        page.says("draft-of", SAME)
        self.assertFalse(page.may_be_put())
        # Whatever filters are kept, all rows stand there, and nothing false is said.
        page.click("d-table")
        page.says("table-of", f"{SAME} 7 clerks and 3 maildrops.")
        self.assertEqual(len(page.cells("grid")), 8)
        page.draft(DRAFT.replace('name = "ann-all"', 'name = "ann-any"'))
        page.click("d-table")
        page.says("table-of", "not in force. The draft changes nothing of this. 7 clerks")
        self.assertEqual(len(page.cells("grid")), 8)

    def test_two_browsers_lose_nothing(self):
        """Of two drafts that began on one policy, the second is put in force only with the first
        in it; and what the first put in force isn't a draft that undoes the second."""
        place = self.site()
        ann, bob = self.browser(place), self.browser(place)
        ann.draft(OTHER)
        bob.draft(DRAFT)
        ann.put_in_force()
        bob.click("d-put")
        bob.agree()
        bob.says("stale", "admin put it in force")
        bob.click("#stale button.strong")
        bob.put_in_force()
        force = place.get("/policy")
        self.assertEqual(("ann-any" in force, "eve" in force), (True, True))
        ann.reload()
        self.assertFalse(ann.shows("draft-box"))
        self.assertIn("eve", ann.text("force"))


class Clerks(PageCase):
    def test_clerks_are_added_replaced_and_removed(self):
        """A clerk logs in by what was set; no password stays; popbox's words are shown."""
        place, page = self.office()
        self.adds(page, "clerks", c_name="gil", c_kind="pass", c_secret="a good one")
        client = poplib.POP3("127.0.0.1", place.server.pop)
        client.user("gil/orders")
        with self.assertRaisesRegex(poplib.error_proto, "denied by rule default"):
            client.pass_("a good one")
        client.close()
        self.assertNotIn("a good one", page.js(STAYS))
        page.fill("clerks", c_name="gil", c_kind="apop", c_secret="two")
        self.assertEqual(page.sent("clerks", "c-told", agree=True), "gil: replaced")
        self.assertEqual(place.get("/clerks/gil"), "apop\n")
        page.fill("clerks", c_name="gil", c_secret="café")
        self.assertIn("“é” can't be in a password", page.text("c-told"))
        valid = "return document.getElementById('c-form').checkValidity()"
        self.assertFalse(page.js(valid))
        page.fill("clerks", c_secret="cafe")
        self.assertTrue(page.js(valid))
        page.fill("clerks", c_name="Gil Bates")
        self.assertFalse(page.js(valid))
        page.loaded()
        self.assertEqual(page.pressed("Remove clerk gil", "c-told"), "gil: dropped")
        self.assertEqual(place.get("/clerks/gil"), "no such clerk\n")

    def test_a_made_password_is_shown_until_it_is_closed(self):
        """It stands there after it was set, with the user names of the maildrops that the clerk may
        open; it is closed by a click, or by leaving the page, and is nowhere then."""
        place, page = self.office()
        page.fill("clerks", c_name="bob", c_kind="pass")
        page.click("c-make")
        secret = page.value("c-secret")
        self.assertEqual(len(secret), 20)
        self.assertEqual(page.sent("clerks", "c-told", agree=True), "bob: replaced")
        page.says("made", secret, "bob/orders", "bob/support", "port")
        self.assertNotIn("bob/billing", page.text("made"))
        page.loaded()
        client = poplib.POP3("127.0.0.1", place.server.pop)
        client.user("bob/orders")
        self.assertIn(b"+OK", client.pass_(page.text("made-secret")))
        client.quit()
        page.driver.find_element("css selector", "#made-secret + button").click()
        page.says("made", "copied")
        page.find("c-secret").send_keys(Keys.CONTROL, "v")
        page.wait(lambda: page.value("c-secret") == secret, "it isn't copied")
        page.fill(None, c_secret="")
        page.click("#made .head button")
        self.assertNotIn(secret, page.js(STAYS))
        # Also if it isn't shown as it is set; of a clerk whom no rule names, by a rule for all.
        place.put("/policy", OFFICE.replace('clerk = "ann"', 'clerk = "*"'))
        page.reload()
        page.fill("clerks", c_name="gil")
        page.click("c-make")
        page.click("c-show")
        self.assertEqual(page.sent("clerks", "c-told"), "gil: added")
        page.says("made", "gil/orders", "gil/billing", "gil/support")

    def test_what_is_not_known_is_said_so(self):
        """If nothing answers, no question is asked about a clerk, and nothing is sent."""
        place, page = self.office()
        place.stop("nginx")
        page.fill("clerks", c_name="kim", c_secret="a long one")
        told = page.sent("clerks", "c-told")
        self.assertIn("nothing was sent, since whether there is such a clerk isn't known", told)
        self.assertFalse(page.shows("ask"))
        place.start_nginx()
        place.server.end()
        page.fill("clerks", c_name="kim", c_secret="a long one")
        self.assertIn("isn't known: the proxy says 502", page.sent("clerks", "c-told"))

    def test_a_clerk_whom_no_rule_names_is_shown(self):
        """The clerks are the server's; one whom only the policy names is marked."""
        place = self.site()
        place.administer("DELETE", "/clerks/dan")
        page = self.browser(place)
        listed = lambda: [it[:2] for it in page.cells("c-list")]
        want = [["ann", "password"], ["bob", "APOP secret"], ["cat", "password"]]
        want += [["dan", "no such clerk"], ["old", "password"]]
        self.assertEqual((listed(), page.text("c-of")), (want, "4 clerks."))
        asked = place.read("access.log")
        self.assertEqual((asked.count("GET /api/clerks 200"), "/api/clerks/" in asked), (1, False))
        self.assertEqual(page.pressed("Remove clerk old", "c-told"), "old: dropped")
        page.loaded()
        self.assertEqual((listed(), page.text("c-of")), (want[:-1], "3 clerks."))

    def test_without_a_list_the_policys_clerks_are_shown(self):
        """A server that lists no clerks shows those of the policy, and who was added from here."""
        place, page = self.office(has_list=False)
        listed = lambda: [it[0] for it in page.cells("c-list")]
        said = "The server does not list its clerks (serve --list-clerks)"
        self.assertEqual(listed(), ["ann", "bob", "cat", "dan"])
        self.assertIn(said, page.text("c-of"))
        self.adds(page, "clerks", c_name="gil", c_secret="x")
        place.put("/clerks/hal", "pass x")
        page.reload()
        self.assertEqual(listed(), ["ann", "bob", "cat", "dan", "gil"])


class Maildrops(PageCase):
    def log_in(self, place):
        client = poplib.POP3("127.0.0.1", place.server.pop)
        client.user("ann/orders")
        client.pass_("s3 cret")
        return client

    def test_maildrops_are_added_and_removed(self):
        """One that has messages or is in use stays; its classes are counted; a session is ended."""
        place, page = self.office()
        self.adds(page, "maildrops", m_name="sales")
        self.assertEqual(page.pressed("Remove maildrop sales", "m-told"), "sales: dropped")
        self.assertEqual(page.pressed("Remove maildrop orders", "m-told"), "orders: not empty")
        client = self.log_in(place)
        self.assertEqual(page.pressed("Remove maildrop orders", "m-told"), "orders: in use")
        counts = place.get("/maildrops").split("\n")[1].split()
        self.assertEqual(page.cells("m-list")[1][:3], counts)
        page.view("maildrops/orders")
        page.says("m-one", "complaint")
        counts = sorted(it[:2] for it in page.cells("m-one"))
        self.assertEqual(counts, [["complaint", "1"], ["note", "2"], ["payment", "1"]])
        page.view("history")
        page.reload()
        number = place.get("/sessions").split()[0]
        told = page.pressed(f"End session {number} of ann", "s-told")
        self.assertEqual(told, f"{number}: ended")
        with self.assertRaises((OSError, EOFError, poplib.error_proto)):
            client.noop()

    def test_another_session_of_that_number_goes_on(self):
        """What isn't that clerk's any more, after a restart, isn't ended."""
        place, page = self.office()
        first = self.log_in(place)
        page.reload()
        self.assertEqual(place.get("/sessions"), "1 ann orders\n")
        place.restart()
        first.close()
        client = poplib.POP3("127.0.0.1", place.server.pop)
        client.user("dan/support")
        client.pass_("dan")
        self.assertEqual(place.get("/sessions"), "1 dan support\n")
        told = page.pressed("End session 1 of ann", "s-told")
        self.assertIn("nothing was ended: it isn't ann's in orders any more, but dan's", told)
        client.noop()
        client.quit()
