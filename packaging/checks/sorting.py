"""The sorting: which class popbox-deliver and import-maildir give to a message, and when none."""

import base64
import os
import re
import shutil
import sys

from clients import wants
from harness import LIMIT, ScriptCase, read_text, write

SORTING = """
[[sort]]
class = "payment"
from = ["@bank.example", "Anna@books.example"]

[[sort]]
class = "complaint"
subject = ["complaint", "r\u00e9clamation", "gross error"]

[[sort]]
class = "legal"
to = ["+legal", "lawyer@office.test"]

[[sort]]
class = "list"
list-id = "news.lists.example"

[[sort]]
class = "spam"
header.X-Spam-Flag = "yes"

[[sort]]
class = "offer"
subject = "re:^offer [0-9]+$"
has-attachment = true

[otherwise]
class = "note"
"""
NEVER = '[[sort]]\nclass = "payment"\n{}\n[otherwise]\nclass = "note"\n'
TWICE = base64.b64encode(b"=?utf-8?B?Y29tcGxhaW50?=").decode()
PART = "Content-Type: multipart/mixed; boundary=b\n\n--b\n\nx\n--b\n{}\n\n"

# Headers, and the class of each.
ROWS = (
    # RFC 5322, 2.2: no blank has to follow the colon; 4.5: one may stand before it.
    ("Subject: complaint about Bob", "complaint"), ("Subject:complaint about Bob", "complaint"),
    ("Subject:\tcomplaint about Bob", "complaint"), ("Subject : complaint about Bob", "complaint"),
    ("sUBJECT: A COMPLAINT", "complaint"), ("Subject: com\u00adplaint", "complaint"),
    ("Subject: com\u200bpla\u2060int", "complaint"), ("Subject: \uff43omplaint", "complaint"),
    ("Subject: re\u0301clamation", "complaint"), ("Subject: gross\u00a0 \t error", "complaint"),
    ("Subject: grosserror", "note"),
    # 2.2.3: folded.
    ("Subject: about Bob:\r\n\tcomplaint", "complaint"), ("Subject:\n complaint", "complaint"),
    ("Subject: gross\n error", "complaint"),
    # RFC 2047: a blank between two encoded words says nothing; each is decoded once.
    ("Subject: =?utf-8?B?Y29tcGxhaW50?=", "complaint"),
    ("Subject: =?utf-8?q?gross=5Ferror?= =?us-ascii*en?q?_gross_error?=", "complaint"),
    ("Subject: =?utf-8?Q?comp?=\n =?utf-8?B?bGFpbnQ=?=", "complaint"),
    ("Subject: =?iso-8859-1?q?r=E9cla?= =?utf-8?q?mation?=", "complaint"),
    ("Subject: =?utf-8?q?r=C3?= =?utf-8?q?=A9clamation?=", "complaint"),
    (f"Subject: =?utf-8?B?{TWICE}?=", "note"), ("Subject: =?x-none?q?complaint?=", "complaint"),
    # A word that Python's email fails on doesn't hide the others.
    ("Subject: =?utf-8?B?Y29tcGxhaW50?= =?unicode_escape?q?=5Cud800?=", "complaint"),
    ("Subject: =?utf-8?q?a=0AFrom:_a@bank.example?=", "note"),
    ("Subject: r\u00e9clamation", "complaint"), (b"Subject: r\xe9clamation", "complaint"),
    ("Subject: a chair", "note"), ("X-Subject: complaint", "note"),
    ("Date: Tue, 1 Dec 2026 09:00:00 +0000", "note"), ("", "note"),
    ("\nSubject: complaint", "note"), ("Subject: a chair\n\nSubject: complaint", "note"),
    # Any of two.
    ("Subject: a chair\nSubject: complaint", "complaint"),
    ("From: m@evil.example\nFrom: a@bank.example", "payment"),
    ("From: m@evil.example, a@bank.example", "payment"),
    # The first rule that fits.
    ("Subject: complaint\nFrom: a@bank.example", "payment"),
    # What can't be read fits nothing, and hides nothing.
    ("X-Y: " + "y" * 100_000 + "\nSubject: complaint", "complaint"),
    ("".join(f"X-{it}: {'y' * 90}\n" for it in range(1000)) + "Subject: complaint", "complaint"),
    ("Subject: com\0plaint", "complaint"), ("X-Y: 1\rSubject: complaint", "complaint"),
    ("Subject: com\rplaint", "complaint"), ("X Y: 1\nno field\nSubject: complaint", "complaint"),
    ("From ann Thu Nov 26 09:15:02 2026\nSubject: complaint", "complaint"),
    # RFC 5322, 3.4: an address is what is parsed as one.
    ("From: a@bank.example", "payment"), ("From: A. Bank <a@BANK.example>", "payment"),
    ("From: A. Bank <a@bank.example> (for you)", "payment"),
    ("From: Bank: a@bank.example, b@bank.example;", "payment"),
    ("From: anna@books.example", "payment"), ("From: joanna@books.example", "note"),
    ("From: a@mail.bank.example", "note"), ("From: a@notbank.example", "note"),
    ("From: a@bank.example.evil.example", "note"),
    ('From: "M" <m@evil.example> (a@bank.example', "note"),
    ("From: m@evil.example (a@bank.example)", "note"),
    ('From: "a@bank.example" <m@evil.example>', "note"),
    ("From: a@bank.example <m@evil.example>", "note"),
    ("From: <m@evil.example> a@bank.example", "note"),
    ("From: =?utf-8?Q?a=40bank.example?= <m@evil.example>", "note"),
    ("From: =?utf-8?Q?a=40bank.example?=", "note"),
    ("From: =?utf-8?Q?=3Ca=40bank.example=3E?= m@evil.example", "note"),
    ('From: "a@bank.example"@evil.example', "note"), ("From: a@bank.example@evil.example", "note"),
    ("From: <@bank.example:m@evil.example>", "note"),
    ("From: m@evil.example\nReply-To: a@bank.example\nSender: a@bank.example", "note"),
    ("From: " + "(" * 10_000 + "a@bank.example", "note"),
    # Names that many programs write, though RFC 5322 doesn't allow them.
    ("From: a@bank.example <a@bank.example>", "payment"),
    ('From: "=?utf-8?Q?Bank?=" <a@bank.example>', "payment"),
    ("From: =?utf-8?Q?Bank?=<a@bank.example>", "payment"),
    ("From: Bank [Support] <a@bank.example>", "payment"),
    # The other conditions.
    ("To: Orders <orders+legal@office.test>", "legal"),
    ("To: a@b.example\nCc: b@b.example, LAWYER@office.test", "legal"),
    ("To: legal@office.test, orders+legal-not@office.test", "note"),
    ("Delivered-To: lawyer@office.test", "note"),
    ("List-Id: The news <News.Lists.example>", "list"),
    ('List-Id: "<news.lists.example>" <lists.evil.example>', "note"), ("x-spam-flag: YES", "spam"),
    ("X-Spam-Flag: no", "note"),
    ("Subject: Offer 12\n" + PART.format('Content-Type: a/b;\n name="b.pdf"'), "offer"),
    ("Subject: Offer 12\n" + PART.format("content-disposition: attachment"), "offer"),
    ("Subject: Offer 12\n" + PART.format("Content-Disposition: inline"), "note"),
    ("Subject: Offer 12", "note"),
    ("Subject: An offer 12\n" + PART.format("Content-Disposition: attachment"), "note"),
    # Octets that aren't of their charset, and what some programs show and others don't.
    (b"Subject: r\xc3\xa9clamation \xff", "complaint"),
    (b"Subject: r\xc3\xa9cla\xffmation", "complaint"), (b"Subject: Offer\xff 12", "note"),
    ("Subject: =?utf-8?q?r=E9clamation?=", "complaint"),
    ("Subject: =?x-none?q?r=E9cla?= =?us-ascii?b?bWF0aW9u?=", "complaint"),
    ("Subject: =?utf-8?q?com=0Apla=C2=ADint?=", "complaint"),
    ("Subject: com\u2028pla\ufff9int", "complaint"),
    ("Subject: a \u202etnialpmoc\u202c", "complaint"),
    (b"Subject: " + "complaint".encode("utf-16"), "complaint"),
    # Out of reach: letters of another script, and marks over a letter.
    ("Subject: c\u043emplaint", "note"), ("Subject: com\u0301plaint", "note"),
)

# What keeps all mail back, and what is said of it.
FAULTS = (
    ("[otherwise", "Expected ']'"), (b"\xff", "'utf-8' codec can't decode"),
    ("", "it has no [otherwise]"),
    ('[[sort]]\nclass = "payment"\nsubject = "x"', "it has no [otherwise]"),
    ('[otherwise]\nclass = "Note"', "otherwise: it has no class of 1 to 32 of a-z, 0-9 and -"),
    ("[otherwise]\nstrict = true", "otherwise: it has no class"),
    ('[otherwise]\nclass = "note"\nsubject = "x"', "otherwise: it has other keys"),
    ('[otherwise]\nclass = "note"\nstrict = "yes"', "otherwise: it has other keys"),
    ('strict = true\n[otherwise]\nclass = "note"', "unknown: strict"),
    ('[otherwise]\nclass = "note"\n[sort]\nclass = "x"', "sort is written [[sort]]"),
    ('sort = ["x"]\n[otherwise]\nclass = "note"', "rule 1: is no table"),
    (NEVER.format('[[sort]]\nclass = "x"\nsubject = "x"'), "rule 1: it has no condition"),
    (NEVER.format('subject = "x"\n[[sort]]\nclass = "x.y"\nsubject = "x"'), "rule 2: it has no"),
    (NEVER.format('subject = "x"\n[[sort]]\nsubject = "x"'), "rule 2: it has no class"),
    (NEVER.format('subjet = "x"'), "rule 1: unknown key subjet"),
    (NEVER.format('header = "x"'), "rule 1: unknown key header, or one of another kind"),
    (NEVER.format('header.X:Y = "x"'), "Expected '=' after a key"),
    (NEVER.format('header."X:Y" = "x"'), "rule 1: header: 'X:Y' is no field's name"),
    (NEVER.format('subject = ""'), "rule 1: subject has a text that is none or empty: ''"),
    (NEVER.format('subject = "\u00ad "'), "rule 1: subject has a text that is none or empty"),
    (NEVER.format('subject = ["x", 1]'), "rule 1: subject has a text that is none or empty: 1"),
    (NEVER.format("subject = []"), "rule 1: subject has no text"),
    (NEVER.format('from = "bank.example"'), "rule 1: from: 'bank.example' is no address"),
    (NEVER.format('from = "+legal"'), "rule 1: from: '+legal' is no address"),
    (NEVER.format('to = "+"'), "rule 1: to: '+' is no address"),
    (NEVER.format('subject = "re:("'), "rule 1: subject: 're:(' is no regular expression"),
    (NEVER.format('has-attachment = "yes"'), "rule 1: has-attachment is neither true nor false"),
)

# The form that older packages read, its texts, and what each was: a pattern of grep -E for a field.
CLASSES = """# no class

payment ^From: .*@bank\\.example>?$
invoice ^Subject: .*invoice
cafe ^(Subject|X-Where): caf\u00e9$
later ^Subject: """
CARRIED = (
    ("From: <a@bank.example>\nSubject: your invoice\n\n", "payment"),
    ("Subject: Your INVOICE\r\nFrom: a@b.example\r\n\r\n", "invoice"),
    ("From: a@b.example\n\nSubject: invoice\n", "note"), ("Subject: your\n invoice\n\n", "invoice"),
    ("Subject: =?utf-8?B?eW91ciBpbnY=?= =?utf-8?Q?oi=63e?=\n\n", "invoice"),
    ("From: =?utf-8?Q?a=40bank.example?=\n\n", "note"), ("Subject: a chair\n\n", "later"),
    ("X-Where: caf\u00e9\n\n", "cafe"), ("Subject: =?ISO-8859-1?q?caf=E9?=\n\n", "cafe"),
    ("Subject: =?iso-8859-1*de?q?caf=E9?=\n\n", "cafe"),
    ("Subject: =?windows-1252?B?Y2Fm6Q==?=\n\n", "cafe"),
    ("Subject: your\n\tinvoice\n\n", "invoice"),
    ("Subject: =?utf-8?q?a=0AFrom:_a@bank.example?=\n\n", "later"),
    ("Subject: =?utf-8?q?your_inv=6fice?=\n\n", "invoice"), ("\nSubject: your invoice\n", "note"),
    ("Subject: your invoice\r\nX-Where: here", "invoice"),
)
# Lines that nothing carries over, since a field's name isn't at their front.
BY_HAND = "x invoice", "x", "x ^.*invoice", "x (Subject: a)", "x ^Subject: [[:alpha:]]"
# Calls popbox-deliver with a journal that prints.
JOURNAL = """import runpy, sys, types
sys.argv = sys.argv[1:]
journal = types.ModuleType("syslog", "")
journal.LOG_MAIL, journal.LOG_ERR = "mail", "err"
journal.openlog = journal.syslog = lambda *words: print(*words)
sys.modules["syslog"] = journal
runpy.run_path(sys.argv[0], run_name="__main__")
"""


class Sorting(ScriptCase):
    def setUp(self):
        super().setUp()
        self.sorting, self.env = f"{self.folder}/sorting.toml", {"RECIPIENT": ""}
        self.env["POPBOX_SORTING"] = write(self.sorting, SORTING)

    def call(self, *words, said=b"", **env):
        """What popbox-deliver gives."""
        return self.script("popbox-deliver", *words, said=said, env={**self.env, **env})

    def deliver(self, text, *words, **env):
        """A message's class, or the status and what is said; after that the spool is empty."""
        status, out, why = self.call(self.spool, "orders", "n-1", *words, said=text, **env)
        names = os.listdir(self.spool)
        if status:
            wants((out, names), ("", []))
            return status, why
        wants((out, why, len(names)), ("", "", 1))
        with open(f"{self.spool}/{names[0]}", "rb") as file:
            wants(file.read(), text)
        os.remove(file.name)
        return re.fullmatch(r"orders\.(.*)\.n-1\.eml", names[0])[1]

    def explain(self, texts):
        """What popbox-deliver --explain says of each of these texts."""
        words = []
        for number, text in enumerate(texts):
            words.append(f"{self.folder}/{number}")
            write(words[-1], text)
        status, out, why = self.call("--explain", *words)
        told = re.findall(r"(?m)^\S.*\n(?: .*\n)*", out)
        wants((status, why), (75 if out.startswith("none: ") or "\nnone: " in out else 0, ""))
        wants(len(told), len(words))
        return told

    def check_rows(self, rows):
        told = self.explain([text for text, _ in rows])
        for (text, class_), found in zip(rows, told):
            with self.subTest(text[:200]):
                wants(found.partition(" ")[0], class_)

    def test_each_text_gets_the_class_that_the_sorting_says(self):
        """A message has the class of the first rule that fits what a reader sees of it, and
        otherwise that of [otherwise]."""
        ends = (("\n\nx\n", b"\n\nx\n"), ("\r\n\r\nx\r\n", b"\r\n\r\nx\r\n"))
        for text_end, octets_end in ends:
            rows = [(it + (text_end if isinstance(it, str) else octets_end), class_)
                    for it, class_ in ROWS]
            self.check_rows(rows)

    def test_a_message_is_put_under_its_class(self):
        """What --explain says is what a delivered message gets, and its octets stay."""
        for text, class_ in ROWS[:6] + (ROWS[24], ROWS[37]):
            text = text if isinstance(text, bytes) else text.encode()
            with self.subTest(text):
                wants(self.deliver(text + b"\n\nx\r\n\n"), class_)
        wants(self.deliver(b"Subject: complaint"), "complaint")

    def test_the_envelope_sorts(self):
        """`to` looks at the recipient that the mail system names: by a word, or in RECIPIENT."""
        text, legal = b"Subject: a chair\n\nx\n", "orders+Legal@office.test"
        wants(self.deliver(text, legal), "legal")
        wants(self.deliver(text, RECIPIENT=legal), "legal")
        wants(self.deliver(text, "orders@office.test", RECIPIENT=legal), "note")
        wants(self.deliver(text, "lawyer@office.test"), "legal")
        wants(self.deliver(text, "legal@office.test"), "note")
        for it in ("orders+@office.test", "+legal", "orders", ""):
            wants((it, self.deliver(text, RECIPIENT=it)), (it, "note"))

    def test_conditions_of_one_rule_must_all_hold(self):
        """Several conditions must all hold; of a list's texts any."""
        conditions = 'from = "@bank.example"\nsubject = ["invoice", "bill"]\nhas-attachment = false'
        write(self.sorting, NEVER.format(conditions))
        bill = "From: a@bank.example\nSubject: your bill\n"
        rows = [
            (bill + "\n", "payment"),
            (bill + PART.format("Content-Type: a/b; name=x"), "note"),
            ("From: a@bank.example\nSubject: invoice\n\n", "payment"),
            ("From: a@bank.example\nSubject: hello\n\n", "note"),
            ("From: a@evil.example\nSubject: invoice\n\n", "note"),
        ]
        self.check_rows(rows)

    def test_a_faulty_sorting_keeps_all_mail_back(self):
        """Nothing fails open: status 75, the spool is empty, and the file, the rule and the reason
        are said; --check says the same."""
        for text, told in FAULTS:
            with self.subTest(text):
                write(self.sorting, text)
                status, why = self.deliver(b"Subject: a chair\n\nx\n")
                wants((status, f"popbox-deliver: {self.sorting}: {told}" in why), (75, True))
                wants(self.call("--check"), (75, "", why))
        wants(self.call("--classes"), (75, "", why))
        os.remove(self.sorting)
        told = f"popbox-deliver: {self.sorting}: {{}}\n"
        wants(self.deliver(b"x\n"), (75, told.format("No such file or directory")))
        os.mkdir(self.sorting)
        wants(self.deliver(b"x\n"), (75, told.format("Is a directory")))
        shutil.copy(f"{self.packaging}/popbox-deliver", self.folder)
        words = [self.spool, "orders", "n-1"]
        status, out, why = self.script(f"{self.folder}/popbox-deliver", *words, said=b"x\n")
        wants((status, out, why), (75, "", "popbox-deliver: No module named 'sorting'\n"))
        wants(os.listdir(self.spool), [])

    def test_a_failure_is_in_the_journal(self):
        """Each failure is a line of the mail system's journal."""
        write(self.sorting, NEVER.format('subjet = "x"'))
        words = ["-c", JOURNAL, f"{self.packaging}/popbox-deliver", self.spool, "orders", "n-1"]
        status, out, why = self.script(sys.executable, *words, env=self.env, said=b"x\n")
        told = f"{self.sorting}: rule 1: unknown key subjet, or one of another kind"
        wants((status, out), (75, f"popbox-deliver 0 mail\nerr {told}\n"))
        wants(why, f"popbox-deliver: {told}\n")

    def test_a_strict_sorting_keeps_back_what_it_cannot_read(self):
        """With `strict` a message whose header can't be read has no class, whatever fits; without
        it what can't be read fits no rule."""
        strict = SORTING + "strict = true\n"
        rows = (
            (b"Subject: com\0plaint", "complaint", "its header has a NUL"),
            (b"X-Y: 1\rSubject: a", "note", "its header has a CR inside a line"),
            (b"no field\nSubject: a", "note", "header has a line that is no field: b'no field'"),
            (b'From: "M" <a@bank.example> (x', "note", "a field from can't be read: '\"M\" <a@"),
            (b"X: " + b"y" * 1_000_000 + b"\nSubject: complaint", "note", "has more than 1000000"),
            (b"Subject: complaint" + b"y" * 100_000, "complaint", "has more than 100000 "),
            (b"Subject: =?x?q?=FF?=", "note", "subject has octets that aren't of its charset: '=?x"),
        )
        for text, class_, why in rows:
            with self.subTest(why):
                write(self.sorting, SORTING)
                wants(self.deliver(text + b"\n\nx\n"), class_)
                write(self.sorting, strict)
                status, told = self.deliver(text + b"\n\nx\n")
                is_told = f"{self.sorting}: otherwise is strict, and " in told and why in told
                wants((status, is_told), (75, True))
        wants(self.deliver(b"Subject : complaint\n\nx\n"), "complaint")

    def test_a_regular_expression_has_two_seconds(self):
        """One that takes longer keeps the message back, and says which rule it is in."""
        write(self.sorting, NEVER.format('subject = "re:^(a+)+$"'))
        wants(self.deliver(b"Subject: " + b"a" * 100 + b"\n\nx\n"), "payment")
        told = f"{self.sorting}: rule 1 (payment): the message takes more than 2 seconds"
        text = b"Subject: " + b"a" * 100 + b"b\n\nx\n"
        wants(self.deliver(text), (75, f"popbox-deliver: {told}\n"))
        # So has a From that takes Python's email long.
        write(self.sorting, SORTING)
        status, why = self.deliver(b"From: " + b"a " * 45_000 + b"\n\nx\n")
        wants((status, "rule 1 (payment): the message takes more" in why), (75, True))

    def test_explain_says_why(self):
        """--explain names the rule that decides, and of each before it what doesn't hold."""
        text = b"From: M@evil.example\nSubject: Your\n Complaint\0\n\n"
        told = f"""complaint by rule 2: {self.folder}/0
  rule 1 (payment): from doesn't hold: m@evil.example
  not read: its header has a NUL
"""
        wants(self.explain([text]), [told])
        told = self.explain([b"Subject: a chair\n\n"])[0].splitlines()
        wants(told[0], f"note by otherwise: {self.folder}/0")
        wants(told[1:4], [
            "  rule 1 (payment): from doesn't hold: nothing",
            "  rule 2 (complaint): subject doesn't hold: a chair",
            "  rule 3 (legal): to doesn't hold: nothing",
        ])
        wants(told[5], "  rule 5 (spam): header.X-Spam-Flag doesn't hold: nothing")
        write(self.sorting, SORTING + "strict = true\n")
        told = f"  status 75: {self.sorting}: otherwise is strict, and its header has a NUL\n"
        wants(self.explain([text]), [f"none: {self.folder}/0\n{told}"])
        status, out, why = self.call("--explain", f"{self.folder}/none", f"{self.folder}/0")
        lost = f"none: {self.folder}/none\n  status 75: No such file or directory\n"
        wants((status, out, why), (75, f"{lost}none: {self.folder}/0\n{told}", ""))

    def test_a_subject_that_is_empty_or_missing(self):
        """No text fits a Subject that isn't there; List-Id's brackets are no part of it."""
        write(self.sorting, """[[sort]]
class = "bare"
subject = "re:^$"
[[sort]]
class = "list"
list-id = "<news.dental.example>"
[otherwise]
class = "note"
""")
        listed = b"Subject: x\nList-Id: News <news.dental.example>\n\n"
        texts = [b"From: a@b.example\n\n", b"Subject:\n\n", listed, b"Subject: x\n\n"]
        classes = [it.split(" ", 1)[0] for it in self.explain(texts)]
        wants(classes, ["note", "bare", "list", "note"])

    def test_check_and_classes(self):
        """--check says how many rules there are, --classes each class once."""
        wants(self.call("--check"), (0, "ok, 6 rules\n", ""))
        classes = ["payment", "complaint", "legal", "list", "spam", "offer", "note"]
        wants(self.call("--classes"), (0, "".join(f"{it}\n" for it in classes), ""))
        write(self.sorting, NEVER.format('subject = "x"\n[[sort]]\nclass = "note"\nfrom = "@x"'))
        wants(self.call("--classes"), (0, "payment\nnote\n", ""))
        for words in ([], ["--check", "x"], ["--explain"], ["--sort"], ["a", "b", "c", "d", "e"]):
            status, out, why = self.call(*words)
            wants((words, status, out), (words, 64, ""))
            wants(why.startswith("popbox-deliver: usage: popbox-deliver SPOOL MAILDROP ID"), True)

    def test_the_packages_sorting_is_one(self):
        """The file that the package begins with makes each message a note."""
        write(self.sorting, read_text(f"{self.packaging}/sorting.toml"))
        wants(self.call("--check"), (0, "ok, 0 rules\n", ""))
        wants(self.deliver(b"From: a@bank.example\nSubject: complaint\n\nx\n"), "note")
        text = re.sub("(?m)^#(?! )", "", read_text(f"{self.packaging}/sorting.toml"))
        write(self.sorting, text)
        wants(self.call("--check"), (0, "ok, 2 rules\n", ""))
        wants(self.deliver(b"From: a@bank.example\n\nx\n"), "payment")

    def test_an_older_file_of_classes_is_carried_over(self):
        """The sorting that --carry-over prints gives each message the class that it had."""
        write(f"{self.folder}/classes", CLASSES)
        status, out, why = self.call("--carry-over", f"{self.folder}/classes")
        wants((status, why), (0, ""))
        wants('from = "@bank.example"\n' in out and 'subject = "invoice"\n' in out, True)
        write(self.sorting, out)
        self.check_rows(CARRIED)
        for line in BY_HAND:
            write(f"{self.folder}/classes", f"payment ^From: a\n{line}\n")
            status, out, why = self.call("--carry-over", f"{self.folder}/classes")
            wants((line, status, out), (line, 75, ""))
            told = f"popbox-deliver: {self.folder}/classes: carry over by hand: {line}\n"
            wants(why, told)

    def install(self, before):
        """What the package's postinst does about the sorting."""
        text = read_text(f"{self.packaging}/debian/postinst")
        text = text[text.index("add_sorting() {") :].partition("\n}\n")[0]
        text = text.replace("/etc/popbox", f"{self.folder}/etc")
        for it in ("/usr/lib/popbox", "/usr/share/popbox"):
            text = text.replace(it, self.packaging)
        return self.script(self.command("postinst", f'{text}\n}}\nadd_sorting "$1"'), before)

    def test_an_installation_makes_no_sorting_that_opens(self):
        """The first begins with notes; an upgrade carries over what was there, or makes none."""
        made, old = f"{self.folder}/etc/sorting.toml", f"{self.folder}/etc/classes"
        none = f"popbox: without {made} no mail comes in: man popbox-deliver\n"
        wants(self.install(""), (0, "", ""))
        wants(read_text(made), read_text(f"{self.packaging}/sorting.toml"))
        write(made, "mine")
        for before in ("", "0.1.0-1"):
            wants((self.install(before), read_text(made)), ((0, "", ""), "mine"))
        os.remove(made)
        wants((self.install("0.1.0-1"), os.listdir(f"{self.folder}/etc")), ((0, "", none), []))
        write(old, "payment ^From: .*@bank\\.example>?$\n")
        wants(self.install("0.1.0-1"), (0, "", ""))
        wants('class = "payment"\nfrom = "@bank.example"\n' in read_text(made), True)
        os.remove(made)
        for line in ("payment bank", "Payment ^From: a", "payment ^From: ("):
            write(old, f"{line}\n")
            status, out, why = self.install("0.1.0-1")
            wants((line, status, out, why.endswith(none)), (line, 0, "", True))
            wants(os.listdir(f"{self.folder}/etc"), ["classes"])


# Bob may not read complaints, and reads notes; ann reads all.
POLICY = "".join(
    f'[[rule]]\nname = "r{at}"\neffect = "{effect}"\nclerk = "{clerk}"\nmaildrop = "*"\n'
    f'class = "{class_}"\nactions = [{actions}]\n'
    for at, (effect, clerk, class_, actions) in enumerate((
        ("deny", "bob", "complaint", '"read"'),
        ("allow", "ann", "*", '"open", "read"'),
        ("allow", "bob", "*", '"open"'),
        ("allow", "bob", "note", '"read"'),
    ))
)


class Policies(ScriptCase):
    def set_policy(self, server, given, answer=b"y\n"):
        """What popbox-set-policy says about classes and asks, with a sorting that gives these."""
        tables = (f'[[sort]]\nclass = "{it}"\nsubject = "{it}"\n' for it in given)
        rules = "".join(tables) + '[otherwise]\nclass = "note"\n'
        rules = write(f"{self.folder}/sorting.toml", rules)
        env = {"POPBOX_DELIVER": f"{self.packaging}/popbox-deliver", "POPBOX_SORTING": rules}
        new = write(f"{self.folder}/new.toml", POLICY)
        words = ["--port", str(server.admin), "--keep", f"{self.folder}/kept"]
        words += ["--program", self.program, new]
        # Only a terminal is shown the question.
        terminal, end = os.openpty()
        os.write(terminal, answer)
        with self.begin("popbox-set-policy", *words, env=env, stdin=end) as run:
            why = run.communicate(timeout=LIMIT)[1].decode()
        os.close(terminal)
        os.close(end)
        is_set = server.administer("GET", "/policy") != ""
        wants((run.returncode == 0, is_set), (answer == b"y\n",) * 2)
        server.administer("PUT", "/policy", "# None")
        asked = re.findall(r"^Set this policy(.*)\? \[y/N\] ", why, re.M)
        return [*re.findall("^note: (the sorting .*|no rule .*)", why, re.M), *asked]

    def test_a_policy_is_held_against_the_sorting(self):
        """popbox-set-policy notes each class that only one of the two has, and who may read one
        that no rule names; the question says the latter once more."""
        only = "the sorting never gives: complaint"
        unnamed, asked = "no rule names what ann may read: ", ", by which ann may read "
        with self.office() as server:
            server.administer("PUT", "/policy", "# None")
            wants(self.set_policy(server, ["complaint"]), [""])
            told = [only, f"{unnamed}complaints", f"{asked}complaints"]
            for answer in (b"n\n", b"y\n"):
                wants(self.set_policy(server, ["complaints"], answer), told)
            wants(self.set_policy(server, []), [only, ""])
            told = [f"{unnamed}x y", f"{asked}x y"]
            wants(self.set_policy(server, ["complaint", "x", "y"]), told)
            wants(self.set_policy(server, ["No class"]), [""])
