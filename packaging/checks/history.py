"""popbox-history: what it answers from a log of two starts, which the cases make themselves."""

import gzip
import itertools
import json
import lzma
import os
import re
import resource
import tempfile
import time

from clients import Mail, Server, wants
from harness import ScriptCase, fits, read_text, run, write

RULE = '[[rule]]\nname = "{}"\neffect = "{}"\nclerk = "*"\nmaildrop = "*"\nclass = "{}"\n'
ALLOWS = RULE.format("desk", "allow", "*") + 'actions = ["open", "read", "remove"]\n'
KEEPS = RULE.format("keep-payments", "deny", "payment") + 'actions = ["remove"]\n'
WHY = "# Payments stay.\n"
LOGS = ("--log", "--log-reads", "--log-message-ids")
ANN, BOB = ("USER ann/orders", "PASS s3 cret"), ("USER bob/orders", "PASS tanstaaf")
IN_USE = "[IN-USE] maildrop is in use"
CAME = "how it came: before this log, or while no server ran"
OUTSIDE = "whether another was set outside of this log"
NO_TEXT = "its text, of which popbox-set-policy keeps none"
# For so many seconds nothing happens before a policy comes into force, and after it.
QUIET = 3


def now():
    return time.strftime("%Y-%m-%dT%H:%M:%SZ", time.gmtime())


class History(ScriptCase):
    """The class makes the log once, in the folder `at`."""

    @classmethod
    def setUpClass(cls):
        super().setUpClass()
        cls.at = cls.enterClassContext(tempfile.TemporaryDirectory())
        cls.log, cls.policies = f"{cls.at}/events", f"{cls.at}/policies"
        cls.address, cls.while_kept, cls.while_free = {}, "", ""
        for it in ("policies", "kept", "box/new", "box/cur"):
            os.makedirs(f"{cls.at}/{it}")
        cls.first_start()
        # What comes in while no server runs isn't in the log.
        write(f"{cls.at}/box/new/1700000000.M1P1.h", "Subject: a desk\n\nA desk.\n")
        words = ["--store", f"{cls.at}/mail.db", "--program", cls.program, "--class", "note"]
        ran = run(f"{cls.packaging}/import-maildir", *words, "orders", f"{cls.at}/box")
        wants(ran, (0, "orders: 1 new, 0 known, 0 left\n", ""))
        cls.second_start()
        # The cases look at a log that names no rule and no policy, as older ones.
        cls.named, text = f"{cls.at}/named", read_text(cls.log)
        write(cls.named, text)
        text = re.sub(r"(?m)^((?!.* event=denied).*) (?:rule|policy)=\S+", r"\1", text)
        write(cls.log, re.sub(r"(\.\d+)=[a-z0-9-]+", r"\1", text))

    @classmethod
    def serve(cls):
        with open(cls.log, "ab") as log:
            return Server(cls.program, cls.at, *LOGS, stderr=log)

    @classmethod
    def sets(cls, server, text):
        """A policy comes into force by popbox-set-policy; gives a moment at which it is."""
        time.sleep(QUIET)
        new, kept = write(f"{cls.at}/new.toml", text), f"{cls.at}/kept"
        # A server of each start has its own port here.
        os.symlink(cls.policies, f"{kept}/port-{server.admin}")
        words = ["--yes", "--program", cls.program, "--keep", kept, "--port", str(server.admin)]
        env = {**os.environ, "POPBOX_WHO": "eve"}
        wants(run(f"{cls.packaging}/popbox-set-policy", *words, new, env=env)[0], 0)
        time.sleep(QUIET)
        return now()

    @classmethod
    def mail(cls, server, name, *lines):
        """A connection whose address is kept under a name, after the replies to these lines."""
        it = Mail(server)
        cls.address[name] = "{}:{}".format(*it.socket.getsockname())
        it.say(*lines)
        return it

    @classmethod
    def first_start(cls):
        """Bob is denied a removal, ann is refused twice, and the server is killed under bob."""
        with cls.serve() as server:
            server.fill(("orders",), (("ann", "pass s3 cret"), ("bob", "pass tanstaaf")), "")
            cls.while_kept = cls.sets(server, WHY + KEEPS + ALLOWS)
            server.deposit("orders.payment.p-1.eml", b"Message-ID: <p@x>\n\nPaid.\n")
            server.deposit("orders.note.n-1.eml", b"A chair.\n")
            bob = cls.mail(server, "bob", *BOB, "RETR 1", "DELE 1")
            cls.mail(server, "in use", *ANN, "QUIT")
            cls.mail(server, "guesses", ANN[0], "PASS guessed", "QUIT")
            bob.say("TOP 2 0", "QUIT")
            # A name keeps its connection open until the server is killed.
            bob = cls.mail(server, "killed", *BOB)
        bob.socket.close()

    @classmethod
    def second_start(cls):
        """By another policy ann removes the payment, and what came in between the starts."""
        with cls.serve() as server:
            cls.while_free = cls.sets(server, ALLOWS)
            cls.mail(server, "removes", *ANN, "DELE 1", "DELE 3", "QUIT")

    def prints(self, *words, log=None, **how):
        more = ["--log", log or self.log] if log != "journal" else []
        more += ["--policies", self.policies, "--program", self.program]
        status, said, why = self.script("popbox-history", *words, *more, **how)
        wants((status, why), (0, ""))
        return said

    def asks(self, *words, **how):
        return json.loads(self.prints(*words, "--json", **how))

    def events(self, *words, **how):
        """Of each event of an answer what the case knows of it."""
        keys = ("event", "clerk", "client", "uid", "answer", "reason", "rule", "end")
        found = self.asks(*words, **how)["events"]
        return [[it[key] for key in keys if it.get(key)] for it in found]

    def edited(self, *edits):
        """A log in which each of these forms has been replaced."""
        text = read_text(self.log)
        for form, it in edits:
            text, count = re.subn(form, it, text, flags=re.M)
            wants((form, count > 0), (form, True))
        return write(f"{self.folder}/edited", text)

    def test_message(self):
        """A message: when it came, as which file; who read it, was denied it and removed it, from
        where, by which rule; and who may have seen it without a line that says so."""
        at = self.address
        wanted = [
            ["deposit", "payment.1", "new"],
            ["retr", "bob", at["bob"], "payment.1", "desk"],
            ["denied", "bob", at["bob"], "payment.1", "keep-payments"],
            ["removed", "ann", at["removes"], "payment.1", "desk"],
        ]
        wants(self.events("message", "orders", "payment.1"), wanted)
        said = self.asks("message", "orders", "payment.1")
        came = said["events"][0]
        wants((came["file"], came["message-id"]), ("orders.payment.p-1.eml", "<p@x>"))
        # By TOP, and by what the killed server didn't log any more.
        saw = [re.sub(" in the session of .*", "", it) for it in said["not known"]]
        wants(saw, ["whether bob saw it,"] * 2)
        wants(self.asks("message", "orders", "note.9")["events"], [])
        # Of a class that no rule names, too.
        log = self.edited((r"(event=retr .*) uid=payment.1", r"\1 uid=note.1"))
        wants(self.events("message", "orders", "note.1", log=log)[1][-1], "desk")

    def test_message_broken_off(self):
        """Of a message that a session's end broke off it says that not all of it may be sent, and
        of one that came while no reads were logged who may have read it."""
        closed = (r'event=quit (connection=1 .*) answer="bye"', r"event=closed \1")
        log = self.edited(closed, (" top=1/10 (.*)", r" top=0/0 \1 cut=payment.1"))
        said = self.asks("message", "orders", "payment.1", log=log)["not known"]
        wants([it[:18] for it in said], ["whether all of it ", "whether bob saw it"])
        log = self.edited((" top=1/10", " top=0/0"), ("log-reads=yes", "log-reads=no"))
        said = self.asks("message", "orders", "payment.1", log=log)["not known"]
        wants([it[:18] for it in said], ["whether bob saw it"] * 2)

    def test_imported_message(self):
        """Of a message that was put in while no server ran it says that no line has its coming."""
        wanted = [["removed", "ann", self.address["removes"], "note.2", "desk"]]
        wants(self.events("message", "orders", "note.2"), wanted)
        wants(self.asks("message", "orders", "note.2")["not known"][0], CAME)

    def test_clerk(self):
        """A clerk's logins with their addresses, reads, denials and removals, since a moment."""
        at = self.address
        later = [
            ["login", "ann", at["removes"], "accepted", "desk", "QUIT"],
            ["removed", "ann", at["removes"], "payment.1", "desk"],
            ["removed", "ann", at["removes"], "note.2", "desk"],
        ]
        wanted = [
            ["login", "ann", at["in use"], "refused", IN_USE],
            ["login", "ann", at["guesses"], "refused", "login failed"],
        ]
        wants(self.events("clerk", "ann"), wanted + later)
        wants(self.events("clerk", "ann", "--since", self.while_free), later)

    def test_denials_beyond_those_that_have_lines(self):
        """Of a session with 64 lines of denials it says that others may have none."""
        for count in (63, 64):
            log = self.edited((r"^(.* event=denied .*)$", r"\n".join([r"\1"] * count)))
            for words, said in (("message orders note.1", "whether bob tried"),
                                ("clerk bob", "what else was denied")):
                found = self.asks(*words.split(), log=log)["not known"]
                wants((count, len([it for it in found if said in it])), (count, count - 63))

    def test_held(self):
        """Who held a maildrop, for how long, how that ended, and who found it in use."""
        at, found = self.address, self.events("held", "orders")
        fits(found[2].pop(), r"the server ended, after 2\S+Z")
        wanted = [
            ["login", "bob", at["bob"], "accepted", "desk", "QUIT"],
            ["login", "ann", at["in use"], "refused", IN_USE],
            ["login", "bob", at["killed"], "accepted", "desk"],
            ["login", "ann", at["removes"], "accepted", "desk", "QUIT"],
        ]
        wants(found, wanted)
        quit = (r"^\S+( event=quit connection=1 .* clerk=bob)", r"2099-01-01T00:00:00Z\1")
        login = (r"^\S+( event=login .* clerk=bob .*)", r"2098-12-31T22:57:56Z\1")
        log = self.edited(quit, login)
        found = [it.get("held") for it in self.asks("held", "orders", log=log)["events"]]
        wants((found[:3], found[3] < 60), ([3724, None, None], True))
        wants(", for 1:02:04: QUIT\n" in self.prints("held", "orders", log=log), True)

    def began(self):
        """When the second start was."""
        return re.findall(r"(?m)^(\S+) event=start", read_text(self.log))[-1]

    def policy(self, at, **how):
        """The text of the policy in force at a moment, and what isn't known of it."""
        said = self.asks("policy", "--at", at, **how)
        return said["text"] and read_text(said["text"]), said["not known"]

    def test_policy(self):
        """The policy in force at a moment is the one that popbox-set-policy set last."""
        kept, free = (self.popbox("check-policy", "--write", write(f"{self.folder}/p", it))[1]
                      for it in (KEEPS + ALLOWS, ALLOWS))
        wants(self.policy(self.while_kept), (kept, []))
        wants(self.policy(self.while_free), (free, []))
        wants(self.policy("2020-01-01")[1], [OUTSIDE, NO_TEXT])
        text = self.prints("policy", "--at", self.while_kept)
        wants(("by: eve\n" in text, text.endswith(f"\n\n{kept}")), (True, True))
        said = self.asks("policy", "--at", self.while_kept)
        wants(read_text(said["given"]), WHY + KEEPS + ALLOWS)
        wants(self.policy(self.began()), (kept, [OUTSIDE]))
        # Another set the one that is in force.
        log = self.edited((r'"1 rules"', r'\g<0> policy=0123456789abcdef'))
        wants(self.policy(self.while_free, log=log), (None, [NO_TEXT]))

    def test_read_as_a_policy_comes_into_force(self):
        """It gives no rule for what was done within two seconds of a policy's coming into force."""
        read = self.asks("message", "orders", "payment.1")["events"][1]
        log = self.edited((r'^\S+( event=admin .*"2 rules")', rf"{read['at']}\g<1>"))
        found = self.asks("message", "orders", "payment.1", log=log)["events"][1]
        wants((read["rule"], found["event"], found["rule"]), ("desk", "retr", None))

    def test_rules_and_policies_that_the_log_names(self):
        """If the log's lines have rules and policies, the answers are by these."""
        name = self.asks("policy", "--at", self.while_kept)["policy"]
        named = ('"1 rules"', rf"\g<0> policy={name}")
        start = ("event=start .*", rf"\g<0> policy={name}")
        log = self.edited(("event=removed .*", r"\g<0> rule=by-line"), named, start)
        wants(self.policy(self.began(), log=log)[1], [])
        wants(self.events("message", "orders", "payment.1", log=log)[-1][-1], "by-line")
        wants(self.policy(self.while_free, log=log)[1], [])
        log = self.edited(("uids=payment.1,note.2", "uids=payment.1=one,note.2=two"))
        wants(self.events("message", "orders", "note.2", log=log)[-1][-1], "two")

    def test_lines_that_lack(self):
        """A line that can't be read is counted, and lines that were lost are a gap."""
        cut = "2026-12-01T11:34:23Z event=removed connection=1 cle"
        lost = "2020-01-01T00:00:00Z event=lost lines=7"
        log = self.edited((r"\A", f"{cut}\n{lost}\nnote: no line of the log\n"))
        said = self.asks("held", "orders", log=log)["log"]
        wants((said["unread"], said["example"]), (1, ascii(f"{cut}\n")))
        wants([it["lines"] for it in said["gaps"]], [7])
        text = self.prints("held", "orders", log=log)
        told = ("; 1 can't be read\n", "\nlog: 7 lines were lost ")
        wants([it in text for it in told], [True] * 2)
        wants(self.asks("held", "orders")["log"]["unread"], 0)

    def test_a_long_log_takes_its_time(self):
        """Ten times as many lines and policies take at most twenty times as long."""
        took = []
        for count in (200, 2000):
            log = write(f"{self.folder}/long", read_text(self.log) * count)
            before = resource.getrusage(resource.RUSAGE_CHILDREN).ru_utime
            wants(len(self.asks("clerk", "ann", log=log)["events"]), 5 * count)
            took.append(resource.getrusage(resource.RUSAGE_CHILDREN).ru_utime - before)
        wants(took[1] < 20 * took[0], True)

    def test_rotated_files_and_the_journal(self):
        """The answers are the same from files that were rotated and compressed, and from the
        journal, of which only the service's own lines count."""
        questions = [("message", "orders", "payment.1"), ("clerk", "bob"), ("held", "orders")]
        wanted = [self.events(*it) for it in questions]
        # What the log itself names is what the kept texts say.
        wants([self.events(*it, log=self.named) for it in questions], wanted)
        second = "event=open .* file=[1-9]|event=deposit file=orders.payment"
        parts = re.split(f"(?m)^(?=\\S+ (?:{second}))", read_text(self.log))
        wants(len(parts), 3)
        log = f"{self.folder}/events"
        names = [log, f"{log}-20261129.gz", f"{log}.2.xz"]
        opens = {"gz": gzip.open, "xz": lzma.open}
        # However the files are named, the oldest lines are read first.
        for order in itertools.permutations(parts):
            for name, part in zip(names, order):
                with opens.get(name[-2:], open)(name, "wt") as file:
                    file.write(part)
            wants(self.events(*questions[2], log=log), wanted[2])
        wants([self.events(*it, log=log) for it in questions], wanted)
        # One that can't be read is named.
        other = write(f"{log}.3.zst", "")
        wants(self.asks("held", "orders", log=log)["log"]["passed"], [other])
        wants(f"\nlog: {other} isn't read: " in self.prints("held", "orders", log=log), True)
        unit = "_SYSTEMD_UNIT=popbox.service"
        self.stand_in("journalctl", f'case "$*" in *-o\\ cat*{unit}) cat {self.log} ;; esac')
        wants([self.events(*it, log="journal") for it in questions], wanted)
        # What journalctl prints by itself has a front.
        front = "Dec 01 11:34:23 office popbox[812]: "
        log = self.edited((r"^(?=.)", front))
        wants([self.events(*it, log=log) for it in questions], wanted)
        for it in ("exit 1", "echo '-- No entries --'"):
            self.stand_in("journalctl", it)
            status, said, why = self.script("popbox-history", "held", "orders")
            wants((status, said, why.startswith("popbox-history: ")), (1, "", True))
