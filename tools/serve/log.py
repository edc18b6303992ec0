"""The log of `serve --log`: each kind of line that docs/ADMINISTRATION.md promises, when it comes,
and what no line has: a password, a secret or a digest that was sent."""

import contextlib
import ctypes
import datetime
import hashlib
import itertools
import os
import re
import subprocess
import time

from clients import REPLY, SPOOL, Case, Client, Mail, is_silent, put, stopped, wait_for
from clients import limit_files, without_slow

MOMENT = r"\d\d\d\d-\d\d-\d\dT\d\d:\d\d:\d\dZ"
PASSWORD, SECRET, WRONG = "s3cret word", "tan5taaf", "gue55ed"
CLERKS = (("ann", f"pass {PASSWORD}"), ("bob", f"apop {SECRET}"))
ANN, GUESS = (("USER ann/orders", f"PASS {word}") for word in (PASSWORD, WRONG))
RULE = """[[rule]]
name = "{}"
effect = "{}"
clerk = "*"
maildrop = "{}"
class = "{}"
actions = [{}]
"""
POLICY = RULE.format("keep-payments", "deny", "*", "payment", '"remove"')
POLICY += RULE.format("work-on-orders", "allow", "orders", "*", '"open", "read", "remove"')
POLICY += RULE.format("work-on-sales", "allow", "sales", "*", '"open", "read", "remove"')
CHAIR = b"A chair.\n"
# The rule that allows all that is allowed here.
BY = "=work-on-orders"
RULED, ACCEPTED = f" rule{BY}", f"accepted rule{BY}"
# The options that the line of a start names: without them, and with each.
IN_FORCE = "removals=dele idle=600 wait=0 login-seconds=0 make-room=no slow-guesses=no"
IN_FORCE += " proxy-protocol=no log-message-ids=no log-reads=no list-clerks=no admin-site=no"
OTHERS = "removals=quit idle=700 wait=10 login-seconds=180 make-room=yes slow-guesses=yes"
OTHERS += " proxy-protocol=yes log-message-ids=yes log-reads=yes list-clerks=yes"
OTHERS += " admin-site=localhost"


def named(policy=""):
    """A policy's name as a value of a line. Written, it has an empty line between two rules."""
    text = policy.replace("]\n[[", "]\n\n[[").encode()
    return f" policy={hashlib.sha256(text).hexdigest()[:16]}"


class LogCase(Case):
    """Servers that log to the file `err` of their folder, over the store office.db."""

    def log(self, *words, **how):
        how |= {"cwd": self.folder, "stdin": subprocess.DEVNULL}
        return self.serve("--store", "office.db", "--log", *words, **how)

    def filled(self, *words, mail=(), **how):
        """A server with two maildrops, two clerks, and messages that came by the spool."""
        server = self.log(*words, **how)
        server.fill(("orders", "sales"), CLERKS, POLICY)
        for name in mail:
            server.deposit(f"{name}.eml", CHAIR)
        return server

    def drop(self, server, form, texts):
        """Messages that come by the spool at once, by numbered names."""
        for number, text in enumerate(texts, 1):
            server.drop(form.format(number), text)
        server.wait_for_spool()

    def wait_told(self, text):
        """Waits until the log has a text."""
        wait_for(lambda: text in self.errors(), f"the log lacks {text!r}", SPOOL)

    def goes(self, client, number):
        """A client closes its link, and the log says that this connection is closed."""
        client.close()
        self.wait_told(f"event=closed connection={number} ")

    def lines(self, *kinds):
        """The log's lines, or those of these kinds."""
        starts = tuple(f"event={kind} " for kind in kinds)
        lines = self.errors().splitlines()
        return [it for it in lines if not kinds or it.partition(" ")[2].startswith(starts)]

    def answers(self, kind):
        """What the log's lines of a kind say from their answer on."""
        return [it.partition(" answer=")[2] for it in self.lines(kind)]

    def compare(self, lines, wanted):
        """Fails unless lines are as wanted, each after a moment, and have nothing that was sent.
        `@1` is a connection with its client's address, `@` such an address, and `*` a number."""
        wanted = [it.strip() for it in wanted.splitlines() if it.strip()]
        for line, it in itertools.zip_longest(lines, wanted, fillvalue="no more lines"):
            it = re.sub(r"@(\d+)", r"connection=\1 @", re.escape(it)).replace(r"\*", r"\d+")
            it = it.replace("@", r"client=127\.0\.0\.1:\d+")
            self.assertRegex(line, rf"\A{MOMENT} {it}\Z")
        for it in (PASSWORD, SECRET, WRONG, *Mail.digests):
            self.assertNotIn(it, "\n".join(lines))

    def without_and_with(self, option, do):
        """Does something with a server without an option, then one with it; gives which it was."""
        for words in ((), (option,)):
            self.renew()
            with self.filled(*words) as server:
                do(server)
            yield bool(words)

    def in_force(self, options, policy=""):
        """What a start logs last: if the program is proved, and the options and policy in force."""
        said = self.run_program("--version", text=True, check=True).stdout
        return f" proved={'yes' if '(proved)' in said else 'no'} {options}{named(policy)}"


class Day(LogCase):
    """An office's day."""

    def test_each_kind_of_line(self):
        """Each kind of line comes, each at its moment."""
        began, store = int(time.time()), f"{self.folder}/office.db"
        self.addCleanup(os.umask, os.umask(0o022))
        with self.log() as it:
            wanted = 'event=open store="office.db" file=0 log=0\n'
            wanted += f"event=start pop=127.0.0.1:{it.pop} admin=127.0.0.1:{it.admin}"
            wanted += ' store="office.db" maildrops=0 messages=0 octets=0'
            wanted += self.in_force(IN_FORCE) + "\n"
            if os.stat(store).st_mode & 0o044:
                warning = 'mode=644 warning="others may read it"'
                wanted += f'event=store store="office.db" {warning}\n'
            for part in (self.administer, self.deposit, self.converse, self.deny, self.refuse):
                wanted += part(it)
        self.compare(self.lines(), wanted)
        found = re.findall(f"^({MOMENT}) ", self.errors(), re.M)
        at = [datetime.datetime.fromisoformat(it).timestamp() for it in found]
        self.assertEqual(at, sorted(at))
        self.assertTrue(began <= at[0] <= at[-1] <= time.time(), (began, at))

    def administer(self, server):
        """The administration's commands, and what their lines say."""
        wanted = ""
        for method, path, body, status, answer in (
            ("PUT", "/maildrops/orders", None, 201, "added"),
            ("PUT", "/maildrops/orders", None, 200, "was there"),
            ("PUT", "/clerks/ann", f"pass {PASSWORD}\n", 201, "added"),
            ("PUT", "/clerks/bob", f"apop {SECRET}\n", 201, "added"),
            ("GET", "/clerks/bob", None, 200, "apop"),
            ("PUT", "/policy", POLICY, 200, "3 rules"),
            ("GET", "/policy", None, 200, None),
            ("GET", "/groups", None, 200, None),
            ("PUT", "/policy", "group = [{}]\n", 400, "group 1: GroupKeys"),
            ("GET", "/maildrops", None, 200, None),
            ("GET", "/explain/ann/orders/payment/remove", None, 200, "deny by rule keep-payments"),
            ("DELETE", "/clerks/dan", None, 404, "no such clerk"),
            ("DELETE", "/sessions/9", None, 404, "no such session"),
            ("PUT", "/clerks/ann", f"{PASSWORD}\n", 400, "bad request"),
        ):
            self.assertEqual(server.ask(method, path, body)[0], status, (method, path))
            said = f' answer="{answer}"' if answer else ""
            said += named(body) if answer == "3 rules" else ""
            wanted += f"event=admin @ method={method} path={path} status={status}{said}\n"
        server.ask("GET", f"/clerks/ann/{SECRET}")
        server.ask("PUT", "/clerks/ANN", f"pass {PASSWORD}")
        Client(server.admin).close()
        self.wait_told("status=none")
        wanted += 'event=admin @ status=404 answer="not found"\n' * 2
        return wanted + 'event=admin @ status=none answer=""\n'

    def deposit(self, server):
        """Messages that come by the spool, and what their lines say."""
        wanted, chair = "", b"Subject: a chair\n\nA chair.\n"
        for name, text, answer, done in (
            ("orders.note.n-1.eml", chair, "new uid=note.1", "removed"),
            ("orders.payment.p-1.eml", b"Subject: paid\n\n.\n", "new uid=payment.1", "removed"),
            ("orders.note.n-2.eml", b"Subject: a desk\n\nA desk.\n", "new uid=note.2", "removed"),
            ("orders.note.n-1.eml", chair, "known uid=note.1", "removed"),
            ("orders.note.n-1.eml", b"Subject: a lamp\n\nA lamp.\n", '"conflict"', "renamed"),
            ("orders.note.n-3.eml", b"", None, "renamed"),
            ("orders.note.n-4.eml", 300_000 * b"x", "new uid=note.3", "removed"),
        ):
            server.deposit(name, text)
            wanted += f"event=deposit file={name} answer={answer}\n" if answer else ""
            wanted += f"event=spool file={name} done={done}\n"
        return wanted

    def converse(self, server):
        """Mail programs' conversations, and what their lines say."""
        ann = Mail(server)
        ann.say(*GUESS, "CAPA", "user ann/orders", f"pass {PASSWORD}")
        ann.say("STAT", "LIST", "UIDL", "RETR 2", "TOP 1 1", "DELE 1", "RSET", "DELE 1", "DELE 3")
        bob = Mail(server)
        for name, secret in (("orders", WRONG), ("orders", SECRET), ("sales", SECRET)):
            bob.apop(f"bob/{name}", secret)
        self.goes(bob, 2)
        ann.say("QUIT")
        bob = Mail(server)
        bob.say(f"USER {PASSWORD}", "PASS", f"PASS {PASSWORD}")
        bob.apop("bob/accounts", SECRET)
        # A NOOP withdraws the name, so that this PASS is judged by nobody; a CAPA doesn't.
        bob.say("USER ann/orders", "NOOP", f"PASS {PASSWORD}")
        bob.say("USER ann/orders", "CAPA", f"PASS {WRONG}", "QUIT")
        refused, quits = "by=apop answer=refused reason=", 'marked=2 answer="bye" dele=3 rset=1'
        return f"""
            event=connect @1
            event=login @1 clerk=ann maildrop=orders by=pass answer=refused reason="login failed"
            event=login @1 clerk=ann maildrop=orders by=pass answer=accepted{RULED}
            event=connect @2
            event=login @2 clerk=bob maildrop=orders {refused}"login failed"
            event=login @2 clerk=bob maildrop=orders {refused}"[IN-USE] maildrop is in use"
            event=login @2 clerk=bob maildrop=sales {refused}"no such maildrop"
            event=closed @2 cause=gone
            event=remove connection=1 clerk=ann maildrop=orders messages=2 answer=done
            event=removed connection=1 clerk=ann maildrop=orders uids=note.1{BY},note.2{BY}
            event=quit @1 clerk=ann maildrop=orders {quits} retr=1/20 top=1/30 denied=0
            event=connect @3
            event=login @3 answer=refused reason="bad arguments"
            event=login @3 clerk=bob maildrop=accounts {refused}"denied by rule default"
            event=login @3 clerk=ann maildrop=orders by=pass answer=refused reason="login failed"
            event=quit @3 answer="bye"
            """

    def deny(self, server):
        """A policy that changes between a DELE and the QUIT, and a session that is ended."""
        server.ask("PUT", "/policy", other := POLICY.replace('"payment"', '"note"'))
        bob = Mail(server)
        bob.apop("bob/orders", SECRET)
        bob.say("DELE 1")
        server.ask("PUT", "/policy", POLICY)
        bob.say("QUIT")
        ann = Mail(server)
        ann.say(*ANN)
        server.ask("DELETE", "/sessions/5")
        self.wait_told("event=closed connection=5")
        quits = 'answer="some deleted messages not removed, denied by rule keep-payments"'
        rest = "rset=0 retr=0/0 top=0/0 denied=0"
        return f"""
            event=admin @ method=PUT path=/policy status=200 answer="3 rules"{named(other)}
            event=connect @4
            event=login @4 clerk=bob maildrop=orders by=apop answer=accepted{RULED}
            event=admin @ method=PUT path=/policy status=200 answer="3 rules"{named(POLICY)}
            event=quit @4 clerk=bob maildrop=orders marked=1 {quits} dele=1 {rest}
            event=connect @5
            event=login @5 clerk=ann maildrop=orders by=pass answer=accepted{RULED}
            event=admin @ method=DELETE path=/sessions/5 status=200 answer="ended"
            event=closed @5 clerk=ann maildrop=orders marked=0 dele=0 {rest} cause="session ended"
            """

    def refuse(self, server):
        """A client that is refused three times, and one that goes without waiting for a reply."""
        eve = Mail(server)
        for _ in range(3):
            eve.apop("ann/orders", WRONG)
        self.goes(eve, 6)
        dan = Mail(server)
        dan.send(f"APOP dan\r\nUSER ann/orders\r\nPASS {WRONG}\r\n".encode())
        self.wait_told("login connection=7")
        self.goes(dan, 7)
        refused = "answer=refused reason="
        return f"""
            event=connect @6
            event=login @6 clerk=ann maildrop=orders by=apop {refused}"login failed"
            event=login @6 clerk=ann maildrop=orders by=apop {refused}"login failed"
            event=login @6 clerk=ann maildrop=orders by=apop {refused}"login failed, closing"
            event=closed @6 cause="login failed, closing"
            event=connect @7
            event=login @7 {refused}"bad arguments"
            event=login @7 clerk=ann maildrop=orders by=pass {refused}"login failed"
            event=closed @7 cause=gone"""


class Starts(LogCase):
    """What a start logs, what the store refuses, and logs that nobody takes."""

    def start(self, options):
        """Starts a server with those options that aren't the default; fails unless it logs all."""
        words = [it.partition("=") for it in {*options.split()} - {*IN_FORCE.split()}]
        words = [f"--{name}" if value == "yes" else f"--{name}={value}" for name, _, value in words]
        self.renew()
        with self.log(*words):
            # It prints its ports before it logs its start.
            wait_for(lambda: self.lines("start"), "no start is logged", SPOOL)
        (line,) = self.lines("start")
        told = " maildrops=0 messages=0 octets=0" + self.in_force(options)
        self.assertEqual(line[-len(told) :], told)

    def test_options_of_a_start(self):
        """A start logs the value in force of each option."""
        self.start(OTHERS)

    def test_options_of_a_start_one_by_one(self):
        """A start logs of each option alone that it is in force, and that the others aren't."""
        for flag in re.findall(r"([\w-]+)=yes", OTHERS):
            self.start(IN_FORCE.replace(f"{flag}=no", f"{flag}=yes"))

    def test_seventy_messages(self):
        """A QUIT logs the unique-ids that it removed, 32 on a line; a start what is there, how
        large the store's file and log are, and that others may read it."""
        count, store = 70, f"{self.folder}/office.db"
        with self.filled() as it:
            self.drop(it, "orders.note.n-{:03}.eml", [CHAIR] * count)
            Mail(it).say(*ANN, *[f"DELE {number}" for number in range(1, count)], "QUIT")
            self.wait_told("event=quit")
        gone = [f"note.{number}{BY}" for number in range(1, count)]
        uids = [",".join(gone[at : at + 32]) for at in range(0, len(gone), 32)]
        removed = "event=removed connection=1 clerk=ann maildrop=orders uids="
        self.compare(self.lines("removed"), "\n".join(removed + it for it in uids))
        os.chmod(store, 0o640)
        file, log = os.stat(store).st_size, os.stat(f"{store}-wal").st_size
        self.log("--turns", "1").run.wait(SPOOL)
        said = self.errors()
        self.assertIn(f' event=open store="office.db" file={file} log={log}\n', said)
        held = f" maildrops=2 messages=1 octets=10{self.in_force(IN_FORCE, POLICY)}\n"
        self.assertIn(held, said)
        mode = ' event=store store="office.db" mode=640 warning="others may read it"\n'
        self.assertIn(mode, said)

    def test_refusals_of_a_store(self):
        """What a store refuses is logged with the call and the cause; nothing as removed."""
        changes = [
            ("PUT", "/maildrops/bills", None, "add_maildrop"),
            ("DELETE", "/maildrops/sales", None, "drop_maildrop"),
            ("DELETE", "/clerks/c1", None, "drop_clerk"),
            ("PUT", "/policy", POLICY, "set_policy"),
        ]
        with self.log(preexec_fn=lambda: limit_files(200_000)) as it:
            it.fill(("orders", "sales"), CLERKS[:1], POLICY)
            it.deposit("orders.note.n-1.eml", CHAIR)
            for number in range(1, 1000):
                if it.ask("PUT", f"/clerks/c{number}", f"pass {PASSWORD}")[0] != 201:
                    break
            for method, path, body, _ in changes:
                it.ask(method, path, body)
            Mail(it).say(*ANN, "DELE 1", "QUIT")
            self.wait_told("event=quit")
        ann, kept = "clerk=ann maildrop=orders", "some deleted messages not removed"
        wanted = f'event=remove connection=1 {ann} messages=1 answer="store failed"\nevent=quit @1'
        wanted += f' {ann} marked=1 answer="{kept}" dele=1 rset=0 retr=0/0 top=0/0 denied=0'
        self.compare(self.lines("remove", "removed", "quit"), wanted)
        wanted, failed = "", '"store failed"'
        for method, path, _, call in [("PUT", f"/clerks/c{number}", None, "put_clerk"), *changes]:
            wanted += f"event=refused call={call} cause={failed}\n"
            wanted += f"event=admin @ method={method} path={path} status=503 answer={failed}\n"
        self.compare(self.lines("refused", "admin")[number + 3 :], wanted)

    def test_store_that_is_lost(self):
        """A server whose store was moved logs why it ends, and its end."""
        it = self.log()
        os.rename(f"{self.folder}/office.db", f"{self.folder}/moved.db")
        it.run.wait(SPOOL)
        why = "its file was moved or removed while the server had it open"
        told = [line for line in self.lines() if " event=" in line]
        self.compare(told[-2:], f'event=store store="office.db" warning="{why}"\nevent=end')

    def test_full_device_and_no_log(self):
        """A log on a full device, and a server without one, serve alike; the latter writes none."""
        for words, name in ((["--log"], "/dev/full"), ([], f"{self.folder}/none")):
            with open(name, "wb") as log, self.serve(*words, stderr=log) as it:
                it.fill(("orders",), CLERKS[:1], POLICY)
                said = Mail(it).say(*ANN, "STAT", "QUIT")
            has = "+OK maildrop has 0 messages (0 octets)"
            self.assertEqual(said, ["+OK send PASS", has, "+OK 0 0", "+OK bye"], name)
        with open(name, encoding="utf-8") as log:
            self.assertEqual(without_slow(log.read()), "")

    def test_pipe_that_nobody_reads(self):
        """A full pipe stops nothing; once it is read, the log says how many lines were lost."""
        # More lines than a pipe holds.
        requests, (read, write) = 1500, os.pipe()
        os.set_blocking(read, False)
        for end in (read, write):
            self.addCleanup(os.close, end)
        it, texts = self.log(stderr=write), []

        def is_told(word=b""):
            with contextlib.suppress(BlockingIOError):
                while texts.append(os.read(read, 65536)) is None:
                    pass
            return word in b"".join(texts)

        for _ in range(requests):
            self.assertEqual(it.ask("GET", "/maildrops")[0], 200)
        is_told()
        it.ask("PUT", "/maildrops/sales")
        wait_for(lambda: is_told(b"path=/maildrops/sales"), "the log tells nothing more", SPOOL)
        text = without_slow(b"".join(texts).decode())
        (lost,) = re.findall(rf"^{MOMENT} event=lost lines=(\d+)$", text, re.M)
        # The opening, the start, each request, and the one after them.
        self.assertEqual(len(text.splitlines()) - 1 + int(lost), requests + 3)


# What comes on a link in place of a proxy's line: a command; the beginning of a line of version 2
# of the protocol; and more octets than a line of version 1 may have, without an LF.
NO_LINES = (
    b"CAPA\r\n",
    b"\r\n\r\n\0\r\nQUIT\n\x21\x11\0\x0c\xcb\0\x71\x07\x7f\0\0\x01\xc8\x22\x04\x56",
    b"PROXY TCP4 203.0.113.7 127.0.0.1 51234 " + 69 * b"1",
)


class Links(LogCase):
    """Logins, what they waited for, and why links end."""

    def test_late_login(self):
        """The log says why a client ended that took too long to log in."""
        with self.log("--login-seconds", "1") as it, Mail(it):
            self.wait_told("event=closed")
        self.compare(self.lines()[-1:], 'event=closed @1 cause="too late to log in"')

    def test_full_house(self):
        """A client whose place another one gets, since all 64 are taken, ends for that cause."""
        with self.log("--make-room") as it:
            _ = [self.enterContext(Mail(it)) for _ in range(65)]
            self.wait_told("event=closed")
        ended = [line for line in self.lines("closed") if " connection=1 " in line]
        self.compare(ended, 'event=closed @1 cause="no login while all places were taken"')
        self.assertNotIn("too late to log in", self.errors())

    def test_two_administrators(self):
        """With two links of the administration open each line is that of its own link."""
        with self.log() as it, Client(it.admin) as silent, Client(it.admin) as asking:
            silents, askings = (link.socket.getsockname()[1] for link in (silent, asking))
            asking.send(b"GET /maildrops HTTP/1.1\r\nHost: localhost\r\n\r\n")
            asking.line()
            asking.close()
            self.wait_told("path=/maildrops")
            silent.close()
            self.wait_told("status=none")
        wanted = f"""
            event=admin client=127.0.0.1:{askings} method=GET path=/maildrops status=200
            event=admin client=127.0.0.1:{silents} status=none answer=\"\""""
        self.compare(self.lines("admin"), wanted)

    def test_waits_of_one_client(self):
        """A login that didn't wait logs no wait, however long the link was read before."""
        with self.filled("--wait", "10") as it:
            bob = Mail(it)
            bob.apop("bob/orders", WRONG)
            time.sleep(2.5)
            bob.apop("bob/orders", SECRET)
            bob.say("QUIT")
        self.assertEqual(self.answers("login"), ['refused reason="login failed"', ACCEPTED])

    def test_login_that_waited(self):
        """A login that waited for a maildrop in use logs how long, and no other one does."""
        with self.filled("--wait", "10") as it:
            ann, bob = Mail(it), Mail(it)
            ann.say(*ANN)
            began = time.monotonic()
            bob.send(f"APOP bob/orders {bob.digest(SECRET)}\r\n".encode())
            time.sleep(3)
            ann.say("QUIT")
            bob.line()
            lasted = int(time.monotonic() - began)
            bob.say("QUIT")
        first, second = self.answers("login")
        self.assertEqual(first, ACCEPTED)
        self.assertIn(second, [f"{ACCEPTED} waited={it}" for it in range(2, lasted + 1)])

    def test_login_behind_guesses(self):
        """A login that waited because of three refused ones, by --slow-guesses, logs how long."""
        with self.filled("--slow-guesses") as it:
            Mail(it).say(*3 * GUESS)
            ann, began = Mail(it), time.monotonic()
            ann.say(*ANN)
            lasted = int(time.monotonic() - began)
            ann.say("QUIT")
        *refused, answer = self.answers("login")
        self.assertEqual(len(refused), 3)
        self.assertIn(answer, [f"{ACCEPTED} waited={it}" for it in range(1, lasted + 1)])

    def test_first_lines_of_a_proxy(self):
        """A link from a proxy without its line is closed for that cause; one that ends before its
        line is gone; and one with it has the address that the line says."""
        with self.log("--proxy-protocol") as it, Mail(it):
            for number, octets in enumerate(NO_LINES, 2):
                with Mail(it) as other:
                    other.send(octets)
                    self.wait_told(f"event=closed connection={number} ")
            ended = Mail(it)
            ended.send(b"PROXY TCP4 203.0.113.7 127.0.0.1")
            self.goes(ended, 5)
            Mail(it).say("PROXY TCP4 203.0.113.7 127.0.0.1 51234 1110\r\nQUIT")
            self.wait_told("event=closed connection=1 ")
        refused = 'event=connect @{0}\nevent=closed @{0} cause="no PROXY line"\n'
        wanted = "event=connect @1\n" + "".join(refused.format(it) for it in (2, 3, 4))
        wanted += """event=connect @5
            event=closed @5 cause=gone
            event=connect @6
            event=quit connection=6 client=203.0.113.7 answer="bye"
            event=closed @1 cause="no PROXY line in time"
            """
        self.compare(self.lines()[2:], wanted)


# A message of 101,400 octets with CRLF; so many of it that no link takes them unread.
LONG, MANY = 1300 * (b"x" * 76 + b"\n"), 99


class Sessions(LogCase):
    """What each session removed, was denied and fetched."""

    def test_two_sessions(self):
        """With two sessions open each removal is logged with its own clerk, and the end of a lost
        session with the messages that it had marked."""
        mail = [f"{drop}.note.n-{n}" for drop in ("orders", "sales") for n in range(1, 6)]
        with self.filled(mail=mail) as it:
            ann, bob = Mail(it), Mail(it)
            ann.say(*ANN, "DELE 1", "DELE 2")
            bob.apop("bob/sales", SECRET)
            bob.say("DELE 1", "QUIT")
            bob = Mail(it)
            bob.apop("bob/sales", SECRET)
            ann.say("QUIT")
            ann = Mail(it)
            ann.say(*ANN, "DELE 1", "RSET", "DELE 2", "DELE 3")
            bob.say("DELE 1", "DELE 2", "DELE 3")
            self.goes(ann, 4)
            self.goes(bob, 3)
        rest = "retr=0/0 top=0/0 denied=0 cause=gone"
        wanted = f"""
            event=remove connection=2 clerk=bob maildrop=sales messages=1 answer=done
            event=remove connection=1 clerk=ann maildrop=orders messages=2 answer=done
            event=closed @4 clerk=ann maildrop=orders marked=2 dele=3 rset=1 {rest}
            event=closed @3 clerk=bob maildrop=sales marked=3 dele=3 rset=0 {rest}
            """
        self.compare(self.lines("remove", "closed"), wanted)

    def test_denials_of_two_sessions(self):
        """A denied DELE, RETR or TOP is logged once of each command, message and rule, with clerk
        and maildrop; and the end of a session says how often it was denied, and what was read."""
        mail = ["orders.payment.p-1", "orders.note.n-1", "sales.payment.p-1", "sales.note.n-1"]
        with self.filled(mail=mail) as it:
            ann, bob = Mail(it), Mail(it)
            ann.say(*ANN, "DELE 1", "RETR 1", "DELE 1", "DELE 9")
            bob.apop("bob/sales", SECRET)
            bob.say("DELE 1", "RETR 2", "TOP 1 0", "RETR 2", "DELE 2", "DELE 2", "RETR 2")
            it.ask("PUT", "/policy", POLICY.replace('["remove"]', '["read", "remove"]'))
            ann.say("RETR 1", "TOP 1 0", "TOP 1 0", "DELE 1")
            it.ask("PUT", "/policy", POLICY.replace("keep-payments", "keep-all"))
            ann.say("DELE 1", "QUIT")
            self.goes(bob, 2)
        ann, bob = "clerk=ann maildrop=orders", "clerk=bob maildrop=sales"
        wanted = f"""
            event=denied @1 {ann} command=dele uid=payment.1 rule=keep-payments
            event=denied @2 {bob} command=dele uid=payment.1 rule=keep-payments
            event=denied @1 {ann} command=retr uid=payment.1 rule=keep-payments
            event=denied @1 {ann} command=top uid=payment.1 rule=keep-payments
            event=denied @1 {ann} command=dele uid=payment.1 rule=keep-all
            event=quit @1 {ann} marked=0 answer="bye" dele=0 rset=0 retr=1/10 top=0/0 denied=7
            event=closed @2 {bob} marked=1 dele=1 rset=0 retr=2/20 top=1/10 denied=1 cause=gone
            """
        self.compare(self.lines("denied", "retr", "quit", "closed"), wanted)

    def test_denials_beyond_64(self):
        """A connection's denials have 64 lines at most; the end of its session counts them all."""
        with self.filled() as it:
            self.drop(it, "orders.payment.p-{}.eml", [CHAIR] * 66)
            Mail(it).say(*ANN, *[f"DELE {number}" for number in range(1, 67)], "QUIT")
            self.wait_told("event=quit ")
        ann, rest = "clerk=ann maildrop=orders", "retr=0/0 top=0/0 denied=66"
        wanted = f"event=denied @1 {ann} command=dele uid=payment.* rule=keep-payments\n" * 64
        wanted += f'event=quit @1 {ann} marked=0 answer="bye" dele=0 rset=0 {rest}'
        self.compare(self.lines("denied", "quit"), wanted)

    def read_some(self, server):
        for name in ("orders.note.n-1.eml", "orders.payment.p-1.eml"):
            server.deposit(name, CHAIR)
        ann = Mail(server)
        ann.say(*ANN, "RETR 2", "TOP 1 0", "DELE 1")
        ann.say("RETR 1", "RETR 3", "RSET", "RETR 1", "RETR 2", "QUIT")

    def test_reads(self):
        """With --log-reads each RETR that begins to send a message has a line, otherwise none."""
        ann, rest = "clerk=ann maildrop=orders", "retr=3/30 top=1/10 denied=0"
        quits = f'event=quit @1 {ann} marked=0 answer="bye" dele=1 rset=1 {rest}'
        reads = f"""
            event=retr @1 {ann} uid=payment.1 octets=10{RULED}
            event=retr @1 {ann} uid=note.1 octets=10{RULED}
            event=retr @1 {ann} uid=payment.1 octets=10{RULED}
            """
        for has_reads in self.without_and_with("--log-reads", self.read_some):
            self.compare(self.lines("retr", "denied", "quit"), reads * has_reads + quits)

    def leave_unread(self, server, line, number):
        """Logs in as ann, asks many times for a message, and goes once some of it came."""
        ann = Mail(server)
        ann.say(*ANN)
        ann.send(f"{line}\r\n".encode() * MANY)
        self.assertFalse(is_silent(ann, REPLY), f"{line!r} isn't answered")
        self.goes(ann, number)

    def test_message_broken_off(self):
        """The end of a connection names the message, by RETR or TOP, of which not all was taken."""
        with self.filled(mail=["orders.note.n-1"]) as it:
            it.deposit("orders.note.n-2.eml", LONG)
            self.leave_unread(it, "RETR 2", 1)
            self.leave_unread(it, "TOP 2 2000", 2)
            ann = Mail(it)
            ann.say(*ANN, "RETR 2", "TOP 1 0")
            self.goes(ann, 3)
            Mail(it).say(*ANN, "RETR 2", "QUIT")
            self.wait_told("event=quit connection=4 ")
        octets, ann = len(LONG) + LONG.count(b"\n"), "clerk=ann maildrop=orders marked=0 dele=0"
        wanted = f"""
            event=closed @1 {ann} rset=0 retr=*/* top=0/0 denied=0 cut=note.2 cause=gone
            event=closed @2 {ann} rset=0 retr=0/0 top=*/* denied=0 cut=note.2 cause=gone
            event=closed @3 {ann} rset=0 retr=1/{octets} top=1/10 denied=0 cause=gone
            """
        self.compare(self.lines("closed"), wanted)


def may_write_no_more():
    """Has the program that comes be held to the modes of files, also as root's."""
    drop_from_bounds, dac_override = 24, 1
    ctypes.CDLL(None).prctl(drop_from_bounds, dac_override, 0, 0, 0)


FORTY = "x" * 40
# Files of the spool that are left, and why.
LEFT = {
    "a chair.eml": "its name isn't MAILDROP.CLASS.ID.eml",
    "chair.bad": "its name isn't MAILDROP.CLASS.ID.eml",
    "orders.note.n_1.n.eml": "its name isn't MAILDROP.CLASS.ID.eml",
    f"orders.{FORTY}.n-1.eml": "its CLASS isn't 1 to 32 of a-z, 0-9 and -",
    "orders.note.+.eml": "its ID isn't 1 to 64 of a-z, A-Z, 0-9, - and _",
    "orders.note.n-2.eml": "it isn't a regular file",
    "orders.note.n-3.eml": "it isn't a regular file",
    "orders.note.n-4.eml": "it has a second name",
    f"{FORTY}.note.n-5.eml": "its MAILDROP isn't 1 to 32 of a-z, 0-9 and -",
}
# Names of other octets, and how the log writes them: as two digits those outside printing ASCII,
# and with a backslash a quote and a backslash.
OCTETS = {
    b"a\nlamp.eml": r"a\x0alamp.eml",
    b"caf\xc3\xa9.eml": r"caf\xc3\xa9.eml",
    b'the "c:\\".eml': r"the \"c:\\\".eml",
    b"\x1f ~\x7f.eml": r"\x1f ~\x7f.eml",
}
# Heads with a Message-ID that a deposit's line has: only a msg-id of RFC 5322, 3.6.4, of 200 octets
# at most, that stands alone on the one line of its name; and heads without one.
IDS = ["Message-ID: <1234@local.machine.example>", f"MESSAGE-ID:\t<{'x' * 188}@b.example>"]
IDS.append("message-id:<a.b!#$%&'*+-/=?^_`{|}~c@[192.0.2.7]>")
NO_IDS = [f"Message-ID: <{'x' * 189}@b.example>", "Message-ID: <a..b@c>", "Message-ID: <a b@c>"]
NO_IDS += ["Message-ID: a@b", "Message-ID: <a@b> (by hand)", "Message-ID:\n <a@b>"]
NO_IDS += ["Message-ID: <a@b>\nMessage-ID: <a@b>", "Message-IDs: <a@b>", "In-Reply-To: <a@b>"]
NO_IDS += ["Subject: none", "Subject: in the body\n\nMessage-ID: <a@b>"]


class Spool(LogCase):
    """What of the spool is logged, and how often."""

    def told_once(self, texts):
        """Fails unless the log has each of these texts once."""
        said = self.errors()
        self.assertEqual([it for it in texts if said.count(it) != 1], [])

    def left_once(self, names):
        """Fails unless the log of a server of three turns tells once that each of these is left."""
        self.assertEqual(self.log("--turns", "3").run.wait(SPOOL), 0)
        self.told_once([f' event=spool file="{it}" done=left ' for it in names])

    def test_file_that_can_only_be_left(self):
        """A file that can only be left is logged once, and an end is logged."""
        it = self.log("--turns", "4")
        it.drop("nowhere.note.n-1.eml", CHAIR)
        self.assertEqual(it.run.wait(SPOOL), 0)
        left = 'event=deposit file=nowhere.note.n-1.eml answer="no such maildrop"'
        self.compare(self.lines()[-2:], f"{left}\nevent=end")
        self.told_once([left])

    def fill_spool(self):
        """Puts into the spool what LEFT lists, and what isn't logged."""
        spool = self.inner("spool")
        for name in {*LEFT} - {"orders.note.n-2.eml", "orders.note.n-3.eml"}:
            put(f"{spool}/{name}", "Subject: a chair\n\nA chair.\n")
        os.symlink("/etc/passwd", f"{spool}/orders.note.n-2.eml")
        os.mkdir(f"{spool}/orders.note.n-3.eml")
        os.link(f"{spool}/orders.note.n-4.eml", f"{self.folder}/twice")
        # What stands aside isn't logged, however old it is; other names of that ending are.
        for name in ("orders.note.n-1.eml.bad", "orders.note.n-1.eml.bad.2", "chair.bad"):
            put(f"{spool}/{name}", "")
            os.utime(f"{spool}/{name}", (1_000_000_000, 1_000_000_000))

    def left(self):
        """What the log says of files that are left."""
        return [it.partition(" ")[2] for it in self.lines("spool") if "done=left" in it]

    def test_what_lies_in_the_spool(self):
        """What can only be left is logged once, with the reason; and a pipelined removal with who
        asked for it."""
        self.fill_spool()
        with self.log("--verbose") as it:
            it.fill(("orders",), CLERKS[:1], POLICY)
            it.drop("orders.note.d-1.eml", CHAIR)
            self.wait_told("file=orders.note.d-1.eml done=removed")
            Mail(it).say(*ANN, "DELE 1", "QUIT")
            # Nor is what is being written logged.
            put(coming := f"{it.spool}/coming.tmp", "")
            is_left = lambda: os.utime(coming) or len(self.left()) >= len(LEFT)
            wait_for(is_left, "not all that is left is logged", SPOOL)
            # In these seconds none is logged once more.
            for _ in range(12):
                os.utime(coming)
                time.sleep(1)
        wanted = [f'event=spool file="{it}" done=left reason="{why}"' for it, why in LEFT.items()]
        self.assertEqual(sorted(self.left()), sorted(wanted))
        # With --verbose too nothing but the log's lines is there.
        self.assertEqual([it for it in self.lines() if not re.match(f"{MOMENT} event=", it)], [])
        removed = f"event=removed connection=1 clerk=ann maildrop=orders uids=note.1{BY}"
        self.assertIn(removed, self.errors())

    def test_names_of_other_octets(self):
        """The name of a file that is left is logged in printing ASCII alone."""
        spool = os.fsencode(self.inner("spool"))
        for name in OCTETS:
            os.close(os.open(spool + b"/" + name, os.O_CREAT))
        self.left_once(OCTETS.values())

    def test_many_files_that_are_left(self):
        """Each of a hundred files that can only be left is logged."""
        spool, names = self.inner("spool"), [f"mail-{number}.eml" for number in range(100)]
        for name in names:
            put(f"{spool}/{name}", "")
        self.left_once(names)

    def test_what_comes_into_the_spool_later(self):
        """A file that can only be left is logged too if it comes while the server runs."""
        put(f"{self.inner('spool')}/first.eml", "")
        it = self.log()
        self.wait_told('file="first.eml" done=left')
        it.drop("second.eml", CHAIR)
        self.wait_told('file="second.eml" done=left')

    def test_folder_that_can_only_be_read(self):
        """A file that is taken and can't be removed is logged as that once, and once as known; and
        what becomes of it when it can."""
        name = "orders.note.n-1.eml"
        with self.filled(preexec_fn=may_write_no_more) as it:
            with stopped(it):
                it.drop(name, CHAIR)
                os.chmod(it.spool, 0o500)
            self.wait_told(" answer=known ")
            # It is tried each second.
            time.sleep(4)
            os.chmod(it.spool, 0o700)
            self.wait_told(" done=removed")
        wanted = f"""
            event=deposit file={name} answer=new uid=note.1
            event=spool file={name} done=not-removed
            event=deposit file={name} answer=known uid=note.1
            event=spool file={name} done=removed
            """
        self.compare(self.lines("deposit", "spool"), wanted)

    def test_files_that_come_once_more(self):
        """Each file that the store has already is logged, however many they are."""
        form, count = "orders.note.n-{:03}.eml", 300
        with self.filled() as it:
            for _ in range(2):
                self.drop(it, form, [CHAIR] * count)
        told = f"event=deposit file={form} answer=known "
        self.told_once([told.format(number) for number in range(1, count + 1)])

    def leave_heads(self, server):
        texts = [f"{head}\n\nA chair.\n".encode() for head in IDS + NO_IDS]
        self.drop(server, "orders.note.n-{:02}.eml", texts)

    def test_message_ids(self):
        """With --log-message-ids a deposit's line has the Message-ID of a head; otherwise none."""
        for has_ids in self.without_and_with("--log-message-ids", self.leave_heads):
            wanted = [f"new uid=note.{number}" for number in range(1, len(IDS + NO_IDS) + 1)]
            for number, head in enumerate(IDS * has_ids):
                wanted[number] += f" message-id={re.search('<.*>', head)[0]}"
            self.assertEqual(self.answers("deposit"), wanted)

    def test_no_spool(self):
        """A spool that isn't there is named, by the log once, and without a log by a note."""
        reason = "No such file or directory (os error 2)"
        spool = ("--spool", "none", "--turns", "3")
        self.log(*spool).run.wait(SPOOL)
        self.told_once([f'event=spool folder="none" done=not-listed reason="{reason}"'])
        self.serve(*spool, "--verbose", cwd=self.folder).run.wait(SPOOL)
        self.told_once([f"note: none: {reason}"])
