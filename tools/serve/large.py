"""Much of everything: long messages and replies, large offices, long scripts and policies."""

import os
import signal

from clients import BYE, EMPTY, OK, POLICY, SEND_PASS, Case, Client, is_silent, log_in
from clients import maildrop_has, put, read, retrieved, stopped

LARGEST, MOST = 26_214_400, 10_000


def escaped(octets):
    """A script's TEXT for octets that are printable but for CR and LF."""
    text = octets.replace(b"\\", b"\\\\").replace(b"\r", b"\\r").replace(b"\n", b"\\n")
    assert not text.translate(None, bytes(range(0x20, 0x7F))), "octets that need \\xHH"
    return text


def many(lines):
    """The lines of a reply after its first, byte-stuffed, and its end."""
    return b"".join(b"." * line.startswith(b".") + line + b"\r\n" for line in lines) + b".\r\n"


class Script:
    """The lines of a script over ann's maildrop `orders`, and what `replay` must print of them."""

    def __init__(self):
        self.lines, self.printed = [], []
        self.event(b"maildrop add orders", b"answer added")
        self.event(b"clerk pass ann s3 cret", b"answer added")
        self.event(b"policy " + escaped(POLICY.encode()), b"answer 1 rules")

    def event(self, line, printed):
        self.lines.append(line)
        self.printed.append(printed)

    def deposit(self, number, text, answer):
        self.event(b"deposit orders note d%d %s" % (number, escaped(text)), b"answer " + answer)

    def take(self, octets, most=None):
        """All of these octets are taken, so many at a time, or by one `drain`."""
        if most is None:
            self.lines.append(b"drain 1")
            self.printed += [b"sent 1 " + escaped(octets), b"done"]
            return
        for at in range(0, len(octets), most):
            piece = octets[at : at + most]
            self.lines.append(b"took 1 %d" % len(piece))
            self.printed += [b"sent 1 " + escaped(piece), b"done"]

    def ask(self, line, reply, most=None):
        """A line of the connection, and the reply that it then takes."""
        self.event(b"bytes 1 " + line + b"\\r\\n", b"done")
        self.take(reply, most)

    def log_in(self, messages, octets):
        self.event(b"connect", b"opened 1")
        self.take(b"+OK POP3 server ready <1.7@h.test>\r\n")
        self.ask(b"USER ann/orders", SEND_PASS)
        self.ask(b"PASS s3 cret", maildrop_has(messages, octets))

    def quit(self):
        self.ask(b"QUIT", b"+OK bye\r\n")
        self.printed.append(b"ended 1")


def dotted(lines, most):
    """These lines, and then, up to so many octets, lines of 1 to 71 with a dot in front."""
    lines, number = list(lines), 0
    left = most - sum(len(line) + 2 for line in lines)
    while left >= number % 71 + 3:
        lines.append(b"." + b"x" * (number % 71))
        left -= len(lines[-1]) + 2
        number += 1
    return lines


def tops(script, lines, header):
    """TOP of message 1, of no, some and all of the lines after its header and its empty line."""
    body = len(lines) - header
    rows = ((0, 1), (1, 1), (1000, 512), (body // 2, 512), (body, None), (2**64, None))
    for count, most in rows:
        part = lines[: header + min(count, body)]
        script.ask(b"TOP 1 %d" % count, b"+OK top follows\r\n" + many(part), most)


class Streams(Case):
    """Long replies of `replay`, worked out from RFC 1939, that are taken an octet, 512 octets or
    all at a time."""

    def play(self, script, *words):
        with open(f"{self.folder}/script", "wb") as file:
            file.writelines(line + b"\n" for line in script.lines)
        ran = self.run_program("replay", "--host", "h.test", "--boot", "7", *words, file.name)
        self.assertEqual((ran.returncode, ran.stderr[:200]), (0, b""))
        wanted = b"\n".join(script.printed) + b"\n"
        if ran.stdout != wanted:
            at = len(os.path.commonprefix([ran.stdout, wanted]))
            near = slice(max(0, at - 30), at + 30)
            self.fail(f"octet {at}: {ran.stdout[near]!r} in the place of {wanted[near]!r}")

    def test_listings(self):
        """A maildrop takes 10,000 messages; LIST and UIDL name all, or all but a marked one."""
        script, octets, most = Script(), [], MOST // self.shorter
        for number in range(1, most + 1):
            text = b"x" * (number % 997 + 1)
            octets.append(len(text) + 2)
            script.deposit(number, text + b"\n", b"new note.%d" % number)
        if not self.short:
            script.deposit(MOST + 1, b"x\n", b"full")
        script.deposit(1, b"xx\n", b"known note.1")
        script.deposit(most, text, b"known note.%d" % most)
        script.event(b"maildrops", b"answer orders %d %d" % (most, sum(octets)))
        script.log_in(most, sum(octets))
        rows, marked = list(enumerate(octets, 1)), most // 2
        self.list(script, rows)
        script.ask(b"DELE %d" % marked, b"+OK message %d deleted\r\n" % marked)
        self.list(script, [row for row in rows if row[0] != marked])
        script.ask(b"RSET", maildrop_has(most, sum(octets)))
        script.quit()
        self.play(script)

    def list(self, script, rows):
        """STAT, LIST and UIDL of messages by their numbers and octets."""
        script.ask(b"STAT", b"+OK %d %d\r\n" % (len(rows), sum(row[1] for row in rows)))
        sizes = many([b"%d %d" % row for row in rows])
        uids = many([b"%d note.%d" % (row[0], row[0]) for row in rows])
        for most in (1, 512, None):
            script.ask(b"LIST", b"+OK scan listing follows\r\n" + sizes, most)
            script.ask(b"UIDL", b"+OK unique-id listing follows\r\n" + uids, most)

    def messages(self, *words):
        """Two messages of 25 MB whose lines begin with dots; the second one is all header."""
        script, header = Script(), [b"Subject: dots", b"A: b", b""]
        texts = [dotted(lines, LARGEST // self.shorter) for lines in (header, [])]
        octets = [sum(len(line) + 2 for line in lines) for lines in texts]
        for number, lines in enumerate(texts, 1):
            text = b"".join(line + b"\n" for line in lines)
            script.deposit(number, text, b"new note.%d" % number)
        script.log_in(2, sum(octets))
        for number, lines in enumerate(texts, 1):
            for most in (512, None):
                whole = b"+OK %d octets\r\n" % octets[number - 1] + many(lines)
                script.ask(b"RETR %d" % number, whole, most)
        tops(script, texts[0], len(header))
        script.ask(b"TOP 2 0", b"+OK top follows\r\n" + many(texts[1]))
        script.quit()
        self.play(script, *words)

    def test_messages(self):
        """RETR and TOP of messages of 25 MB, from a store in memory."""
        self.messages()

    def test_messages_in_a_file(self):
        """RETR and TOP of messages of 25 MB, from a store in a file."""
        self.messages("--store", f"{self.folder}/mail.db")

    def test_limits(self):
        """A text of 26,214,400 octets is taken and retrieved; one with an octet more isn't."""
        if self.short:
            self.skipTest("its text can't be shorter")
        script = Script()
        script.deposit(1, b"a" * (LARGEST - 2) + b"\r\n", b"new note.1")
        script.deposit(2, b"a" * (LARGEST - 1), b"too large")
        script.event(b"list orders", b"answer note.1 %d" % LARGEST)
        script.log_in(1, LARGEST)
        script.ask(b"RETR 1", b"+OK %d octets\r\n" % LARGEST + many([b"a" * (LARGEST - 2)]))
        script.quit()
        self.play(script)


class Large(Case):
    """Large stores and offices."""

    def make_store(self, script):
        """A store that a script's lines are done over, each of which prints a line."""
        printed = self.prints("replay", given=b"".join(script))
        self.assertEqual(printed.count(b"\n"), len(script))

    def make_office(self):
        """A store with many maildrops and as many clerks; gives the names of both."""
        names = [[f"{it}{k}" for k in range(150 if self.short else 1000)] for it in "cm"]
        script = [b"maildrop add %s\n" % name.encode() for name in names[1]]
        self.make_store(script + [b"clerk pass %s word\n" % name.encode() for name in names[0]])
        return names

    def exports(self, texts):
        """Fails unless the maildrop `orders` is exported with these texts, all of class note."""
        files = [it for it in os.scandir(self.folder) if it.name.startswith("mail.db")]
        size = b"size %d" % sum(it.stat().st_size for it in files)
        self.assertEqual(self.prints("check").splitlines()[1], size)
        folder = self.inner("exported")
        said = self.prints("export", "--maildrop", "orders", folder)
        self.assertEqual(said, b"ok, %d messages\n" % len(texts))
        for k, text in enumerate(texts, 1):
            self.assertTrue(read(f"{folder}/note.{k}.eml") == text, k)
        self.assertEqual(len(os.listdir(folder)), len(texts))

    def test_files_come_in_whole(self):
        """Files of the spool, up to the longest text, are retrieved and exported whole."""
        texts = [b"y" * 70_000 + b"\r\n", b".z\r\n" * 65_536]
        # With its CRLF it has as many octets as a message may have.
        texts.append(b"x" * (LARGEST // self.shorter - 2) + b"\r\n")
        with self.office() as it:
            for k, text in enumerate(texts):
                it.deposit(f"orders.note.d{k}.eml", text.replace(b"\r\n", b"\n"))
            with it.connect() as client:
                log_in(client, *texts)
                for k, text in enumerate(texts, 1):
                    client.asks(b"RETR %d\r\n" % k, retrieved(text))
        self.exports(texts)

    # No clause refuses a check, a review, an export or a script that is reported as want of memory
    # once it has more than so many of something: here are more than 100 maildrops, 300 rules, 2,000
    # messages and 20,000 lines.

    def test_a_large_office_is_checked(self):
        """`check` names each of 1,000 maildrops and 1,000 clerks."""
        clerks, maildrops = self.make_office()
        told, count = self.prints("check").decode().splitlines(), len(clerks)
        last = f"ok, {count} maildrops, 0 messages, 0 octets, {count} clerks, 0 rules"
        self.assertEqual(told[-1], last)
        self.assertEqual([it for it in clerks if f"clerk {it} pass" not in told], [])
        self.assertEqual([it for it in maildrops if f"maildrop {it} 0 0" not in told], [])

    def test_a_large_office_is_reviewed_by_a_long_policy(self):
        """A policy of 311 rules is checked, written, and reviewed over 1,000 clerks."""
        clerks, maildrops = self.make_office()
        # The policy names none of them: that they are there is known of the store alone.
        rule = POLICY.replace('name = "all"', 'name = "rule-%d"').replace('"*"', '"none"', 2)
        put(f"{self.folder}/new.toml", "\n".join([POLICY, *(rule % k for k in range(310))]))
        said = self.run_program("check-policy", "new.toml", check=True).stdout
        self.assertEqual(said, b"ok, 311 rules\n")
        written = self.run_program("check-policy", "--write", "new.toml", check=True).stdout
        self.assertEqual(written.count(b"[[rule]]"), 311)
        csv = ["review-policy", "--format", "csv"]
        for words in ([], ["--against", "new.toml"]):
            ran = self.run_program(*csv, *words, "--clerk", "c0", "new.toml")
            self.assertEqual((ran.returncode, ran.stderr), (0, b""))
        for names, column, *words in (
            (clerks, 0, "--maildrop", "m0"),
            (maildrops, 1, "--clerk", "c0"),
        ):
            # Status 3: decisions differ from those of the store, which has no policy.
            rows = self.prints(*csv, *words, "new.toml", status=3).decode().splitlines()
            shown = {row.split(",")[column] for row in rows}
            self.assertEqual([it for it in names if it not in shown], [])

    def test_a_long_script_is_done(self):
        """`replay` does a script of 25,000 lines."""
        self.make_store([b"tick %d\n" % k for k in range(25_000 // self.shorter)])

    def test_a_small_window_gets_all(self):
        """A client with a small window gets a long message whole."""
        lines = (b"." * (k % 3) + b"line %d\r\n" % k for k in range(900_000 // self.shorter))
        text = b"".join(lines)
        it = self.office()
        it.deposit("orders.note.d1.eml", text)
        log_in(client := self.client(it, 4096), text)
        client.asks(b"RETR 1\r\n", retrieved(text))

    def test_ten_thousand_messages_are_exported_and_listed(self):
        """A full maildrop is exported, and listed over a socket."""
        count, text = MOST // self.shorter, b"mail\r\n"
        script = [b"deposit orders note d%d mail\n" % k for k in range(count)]
        self.make_store([b"maildrop add orders\n", *script])
        self.exports([text] * count)
        listed = many(b"%d %d" % (k, len(text)) for k in range(1, count + 1))
        named = many(b"%d note.%d" % (k, k) for k in range(1, count + 1))
        log_in(client := self.client(self.office()), *[text] * count)
        client.asks(b"LIST\r\n", b"+OK scan listing follows\r\n" + listed)
        client.asks(b"UIDL\r\n", b"+OK unique-id listing follows\r\n" + named)

    def answered_until(self, client, is_done):
        """How many NOOPs of a client are answered, one after the other, until something is so."""
        count = 0
        while not is_done():
            client.asks(b"NOOP\r\n", OK)
            count += 1
        return count

    def mark_all(self):
        """A server with 2,000 messages, and a client who has marked them all, with their texts. The
        QUIT is done in parts of 128 messages."""
        texts = [b"mail\r\n"] * (700 if self.short else 2000)
        script = [b"deposit orders note d%d mail\n" % k for k in range(len(texts))]
        self.make_store([b"maildrop add orders\n", b"maildrop add sales\n", *script])
        it = self.office()
        log_in(client := self.client(it), *texts)
        for k in range(1, len(texts) + 1):
            client.asks(b"DELE %d\r\n" % k, b"+OK message %d deleted\r\n" % k)
        return it, client, texts

    def quit_beside(self, it, client, method, path, body=""):
        """Sends a QUIT, and a request that acts in the turn which first sees it: a long QUIT stays
        unread then, and any other would act before the request."""
        request = f"{method} {path} HTTP/1.1\r\nContent-Length: {len(body)}\r\n\r\n{body}"
        with stopped(it), Client(it.admin) as link:
            client.send(b"QUIT\r\n")
            link.send(request.encode())
            os.kill(it.run.pid, signal.SIGCONT)
            self.assertIn("200 OK", link.line().decode())

    def test_a_long_quit_is_judged_as_it_acts(self):
        """A policy that is set while a long QUIT stays unread judges it, whichever came first."""
        deny = POLICY.replace('"all"', '"frozen"').replace("allow", "deny")
        frozen = deny.replace('"open", "read", ', "") + POLICY
        it, client, texts = self.mark_all()
        self.quit_beside(it, client, "PUT", "/policy", frozen)
        client.takes(b"-ERR some deleted messages not removed, denied by rule frozen\r\n")
        log_in(self.client(it), *texts)
        self.renew()
        it, client, texts = self.mark_all()
        it.administer("PUT", "/policy", frozen)
        self.quit_beside(it, client, "PUT", "/policy", POLICY)
        client.takes(BYE)
        log_in(self.client(it))

    def test_a_session_that_is_ended_before_its_long_quit_acts_removes_nothing(self):
        """It gets no reply, and all its messages are there at the next login."""
        it, client, texts = self.mark_all()
        self.quit_beside(it, client, "DELETE", "/sessions/1")
        client.ends()
        log_in(self.client(it), *texts)

    def test_others_are_served_beside_long_work(self):
        """Others are answered while a QUIT removes 2,000 messages, and a file of 5 MB comes in."""
        it, client, _ = self.mark_all()
        # The file is read in parts of 262,144 octets.
        parts = 3 if self.short else 20
        (other := self.client(it)).tries(b"ann/sales")
        other.takes(EMPTY)
        client.send(b"QUIT\r\n")
        self.assertGreater(self.answered_until(other, lambda: not is_silent(client, 0)), 4)
        client.takes(BYE)

        def comes_in_parts(name):
            it.drop(name, parts * 3300 * (b"x" * 77 + b"\n"))
            is_in = lambda: not os.path.exists(f"{it.spool}/{name}")
            return 1.5 * parts < self.answered_until(other, is_in) < 3 * parts

        # A part is read in one turn and stored in another, each of which has at most one reply; not
        # each has one on a machine with much other work.
        self.assertTrue(any(comes_in_parts(f"orders.note.f{k}.eml") for k in range(10)))

    def test_one_clerk_beside_a_thousand(self):
        """A clerk who was added among a thousand, while the server runs, logs in."""
        it = self.office()
        for k in range(1000):
            it.administer("PUT", f"/clerks/c{k}", f"pass word {k}")
        with it.connect() as client:
            log_in(client)
        client = self.client(it)
        client.tries(b"c617/orders", b"word 617")
        client.takes(EMPTY)

    def test_many_lines_take_no_memory_where_logins_wait(self):
        """With --wait the lines of a session leave no memory behind."""
        lines = 20_000 // self.shorter
        it = self.office("--wait", "4")
        log_in(client := self.client(it))
        client.asks(b"NOOP\r\n" * lines, OK * lines)
        before = it.memory()
        for _ in range(20):
            client.asks(b"NOOP\r\n" * lines, OK * lines)
        # They came in 2.4 MB.
        if not self.short:
            self.assertLessEqual(it.memory() - before, 1000)
