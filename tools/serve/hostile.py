"""Hostile clients, each over a real socket, at one server: what is sent, and what must come of it
by docs/PROTOCOL.md.

At the end of each case, and in the midst of those that last, another clerk logs in to another
maildrop, and has to get each reply, whole, within 5 seconds, or within 300 times as long as it took
before any attack, if that is longer. The longest of these sessions is printed. At the end of each
case the attacked maildrop must be free and hold what it held.
"""

import atexit
import contextlib
import hashlib
import random
import re
import tempfile
import time

from clients import BYE, CLOSING, FAILED, IN_USE, LOGIN, OK, SEND_PASS, STATE, TOO_LONG, UNKNOWN
from clients import Case, Client, Server, Wrong, log_in, maildrop_has, retrieved, wait_for

CLERKS = {"ann": "pass s3 cret", "bob": "apop tanstaaf", "eve": "pass quiet"}
# How many seconds another clerk's session may take, or how many times as long as without an attack
# if that is longer.
PATIENCE, TIMES = 5, 300
PLACES = 64
ARGUMENTS, NONE = b"-ERR bad arguments\r\n", b"-ERR no such message\r\n"
DELETED = b"+OK message 1 deleted\r\n"


def make_text(octets, chance):
    """A message of about so many octets, in which some lines begin with dots."""
    lines, left = [b"Subject: a message", b""], octets
    while left > 0:
        lines.append(b"." * chance.randrange(3) + b"x" * chance.randrange(200))
        left -= len(lines[-1]) + 2
    return b"".join(line + b"\r\n" for line in lines)


def errors(octets):
    """What is answered to lines that are no commands."""
    *lines, _ = octets.split(b"\n")
    return b"".join(TOO_LONG if len(line) > 254 else UNKNOWN for line in lines)


class Hostile(Case):
    """A server whose maildrop `orders` is attacked, while another clerk reads `quiet`."""

    @classmethod
    def setUpClass(cls):
        atexit.register(cls.doClassCleanups)
        # By how much what is large is smaller.
        cls.less, chance = 10 if cls.short else 1, random.Random(1)
        sizes = (50, 100_000 // cls.less, 10_000_000 // cls.less)
        cls.texts = [make_text(octets, chance) for octets in sizes]
        folder = cls.enterClassContext(tempfile.TemporaryDirectory())
        server = Server(cls.program, folder, "--admin-site", "localhost")
        cls.server = cls.enterClassContext(server)
        server.fill(("orders", "quiet"), CLERKS.items())
        for k, text in enumerate(cls.texts):
            server.deposit(f"orders.note.d{k}.eml", text)
        server.deposit("quiet.note.d0.eml", b"hello\r\n")
        alone = [cls.seconds_of_another() for _ in range(10)]
        cls.patience = max(PATIENCE, TIMES * sum(alone) / len(alone))
        cls.before = server.memory()

    @classmethod
    def tearDownClass(cls):
        print(f"  the server has {cls.server.memory() - cls.before} kB more")

    @classmethod
    def seconds_of_another(cls):
        """How long another clerk's session takes."""
        begun = time.monotonic()
        with cls.server.connect() as client:
            said = b"USER eve/quiet\r\nPASS quiet\r\nRETR 1\r\nQUIT\r\n"
            client.asks(said, SEND_PASS + maildrop_has(1, 7) + retrieved(b"hello\r\n") + BYE)
            client.ends()
        return time.monotonic() - begun

    def serves_others(self):
        """Fails unless another clerk is served in time."""
        seconds = self.seconds_of_another()
        self.longest = max(self.longest, seconds)
        self.assertLessEqual(seconds, self.patience, "another clerk's session took too long")

    def setUp(self):
        super().setUp()
        self.longest = 0.0
        # This comes after all that the case began has ended.
        self.addCleanup(self.stands)

    def stands(self):
        """Fails unless `orders` is free again, or soon, and holds what it held."""
        is_free = lambda: "ann" not in self.server.administer("GET", "/sessions")
        wait_for(is_free, "the maildrop is still in use")
        with self.server.connect() as client:
            log_in(client, *self.texts)
            client.asks(b"RETR 1\r\nQUIT\r\n", retrieved(self.texts[0]) + BYE)
        self.serves_others()
        print(f"  others were served within {self.longest * 1000:.0f} ms")
        self.assertIsNone(self.server.run.poll())

    def come(self, **how):
        """A client until the case ends."""
        return self.client(self.server, **how)

    def log_in(self, **how):
        """A client that is in `orders`, which has to be free."""
        log_in(client := self.come(**how), *self.texts)
        return client

    # Lines

    def test_long_line(self):
        """A line of 10 MB, and NOOP: `line too long`, once, and the reply to NOOP."""
        it = self.log_in()
        it.send(b"x" * (10_000_000 // self.less))
        self.serves_others()
        it.asks(b"\r\nNOOP\r\n", TOO_LONG + OK)

    def test_endless_line(self):
        """10 MB without an end of line, and a close: no octet."""
        it = self.come()
        it.send(b"USER ann/orders" * (700_000 // self.less))
        self.serves_others()
        it.shuts()
        it.ends()

    def test_lines_at_the_limit(self):
        """Lines of 255 and of 256 octets: `unknown command`, and `line too long`."""
        self.come().asks(b"x" * 253 + b"\r\n" + b"x" * 254 + b"\r\n", UNKNOWN + TOO_LONG)

    def test_many_long_lines(self):
        """5,000 lines of 300 octets in one write: `line too long` 5,000 times."""
        self.come().asks((b"x" * 298 + b"\r\n") * 5000, TOO_LONG * 5000)

    def test_nuls(self):
        """A line of 200 NULs, NOOP with a NUL, RETR 1 with a NUL: an error for each."""
        sent = bytes(200) + b"\r\nNOOP\0\r\nRETR 1\0\r\n"
        self.log_in().asks(sent, UNKNOWN * 2 + ARGUMENTS)

    def test_random_octets(self):
        """1 MB of random octets, and the sending side shut: an error for each LF, and the end."""
        it, sent = self.come(), random.Random(6).randbytes(1_000_000)
        it.send(sent)
        it.shuts()
        it.takes(errors(sent))
        it.ends()

    def test_ends_of_lines(self):
        """Lines that end with LF alone, CR CR LF, CR alone: LF alone ends a line."""
        sent = b"NOOP\nNOOP\r\r\nNOOP\rNOOP\r\nNOOP\r\n"
        self.log_in().asks(sent, OK + UNKNOWN * 2 + OK)

    def test_empty_lines(self):
        """5,000 empty lines: `unknown command` 5,000 times."""
        self.come().asks(b"\r\n" * 5000, UNKNOWN * 5000)

    def test_single_octets(self):
        """A session's octets, each in a packet of its own: what it gets in one packet."""
        it = self.come()
        for octet in LOGIN + b"NOOP\r\nRETR 1\r\nQUIT\r\n":
            it.send(bytes([octet]))
            time.sleep(0.002)
        it.takes(SEND_PASS + maildrop_has(len(self.texts), sum(map(len, self.texts))))
        it.takes(OK + retrieved(self.texts[0]) + BYE)
        it.ends()

    # Ends

    def marks(self, rest=b""):
        """A client that has marked message 1, and sent this."""
        it = self.log_in()
        it.asks(b"DELE 1\r\n" + rest, DELETED)
        return it

    def test_half_a_line(self):
        """DELE 1, half a line, and a close: the maildrop is free, and nothing is removed."""
        self.marks().send(b"DELE 2")

    def test_quit_without_end(self):
        """DELE 1, QUIT without its end of line, and a close: nothing is removed."""
        self.marks().send(b"QUIT")

    def test_quit_and_shut(self):
        """DELE 1, QUIT without its end of line, the sending side shut: nothing is removed."""
        it = self.marks(b"QUIT")
        it.shuts()
        it.ends()

    def test_reset_with_marks(self):
        """DELE 1, and a reset: the maildrop is free, and nothing is removed."""
        self.marks().resets()

    def test_reset_in_retr(self):
        """A reset in the middle of a RETR of 10 MB: the maildrop is free."""
        it = self.log_in()
        it.asks(b"RETR 3\r\n", retrieved(self.texts[2])[:300_000])
        it.resets()

    def test_shut_behind_quit(self):
        """5,000 NOOPs and QUIT in one write, the sending side shut: each reply, and the end."""
        it = self.log_in()
        it.send(b"NOOP\r\n" * 5000 + b"QUIT\r\n")
        it.shuts()
        it.takes(OK * 5000 + BYE)
        it.ends()

    # Arguments

    def test_long_numbers(self):
        """RETR, LIST, UIDL, DELE, TOP of a number of 40 digits: `no such message`."""
        it, big = self.log_in(), b"9" * 40
        for word in (b"RETR", b"LIST", b"UIDL", b"DELE"):
            it.asks(word + b" " + big + b"\r\n", NONE)
        it.asks(b"TOP " + big + b" 1\r\n", NONE)
        it.asks(b"LIST " + b"0" * 40 + b"1\r\n", b"+OK 1 %d\r\n" % len(self.texts[0]))
        it.asks(b"LIST " + b"0" * 40 + b"\r\n", NONE)

    def test_top_of_many(self):
        """TOP 1 and a number of 40 digits: the whole message."""
        whole = retrieved(self.texts[0]).split(b"\r\n", 1)[1]
        self.log_in().asks(b"TOP 1 " + b"9" * 40 + b"\r\n", b"+OK top follows\r\n" + whole)

    def test_no_numbers(self):
        """Numbers with a sign, a dot, hexadecimal, two, a space more: `bad arguments`."""
        it = self.log_in()
        for argument in (b"-1", b"+1", b"1.0", b"0x1", b"1 1", b" 1", b"\t1", b"%31", b"one"):
            it.asks(b"RETR " + argument + b"\r\n", ARGUMENTS)

    # Logins

    def test_bad_passwords(self):
        """A password with a NUL, of 240 octets, the right one and a space: `login failed`."""
        took = []
        for password in (b"s3\0cret", b"s3 cret\0", b"x" * 240, b"s3 cret "):
            begun = time.monotonic()
            self.come().asks(LOGIN.replace(b"s3 cret", password), SEND_PASS + FAILED)
            took.append(time.monotonic() - begun)
        # With --slow-guesses the first one waits for nothing, and the fourth one four seconds.
        self.assertLessEqual(took[-1] - took[0], 3, "guesses wait, though nobody asked for that")

    def test_fourth_password(self):
        """Three wrong passwords and the right one in one write: the third closes."""
        it = self.come()
        wrong = b"".join(LOGIN.replace(b"s3 cret", word) for word in (b"a", b"b", b"c"))
        it.send(wrong + LOGIN + b"STAT\r\n")
        it.takes((SEND_PASS + FAILED) * 2 + SEND_PASS + CLOSING)
        it.ends()

    def test_bad_names(self):
        """USER with a path, a third part, capitals, quotes, a NUL, 33 letters: `bad arguments`."""
        names = ["../../etc/passwd", "ann/orders/x", "ANN/orders", "ann", "/orders", "ann/", "'/'"]
        names += ["ann/orders\0", "a" * 33 + "/orders", "ann/" + "o" * 33, "ann /orders"]
        it = self.come()
        for name in [*names, "\xe4/orders"]:
            it.asks(b"USER " + name.encode("latin-1") + b"\r\n", ARGUMENTS)

    def test_bad_digests(self):
        """APOP with another connection's digest, 31 digits, 33, none: an error for each."""
        timestamp = re.search(rb"<.*>", self.come().greeting)[0]
        digest, it = hashlib.md5(timestamp + b"tanstaaf").hexdigest().encode(), self.come()
        it.asks(b"APOP bob/orders " + digest + b"\r\n", FAILED)
        for digits in (digest[1:], digest + b"0", b"g" * 32, b""):
            it.asks(b"APOP bob/orders " + digits + b"\r\n", ARGUMENTS)

    def test_wrong_states(self):
        """Each command out of its state: `wrong state`, and nothing is done."""
        it = self.come()
        for line in (b"STAT", b"LIST", b"RETR 1", b"DELE 1", b"RSET", b"UIDL", b"TOP 1 1", b"NOOP"):
            it.asks(line + b"\r\n", STATE)
        it.asks(b"PASS s3 cret\r\n", STATE)
        it = self.log_in()
        for line in (b"USER ann/orders", b"PASS s3 cret", b"APOP bob/orders " + b"0" * 32):
            it.asks(line + b"\r\n", STATE)

    def test_logins_in_use(self):
        """500 logins into a maildrop that another session has: `[IN-USE]` 500 times."""
        holder, it = self.log_in(), self.come()
        it.asks(LOGIN * 500, (SEND_PASS + IN_USE) * 500)
        holder.asks(b"NOOP\r\n", OK)

    # Much, and slowly

    def test_many_noops(self):
        """5,000 NOOPs in one write: `+OK` 5,000 times."""
        self.log_in().asks(b"NOOP\r\n" * 5000, OK * 5000)

    def test_unread_retrs(self):
        """1,000 RETRs of 100 KB in one write, read 3 s later: each message, in 1 MB of memory."""
        before, it, count = self.server.memory(), self.log_in(), 1000 // self.less
        it.send(b"RETR 2\r\n" * count)
        time.sleep(3)
        self.serves_others()
        grown = self.server.memory() - before
        it.takes(retrieved(self.texts[1]) * count)
        self.assertLess(grown, 1024)

    def test_slow_reader(self):
        """A RETR of 10 MB, read by an octet a second, for 10 s: others are served."""
        it = self.log_in(receives=2048)
        it.send(b"RETR 3\r\n")
        for octet in retrieved(self.texts[2])[:10]:
            it.takes(bytes([octet]))
            time.sleep(1)
            self.serves_others()
        it.resets()

    def has_place(self):
        """Whether one more connection is greeted."""
        with Client(self.server.pop) as it, contextlib.suppress(Wrong, ConnectionError):
            return it.line() != b""
        return False

    def test_all_places(self):
        """64 silent connections, and one more, which is closed; then a place is free."""
        clients = [self.come() for _ in range(PLACES)]
        with Client(self.server.pop) as it:
            it.ends()
        clients.pop().close()
        wait_for(self.has_place, "no place is free")
        self.serves_others()

    def test_slow_lines(self):
        """An octet a second of a line on 63 connections, for 5 s: the last place is served."""
        clients = [self.come() for _ in range(PLACES - 1)]
        for octet in b"NOOP ":
            for it in clients:
                it.send(bytes([octet]))
            self.serves_others()
            time.sleep(1)
        for it in clients:
            it.asks(b"\r\n", STATE)

    # Other protocols, and the administration's port

    def test_other_protocols(self):
        """HTTP, and the hello of TLS, at the port of POP3: an error for each LF."""
        hello = b"\x16\x03\x01\x02\x00\x01\x00\x01\xfc\x03\x03" + bytes(range(32)) + bytes(467)
        for sent in (b"GET / HTTP/1.1\r\nHost: localhost\r\n\r\n", hello):
            it = self.come()
            it.send(sent)
            it.shuts()
            it.takes(errors(sent))
            it.ends()

    def status(self, octets, shuts=False):
        """The status of the response to a request; empty if none comes."""
        with Client(self.server.admin) as it:
            it.send(octets)
            if shuts:
                it.shuts()
            came = it.socket.recv(1000)
        return (came.split(b" ") + [b"", b""])[1]

    def test_bad_requests(self):
        """POP3, a long head, two lengths, one of 40 digits, half a request: 400, 413, or none."""
        put = b"PUT /clerks/ann HTTP/1.1\r\nHost: localhost\r\n"
        length = b"Content-Length: "
        for sent, status in (
            (b"USER ann/orders\r\n\r\n", b"400"),
            (put + b"X: " + b"x" * 9000 + b"\r\n\r\n", b"400"),
            (put + length + b"6\r\n" + length + b"7\r\n\r\npass x", b"400"),
            (put + length + b"9" * 40 + b"\r\n\r\npass x", b"413"),
            (put + length + b"-1\r\n\r\npass x", b"400"),
            (put + length + b"6\r\n\r\npass", b""),
        ):
            self.assertEqual(self.status(sent, shuts=True), status, sent[:60])

    def test_other_sites(self):
        """Requests of other sites, by Host, Origin and Sec-Fetch-Site: 403; of its own: 200."""
        absolute = "DELETE http://localhost/clerks/ann"
        wanted = [("DELETE /clerks/ann", it, b"403") for it in OTHER_SITES]
        wanted += [("GET /clerks/ann", it, b"200") for it in OWN_SITE]
        wanted += [(absolute, "Host: evil.test", b"403"), (absolute, "Host: localhost", b"404")]
        for asked, head, status in wanted:
            lines = [f"{asked} HTTP/1.1", *filter(None, head.split(", ")), "", ""]
            self.assertEqual(self.status("\r\n".join(lines).encode()), status, (asked, head))


# Lines of requests' heads, with a comma between two.
OTHER_SITES = ["", "Host:", "Host: evil.test", "Host: EVIL.test:1111", "Host: localhost."]
OTHER_SITES += ["Host: localhost.evil.test", "Host: 127.1", "Host: 127.0.0.1.evil.test:1111"]
OTHER_SITES += ["Host: localhost, Host: localhost", "Host: localhost, Host: evil.test"]
OTHER_SITES += ["Host: localhost, Origin: http://evil.test", "Host: localhost, Origin: null"]
OTHER_SITES += ["Host: localhost, Origin: http://localhost:3000"]
OTHER_SITES += ["Host: localhost, Sec-Fetch-Site: cross-site"]
OTHER_SITES += ["Host: localhost, Sec-Fetch-Site: same-site"]
OWN_SITE = ["Host: LOCALHOST:1111", "Host: 127.9.9.9", "Host: [::1]:1111"]
OWN_SITE += ["Host: localhost, Origin: http://localhost, Sec-Fetch-Site: same-origin"]
