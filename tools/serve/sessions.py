"""Sessions: the greeting, logins that wait, guesses, strangers, proxies; and `./popbox try`."""

import contextlib
import itertools
import os
import pty
import re
import select
import signal
import subprocess
import threading
import time

from cases import needs
from clients import BYE, CLOSING, EMPTY, FAILED, IN_USE, LOGIN, OK, POLICY, REPLY, SEND_PASS, STATE
from clients import TOO_LONG, TOP, UNKNOWN, Case, Wrong, is_silent, log_in, maildrop_has, proxied
from clients import put, retrieved, stopped, wait_for


def seconds_of(client, password, reply):
    """How many seconds the answer to a password takes."""
    client.asks(b"USER ann/orders\r\n", SEND_PASS)
    start = time.monotonic()
    client.asks(b"PASS %s\r\n" % password, reply)
    return time.monotonic() - start


class Sessions(Case):
    """How a session begins and ends, over `serve` and over `talk`."""

    def boots(self, greet):
        """Fails unless two greetings have the moment of each, in milliseconds."""
        found = []
        for _ in range(2):
            before = time.time()
            found.append(int(re.search(rb"\.(\d+)@", greet())[1]))
            self.assertTrue(int(before * 1000) <= found[-1] <= time.time() * 1000, found)
        self.assertNotEqual(*found)

    def test_greeting_has_the_host_and_the_moment(self):
        """The greeting has the host, and in milliseconds the moment of the start."""

        def greet():
            host = "mail.h.test"
            with self.office("--host", host) as it, it.connect(host=host) as client:
                log_in(client)
                return client.greeting

        self.boots(greet)

    def test_talk_greets_with_the_moment(self):
        """`talk` greets as the first client after its start."""
        form = rb"\+OK .* <1\.\d+@localhost>\r\n"
        self.boots(lambda: re.fullmatch(form, self.prints("talk"))[0])

    def takes(self, run, wanted):
        """Fails unless a program writes just this next."""
        got = b""
        while len(got) < len(wanted) and select.select([run.stdout], [], [], REPLY)[0]:
            piece = os.read(run.stdout.fileno(), len(wanted) - len(got))
            if not piece:
                break
            got += piece
        self.assertEqual(got, wanted)

    def test_talk_answers_each_line_as_it_comes(self):
        """`talk` answers a line as soon as it is whole."""
        with self.office() as it:
            it.deposit("orders.note.d1.eml", b"one\n")
        words = ["talk", "--store", f"{self.folder}/mail.db", "--host", "h.test", "--boot", "7"]
        pipes = {"stdin": subprocess.PIPE, "stdout": subprocess.PIPE, "bufsize": 0}
        with subprocess.Popen([self.program, *words], **pipes) as run:
            self.takes(run, b"+OK POP3 server ready <1.7@h.test>\r\n")
            for sent, reply in (
                (b"NO", b""),
                (b"OP\r\n", STATE),
                (b"USER ann/orders\r", b""),
                (b"\nPASS s3 ", SEND_PASS),
                (b"cret\r\nRETR 1\r\n", maildrop_has(1, 5)),
                (b"", retrieved(b"one\r\n")),
                (b"QUIT\r\n", BYE),
            ):
                run.stdin.write(sent)
                self.takes(run, reply)
                time.sleep(0.1)
            self.assertEqual((run.stdout.read(), run.wait(REPLY)), (b"", 0))

    def test_a_denied_removal_is_refused_at_the_quit(self):
        """With `--removals quit` a denied removal is refused by the QUIT, and the message stays."""
        it, text = self.office("--removals", "quit"), b"stays\r\n"
        it.administer("PUT", "/policy", POLICY.replace(', "remove"', ""))
        it.deposit("orders.note.d1.eml", text)
        with it.connect() as client:
            log_in(client, text)
            client.asks(b"DELE 1\r\n", b"+OK message 1 deleted\r\n")
            denied = b"-ERR some deleted messages not removed, denied by rule default\r\n"
            client.asks(b"QUIT\r\n", denied)
        log_in(self.client(it), text)

    def test_a_client_that_ends_with_its_last_line_is_let_go(self):
        """A client that shuts its side after its last line gets the reply, and the end."""
        it = self.office()
        client = self.client(it)
        # Both are there before the server looks.
        with stopped(it):
            client.send(b"NOOP\r\n")
            client.shuts()
        client.takes(STATE)
        client.ends()

    def test_a_reset_frees_the_lock_where_logins_wait(self):
        """A reset of a session's connection frees its maildrop at once, with `--wait` too."""
        it = self.office("--wait", "60")
        for _ in range(3):
            client = it.connect()
            log_in(client)
            time.sleep(0.3)
            client.resets()
        log_in(self.client(it))


class Waits(Case):
    """Logins under --wait and --login-seconds."""

    def beside(self, server):
        """A client that has ann's maildrop, and one that has just come."""
        log_in(first := self.client(server))
        return first, self.client(server)

    def test_a_login_waits_for_its_maildrop(self):
        """With --wait a login waits until its maildrop is free."""
        first, second = self.beside(self.office("--wait", "60"))
        second.tries()
        second.waits(1)
        first.quits()
        second.takes(EMPTY)

    def test_a_login_is_refused_once_it_has_waited(self):
        """A login is refused after the seconds of --wait."""
        first, second = self.beside(self.office("--wait", "5"))
        self.assertGreaterEqual(seconds_of(second, b"s3 cret", IN_USE), 3)
        first.asks(b"NOOP\r\n", OK)

    def test_a_silent_client_ends_at_its_seconds(self):
        """A client that doesn't log in is ended after --login-seconds, and no other one."""
        it = self.office("--login-seconds", "3")
        log_in(client := self.client(it))
        start = time.monotonic()
        self.client(it).ends()
        self.assertGreaterEqual(time.monotonic() - start, 2)
        client.asks(b"NOOP\r\n", OK)

    def test_a_login_that_waits_for_a_lock_is_not_late(self):
        """The seconds of a login stand still while it waits for its maildrop."""
        first, second = self.beside(self.office("--wait", "10", "--login-seconds", "3"))
        second.tries()
        time.sleep(5)
        first.quits()
        second.takes(EMPTY)

    def test_a_login_behind_other_lines_waits_too(self):
        """A login waits for its maildrop whatever came before it in the same piece."""
        it = self.office("--wait", "30")
        many, long = (b"\r\n" * 2048, UNKNOWN * 2048), (b"x" * 5000 + b"\r\n", TOO_LONG)
        for lines, told in ((b"", b""), many, long):
            first, second = self.beside(it)
            second.asks(lines + LOGIN + b"STAT\r\n", told + SEND_PASS)
            second.waits(1)
            first.quits()
            second.takes(EMPTY + b"+OK 0 0\r\n")
            second.quits()

    def test_a_login_by_octets_waits_too(self):
        """A login whose octets come one by one waits for its maildrop."""
        first, second = self.beside(self.office("--wait", "30"))
        for octet in LOGIN:
            second.send(bytes([octet]))
            time.sleep(0.02)
        second.takes(SEND_PASS)
        second.waits(1)
        first.quits()
        second.takes(EMPTY)

    def test_a_login_in_two_writes_waits_too(self):
        """A login waits for its maildrop if USER and PASS come in two pieces."""
        it = self.office("--wait", "30")
        log_in(self.client(it))
        for _ in range(20):
            with it.connect() as second:
                for line in LOGIN.splitlines(True):
                    second.send(line)
                second.takes(SEND_PASS)
                second.waits(0.2)

    def test_later_turns_go_by_the_options_as_the_first_does(self):
        """A lock, a guess and silence are waited for much later as they are at the start."""
        words = ["--wait", "10", "--login-seconds", "30", "--slow-guesses"]
        it = self.office(*words, env=self.still())
        for now in (5, 1000):
            self.set_on(now)
            silent = self.client(it)
            first, second = self.beside(it)
            second.tries()
            second.waits()
            first.quits()
            second.asks(b"QUIT\r\n", EMPTY + BYE)
            guesser = self.client(it)
            guesser.guesses()
            guesser.tries(password=b"wrong")
            guesser.waits()
            self.set_on(now + 1)
            guesser.takes(FAILED)
            guesser.close()
            self.set_on(now + 29)
            silent.waits()
            self.set_on(now + 31)
            silent.ends()


# How many logins are known as refused, for how many seconds they keep others waiting at most, and
# for how many seconds they count.
REFUSALS, LONGEST, OLD = 1024, 15, 600


class Guesses(Case):
    """How long a guess waits under --slow-guesses."""

    def guess(self, server, now, seconds):
        """Guesses at a second, on a connection of its own, and fails unless the answer comes so
        many seconds later. Gives the second of the answer."""
        self.set_on(now)
        with server.connect() as client:
            client.tries(password=b"wrong")
            if seconds:
                self.set_on(now + seconds - 1)
                client.waits()
                self.set_on(now + seconds)
            client.takes(FAILED)
        return now + seconds

    def test_a_guess_waits_15_seconds_at_most_and_none_after_ten_minutes(self):
        """Guesses wait 1, 2, 4, 8 and then 15 seconds; ten minutes without one end that."""
        it, now = self.office("--slow-guesses", env=self.still()), 5
        for seconds in (0, 1, 2, 4, 8, LONGEST, LONGEST):
            now = self.guess(it, now, seconds)
        # A second less than ten minutes later the refusals still count.
        now = self.guess(it, now + OLD - 1, 0)
        now = self.guess(it, now, LONGEST)
        now = self.guess(it, now + OLD, 0)
        self.guess(it, now, 1)

    def test_guesses_wait(self):
        """A third guess closes, the next login waits for it, and one accepted ends the waits."""
        it = self.office("--slow-guesses")
        with it.connect() as client:
            took = [seconds_of(client, b"wrong", reply) for reply in (FAILED, FAILED, CLOSING)]
            client.ends()
        took.append(seconds_of(self.client(it), b"s3 cret", EMPTY))
        last = seconds_of(self.client(it), b"wrong", FAILED)
        self.assertTrue(all(least - 0.5 <= it for least, it in zip((0, 1, 2, 4), took)), took)
        # It waits for nothing. Were the refusals before not forgotten, it would wait 8 s, and thus
        # 4 s longer than the login before it.
        self.assertLessEqual(last, took[-1] + 3)

    def test_guesses_at_names_that_nobody_has_wait_alike(self):
        """A guess at a clerk or a maildrop that isn't there waits as one at ann does."""
        it = self.office("--slow-guesses", env=self.still())
        for number, name in enumerate((b"ann/orders", b"ann/none", b"nobody/orders")):
            now = 5 + 10 * number
            self.set_on(now)
            client = self.client(it)
            client.tries(name, b"wrong")
            client.takes(FAILED)
            client.tries(name, b"wrong")
            client.waits()
            self.set_on(now + 1)
            client.takes(FAILED)

    def test_a_guess_waits_in_whatever_pieces_it_comes(self):
        """A second guess waits if it comes with the first, by octets, or behind other lines."""
        guess = b"USER ann/orders\r\nPASS wrong\r\n"
        # What comes before the second guess, what that is answered, and in how large pieces.
        rows = [(b"", b"", 4096), (b"", b"", 1), (b"\r\n" * 2048, UNKNOWN * 2048, 1 << 16)]
        rows.append((b"x" * 5000 + b"\r\n", TOO_LONG, 1 << 16))
        it = self.office("--slow-guesses", env=self.still())
        for number, (before, reply, octets) in enumerate(rows):
            now, sent = 700 * (number + 1), guess + before + guess
            self.set_on(now)
            client = self.client(it)
            for at in range(0, len(sent), octets):
                client.send(sent[at : at + octets])
            client.takes(SEND_PASS + FAILED + reply + SEND_PASS)
            client.waits()
            self.set_on(now + 1)
            client.takes(FAILED)

    def test_the_oldest_of_1025_refusals_is_forgotten(self):
        """1,024 refusals are known; one more has the oldest forgotten."""
        sources = [proxied(b"10.7.%d.%d" % divmod(k, 256)) for k in range(REFUSALS + 1)]
        it = self.office("--slow-guesses", "--proxy-protocol", env=self.still())
        for source in sources[:-1]:
            with it.connect(first=source) as client:
                client.guesses()
        clients = [self.client(it, first=source) for source in sources[:2]]
        for client in clients:
            client.tries(password=b"wrong")
        for client in clients:
            client.waits()
        self.client(it, first=sources[-1]).guesses()
        # The refusal of the first one is forgotten for this one, and then the second one's for
        # that of the first one's further guess.
        for client in clients:
            client.takes(FAILED)


CLERKS = ("ann", "bob", "cat", "dan", "eve", "fay", "gus", "hal")
# Within how many seconds a login that isn't kept back is answered on any machine, and one that is:
# 15, and what a slow machine takes.
AT_ONCE, AT_MOST = 5, 25
# For how many seconds guesses are counted.
COUNTED = 20


def seconds_of_login(server, name, **where):
    """How many seconds a clerk's login to the maildrop of the same name takes."""
    start = time.monotonic()
    with server.connect(**where) as client:
        client.tries(b"%s/%s" % (name.encode(), name.encode()))
        client.takes(EMPTY)
        took = time.monotonic() - start
        client.quits()
    return took


class Stranger:
    """Guesses at names on so many connections, on each as fast as it is answered, until it is
    stopped."""

    def __init__(self, server, names, places, **where):
        self.server, self.names, self.where = server, iter(names), where
        self.goes, self.guesses, self.lock = True, 0, threading.Lock()
        self.threads = [threading.Thread(target=self.guess) for _ in range(places)]

    def __enter__(self):
        for thread in self.threads:
            thread.start()
        return self

    def __exit__(self, *_):
        self.goes = False
        for thread in self.threads:
            thread.join()

    def guess(self):
        """Guesses on one connection after the other."""
        while self.goes:
            with contextlib.suppress(OSError, Wrong), self.server.connect(**self.where) as client:
                while self.goes and self.guess_once(client):
                    pass

    def guess_once(self, client):
        """Makes a guess. Whether the connection goes on."""
        with self.lock:
            name = next(self.names)
        client.tries(name, b"wrong")
        while self.goes and is_silent(client, 0.2):
            pass
        if not self.goes:
            return False
        line = client.line()
        with self.lock:
            self.guesses += 1
        return line == FAILED


class Strangers(Case):
    """Clerks beside strangers who guess, under --slow-guesses. How long a login took is printed."""

    def house(self, *words):
        """A server with a clerk and a maildrop of each name."""
        server = self.serve("--slow-guesses", *words)
        server.fill(CLERKS, [(name, "pass s3 cret") for name in CLERKS])
        return server

    def is_at_once(self, what, server, name, **where):
        took = seconds_of_login(server, name, **where)
        print(f"  {what}: {took:.2f} s", flush=True)
        self.assertLessEqual(took, AT_ONCE, what)

    def is_slowed(self, places):
        """A stranger guesses at ann on so many connections."""
        it = self.house()
        with Stranger(it, itertools.repeat(b"ann/ann"), places):
            # After the first five refusals each waits 15 seconds.
            time.sleep(4)
            for name in CLERKS[1:]:
                self.is_at_once(f"{name} beside {places} connections", it, name)
            self.is_at_once("ann from another address", it, "ann", source="127.0.0.2")
            took = seconds_of_login(it, "ann")
            print(f"  ann from the stranger's address: {took:.1f} s", flush=True)
            self.assertLessEqual(took, AT_MOST)

    def test_four_connections_slow_nobody_but_ann(self):
        """Four connections that guess at ann slow her alone, from their address."""
        self.is_slowed(4)

    def test_eight_connections_slow_nobody_but_ann(self):
        """Eight connections that guess at ann slow her alone, from their address."""
        self.is_slowed(8)

    def test_offices_behind_a_proxy_are_told_apart(self):
        """With --proxy-protocol the address of a guess is the one that the proxy says."""
        it, guesser = self.house("--proxy-protocol"), proxied(b"203.0.113.7")
        with Stranger(it, itertools.repeat(b"ann/ann"), 8, first=guesser):
            time.sleep(4)
            for last in (8, 9, 10):
                where = proxied(b"203.0.113.%d" % last)
                self.is_at_once(f"ann from 203.0.113.{last}", it, "ann", first=where)
            self.is_at_once("bob from 203.0.113.7", it, "bob", first=guesser)

    def test_five_old_passwords_behind_one_address(self):
        """Programs with an old password slow no other clerk of their address."""
        it = self.house("--login-seconds", "60")
        # Five programs of an office that check once each second.
        for who, places in ((b"dan", 1), (b"eve", 1), (b"fay", 1), (b"gus", 2)):
            self.enterContext(Stranger(it, itertools.repeat(b"%s/%s" % (who, who)), places))
        time.sleep(4)
        for name in ("ann", "bob", "cat", "ann"):
            self.is_at_once(f"{name} beside five old passwords", it, name)

    def test_a_login_that_is_kept_back_is_not_late(self):
        """The seconds of a login stand still while it waits for earlier guesses."""
        it = self.house("--login-seconds", "3")
        with it.connect() as client:
            for reply in (FAILED, FAILED, CLOSING):
                client.tries(b"ann/ann", b"wrong")
                client.takes(reply)
            client.ends()
        # The next one waits for four seconds.
        took = seconds_of_login(it, "ann")
        print(f"  ann after three guesses: {took:.1f} s", flush=True)
        self.assertGreaterEqual(took, 3)

    def count(self, what, names, places):
        """Counts a stranger's guesses, beside a clerk who logs in each second."""
        self.renew()
        slowest = 0
        with self.house() as it, Stranger(it, names, places) as stranger:
            start = time.monotonic()
            while time.monotonic() < start + COUNTED:
                slowest = max(slowest, seconds_of_login(it, "bob"))
                time.sleep(1)
            seconds, guesses = time.monotonic() - start, stranger.guesses
        said = f"{what}: {guesses} guesses in {seconds:.0f} s; bob within {slowest:.2f} s"
        print(f"  {said}", flush=True)
        self.assertLessEqual(slowest, AT_ONCE, said)
        return guesses, seconds

    def test_guesses_that_are_left(self):
        """A connection has one guess at a name in 15 seconds, and others are served at once."""
        for places in (1, 60):
            what, names = f"{places} connections at one name", itertools.repeat(b"ann/ann")
            guesses, seconds = self.count(what, names, places)
            # Each place is answered at most once in 15 seconds, but for the first five refusals.
            self.assertLessEqual(guesses, places * (seconds / 15 + 1) + 5, what)
        fresh = (b"clerk-%d/ann" % number for number in itertools.count(1))
        self.count("8 connections, each guess at another name", fresh, 8)


class Proxies(Case):
    """Clients behind a proxy, under --proxy-protocol."""

    def test_a_proxy_tells_its_clients_address(self):
        """A link begins with the proxy's line, also in pieces; without one it is closed."""
        line = proxied(b"203.0.113.7")
        it = self.office("--proxy-protocol", "--log")
        client = self.client(it)
        for piece in (line[:9], line[9:]):
            time.sleep(0.3)
            client.send(piece)
        log_in(client)
        client.quits()
        for wrong in (LOGIN, b"PROXY TCP4 203.0.113.7 127.0.0.1 51234\r\n"):
            client = self.client(it)
            client.send(wrong)
            client.ends()
        it.end()
        logins = re.findall(r"event=login .* client=(\S+) .* (answer=.*)\n", self.errors())
        self.assertEqual(logins, [("203.0.113.7", "answer=accepted rule=all")])

    def test_a_proxys_client_and_an_administrator_of_one_number_are_two(self):
        """At each port the links are counted by themselves."""
        it = self.office("--proxy-protocol")
        clients = [self.client(it) for _ in range(8)]
        for client in clients:
            client.asks(proxied(b"203.0.113.7") + b"NOOP\r\n", STATE)
        for _ in clients:
            it.administer("GET", "/maildrops")
        for client in clients:
            client.asks(b"NOOP\r\n", STATE)

    def test_a_guess_behind_a_proxy_slows_no_other_address(self):
        """A guess slows no clerk of another address, nor of the proxy's own."""
        it = self.office("--slow-guesses", "--proxy-protocol", env=self.still())
        it.administer("PUT", "/clerks/bob", "pass s3 cret")
        guesser = self.client(it, first=proxied(b"203.0.113.7"))
        self.set_on(5)
        guesser.guesses()
        guesser.tries(password=b"wrong")
        # The same name, and another one, from another address; and from the proxy's own.
        other, own = proxied(b"203.0.113.8"), b"PROXY UNKNOWN\r\n"
        for line, name in ((other, b"ann"), (other, b"bob"), (own, b"ann")):
            client = self.client(it, first=line)
            client.tries(name + b"/orders")
            client.takes(EMPTY)
            client.quits()
        guesser.waits()
        self.set_on(6)
        guesser.takes(FAILED)

    def test_a_proxys_line_has_107_octets_at_most_and_ten_seconds(self):
        """A longer first line, or none within ten seconds, closes the link."""
        longest = b"PROXY UNKNOWN ".ljust(105, b"x")
        it = self.office("--proxy-protocol", env=self.still())
        self.set_on(5)
        self.client(it).asks(longest + b"\r\nNOOP\r\n", STATE)
        client = self.client(it)
        client.send(longest + b"x\r\nNOOP\r\n")
        client.ends()
        client = self.client(it)
        client.send(b"PROXY")
        self.set_on(14)
        client.waits()
        self.set_on(15)
        client.ends()


# A program that says where it listens, and then answers each administrator in its own way.
FALSE = """#!/usr/bin/env python3
import socket, time
for name in ("pop", "admin"):
    it = socket.create_server(("127.0.0.1", 0))
    print(f"{name} on 127.0.0.1:{it.getsockname()[1]}", flush=True)
while True:
    link = it.accept()[0]
    link.recv(4096)
    ANSWER
    link.close()
"""
OTHER = r'link.sendall(b"HTTP/1.1 200 OK\r\nContent-Length: 5\r\n\r\nother")'


class Visits(Case):
    """`./popbox try` ends with a clear word whatever is in its way, and leaves nothing behind."""

    def begin(self, *words, text=None, before=(), **how):
        """Begins one, at free ports unless its words name others, over the program or another."""
        room = self.inner(f"office{time.monotonic()}")
        if text:
            put(f"{room}.program", text)
            os.chmod(f"{room}.program", 0o755)
        words = ["--pop-port", "0", "--admin-port", "0", *words]
        words = ["--program", f"{room}.program" if text else self.program, *words]
        pipes = {"stdout": subprocess.PIPE, "stderr": subprocess.PIPE, "text": True}
        how = pipes | {"env": {**os.environ, "TMPDIR": room}} | how
        run = subprocess.Popen([*before, f"{TOP}/tools/try-office", *words], **how)
        self.addCleanup(run.kill)
        run.room = room
        return run

    def ends(self, run, status, word):
        """Fails unless it ends so, with this word at last."""
        errors = run.communicate(timeout=REPLY)[1]
        self.assertEqual((run.returncode, os.listdir(run.room)), (status, []), errors)
        self.assertRegex(errors.splitlines()[-1] if errors else "", f"^{word}")

    def test_a_second_one_says_that_the_ports_are_taken(self):
        """A second one beside the first says so; the first serves on until Ctrl-C, status 0."""
        ends, shown = pty.openpty(), b""
        first = self.begin(stdout=ends[1])
        while b"until Ctrl-C" not in shown:
            shown += os.read(ends[0], 4096)
        pop, admin = re.search(rb"at 127.0.0.1:(\d+), administrators at (\d+)", shown).groups()
        for words in (["--pop-port", pop], ["--admin-port", admin]):
            second = self.begin(*words)
            self.ends(second, 1, "popbox try: .*: the server ended with .*a port is taken: --pop-port")
        first.send_signal(signal.SIGINT)
        self.ends(first, 0, "note: |$")

    def test_a_folder_that_cant_be_used_is_named(self):
        """A folder that isn't empty, may not be written, or lies in a file is named."""
        needs("setpriv")
        os.chmod(shut := self.inner("shut"), 0o555)
        put(file := f"{self.inner('full')}/file", "")
        made = "the office's folder can't be made: "
        # Without root's right to write anywhere.
        before = ["setpriv", "--bounding-set=-dac_override"] if os.geteuid() == 0 else []
        for folder, word in (
            (os.path.dirname(file), ".*/full isn't empty: name a new folder"),
            (f"{file}/new", made + ".*Not a directory: .*/file/new"),
            (shut, made + ".*Permission denied: .*/shut/spool"),
        ):
            self.ends(self.begin("--folder", folder, before=before), 1, f"popbox try: {word}")

    def test_ctrl_c_ends_it_at_any_moment(self):
        """Ctrl-C before the server is there, or before it answers, has status 130."""
        slow = self.begin(text="#!/bin/sh\ntouch $0.runs\nexec sleep 600\n")
        wait_for(lambda: os.path.exists(f"{slow.room}.program.runs"), "it doesn't begin")
        mute = self.begin(text=FALSE.replace("ANSWER", "time.sleep(600)"))
        for _ in range(3):
            mute.stdout.readline()
        for run in (slow, mute):
            run.send_signal(signal.SIGINT)
            self.ends(run, 130, "popbox try: interrupted$")

    def test_another_answer_or_none_is_said(self):
        """A server that can't run, answers nothing or something else is told, status 1."""
        for text, word in (
            ("no program", ".*Exec format error: .*program"),
            (FALSE.replace("ANSWER", ""), "Remote end closed connection"),
            (FALSE.replace("ANSWER", OTHER), "the answer should be added"),
        ):
            self.ends(self.begin(text=text), 1, f"popbox try: {word}")
