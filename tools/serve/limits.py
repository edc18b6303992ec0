"""Limits of `serve`: its times, places and turns, its calls of sockets, and the administration.

The numbers are those of README, docs/PROTOCOL.md, docs/ADMINISTRATION.md and of the READMEs of
crates/serving and crates/office.
"""

import collections
import contextlib
import datetime
import os
import resource
import socket
import threading
import time

from clients import EMPTY, FAILED, IN_USE, OK, REPLY, SEND_PASS, STATE, Case, Client, log_in
from clients import Wrong, listening, proxied, put, read, retrieved, stopped, wait_for

DAY = 86_400
# How many octets a connection is lent at once, and how many a link beside others is sent in a turn.
LENT = 16_384
# How many times a server writes on a link in a turn, and how many octets it asks for at once.
WRITES, ROOM = 64, 4096
# How many clients are served at once, and how many links of the administration.
CLIENTS, REQUESTS = 64, 8
# For how many seconds a client may say nothing.
IDLE = 600


class Times(Case):
    """For how long the server waits, by its own clock."""

    def test_idle_client_ends_at_its_time(self):
        """A silent client is ended after --idle or 600 seconds, and its marks go with it."""
        runs = [(700, ["--idle", "700"], 1)]
        # In these a count of the seconds, or of the milliseconds, passes what it may be kept in.
        runs += [(IDLE, [], at - 1000) for at in (2**16, DAY, 2**31 // 1000, 2**32 // 1000)]
        for idle, words, first in runs:
            self.renew()
            with self.office(*words, env=self.preload("clock")) as it:
                self.ends_after(it, idle, first)

    def ends_after(self, server, idle, first):
        """A client that comes so many seconds after the start, and marked a message, is ended so
        many seconds after its last line."""
        self.set_on(first)
        text = b"stays\r\n"
        server.deposit("orders.note.d1.eml", text)
        with server.connect() as client, server.connect() as silent:
            log_in(client, text)
            client.asks(b"DELE 1\r\n", b"+OK message 1 deleted\r\n")
            # What is left of its time is for a slow machine.
            step = idle - 60
            self.set_on(first + step)
            client.asks(b"NOOP\r\n", OK)
            silent.waits(1)
            self.set_on(first + 2 * step)
            client.asks(b"NOOP\r\n", OK)
            silent.ends()
            self.set_on(first + 2 * step + idle + 10)
            client.ends()
        log_in(self.client(server), text)

    def test_clients_have_the_longest_times_by_the_clock(self):
        """The largest values of --idle, --wait and --login-seconds are kept to."""
        words = ["--idle", "86400", "--wait", "60", "--login-seconds", "600"]
        it = self.office(*words, env=self.preload("clock"))
        log_in(first := self.client(it))
        silent, second = self.client(it), self.client(it)
        second.tries()
        # Each is looked at well before its time, and after it. The rest is for a slow machine.
        times = ((second, 20, 90), (silent, 500, 630), (first, 86_250, 86_430))
        for client, before, after in times:
            self.set_on(before)
            client.waits(3)
            self.set_on(after)
            if client is second:
                client.takes(IN_USE)
            else:
                client.ends()

    def test_a_date_that_is_set_moves_no_waits(self):
        """A date that is set back or on changes no wait; the log goes by it."""
        words = ["--wait", "10", "--login-seconds", "100", "--slow-guesses", "--log"]
        for step in (-300, -DAY, 200_000):
            self.renew()
            with self.office(*words, env=self.still()) as it:
                self.waits_by_its_own_clock(it, step)
            lines = self.errors().splitlines()
            # The log shows that the step was seen.
            dates = [datetime.datetime.fromisoformat(line.split()[0]) for line in lines]
            turned = max(abs((b - a).total_seconds()) for a, b in zip(dates, dates[1:]))
            self.assertTrue(abs(step) - REPLY < turned < abs(step) + REPLY, (step, turned))

    def waits_by_its_own_clock(self, server, step):
        """The date is set by so many seconds. A login that waits for a maildrop waits as long as
        ever, so does one after a guess, a silent client is ended at its time, and a session goes
        on."""
        with server.connect() as first, server.connect() as second, server.connect() as silent:
            log_in(first)
            second.tries()
            put(f"{self.folder}/date", str(step))
            self.set_on(9)
            second.waits()
            first.asks(b"NOOP\r\n", OK)
            self.set_on(11)
            second.takes(IN_USE)
            # A maildrop that nobody has isn't in use.
            second.tries(b"ann/sales", b"wrong")
            second.takes(FAILED)
            second.tries(b"ann/sales", b"wrong")
            second.waits()
            self.set_on(13)
            second.takes(FAILED)
            self.set_on(99)
            silent.waits()
            self.set_on(101)
            silent.ends()
            first.asks(b"NOOP\r\n", OK)


def seconds_asleep(server, run):
    """For how many seconds a server neither runs nor waits for a processor meanwhile."""
    before = server.asleep()
    run()
    return server.asleep() - before


def is_asleep(server):
    """Whether a server sleeps for half of three seconds. Other work may keep it from a processor,
    but not each time."""
    return any(seconds_asleep(server, lambda: time.sleep(3)) >= 1.5 for _ in range(20))


def stand_aside(server):
    """How many files of the spool stand aside."""
    return sum(it.endswith(".bad") for it in os.listdir(server.spool))


class Turns(Case):
    """When a server takes another turn, and when it rests."""

    def test_no_turn_waits_where_more_can_be_done(self):
        """A long reply, many lines and many files are done without a rest between their parts."""
        # Beside another link 16,384 octets are written in a turn, and a turn tries one file.
        text = b"z" * 78 + b"\r\n"
        text *= 20 * LENT // len(text)
        it = self.office()
        self.client(it)
        it.deposit("orders.note.d0.eml", text)
        with it.connect() as client:
            log_in(client, text)
            slept = seconds_asleep(it, lambda: client.asks(b"RETR 1\r\n", retrieved(text)))
        self.assertLessEqual(slept, 10, "20 shares of a reply")
        # 4,096 octets are read of a link in a turn.
        lines = 20 * ROOM // self.shorter // len(b"NOOP\r\n")
        client = self.client(it)
        slept = seconds_asleep(it, lambda: client.asks(b"NOOP\r\n" * lines, STATE * lines))
        self.assertLessEqual(slept, 10, "20 pieces of lines")
        for k in range(20):
            it.drop(f"orders.note.f{k}.eml", b"mail\n")
        self.assertLessEqual(seconds_asleep(it, it.wait_for_spool), 10, "20 files of the spool")

    def test_an_idle_server_rests(self):
        """A server rests while a client takes nothing of what it is owed, and a login waits."""
        text = (b"z" * 78 + b"\r\n") * (125_000 // self.shorter)
        it = self.office("--wait", "60")
        client = self.client(it, 4096)
        it.deposit("orders.note.d1.eml", text)
        log_in(client, text)
        client.send(b"RETR 1\r\nNOOP\r\n")
        self.client(it).tries()
        time.sleep(1)
        client.send(b"NOOP\r\n")
        self.assertTrue(is_asleep(it))

    def test_a_server_does_the_turns_that_are_asked_for(self):
        """--turns N is N turns, each of which tries a file; past 32 bits, or without it, no end."""
        many, endless = 100, (2**32 + 1, 2**64 - 1, None)
        for turns in (0, 1, 3, many, *endless):
            self.renew()
            spool = self.inner("spool")
            for k in range(many + 5):
                put(f"{spool}/orders.note.d{k}.eml", "")
            words = [] if turns is None else ["--turns", str(turns)]
            with self.subTest(turns=turns), self.serve(*words) as it:
                if turns in endless:
                    wait_for(lambda: stand_aside(it) == many + 5, "a file stays")
                    self.assertIsNone(it.run.poll())
                    it.connect().close()
                else:
                    self.assertEqual((it.run.wait(REPLY), stand_aside(it)), (0, turns))


def hold_at_wait(folder, number):
    """Holds a server with preload/calls.c before the wait after this one; gives its number."""
    put(f"{folder}/gate", str(number))
    held = []

    def is_held():
        # The server writes the number anew, over and over: between, the file is empty.
        held.append(int(read(f"{folder}/gate.at") or 0))
        return held[-1] > number

    wait_for(is_held, "the server isn't held")
    return held[-1]


def come_again(server, source, guess, came):
    """A stranger who takes a place, says nothing or guesses, and comes again when he is ended."""
    while server.run.poll() is None:
        with contextlib.suppress(OSError, Wrong), Client(server.pop, source=source) as it:
            came.append(it.line())
            while guess:
                it.tries(b"eve/orders", b"guess")
                it.takes(FAILED)
            it.line()


def limit_descriptors():
    """Lets this process have 40 descriptors open."""
    resource.setrlimit(resource.RLIMIT_NOFILE, (40, 40))


class Places(Case):
    """A full house: 64 clients at once."""

    def come(self, server):
        """A client that has just connected."""
        return self.enterContext(Client(server.pop))

    def test_who_comes_as_64_clients_end_is_greeted(self):
        """64 clients who come while 64 are ended are greeted in one turn; the 65th is closed."""
        it = self.office(env=self.still("calls"))
        ending = [self.client(it) for _ in range(CLIENTS)]
        at = hold_at_wait(self.folder, 0)
        put(f"{self.folder}/clock", str(IDLE + 10))
        # This wait was begun by an earlier moment, and the next one by the later moment, at which
        # the clients are idle for too long. They have their seats until that turn is over.
        hold_at_wait(self.folder, at)
        self.assertEqual(read(f"{self.folder}/seen"), b"%d" % (IDLE + 10))
        coming = [self.come(it) for _ in range(CLIENTS + 1)]
        os.remove(f"{self.folder}/gate")
        for client in coming[:-1]:
            self.assertEqual(client.line()[:4], b"+OK ")
        coming[-1].ends()
        # One turn greets them: it has 128 seats. The last one isn't accepted before the next turn.
        turns = sends_by_turns(calls(self.folder), {*map(port_of, coming)})
        self.assertEqual([len(it) for it in turns], [CLIENTS])
        for client in ending:
            client.ends()

    def test_who_comes_as_another_one_leaves_a_full_house_is_greeted(self):
        """A client who connects just as another one leaves a full house gets its place."""
        it = self.office()
        for client in [self.client(it) for _ in range(CLIENTS)][:3]:
            # One wait reports both to the server.
            with stopped(it):
                client.close()
                coming = self.come(it)
            self.assertEqual(coming.line()[:4], b"+OK ")

    def test_who_is_logged_in_keeps_its_place(self):
        """With --make-room a newcomer gets the place of who isn't logged in, and no other's."""
        it = self.serve("--make-room")
        it.fill(names := [f"m{k}" for k in range(CLIENTS)])
        silent, clerks = self.client(it), []
        for name in names:
            clerks.append(self.client(it))
            clerks[-1].asks(b"USER ann/%s\r\nPASS s3 cret\r\n" % name.encode(), SEND_PASS + EMPTY)
        silent.ends()
        self.come(it).ends()
        for client in clerks:
            client.asks(b"NOOP\r\n", OK)

    def test_strangers_who_come_again_keep_nobody_out(self):
        """With --make-room each clerk is in, whoever takes all places over and over."""
        one, sixteen = ["127.0.0.2"], [f"127.0.1.{k}" for k in range(1, 17)]
        for sources, guess in (([None], False), ([None], True), (one, False), (sixteen, True)):
            self.renew()
            it, came = self.office("--make-room", "--slow-guesses", "--wait", "10"), []
            for source in sources * (CLIENTS // len(sources)):
                threading.Thread(target=come_again, args=(it, source, guess, came)).start()
            wait_for(lambda: len(came) >= CLIENTS, "a stranger isn't greeted")
            began = time.monotonic()
            for _ in range(25):
                with it.connect() as clerk:
                    log_in(clerk)
                    clerk.quits()
            self.assertLess(time.monotonic() - began, 25, (sources, guess))
            self.assertGreater(len(came), CLIENTS)
            it.end()

    def test_who_waits_for_a_descriptor_is_greeted(self):
        """Without a free descriptor clients and administrators wait, and the server rests."""
        it = self.office(preexec_fn=limit_descriptors)
        clients = [self.come(it) for _ in range(45)]
        greetings = [client.line() for client in clients[:20]]
        # No descriptor is left for the last one, and only an administrator comes after it.
        clients[-1].waits(1)
        asking = self.enterContext(Client(it.admin))
        asking.send(b"GET /maildrops HTTP/1.1\r\nHost: localhost\r\n\r\n")
        asking.waits(1)
        self.assertTrue(is_asleep(it))
        for client in clients[:20]:
            client.close()
        greetings += [client.line() for client in clients[20:]]
        self.assertEqual(asking.line(), b"HTTP/1.1 200 OK\r\n")
        self.assertEqual(len({*greetings}), 45)


class Administration(Case):
    """The administration's port."""

    def link(self, server, octets=b""):
        """A link that says this."""
        link = self.enterContext(Client(server.admin))
        link.send(octets)
        return link

    def test_administration_listens_on_this_machine_alone(self):
        """--listen is for clients: the administration listens at 127.0.0.1."""
        it = self.office("--listen", "0.0.0.0")
        self.assertEqual(listening(it), {("0.0.0.0", it.pop), ("127.0.0.1", it.admin)})

    def test_the_administration_answers_beside_64_clients(self):
        """With 64 clients and seven other links an administrator is answered, and each client."""
        it = self.office()
        clients = [self.client(it) for _ in range(CLIENTS)]
        for _ in range(REQUESTS - 1):
            self.link(it, b"GET ")
        self.assertEqual(it.administer("PUT", "/maildrops/billing"), "added\n")
        with stopped(it):
            for client in clients:
                client.send(b"NOOP\r\n")
        for client in clients:
            client.takes(STATE)

    def test_eight_requests_are_answered_and_a_ninth_is_closed(self):
        """Eight links of the administration are open at once, and one more is closed."""
        it = self.office()
        # No clause refuses one that closes the fifth as if memory for it were short.
        head = b"GET /maildrops/orders HTTP/1.1\r\nHost: localhost\r\n"
        links = [self.link(it) for _ in range(REQUESTS)]
        for link in links:
            link.send(head)
        self.link(it).ends()
        for link in links:
            link.send(b"\r\n")
            self.assertEqual(link.line(), b"HTTP/1.1 200 OK\r\n")

    def test_a_request_has_60_seconds(self):
        """A link whose request isn't whole after 60 seconds is closed."""
        it = self.office(env=self.still())
        self.set_on(5)
        link, client = self.link(it), self.client(it)
        link.send(b"GET /maildrops/orders HTTP/1.1\r\nHost: localhost\r\n")
        # A line has its turns, in which the link is accepted.
        client.asks(b"NOOP\r\n" * 2, STATE * 2)
        self.set_on(64)
        link.waits()
        self.set_on(65)
        link.ends()


Call = collections.namedtuple("Call", "word port first second", defaults=(0, 0, 0))


def calls(folder):
    """The calls that preload/calls.c recorded."""
    lines = map(str.split, read(f"{folder}/calls").decode().splitlines())
    return [Call(word, *map(int, numbers)) for word, *numbers in lines]


def port_of(client):
    """The port by which preload/calls.c names a client's link."""
    return client.socket.getsockname()[1]


def last_recv(told, client):
    """The place of the last call that got octets from a client."""
    port = port_of(client)
    return max(k for k, it in enumerate(told) if it[:2] == ("recv", port) and it.second > 0)


def calls_before(folder, client):
    """The calls before the server is asked once more on a client's link, all recorded."""
    client.asks(b"NOOP\r\n", OK)
    told = calls(folder)
    return told[: last_recv(told, client)]


def sends_by_turns(told, ports):
    """How many octets each send on these links took, by the turns that made any."""
    turns = [[]]
    for call in told:
        if call.word == "wait":
            turns.append([])
        elif call.word == "send" and call.port in ports and call.second > 0:
            turns[-1].append(call.second)
    return [it for it in turns if it]


class Calls(Case):
    """What a server asks of its sockets."""

    def test_a_reply_is_sent_by_calls_of_all_that_is_lent(self):
        """Each send offers all that is lent, and each recv asks for 4,096 octets."""
        text = (b"x" * 78 + b"\r\n") * 600
        it = self.office(env=self.preload("calls"))
        it.deposit("orders.note.d1.eml", text)
        log_in(client := self.client(it), text)
        client.asks(b"RETR 1\r\n", retrieved(text))
        told, port = calls_before(self.folder, client), port_of(client)
        self.assertIn(Call("nodelay", port), told)
        self.assertEqual({it.first for it in told if it[:2] == ("recv", port)}, {ROOM})
        # No clause refuses a wire that has the system take one octet of what it is lent.
        left, begun = len(retrieved(text)), last_recv(told, client)
        for lent, taken in (it[2:] for it in told[begun:] if it[:2] == ("send", port)):
            self.assertEqual(lent, min(left, LENT))
            left -= max(taken, 0)
        self.assertEqual(left, 0)

    def test_a_login_in_one_piece_is_judged_without_a_wait(self):
        """A login that comes in one piece is answered without a wait for more, by any option."""
        for words in ([], ["--wait", "10"], ["--slow-guesses"], ["--proxy-protocol"]):
            self.renew()
            # What a proxy says first comes in the same piece.
            first = proxied(b"203.0.113.7") if "--proxy-protocol" in words else b""
            with self.office(*words, env=self.preload("calls")) as it:
                log_in(client := self.client(it), first=first)
                port, told = port_of(client), calls_before(self.folder, client)
            begun = next(k for k, it in enumerate(told) if it[:2] == ("recv", port) and it[3] > 0)
            waits, sent = [], 0
            for call in told[begun:]:
                if call.word == "wait" and sent < len(SEND_PASS + EMPTY):
                    waits.append((call.port, call.first))
                elif call[:2] == ("send", port):
                    sent += call.second
            # A wait of some milliseconds that ended without an event was for nothing that came.
            self.assertEqual([it for it in waits if it[0] > 0 and it[1] == 0], [], words)
            self.assertEqual(sent, len(SEND_PASS + EMPTY))

    def retr_by_turns(self, takes, is_alone):
        """How many sends of a RETR each turn made, and how many octets these took, if a send takes
        so many at most: of all turns but the last one."""
        text = (b"z" * 78 + b"\r\n") * 500
        self.renew()
        with self.office(env=self.preload("calls", TAKES=str(takes))) as it:
            it.deposit("orders.note.d1.eml", text)
            client = self.client(it)
            if not is_alone:
                self.client(it)
            log_in(client, text)
            client.asks(b"RETR 1\r\n", retrieved(text))
            told, port = calls_before(self.folder, client), port_of(client)
        turns = sends_by_turns(told[last_recv(told, client) :], [port])
        self.assertEqual(sum(map(sum, turns)), len(retrieved(text)))
        return [(len(it), sum(it)) for it in turns[:-1]]

    def test_a_turn_writes_64_times_on_a_link_and_beside_others_its_share(self):
        """A turn sends 64 times on a link, and beside others until 16,384 octets are taken."""
        # How many octets a send takes, whether no other client is there, how often a turn sends.
        rows = [(100, True, WRITES), (100, False, WRITES), (LENT, False, 1), (LENT - 1, False, 2)]
        for takes, is_alone, times in rows:
            turns = self.retr_by_turns(takes, is_alone)
            self.assertEqual({*turns}, {(times, times * takes)}, (takes, is_alone))
