"""Options of `serve`: what a client sees without each of them, and with it.

What must be seen is what docs/ADMINISTRATION.md, "What `serve` takes", says. TABLE, at the end, has
for each method that looks what it must see, by the words that a server is given: none, and those of
one option. If an option goes by seconds, the server's clock stands at 0 until the case sets it on.
"""

import os
import re

from clients import IN_USE, POLICY, REPLY, SEND_PASS, Case, Client, Wrong, is_silent, listening
from clients import proxied, put, without_slow

TEXT = b"stays\r\n"
ACCEPTED = b"+OK maildrop has 1 messages (7 octets)\r\n"
# What is seen of a client to which nothing is said, and of one whose connection is closed.
NOTHING, CLOSED = "nothing", "an end"
# Whose requests are done: of each, the status, and whether what it asks for is done.
DONE, REFUSED = (201, True), (403, False)
REQUESTS = (
    {},
    {"Host": "LocalHost:AT", "Sec-Fetch-Site": "same-origin", "Origin": "http://localhost:AT"},
    {"Host": "page.test", "Sec-Fetch-Site": "none", "Origin": "https://page.test"},
    {"Host": "evil.test:AT"},
    {"Origin": "http://evil.test"},
    {"Sec-Fetch-Site": "cross-site"},
)


def seen_of(client, seconds=REPLY):
    """The next line of a client, `an end`, or `nothing` if nothing comes for so long."""
    if is_silent(client, seconds):
        return NOTHING
    try:
        line = client.line()
    except (Wrong, ConnectionResetError):
        return CLOSED
    return line.decode().rstrip("\r\n")


def port_of(form, said, why, words):
    """The port that a server listens at, or can't have; or `free` if it is any free one."""
    taken = re.search(r"why: 127\.0\.0\.1:(\d+): Address already in use", why)
    port = (re.search(form, said) or taken)[1]
    return "free" if words and int(port) > 1111 else port


class Options(Case):
    """Each method is given words, and gives what is seen of a server that was given them."""

    def house(self, words, stays_still=False, policy=POLICY):
        """A server with ann's maildrop `orders`, which holds a message."""
        server = self.serve(*words, env=self.still() if stays_still else None)
        server.fill(policy=policy)
        server.deposit("orders.note.d1.eml", TEXT)
        return server

    def come(self, server):
        """A client that is in `orders`."""
        client = self.client(server)
        client.tries()
        client.takes(ACCEPTED)
        return client

    def end_at_once(self, *words):
        """What a server of no turns writes to standard output and standard error."""
        store = ["--store", "mail.db", "--spool", "spool", "--turns", "0"]
        ran = self.run_program("serve", *store, *words, text=True, timeout=REPLY)
        return ran.stdout, ran.stderr

    def seen_at(self, client, *moments, last=REPLY):
        """What is seen of a client at each of these seconds, and how long that takes at most."""
        found = []
        for moment in moments:
            self.set_on(moment)
            found.append(seen_of(client, last if moment == moments[-1] else 1))
        return found

    def file_of_a_turn(self, file, *words):
        """A file that a server's first turn makes, or its status if it makes none."""
        ports = ["--pop-port", "0", "--admin-port", "0", "--turns", "1"]
        ran = self.run_program("serve", *words, *ports, timeout=REPLY)
        return file if os.path.exists(f"{self.folder}/{file}") else f"status {ran.returncode}"

    def which_store_is_made(self, words):
        """The file that a server makes as its store."""
        return self.file_of_a_turn("kept.db", "--spool", "spool", *words)

    def which_spool_is_read(self, words):
        """The file of the spool that a server sets aside."""
        put(f"{self.inner('kept')}/orders.note.d1.eml", "")
        return self.file_of_a_turn("kept/orders.note.d1.eml.bad", "--store", "mail.db", *words)

    def where_clients_connect(self, words):
        """The address that a server says it listens at, and at which it does."""
        with self.serve(*words) as it:
            ((at, port),) = listening(it) - {("127.0.0.1", it.admin)}
            self.assertEqual(it.said, f"pop on {at}:{port}\nadmin on 127.0.0.1:{it.admin}\n")
            return at

    def port_of_clients(self, words):
        """Where clients connect; also if another process has that port."""
        said, why = self.end_at_once("--admin-port", "0", "--verbose", *words)
        return port_of(r"pop on 127\.0\.0\.1:(\d+)\n", said, why, words)

    def port_of_the_administration(self, words):
        """Where administrators connect; also if another process has that port."""
        said, why = self.end_at_once("--pop-port", "0", "--verbose", *words)
        return port_of(r"admin on 127\.0\.0\.1:(\d+)\n", said, why, words)

    def whose_requests_are_done(self, words):
        """Of requests by pages of other sites and of its own, which are done."""
        found, it = [], self.house(words)
        for number, said in enumerate(REQUESTS):
            headers = {name: value.replace("AT", str(it.admin)) for name, value in said.items()}
            status, _ = it.ask("PUT", f"/maildrops/m{number}", headers=headers)
            found.append((status, f"m{number} " in it.administer("GET", "/maildrops")))
        return found

    def host_of_greetings(self, words):
        """The host of the greeting."""
        with Client(self.house(words).pop) as client:
            return re.search(rb"@(.*)>\r\n", client.line())[1].decode()

    def a_removal_that_is_denied(self, words):
        """The replies to a DELE that the policy denies, and to the QUIT."""
        client, found = self.come(self.house(words, policy=POLICY.replace(', "remove"', ""))), []
        for line in (b"DELE 1\r\n", b"QUIT\r\n"):
            client.send(line)
            found.append(seen_of(client))
        return found

    def a_list_of_the_clerks(self, words):
        """The responses to GET and PUT of /clerks."""
        it = self.house(words)
        it.administer("PUT", "/clerks/abe", "apop tanstaaf")
        return [it.ask("GET", "/clerks"), it.ask("PUT", "/clerks")]

    def a_login_beside_another(self, words):
        """When a login into a maildrop in use is answered, as the clock is set on."""
        it = self.house(words, stays_still=True)
        self.come(it)
        second = self.client(it)
        second.tries()
        return [seen_of(second, 1), *self.seen_at(second, 8, 12)] if words else seen_of(second)

    def a_client_that_doesnt_log_in(self, words):
        """Whether a client that says nothing is ended, before a login."""
        client = self.client(self.house(words, stays_still=True))
        return self.seen_at(client, 28, 32) if words else self.seen_at(client, 70, 590, last=1)

    def a_full_house(self, words):
        """What becomes of a client that comes beside 64 silent ones, and of the first of these."""
        it = self.house(words)
        first = [self.client(it) for _ in range(64)][0]
        client = self.enterContext(Client(it.pop))
        return [seen_of(client, REPLY)[:8], seen_of(first, REPLY if words else 2)]

    def a_client_that_says_nothing(self, words):
        """Whether a client that says nothing is ended, in a session."""
        last = int(words[1]) if words else 600
        return self.seen_at(self.come(self.house(words, stays_still=True)), last - 2, last + 2)

    def guesses_one_after_the_other(self, words):
        """When the second of two guesses is answered."""
        client, found = self.client(self.house(words, stays_still=True)), []
        for _ in range(2):
            client.tries(password=b"wrong")
            found.append(seen_of(client, 2 if words and found else REPLY))
        return [*found, *(self.seen_at(client, 3) if words else [])]

    def a_line_of_a_proxy(self, words):
        """What is said to a client whose first line is a proxy's, and to another one."""
        found, it = [], self.house(words)
        for line in (proxied(b"203.0.113.7"), b""):
            client = self.client(it)
            client.send(line + b"USER ann/orders\r\n")
            found.append(seen_of(client))
        return found

    def lines_one_by_one(self, words):
        """Whether a server ends: each line that is answered has had a turn."""
        server = self.serve(*words)
        try:
            with Client(server.pop) as client:
                for _ in range(300):
                    client.send(b"NOOP\r\n")
                    if seen_of(client) == CLOSED:
                        break
                else:
                    return "goes on"
        except ConnectionError:
            pass
        return f"status {server.run.wait(REPLY)}"

    def events_of_a_login(self, words):
        """Which kinds of lines the log has."""
        self.come(self.house(words))
        kinds = ("open", "start", "connect", "login")
        return [word for word in kinds if f" event={word} " in self.errors()]

    def the_line_of_a_deposit(self, words):
        """What the log says of a deposit."""
        it = self.house(["--log", *words])
        it.deposit("orders.note.d2.eml", b"Message-ID: <chair.1@b.example>\r\n\r\nA chair.\r\n")
        return re.findall(r"orders\.note\.d2\.eml answer=(.*)", self.errors())

    def the_line_of_a_retr(self, words):
        """What the log says of a RETR."""
        client = self.come(self.house(["--log", *words]))
        client.asks(b"RETR 1\r\n", b"+OK 7 octets\r\n" + TEXT + b".\r\n")
        return re.findall(r" event=retr .*(clerk=.*)", self.errors())

    def lines_of_a_fault(self, words):
        """What is said of a wrong command line."""
        return self.end_at_once("--listen", "none", *words)[1].splitlines()

    def a_spool_that_isnt_there(self, words):
        """What is noted of it, over a store that only its owner may read."""
        words = ["--store", "mail.db", "--turns", "0", "--spool", "none", *words]
        ports = ["--pop-port", "0", "--admin-port", "0"]
        how = {"text": True, "timeout": REPLY, "umask": 0o077}
        return without_slow(self.run_program("serve", *words, *ports, **how).stderr)

    def test_the_options_of_serve_help(self):
        """Each option that `serve --help` has is in the table, and no other one."""
        said = self.run_program("serve", "--help", text=True, check=True, timeout=REPLY).stdout
        found = set(re.findall(r"^ +(?:-\w, )?(--[a-z-]+)", said, re.M)) - {"--help"}
        seen = {words.split()[0] for rows in TABLE.values() for words in rows if words}
        self.assertEqual(sorted(found), sorted(seen))

    def test_a_command_line_that_is_no_text_has_status_2(self):
        """A command line that isn't UTF-8 is a fault of the command line."""
        told = b"popbox: the command line isn't UTF-8\n"
        for words in ([b"\xff"], [b"check", b"--store", b"caf\xe9.db"]):
            ran = self.run_program(*words)
            self.assertEqual((ran.returncode, ran.stdout, ran.stderr), (2, b"", told), words)


STAYS, ENDS = [NOTHING, NOTHING], [NOTHING, CLOSED]
DENIED = "denied by rule default"
AT_DELE = [f"-ERR {DENIED}", "+OK bye"]
AT_QUIT = ["+OK message 1 deleted", f"-ERR some deleted messages not removed, {DENIED}"]
NO_LIST = [(404, "not found\n")] * 2
LIST = [(200, "abe apop\nann pass\n"), (405, "method not allowed\n")]
WAITS = [NOTHING, NOTHING, IN_USE.decode().rstrip()]
GUESS, PASS = "-ERR login failed", SEND_PASS.decode().rstrip()
SLOWED = [GUESS, NOTHING, GUESS]
NEW, NEW_ID = "new uid=note.2", "new uid=note.2 message-id=<chair.1@b.example>"
RETR = "clerk=ann maildrop=orders uid=note.1 octets=7 rule=all"
FAULT = ["popbox: bad address"]
WHY = 'why: --listen "none": four numbers of 0 to 255, as 192.0.2.7'
NOTE = "note: none: No such file or directory (os error 2)\n"
TABLE = {
    "which_store_is_made": {"": "status 2", "--store kept.db": "kept.db"},
    "which_spool_is_read": {"": "status 2", "--spool kept": "kept/orders.note.d1.eml.bad"},
    "where_clients_connect": {"": "127.0.0.1", "--listen 127.0.0.2": "127.0.0.2"},
    "port_of_clients": {"": "1110", "--pop-port 0": "free"},
    "port_of_the_administration": {"": "1111", "--admin-port 0": "free"},
    "whose_requests_are_done": {
        "": [DONE] * 6,
        "--admin-site localhost": [DONE] * 2 + [REFUSED] * 4,
        "--admin-site page.test": [DONE] * 3 + [REFUSED] * 3,
    },
    "host_of_greetings": {"": "localhost", "--host h.test": "h.test"},
    "a_removal_that_is_denied": {
        "": AT_DELE,
        "--removals dele": AT_DELE,
        "--removals quit": AT_QUIT,
    },
    "a_list_of_the_clerks": {"": NO_LIST, "--list-clerks": LIST},
    "a_login_beside_another": {"": WAITS[-1], "--wait 10": WAITS},
    "a_client_that_doesnt_log_in": {"": STAYS, "--login-seconds 30": ENDS},
    "a_full_house": {"": [CLOSED, NOTHING], "--make-room": ["+OK POP3", CLOSED]},
    "a_client_that_says_nothing": {"": ENDS, "--idle 700": ENDS},
    "guesses_one_after_the_other": {"": [GUESS, GUESS], "--slow-guesses": SLOWED},
    "a_line_of_a_proxy": {"": ["-ERR unknown command", PASS], "--proxy-protocol": [PASS, CLOSED]},
    "lines_one_by_one": {"": "goes on", "--turns 40": "status 0"},
    "events_of_a_login": {"": [], "--log": ["open", "start", "connect", "login"]},
    "the_line_of_a_deposit": {"": [NEW], "--log-message-ids": [NEW_ID]},
    "the_line_of_a_retr": {"": [], "--log-reads": [RETR]},
    "lines_of_a_fault": {"": FAULT, "--verbose": [*FAULT, WHY]},
    "a_spool_that_isnt_there": {"": "", "--verbose": NOTE},
}


def case_of(look, words, wanted):
    """A case: with these words the method sees what is wanted."""

    def run(self):
        self.assertEqual(look(self, words.split()), wanted)

    run.__doc__ = look.__doc__
    return run


for name, rows in TABLE.items():
    (option,) = {words.split()[0] for words in rows if words}
    for words, wanted in rows.items():
        how = re.sub(r"\W+", "_", words or f"no {option}").strip("_")
        setattr(Options, f"test_{name}_with_{how}", case_of(getattr(Options, name), words, wanted))
