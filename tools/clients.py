"""What the checks over the built server share: a server, its clients, and cases of both."""

import contextlib
import hashlib
import os
import re
import resource
import select
import signal
import socket
import struct
import subprocess
import threading
import time
from http.client import HTTPConnection, HTTPException
from subprocess import SubprocessError

import cases
from cases import PROGRAM, TOP, compile_preload  # noqa: F401

# Every clerk may open, read and remove all.
POLICY = """[[rule]]
name = "all"
effect = "allow"
clerk = "*"
maildrop = "*"
class = "*"
actions = ["open", "read", "remove"]
"""
# What ends a wait for a server that hangs, in seconds: for its start, a reply, and the spool.
# A silent client is ended after 600, so a reply that comes then isn't waited for.
START, REPLY, SPOOL = 600, 300, 600

# What an unproved server says of itself on standard error as it starts begins so.
SLOW = "note: this popbox isn't proved, and is slow: "

# Replies (docs/PROTOCOL.md).
OK, BYE, STATE = b"+OK\r\n", b"+OK bye\r\n", b"-ERR wrong state\r\n"
SEND_PASS, EMPTY = b"+OK send PASS\r\n", b"+OK maildrop has 0 messages (0 octets)\r\n"
FAILED, CLOSING = b"-ERR login failed\r\n", b"-ERR login failed, closing\r\n"
IN_USE = b"-ERR [IN-USE] maildrop is in use\r\n"
UNKNOWN, TOO_LONG = b"-ERR unknown command\r\n", b"-ERR line too long\r\n"
LOGIN = b"USER ann/orders\r\nPASS s3 cret\r\n"


class Wrong(AssertionError):
    """What came is another thing than what must come."""


# What a check over a server can fail by.
FAULTS = (Wrong, OSError, TypeError, ValueError, SubprocessError, HTTPException)


def wants(found, wanted):
    if found != wanted:
        raise Wrong(f"{found!r}, where {wanted!r} is wanted")


def without_slow(text):
    """A text without the line that an unproved server says of itself."""
    return "".join(line for line in text.splitlines(True) if not line.startswith(SLOW))


def maildrop_has(messages, octets):
    """What a login, and RSET, say of a maildrop."""
    return b"+OK maildrop has %d messages (%d octets)\r\n" % (messages, octets)


def retrieved(text):
    """What RETR gives of a message (RFC 1939, section 3)."""
    stuffed = re.sub(rb"^\.", b"..", text, flags=re.MULTILINE)
    return b"+OK %d octets\r\n%s.\r\n" % (len(text), stuffed)


def wait_for(is_so, said, seconds=REPLY):
    """Waits until something is so, and fails if it isn't for so many seconds."""
    end = time.monotonic() + seconds
    while not is_so():
        if time.monotonic() > end:
            raise Wrong(f"{said} for {seconds} s")
        time.sleep(0.02)


class Client:
    """A connection to a port of 127.0.0.1."""

    def __init__(self, port, receives=None, source=None):
        self.socket = socket.socket()
        if source:
            self.socket.bind((source, 0))
        if receives:
            self.socket.setsockopt(socket.SOL_SOCKET, socket.SO_RCVBUF, receives)
        self.socket.settimeout(REPLY)
        self.socket.connect(("127.0.0.1", port))
        self.socket.setsockopt(socket.IPPROTO_TCP, socket.TCP_NODELAY, 1)

    def __enter__(self):
        return self

    def __exit__(self, *_):
        self.close()

    def send(self, octets):
        self.socket.sendall(octets)

    def line(self):
        """The octets up to and with an LF."""
        got = b""
        while not got.endswith(b"\n"):
            octet = self.socket.recv(1)
            if not octet:
                raise Wrong(f"an end after {got!r}")
            got += octet
        return got

    def takes(self, octets):
        """Fails unless just these octets come next."""
        got = bytearray()
        while len(got) < len(octets):
            piece = self.socket.recv(min(len(octets) - len(got), 1 << 20))
            if not piece or not octets.startswith(piece, len(got)):
                wanted = octets[len(got) : len(got) + 60]
                raise Wrong(f"{bytes(piece[:60])!r} in the place of {wanted!r}")
            got += piece

    def asks(self, octets, reply):
        self.send(octets)
        self.takes(reply)

    def tries(self, name=b"ann/orders", password=b"s3 cret"):
        """Logs in by USER and PASS, and doesn't wait for the reply to PASS."""
        self.asks(b"USER %s\r\n" % name, SEND_PASS)
        self.send(b"PASS %s\r\n" % password)

    def guesses(self, reply=FAILED):
        """Tries a wrong password."""
        self.tries(password=b"wrong")
        self.takes(reply)

    def quits(self):
        self.asks(b"QUIT\r\n", BYE)

    def waits(self, seconds=2):
        """Fails if anything comes within so many seconds."""
        if not is_silent(self, seconds):
            raise Wrong(f"{self.line()!r} comes too early")

    def ends(self):
        """Fails unless the connection is closed without another octet."""
        try:
            more = self.socket.recv(100)
        except ConnectionResetError:
            return
        if more:
            raise Wrong(f"{more!r} in the place of an end")

    def shuts(self):
        self.socket.shutdown(socket.SHUT_WR)

    def close(self):
        self.socket.close()

    def resets(self):
        self.socket.setsockopt(socket.SOL_SOCKET, socket.SO_LINGER, struct.pack("ii", 1, 0))
        self.socket.close()


class Mail(Client):
    """A mail program's connection, by lines of text."""

    # Those that any sent.
    digests = []

    def __init__(self, server):
        super().__init__(server.pop)
        self.greeting = self.line()

    def line(self):
        return super().line().decode().rstrip("\r\n")

    def say(self, *lines):
        """Sends lines at once, and gives the first line of each reply."""
        self.send("".join(f"{line}\r\n" for line in lines).encode())
        return [self.reply(line) for line in lines]

    def reply(self, line):
        first, words = self.line(), line.upper().split()
        many = words[0] in ("CAPA", "RETR", "TOP") or words in (["LIST"], ["UIDL"])
        if many and first.startswith("+OK"):
            while self.line() != ".":
                pass
        return first

    def digest(self, secret):
        stamp = re.search("<.*>", self.greeting)[0]
        self.digests.append(hashlib.md5((stamp + secret).encode()).hexdigest())
        return self.digests[-1]

    def apop(self, name, secret):
        return self.say(f"APOP {name} {self.digest(secret)}")


class Server:
    """The program as `serve`, over a store and a spool in a folder."""

    def __init__(self, program, folder, *words, **how):
        self.folder, self.store, self.spool = folder, f"{folder}/mail.db", f"{folder}/spool"
        os.makedirs(self.spool, exist_ok=True)
        store = [] if "--store" in words else ["--store", self.store]
        spool = [] if "--spool" in words else ["--spool", self.spool]
        ports = [] if "--pop-port" in words else ["--pop-port", "0", "--admin-port", "0"]
        command = [program, "serve", *store, *spool, *ports, *words]
        self.run = subprocess.Popen(command, stdout=subprocess.PIPE, **how)
        late = threading.Timer(START, self.run.kill)
        late.start()
        try:
            told = [self.run.stdout.readline() for _ in range(2)]
        except BaseException:
            self.run.terminate()
            self.run.wait()
            raise
        finally:
            late.cancel()
        if not all(told):
            raise Wrong(f"{' '.join(words)}: the server ended with status {self.run.wait()}")
        self.said = b"".join(told).decode()
        self.pop, self.admin = (int(line.rpartition(b":")[2]) for line in told)

    def __enter__(self):
        return self

    def __exit__(self, *_):
        self.end()

    def fill(self, maildrops=("orders",), clerks=(("ann", "pass s3 cret"),), policy=POLICY):
        """Adds maildrops, and clerks with their credentials, and sets a policy."""
        for name in maildrops:
            self.administer("PUT", f"/maildrops/{name}")
        for name, credential in clerks:
            self.administer("PUT", f"/clerks/{name}", credential)
        self.administer("PUT", "/policy", policy)

    def memory(self):
        """How many kB of memory the server has."""
        with open(f"/proc/{self.run.pid}/status", encoding="ascii") as file:
            return int(re.search(r"VmRSS:\s*(\d+)", file.read())[1])

    def asleep(self):
        """For how many seconds it neither ran nor waited for a processor, since some moment."""
        with open(f"/proc/{self.run.pid}/schedstat", encoding="ascii") as file:
            ran, waited = map(int, file.read().split()[:2])
        return time.monotonic() - (ran + waited) / 1e9

    def end(self):
        """Ends the server, if it hasn't ended yet."""
        self.run.kill()
        if not self.run.stdout.closed:
            self.run.communicate()

    def administer(self, method, path, body=None):
        """The body of the response to a request of the administration."""
        return self.ask(method, path, body)[1]

    def ask(self, method, path, body=None, headers=()):
        """The status of the response too."""
        line = HTTPConnection("127.0.0.1", self.admin, timeout=REPLY)
        line.request(method, path, body, dict(headers))
        response = line.getresponse()
        answer = response.status, response.read().decode()
        line.close()
        return answer

    def deposit(self, name, text):
        """Drops a file into the spool, whole, and waits until it is gone."""
        self.drop(name, text)
        self.wait_for_spool()

    def drop(self, name, text):
        with open(f"{self.spool}/new.tmp", "wb") as file:
            file.write(text)
        os.rename(f"{self.spool}/new.tmp", f"{self.spool}/{name}")

    def wait_for_spool(self):
        """Waits until the spool has no file that may be taken."""
        is_empty = lambda: not any(it.endswith(".eml") for it in os.listdir(self.spool))
        wait_for(is_empty, "the spool keeps a file", SPOOL)

    def connect(self, receives=None, host="localhost", source=None, first=b""):
        """A client that has taken its greeting, after sending `first`."""
        client = Client(self.pop, receives, source)
        client.send(first)
        client.greeting = client.line()
        form = rb"\+OK POP3 server ready <\d+\.\d+@%s>\r\n" % re.escape(host.encode())
        if not re.fullmatch(form, client.greeting):
            raise Wrong(f"the greeting {client.greeting!r}")
        return client


def log_in(client, *texts, first=b""):
    """Logs in to the maildrop `orders`, which has these texts, after sending `first`."""
    has = maildrop_has(len(texts), sum(map(len, texts)))
    client.asks(first + LOGIN, SEND_PASS + has)


def proxied(source):
    """What a proxy sends first of a client from an address."""
    return b"PROXY TCP4 %s 127.0.0.1 51234 1110\r\n" % source


def listening(server):
    """The addresses at which the server listens, each with its port."""
    sockets = set()
    for name in os.listdir(f"/proc/{server.run.pid}/fd"):
        with contextlib.suppress(OSError):
            sockets.add(os.readlink(f"/proc/{server.run.pid}/fd/{name}"))
    found = set()
    with open(f"/proc/{server.run.pid}/net/tcp", encoding="ascii") as lines:
        for words in map(str.split, lines):
            if words[3] == "0A" and f"socket:[{words[9]}]" in sockets:
                address, port = (bytes.fromhex(it) for it in words[1].split(":"))
                found.add((socket.inet_ntoa(address[::-1]), int.from_bytes(port, "big")))
    return found


def is_silent(client, seconds):
    """Whether nothing comes on a connection for so long."""
    return not select.select([client.socket], [], [], seconds)[0]


@contextlib.contextmanager
def stopped(server):
    """A server that does nothing meanwhile."""
    os.kill(server.run.pid, signal.SIGSTOP)
    try:
        yield
    finally:
        os.kill(server.run.pid, signal.SIGCONT)


def limit_files(octets):
    """Lets no file of this process grow past so many octets: a write that would is refused."""
    signal.signal(signal.SIGXFSZ, signal.SIG_IGN)
    resource.setrlimit(resource.RLIMIT_FSIZE, (octets, octets))


def put(file, text):
    """Gives a file this text, at once."""
    with open(f"{file}.new", "w", encoding="ascii") as new:
        new.write(text)
    os.rename(f"{file}.new", file)


def read(file):
    """A file's octets, or none if it isn't there."""
    with contextlib.suppress(FileNotFoundError), open(file, "rb") as it:
        return it.read()
    return b""


class Case(cases.Case):
    """A case over servers, which end with it."""

    def setUp(self):
        super().setUp()
        # By how much large texts and stores are smaller.
        self.shorter = 100 if self.short else 1

    def renew(self):
        """Gives the case another empty folder, for another server."""
        super().setUp()

    def inner(self, name):
        """A new folder in the case's own."""
        os.mkdir(place := f"{self.folder}/{name}")
        return place

    def serve(self, *words, **how):
        """A server over the case's folder, whose standard error is the file `err` there."""
        with open(f"{self.folder}/err", "wb") as err:
            server = Server(self.program, self.folder, *words, **{"stderr": err} | how)
        self.addCleanup(server.end)
        return server

    def office(self, *words, **how):
        """A server with the maildrop `orders` and its clerk ann."""
        server = self.serve(*words, **how)
        server.fill()
        return server

    def client(self, server, *where, **how):
        """A client of a server, or of another port, until the case ends."""
        return self.enterContext(server.connect(*where, **how))

    def errors(self):
        """What a server has written to standard error, but that it isn't proved."""
        return without_slow(read(f"{self.folder}/err").decode())

    def run_program(self, *words, **how):
        """Runs the program in the case's folder, and gives its status and what it printed."""
        how = {"cwd": self.folder, "capture_output": True, "check": False} | how
        return subprocess.run([self.program, *words], **how)

    def prints(self, command, *words, store="mail.db", given=b"", status=0):
        """What a command prints over a store, by which no fault is reported."""
        ran = self.run_program(command, "--store", store, *words, input=given)
        self.assertEqual((ran.returncode, ran.stderr), (status, b""))
        return ran.stdout

    def preload(self, *names, **settings):
        """The environment of a program that has the loader put these of tools/preload before the C
        library, with their files in the case's folder."""
        libraries = ":".join(compile_preload(name, self.folder) for name in names)
        files = ("clock", "seen", "date", "calls", "gate")
        files = {it.upper(): f"{self.folder}/{it}" for it in files}
        return {**os.environ, **files, **settings, "LD_PRELOAD": libraries}

    def still(self, *names):
        """The environment of a server whose clock stands at 0 until it is set on."""
        return self.preload("clock", *names, STILL="1")

    def set_on(self, seconds):
        """Sets the clock of a server with preload/clock.c on, and waits until it has seen it."""
        put(f"{self.folder}/clock", str(seconds))
        is_seen = lambda: read(f"{self.folder}/seen") == b"%d" % seconds
        wait_for(is_seen, "the clock isn't seen")
