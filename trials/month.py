"""What trials/check-month works with: an office's mail, its clerks' mail programs, and what each of
them must fetch and may remove, reckoned by the policy's text alone."""

import email.utils
import http.client
import os
import poplib
import random
import re
import smtplib
import ssl
import subprocess
import time
import tomllib

HOST, DOMAIN = "pop.office.test", "office.test"
CERTIFICATE, SORTING = "/etc/ssl/certs/pop.pem", "/etc/popbox/sorting.toml"
# The clerks' programs run as this user, each in a folder of its own.
SPOOL, USER, HOME = "/var/lib/popbox/spool", "month", "/home/month"
# The seconds that tools/preload/clock.c adds to each moment, and to the date alone.
CLOCK, DATE, LIBRARY = "/run/month/clock", "/run/month/date", "/run/month/clock.so"
DAY = 86_400
# What ends a wait for something that hangs, in seconds.
LONGEST = 300
# Each class with a subject by which the patterns of the office give it.
SUBJECTS = {
    "note": "two more chairs, no. {}", "payment": "payment received, no. {}",
    "invoice": "your invoice {}", "complaint": "complaint {}: a leg is loose",
    "legal": "letter {} from our lawyers",
}
RULES = "".join(
    f'[[sort]]\nclass = "{name}"\nsubject = "{word}"\n'
    for name, word in (
        ("payment", "payment received"), ("invoice", "invoice"), ("complaint", "complaint"),
        ("legal", "lawyers"),
    )  # fmt: skip
) + '[otherwise]\nclass = "note"\n'


class Wrong(Exception):
    """What came is another thing than what must come."""


def wants(found, wanted, about):
    if found != wanted:
        raise Wrong(f"{about}: {found!r}, where {wanted!r} is wanted")


def run(*words, status=0, **how):
    """What a command prints, if it ends with this status."""
    how.setdefault("stderr", subprocess.STDOUT)
    done = subprocess.run(words, stdout=subprocess.PIPE, timeout=2 * LONGEST, check=False, **how)
    text = done.stdout.decode(errors="replace")
    if status is not None and done.returncode != status:
        raise Wrong(f"{' '.join(words)}: status {done.returncode}: {text}")
    return text


def ask(method, path, body=None):
    """The status and the lines of an answer of the administration."""
    link = http.client.HTTPConnection("127.0.0.1", 1111, timeout=LONGEST)
    link.request(method, path, body)
    reply = link.getresponse()
    text = reply.read().decode()
    link.close()
    return reply.status, text.splitlines()


def wait_for(is_so, said):
    end = time.monotonic() + LONGEST
    while not is_so():
        if time.monotonic() > end:
            raise Wrong(f"{said} for {LONGEST} s")
        time.sleep(0.2)


class Policy:
    """A policy's text, and its decisions: the first rule that matches, or no."""

    def __init__(self, text):
        held = tomllib.loads(text)
        self.rules = held.get("rule", [])
        self.groups = {"@" + it["name"]: it["members"] for it in held.get("group", [])}

    def allows(self, clerk, maildrop, class_, action):
        for rule in self.rules:
            who = rule["clerk"]
            is_hit = (
                action in rule["actions"]
                and (who in ("*", clerk) or clerk in self.groups.get(who, ()))
                and rule["maildrop"] in ("*", maildrop)
                and (action == "open" or rule["class"] in ("*", class_))
            )
            if is_hit:
                return rule["effect"] == "allow"
        return False


class Message:
    """A message that an office was sent: where it belongs, and its lines."""

    def __init__(self, number, maildrop, class_, chance):
        self.number, self.maildrop, self.class_ = number, maildrop, class_
        count = chance.choice((1, 5, 40, 400))
        odd = (".", "..", ".x", "From here on", ">From", "", "\u00e4\u00f6 octets", "a" * 900)
        body = [
            chance.choice(odd) if chance.random() < 0.3 else f"line {k} {chance.random()}"
            for k in range(count)
        ]
        self.lines = [
            "From: Shop <shop@example.com>",
            f"To: {maildrop}@{DOMAIN}",
            f"Subject: {SUBJECTS[class_].format(number)}",
            f"Date: {email.utils.formatdate()}",
            f"Message-ID: <{number}.month@shop.example>",
            "MIME-Version: 1.0",
            "Content-Type: text/plain; charset=utf-8",
            "Content-Transfer-Encoding: 8bit",
            f"X-Month: {number}",
            "",
            *body,
            f"End of {number}",
        ]

    def text(self, end="\n"):
        return "".join(line + end for line in self.lines).encode()


def found_in(text, messages):
    """The numbers of the messages that lie in a mailbox, each as often as it lies there, where each
    must be as it was sent. Of `>From ` one `>` may be a mailbox's own."""
    lines = [it.rstrip("\r") for it in text.decode(errors="replace").split("\n")]
    numbers = []
    for at, line in enumerate(lines):
        if not line.startswith("X-Month: "):
            continue
        message = messages[int(line[9:])]
        body = message.lines[message.lines.index("") :]
        start = lines.index("", at)
        got = lines[start : start + len(body)]
        plain = [re.sub(r"^>(>*From )", r"\1", it) for it in got]
        if body not in (got, plain):
            raise Wrong(f"message {message.number} isn't as it was sent: {got[:5]}")
        numbers.append(message.number)
    return numbers


def tls():
    return ssl.create_default_context(cafile=CERTIFICATE)


def log_in(clerk, maildrop, secret, is_apop=False):
    """A session by poplib over TLS."""
    box = poplib.POP3_SSL(HOST, 995, context=tls(), timeout=LONGEST)
    if is_apop:
        box.apop(f"{clerk}/{maildrop}", secret)
    else:
        box.user(f"{clerk}/{maildrop}")
        box.pass_(secret)
    return box


class Program:
    """A clerk's mail program for one maildrop, with a folder of its own: which messages lie in it,
    and which unique-ids it has seen."""

    # Whether it removes what it fetched; whether it forgets a unique-id that isn't listed any more.
    removes = forgets = False

    def __init__(self, office, clerk, maildrop):
        self.office, self.clerk, self.maildrop = office, clerk, maildrop
        self.folder = f"{HOME}/{type(self).__name__}-{clerk}-{maildrop}"
        self.seen, self.had, self.first = {}, [], {}
        os.makedirs(self.folder, mode=0o700)
        self.make()
        run("chown", "-R", f"{USER}:", self.folder)

    @property
    def name(self):
        return f"{type(self).__name__.lower()} {self.clerk}/{self.maildrop}"

    @property
    def secret(self):
        return self.office.secrets[self.clerk][1]

    def write(self, name, text, mode=0o600):
        path = f"{self.folder}/{name}"
        with open(path, "w", encoding="utf-8") as file:
            file.write(text)
        os.chmod(path, mode)
        run("chown", f"{USER}:", path)

    def call(self, *words, status=0, **variables):
        """Runs the program as the clerks' user."""
        how = {**os.environ, "HOME": self.folder, **variables}
        user = ("setpriv", "--reuid", USER, "--regid", USER, "--clear-groups")
        return run(*user, *words, status=status, cwd=self.folder, env=how)

    def make(self):
        pass

    def mailboxes(self):
        """The texts of what was fetched."""
        for at, _, names in os.walk(self.folder):
            for name in sorted(names):
                if name.startswith("inbox") or os.path.basename(at) in ("new", "cur"):
                    with open(f"{at}/{name}", "rb") as file:
                        yield file.read()

    def fetched(self):
        """What the call of the program brought beside what it had."""
        has = [n for text in self.mailboxes() for n in found_in(text, self.office.messages)]
        new = list(has)
        for number in self.had:
            if number not in new:
                raise Wrong(f"{self.name}: message {number} isn't in its mailbox any more")
            new.remove(number)
        self.had = has
        return sorted(new)


class Mpop(Program):
    """Fetches what is new into an mbox, and leaves all on the server, or removes what it fetched."""

    forgets = True

    def fetch(self):
        kind, secret = self.office.secrets[self.clerk]
        self.write("secret", secret + "\n")
        self.call(
            "mpop", f"--host={HOST}", "--port=995", "--tls=on", "--tls-starttls=off",
            f"--tls-trust-file={CERTIFICATE}", f"--auth={'apop' if kind == 'apop' else 'user'}",
            f"--user={self.clerk}/{self.maildrop}", "--passwordeval=cat secret",
            f"--keep={'off' if self.removes else 'on'}", "--uidls-file=uidls",
            "--deliver=mbox,inbox", status=None if self.removes else 0,
        )  # fmt: skip


class Getmail(Program):
    """Removes by age what it fetched, into a Maildir.

    getmail 6.18.11 forks for each message, and if the child ends before it waits for it, it waits a
    minute and calls that a failure. Then it is called again, and a message of which it said so may
    be in its Maildir twice."""

    removes, after, again = True, 10, 0

    def make(self):
        for name in ("new", "cur", "tmp"):
            os.makedirs(f"{self.folder}/box/{name}", mode=0o700)

    def fetch(self):
        kind, secret = self.office.secrets[self.clerk]
        self.write(
            "getmailrc",
            f"[retriever]\ntype = SimplePOP3SSLRetriever\nserver = {HOST}\nport = 995\n"
            f"ca_certs = {CERTIFICATE}\nusername = {self.clerk}/{self.maildrop}\n"
            f"password = {secret}\nuse_apop = {kind == 'apop'}\n"
            f"[destination]\ntype = Maildir\npath = {self.folder}/box/\n"
            f"[options]\nread_all = False\ndelete_after = {self.after}\n"
            "delivered_to = False\nreceived = False\n",
        )
        words = ("taskset", "1", "getmail", f"--getmaildir={self.folder}", "--rcfile=getmailrc")
        while True:
            told = self.call(*words, status=None, LD_PRELOAD=LIBRARY, CLOCK=CLOCK)
            if "timed out" not in told:
                break
            self.again += told.count("timed out")

    def fetched(self):
        new, once = super().fetched(), []
        for number in new:
            if number in once and self.again:
                self.again -= 1
                self.office.again += 1
            else:
                once.append(number)
        return once


class Fetchmail(Program):
    """Removes what it fetched, and knows what stayed by its unique-ids; into one file. It quits at
    a DELE that is refused, and goes on after that message when it is called again."""

    removes = True

    def fetch(self):
        self.write(
            ".fetchmailrc",
            f'poll {HOST} protocol pop3 port 995 uidl\n  user "{self.clerk}/{self.maildrop}" '
            f'password "{self.secret}" nokeep ssl sslcertck sslcertfile {CERTIFICATE}\n'
            "  mda \"sh -c 'cat >>inbox'\"\n",
        )
        is_new = True
        while is_new:
            told = self.call("fetchmail", "--nodetach", "--nosyslog", status=None)
            if re.search("(?i)authorization|refused|socket error", told):
                raise Wrong(f"{self.name}: {told}")
            is_new = "reading message" in told


class Curl(Program):
    """A script over curl: lists the unique-ids, fetches what is new, and removes it."""

    removes = True

    def fetch(self):
        self.write("curlrc", f'user = "{self.clerk}/{self.maildrop}:{self.secret}"\n')
        words = ("curl", "-sS", "-K", "curlrc", "--cacert", CERTIFICATE)
        url = f"pop3s://{HOST}/"
        listed = self.call(*words, "-X", "UIDL", url)
        new = [it.split() for it in listed.splitlines() if it.split()[1] not in self.seen]
        more = []
        for number, uid in new:
            more += ["--next", *words[1:], "-o", f"inbox-{time.time_ns()}-{uid}", url + number]
        # From the last on, so that a number means the same message on a new connection.
        for number, _ in reversed(new):
            more += ["--next", *words[1:], "-l", "-X", "DELE", url + number]
        if more:
            self.call("curl", *more[1:], status=None)


class Poplib(Program):
    """Python's poplib: fetches what is new, and leaves it."""

    def fetch(self):
        kind, secret = self.office.secrets[self.clerk]
        box = log_in(self.clerk, self.maildrop, secret, kind == "apop")
        for line in box.uidl()[1]:
            number, uid = line.decode().split()
            if uid not in self.seen:
                text = b"\r\n".join(box.retr(int(number))[1])
                self.write(f"inbox-{time.time_ns()}-{uid}", text.decode())
        box.quit()


class Office:
    """The office: its mail, what is present, what was removed, and its clerks' programs."""

    def __init__(self, seed, policy):
        self.chance = random.Random(seed)
        self.messages, self.present, self.removed, self.lost = {}, {}, {}, {}
        self.secrets, self.programs, self.policies = {}, [], []
        self.policy, self.day, self.fetches, self.again = Policy(policy), 0, 0, 0

    def bind(self, policy):
        self.policy = Policy(policy)
        self.policies.append(self.policy.rules)

    # Mail

    def make(self, maildrop, class_=None):
        class_ = class_ or self.chance.choice(list(SUBJECTS))
        number = len(self.messages) + 1
        self.messages[number] = Message(number, maildrop, class_, self.chance)
        return self.messages[number]

    def send(self, maildrop, count):
        """Gives the mail system so many messages: half by SMTP, half by its sendmail."""
        for k in range(count):
            message = self.make(maildrop)
            to, text = f"{maildrop}@{DOMAIN}", message.text()
            if k % 2:
                with smtplib.SMTP("127.0.0.1", 25, timeout=LONGEST) as link:
                    link.sendmail("shop@example.com", [to], message.text("\r\n"))
            else:
                run("/usr/sbin/sendmail", "-i", "-f", "shop@example.com", to, input=text)

    def settle(self):
        """Waits until all that was sent is in, and looks at it."""
        def is_in():
            total = sum(int(line.split()[1]) for line in ask("GET", "/maildrops")[1])
            return total == len(self.messages) - len(self.removed) - len(self.lost)

        wait_for(is_in, "mail that was sent isn't in")
        wants(self.audit(), {}, "gone without a clerk")

    # What is present

    def audit(self):
        """Looks at each maildrop. Each unique-id that is new there is read by ann, and must be a
        message that was sent there, as it was sent, and is nowhere else. Gives what is gone."""
        gone = {}
        for line in ask("GET", "/maildrops")[1]:
            maildrop = line.split()[0]
            rows = [it.split() for it in ask("GET", f"/maildrops/{maildrop}")[1]]
            had = self.present.setdefault(maildrop, {})
            gone.update({(maildrop, uid): had.pop(uid) for uid in set(had) - {r[0] for r in rows}})
            new = [uid for uid, _ in rows if uid not in had]
            if new:
                self.read_new(maildrop, new, dict(rows))
        return gone

    def read_new(self, maildrop, uids, octets):
        box = log_in("ann", maildrop, self.secrets["ann"][1])
        numbers = {uid.decode(): int(n) for n, uid in (it.split() for it in box.uidl()[1])}
        wants(list(numbers), list(octets), f"{maildrop}: what ann lists")
        for uid in uids:
            text = b"".join(it + b"\r\n" for it in box.retr(numbers[uid])[1])
            wants(len(text), int(octets[uid]), f"{maildrop} {uid}: octets")
            (number,) = found_in(text, self.messages)
            message = self.messages[number]
            wants(text.endswith(message.text("\r\n")), True, f"message {number} as it was sent")
            wants((maildrop, uid.split(".")[0]), (message.maildrop, message.class_), f"{number}")
            if number in self.removed or any(number in it.values() for it in self.present.values()):
                raise Wrong(f"message {number} came twice, as {maildrop} {uid}")
            self.present[maildrop][uid] = number
        box.quit()

    # Clerks

    def set_clerk(self, clerk, kind, secret):
        answer = ask("PUT", f"/clerks/{clerk}", f"{kind} {secret}\n")
        wants(answer[0] in (200, 201), True, f"clerk {clerk}: {answer}")
        self.secrets[clerk] = kind, secret

    def may(self, program, uid, action):
        return self.policy.allows(program.clerk, program.maildrop, uid.split(".")[0], action)

    def check(self, program):
        """Runs a clerk's program: it fetches each message that it may read and hasn't seen, once,
        and no other; and what it removes is gone, and nothing else."""
        before = dict(self.present[program.maildrop])
        shown = {uid for uid in before if self.may(program, uid, "read")}
        program.fetch()
        got, gone = program.fetched(), self.audit()
        wants(got, sorted(before[it] for it in shown - {*program.seen}), f"{program.name} fetched")
        for uid in shown:
            told = program.seen.setdefault(uid, before[uid])
            wants(before[uid], told, f"{program.name}: {uid}, which it takes for known")
        if program.forgets:
            program.seen = {uid: before[uid] for uid in shown}
        for uid in shown:
            program.first.setdefault(uid, self.day)
        removable = {it for it in shown if program.removes and self.may(program, it, "remove")}
        if getattr(program, "after", 0):
            old = self.day - program.after
            removable = {it for it in removable if program.first[it] <= old}
        wants({uid for _, uid in gone}, removable, f"{program.name} removed")
        self.removed.update({number: (program.clerk, *place) for place, number in gone.items()})
        self.fetches += 1
        return len(got), len(gone)
