"""What trials/check-desktop-clients drives: mail programs on a screen of their own, by files alone.

A program gets its account by files before its start, checks for mail as it starts, and is ended
once its session is over. A relay before the server keeps what was said; the titles of its windows
show what it says, and its files what it stored.
"""

import base64
import contextlib
import ctypes
import glob
import json
import mailbox
import os
import re
import shutil
import signal
import socket
import subprocess
import threading
import time

# How many seconds a program's session may take from its start, and its end; and how long a program
# is looked at after its session: what it shows and writes then. How many a program that is left
# open may take to its next session, which it begins after a minute.
SESSION, END, AFTER, NEXT = 60, 15, 4, 150
# How many octets the relay reads at once, at most.
PIECE = 65_536
DAY = 86_400


def nicely():
    os.nice(5)


def end(run, limit=END):
    """Ends a program, and all that it started."""
    if run.poll() is None:
        run.terminate()
        with contextlib.suppress(subprocess.TimeoutExpired):
            run.wait(timeout=limit)
    with contextlib.suppress(ProcessLookupError):
        os.killpg(run.pid, signal.SIGKILL)
    run.wait()


def write(path, text):
    os.makedirs(os.path.dirname(path), exist_ok=True)
    with open(path, "w", encoding="ascii") as file:
        file.write(text)


class Session:
    """What passed in one connection: lines ("C", sent) and ("S", status line); but not a proxy's
    first line, which is no command of the program."""

    def __init__(self):
        self.lines, self.ended = [], threading.Event()

    def note(self, who, line):
        """Keeps a line, its end cut off. Gives it as text."""
        text = line.rstrip(b"\r\n").decode("latin-1")
        if who == "C" and not text.startswith("PROXY ") or text.startswith(("+OK", "-ERR")):
            self.lines.append((who, text))
        return text

    def sent(self, verb):
        """The lines that the program sent with this command."""
        return [it for who, it in self.lines if who == "C" and it.split(" ")[0].upper() == verb]

    def replies(self, verb):
        """The reply to each line with this command; a program may send several at once."""
        found, asked = [], []
        for who, line in self.lines:
            if who == "C":
                asked.append(line.split(" ")[0].upper())
            elif asked and asked.pop(0) == verb:
                found.append(line)
        return found


def lacks_pass(piece):
    """Whether a piece has a USER and no whole PASS."""
    return re.search(rb"(?m)^USER ", piece) and not re.search(rb"(?m)^PASS .*\n", piece)


class Relay:
    """Takes connections, hands what comes to the server and back in the pieces in which it came,
    and keeps what was said. `first` is what the server is sent before; with `joins` USER and PASS
    go on in one piece, if the program doesn't wait for the reply to USER."""

    def __init__(self, port, first=b"", joins=False):
        self.to, self.sessions, self.hold = port, [], lambda line: None
        self.first, self.joins = first, joins
        self.listener = socket.create_server(("127.0.0.1", 0))
        self.port = self.listener.getsockname()[1]
        threading.Thread(target=self.accept, daemon=True).start()

    def accept(self):
        with contextlib.suppress(OSError):
            while True:
                client, _ = self.listener.accept()
                server = socket.create_connection(("127.0.0.1", self.to))
                server.sendall(self.first)
                session = Session()
                self.sessions.append(session)
                for who, ends in (("C", (client, server)), ("S", (server, client))):
                    words = (session, who, *ends)
                    threading.Thread(target=self.pass_on, args=words, daemon=True).start()

    def pass_on(self, session, who, source, target):
        """Hands each piece on, until one side ends. A piece in which lines of the program end is
        held until `hold` is back from each."""
        rest = b""
        with contextlib.suppress(OSError):
            while piece := source.recv(PIECE):
                while self.joins and who == "C" and lacks_pass(piece):
                    piece += source.recv(PIECE)
                *lines, rest = (rest + piece).split(b"\n")
                for line in lines:
                    text = session.note(who, line)
                    if who == "C":
                        self.hold(text)
                target.sendall(piece)
        if rest:
            session.note(who, rest)
        for it in (source, target):
            with contextlib.suppress(OSError):
                it.shutdown(socket.SHUT_RDWR)
        session.ended.set()

    def tried(self):
        """The sessions in which a login was tried."""
        return [it for it in list(self.sessions) if it.sent("PASS") or it.sent("APOP")]

    def over(self):
        """Those of them that are over."""
        return [it for it in self.tried() if it.ended.is_set()]

    def close(self):
        with contextlib.suppress(OSError):
            self.listener.shutdown(socket.SHUT_RDWR)
        self.listener.close()


class Tls:
    """TLS before a port of 127.0.0.1, as packaging/recipes/stunnel.conf has it."""

    def __init__(self, folder, recipe, to):
        os.makedirs(folder)
        self.certificate, key = f"{folder}/pop.pem", f"{folder}/pop.key"
        words = ["openssl", "req", "-x509", "-newkey", "rsa:2048", "-nodes", "-days", "30"]
        words += ["-subj", "/CN=127.0.0.1", "-addext", "subjectAltName=IP:127.0.0.1"]
        how = {"check": True, "capture_output": True, "text": True}
        subprocess.run([*words, "-keyout", key, "-out", self.certificate], **how)
        words = ["openssl", "x509", "-in", self.certificate, "-noout", "-fingerprint", "-sha256"]
        self.digest = subprocess.run(words, **how).stdout.strip().rpartition("=")[2]
        with socket.create_server(("127.0.0.1", 0)) as free:
            self.port = free.getsockname()[1]
        with open(recipe, encoding="ascii") as file:
            text = file.read()
        ports = {"accept": self.port, "connect": to}
        values = {it: f"127.0.0.1:{ports[it]}" for it in ports}
        values.update(cert=self.certificate, key=key)
        for name, value in values.items():
            text, count = re.subn(rf"(?m)^{name} = .*$", f"{name} = {value}", text)
            if count != 1:
                raise ValueError(f"{recipe} has {count} lines of {name}")
        write(f"{folder}/stunnel.conf", text)
        self.log = open(f"{folder}/stunnel.log", "wb")
        how = {"stdout": self.log, "stderr": self.log, "start_new_session": True}
        self.run = subprocess.Popen(["stunnel4", f"{folder}/stunnel.conf"], **how)
        self.wait()

    def wait(self):
        until = time.monotonic() + END
        while time.monotonic() < until:
            with contextlib.suppress(OSError):
                socket.create_connection(("127.0.0.1", self.port)).close()
                return
            time.sleep(0.1)
        raise TimeoutError("stunnel doesn't listen")

    def end(self):
        end(self.run)
        self.log.close()


class Screen:
    """A screen that nobody sees."""

    def __init__(self, folder):
        reads, writes = os.pipe()
        words = ["Xvfb", "-displayfd", str(writes), "-noreset", "-nolisten", "tcp"]
        self.folder, self.log = folder, open(f"{folder}/screen.log", "wb")
        how = {"stdout": self.log, "stderr": self.log, "pass_fds": [writes], "preexec_fn": nicely}
        self.run = subprocess.Popen(words, start_new_session=True, **how)
        os.close(writes)
        with os.fdopen(reads) as told:
            self.display = f":{told.readline().strip()}"

    def do(self, *words):
        """Has xdotool do this. Gives what it printed."""
        how = {"env": {**os.environ, "DISPLAY": self.display}, "capture_output": True, "text": True}
        return subprocess.run(["xdotool", *words], **how).stdout

    def titles(self):
        """The titles of all windows that are shown."""
        windows = self.do("search", "--onlyvisible", "--name", ".").split()
        return {self.do("getwindowname", it).strip() for it in windows} - {""}

    def picture(self):
        """A picture of all windows, large enough to be read."""
        words = ["import", "-window", "root", "-colorspace", "gray", "-resize", "300%", "png:-"]
        how = {"env": {**os.environ, "DISPLAY": self.display}, "check": True}
        return subprocess.run(words, stdout=subprocess.PIPE, **how).stdout

    def end(self):
        end(self.run)
        self.log.close()


def text_of(picture):
    """What stands in a picture, as tesseract reads it."""
    words = ["tesseract", "stdin", "stdout", "--psm", "11"]
    return subprocess.run(words, input=picture, capture_output=True, check=True).stdout.decode()


def letters(text):
    """A text's letters and digits alone, since spaces and the others are often read otherwise."""
    return re.sub("[^a-z0-9]", "", text.lower())


class Program:
    """A mail program with one account, at a port of 127.0.0.1. `days` is after how many days it
    removes a message from the server, and 0 means at once; `apop` and `tls` how it logs in. It
    keeps the password, unless `asks`: then it shows a box, into which `answer` writes. With `stays`
    it is left open, and checks each minute; with `quiet` Claws Mail and Sylpheed show no box as
    they receive."""

    def __init__(
        self, screen, folder, port, user, password, days, apop=False, tls=None, **how
    ):
        self.screen, self.home, self.port, self.tls = screen, folder, port, tls
        self.user, self.password, self.days, self.apop = user, password, days, apop
        self.asks, self.stays, self.quiet = (how.get(it) for it in ("asks", "stays", "quiet"))
        self.titles, self.picture, self.run = set(), b"", None
        for it in ("run", "tmp"):
            os.makedirs(f"{folder}/{it}", mode=0o700)
        self.prepare()

    def env(self):
        kept = {it: os.environ[it] for it in ("PATH", "LANG") if it in os.environ}
        return {
            **kept,
            "HOME": self.home,
            "XDG_RUNTIME_DIR": f"{self.home}/run",
            "TMPDIR": f"{self.home}/tmp",
            "DISPLAY": self.screen.display,
            "NO_AT_BRIDGE": "1",
            "DBUS_SESSION_BUS_ADDRESS": "disabled:",
        }

    def start(self):
        self.log = open(f"{self.home}/program.log", "ab")
        how = {"stdin": subprocess.DEVNULL, "stdout": self.log, "stderr": self.log}
        how.update(env=self.env(), preexec_fn=nicely, start_new_session=True, cwd=self.home)
        self.run = subprocess.Popen(self.words(), **how)
        self.titles = set()

    def watch(self, is_over, limit=SESSION):
        """Notes the windows' titles until it is over. Says whether it was in time."""
        until = time.monotonic() + limit
        while not is_over():
            if time.monotonic() > until:
                return False
            self.titles |= self.screen.titles()
            time.sleep(0.3)
        return True

    def wait(self, seconds):
        """Notes the windows' titles for so long."""
        until = time.monotonic() + seconds
        self.watch(lambda: time.monotonic() > until, seconds + SESSION)

    def says(self, text):
        """Whether a text stood in a window at the end of the last check. Not each letter is read
        right off a picture, so three in four of its trigrams are enough."""
        said, wanted = (letters(it) for it in (text_of(self.picture), text))
        parts = [wanted[at : at + 3] for at in range(len(wanted) - 2)]
        return 4 * sum(it in said for it in parts) >= 3 * len(parts)

    def stop(self):
        if self.run:
            self.leave()
            end(self.run)
            self.log.close()
            self.run = None

    def leave(self):
        """Asks the program to end, if a signal isn't the way."""

    def boxes(self):
        """The titles that were shown but those of its ordinary windows."""
        titles = (it for it in self.titles if not re.fullmatch(self.ordinary, it))
        return sorted(it.replace(self.user, "USER") for it in titles)

    def answer(self):
        """Types the password into the box that is shown."""
        (title,) = self.boxes()
        title = title.replace("USER", self.user)
        (window,) = self.screen.do("search", "--onlyvisible", "--name", title).split()
        self.screen.do("windowfocus", "--sync", window)
        time.sleep(1)
        self.screen.do("type", "--delay", "100", self.password)
        self.screen.do("key", "Return")

    def begin(self, relay):
        """Starts the program, which checks for mail. Gives what identifies its session, once it has
        tried a login."""
        before = len(relay.tried())
        self.start()
        return lambda: next(iter(relay.tried()[before:]), None)

    def finish(self, session):
        """Waits until the session is over, or a box is shown, and ends the program."""
        in_time = self.watch(lambda: self.boxes() or session() and session().ended.is_set())
        self.wait(AFTER)
        self.picture = self.screen.picture()
        self.stop()
        if not in_time or not session():
            raise TimeoutError(f"no session within {SESSION} s; shown: {sorted(self.titles)}")
        return session()

    def check(self, relay):
        """Lets the program check for mail once. Gives the session."""
        return self.finish(self.begin(relay))

    def texts(self):
        """The stored messages as the server has them, but for line ends."""
        added = rb"(?m)^X-(Account-Key|UIDL|Mozilla-\S+|Evolution-\S+): .*\n"
        found = []
        for it in self.stored():
            head, between, text = it.partition(b"\n\n")
            found.append(re.sub(added, b"", head + b"\n")[:-1] + between + text)
        return found


class SECItem(ctypes.Structure):
    _fields_ = [("type", ctypes.c_uint), ("data", ctypes.c_void_p), ("len", ctypes.c_uint)]


def logins_of(profile, user, password):
    """The two texts as NSS keeps them under the profile's key, which is made."""
    nss = ctypes.CDLL("libnss3.so")
    nss.PK11_GetInternalKeySlot.restype = ctypes.c_void_p
    if nss.NSS_InitReadWrite(f"sql:{profile}".encode()):
        raise OSError(f"NSS makes no profile in {profile}")
    slot = ctypes.c_void_p(nss.PK11_GetInternalKeySlot())
    nss.PK11_InitPin(slot, None, b"")
    found = []
    for text in (user, password):
        octets = ctypes.create_string_buffer(text.encode())
        plain = SECItem(0, ctypes.cast(octets, ctypes.c_void_p), len(text))
        key, kept = SECItem(0, None, 0), SECItem()
        items = (ctypes.byref(it) for it in (key, plain, kept))
        if nss.PK11SDR_Encrypt(*items, None):
            raise OSError("NSS keeps no password")
        found.append(base64.b64encode(ctypes.string_at(kept.data, kept.len)).decode())
    nss.PK11_FreeSlot(slot)
    nss.NSS_Shutdown()
    return found


THUNDERBIRD = {
    "app.donation.eoy.version.viewed": 999,
    "app.update.enabled": False,
    "browser.cache.disk.enable": False,
    "datareporting.healthreport.uploadEnabled": False,
    "datareporting.policy.dataSubmissionEnabled": False,
    "extensions.blocklist.enabled": False,
    "extensions.update.enabled": False,
    "mail.account.account1.identities": "id1",
    "mail.account.account1.server": "server1",
    "mail.account.account2.server": "server2",
    "mail.accountmanager.accounts": "account1,account2",
    "mail.accountmanager.defaultaccount": "account1",
    "mail.accountmanager.localfoldersserver": "server2",
    "mail.biff.play_sound": False,
    "mail.biff.show_alert": False,
    "mail.identity.id1.fullName": "A Clerk",
    "mail.identity.id1.useremail": "clerk@office.test",
    "mail.identity.id1.valid": True,
    "mail.inappnotifications.enabled": False,
    "mail.provider.suppress_dialog_on_startup": True,
    "mail.rights.version": 1,
    "mail.server.server1.check_new_mail": True,
    "mail.server.server1.directory-rel": "[ProfD]Mail/pop",
    "mail.server.server1.download_on_biff": True,
    "mail.server.server1.hostname": "127.0.0.1",
    "mail.server.server1.login_at_startup": True,
    "mail.server.server1.type": "pop3",
    "mail.server.server2.directory-rel": "[ProfD]Mail/Local Folders",
    "mail.server.server2.hostname": "Local Folders",
    "mail.server.server2.type": "none",
    "mail.server.server2.userName": "nobody",
    "mail.shell.checkDefaultClient": False,
    "mail.spotlight.firstRunDone": True,
    "mailnews.start_page.enabled": False,
    "network.captive-portal-service.enabled": False,
    "network.connectivity-service.enabled": False,
    "toolkit.telemetry.enabled": False,
}


class Thunderbird(Program):
    name = "Thunderbird"
    ordinary = ".*Mozilla Thunderbird"

    def prepare(self):
        self.profile = f"{self.home}/profile"
        self.pop = f"{self.profile}/Mail/pop"
        os.makedirs(self.pop)
        os.makedirs(f"{self.profile}/Mail/Local Folders")
        server = "mail.server.server1."
        values = {
            **THUNDERBIRD,
            f"{server}port": self.port,
            f"{server}userName": self.user,
            f"{server}name": self.user,
            f"{server}authMethod": 4 if self.apop else 3,
            f"{server}socketType": 3 if self.tls else 0,
            f"{server}leave_on_server": self.days > 0,
            f"{server}delete_by_age_from_server": self.days > 0,
            f"{server}num_days_to_leave_on_server": self.days or 7,
            f"{server}check_time": 1 if self.stays else 60,
        }
        lines = (f"user_pref({json.dumps(it)}, {json.dumps(values[it])});\n" for it in values)
        write(f"{self.profile}/prefs.js", "".join(lines))
        write(f"{self.profile}/logins.json", json.dumps(self.logins()))
        if self.tls:
            key = f"127.0.0.1:{self.port}:\tOID.2.16.840.1.101.3.4.2.1\t{self.tls.digest}\t\n"
            write(f"{self.profile}/cert_override.txt", key)

    def logins(self):
        """What the file of passwords has."""
        if self.asks:
            return {"nextId": 1, "logins": [], "version": 3}
        user, password = logins_of(self.profile, self.user, self.password)
        origin, now = "mailbox://127.0.0.1", int(time.time() * 1000)
        login = {
            "id": 1,
            "hostname": origin,
            "httpRealm": origin,
            "formSubmitURL": None,
            "usernameField": "",
            "passwordField": "",
            "encryptedUsername": user,
            "encryptedPassword": password,
            "guid": "{5d5a1b3c-0d4e-4c8e-9f0a-6f3b0a0c1d2e}",
            "encType": 1,
            "timeCreated": now,
            "timeLastUsed": now,
            "timePasswordChanged": now,
            "timesUsed": 1,
        }
        return {"nextId": 2, "logins": [login], "version": 3}

    def words(self):
        return ["thunderbird", "--no-remote", "--profile", self.profile]

    def stored(self):
        if not os.path.exists(f"{self.pop}/Inbox"):
            return []
        with contextlib.closing(mailbox.mbox(f"{self.pop}/Inbox", create=False)) as box:
            return [box.get_bytes(it).removesuffix(b"\r\n") for it in box.keys()]

    def record(self):
        return f"{self.pop}/popstate.dat"

    def age(self, days):
        """Lets all that it fetched be so much older."""
        with open(self.record(), encoding="ascii") as file:
            text = file.read()
        older = re.sub(
            r"(?m)^(k \S+ )(\d+)", lambda it: f"{it[1]}{int(it[2]) - days * DAY}", text
        )
        write(self.record(), older)


class Folders(Program):
    """What Claws Mail and Sylpheed share: a file for each message, and a record of unique-ids with
    the moment at which each was fetched."""

    def stored(self):
        files = glob.glob(f"{self.home}/Mail/inbox/[0-9]*")
        found = []
        for it in sorted(files, key=lambda it: int(os.path.basename(it))):
            with open(it, "rb") as file:
                found.append(file.read())
        return found

    def record(self):
        (found,) = (it for it in glob.glob(f"{self.config}/uidl/*") if not it.endswith(".bak"))
        return found

    def age(self, days):
        with open(self.record(), encoding="ascii") as file:
            rows = [it.split("\t") for it in file.read().splitlines()]
        rows = [[it[0], str(int(it[1]) - days * DAY), *it[2:]] for it in rows]
        write(self.record(), "".join("\t".join(it) + "\n" for it in rows))

    def account(self):
        values = {
            "account_name": "pop",
            "is_default": 1,
            "name": "A Clerk",
            "address": "clerk@office.test",
            "protocol": 0,
            "receive_server": "127.0.0.1",
            "user_id": self.user,
            "password": self.password,
            "inbox": self.inbox,
            "use_apop_auth": int(self.apop),
            "use_pop_auth": int(self.apop),
            "pop_auth_method": 1,
            "remove_mail": 1,
            "message_leave_time": self.days,
            "receive_at_get_all": 1,
            "ssl_pop": int(bool(self.tls)),
            "set_popport": 1,
            "pop_port": self.port,
        }
        return "[Account: 1]\n" + "".join(f"{it}={values[it]}\n" for it in values)

    def common(self, minute):
        """What the settings of all accounts have; a minute is so long there."""
        values = {"autochk_newmail": int(bool(self.stays)), "autochk_interval": minute}
        values["no_receive_error_panel"] = int(bool(self.quiet))
        return "".join(f"{it}={values[it]}\n" for it in values)

    def folders(self):
        """The file that lists the folders, which are made."""
        names = ("inbox", "outbox", "draft", "queue", "trash")
        for it in names:
            os.makedirs(f"{self.home}/Mail/{it}")
        items = (f'<folderitem type="{it}" name="{it}" path="{it}"/>\n' for it in names)
        head = '<?xml version="1.0" encoding="UTF-8"?>\n<folderlist>\n'
        folder = f'<folder type="mh" name="Mail" path="{self.home}/Mail">\n'
        return f"{head}{folder}{''.join(items)}</folder>\n</folderlist>\n"


class Claws(Folders):
    name = "Claws Mail"
    ordinary = ".* - Claws Mail .*|Retrieving new messages"
    inbox = "#mh/Mail/inbox"

    def prepare(self):
        self.config = f"{self.home}/claws"
        write(f"{self.config}/folderlist.xml", self.folders())
        write(f"{self.config}/clawsrc", f"[Common]\nconfig_version=4\n{self.common(60)}")
        if self.tls:
            os.makedirs(f"{self.config}/certs")
            trusted = f"{self.config}/certs/127.0.0.1.{self.port}.cert"
            words = ["openssl", "x509", "-in", self.tls.certificate, "-outform", "DER"]
            subprocess.run([*words, "-out", trusted], check=True)

    def start(self):
        # It takes a password that isn't encrypted only from an account's file without a version,
        # and gives the file one.
        write(f"{self.config}/accountrc", self.account())
        with contextlib.suppress(FileNotFoundError):
            os.remove(f"{self.config}/passwordstorerc")
        super().start()

    def words(self):
        return ["claws-mail", "--alternate-config-dir", self.config, "--receive-all"]

    def leave(self):
        leave_by(["claws-mail", "--alternate-config-dir", self.config, "--exit"], self)


class Sylpheed(Folders):
    name = "Sylpheed"
    ordinary = ".* - Sylpheed .*|.*Retrieving new messages|Notification"
    inbox = "inbox"

    def prepare(self):
        self.config = f"{self.home}/sylpheed"
        write(f"{self.config}/accountrc", self.account())
        write(f"{self.config}/folderlist.xml", self.folders())
        write(f"{self.config}/sylpheedrc", f"[Common]\n{self.common(1)}")
        if self.tls:
            shutil.copy(self.tls.certificate, f"{self.config}/trust.crt")

    def words(self):
        return ["sylpheed", "--configdir", self.config, "--receive-all"]

    def leave(self):
        leave_by(["sylpheed", "--configdir", self.config, "--exit"], self)


class Evolution(Program):
    name = "Evolution"
    ordinary = "Mail|Inbox.*|.* — Evolution|evolution"

    def prepare(self):
        self.sources = f"{self.home}/.config/evolution/sources"
        parts = {"pop": self.account(), "identity": IDENTITY, "transport": TRANSPORT}
        for name, text in parts.items():
            write(f"{self.sources}/{name}.source", text)
        write(f"{self.home}/.config/glib-2.0/settings/keyfile", EVOLUTION)

    def account(self):
        return ACCOUNT.format(
            port=self.port,
            user=self.user,
            method="+APOP" if self.apop else "",
            leaves="true" if self.days else "false",
            days=0,
            stays="true" if self.stays else "false",
        )

    def age(self, days):
        """Evolution goes by the date of each message, which here is some days ago: from now on it
        removes what is a day old."""
        path = f"{self.sources}/pop.source"
        with open(path, encoding="ascii") as file:
            text = file.read()
        write(path, re.sub(r"(?m)^DeleteAfterDays=.*$", "DeleteAfterDays=1", text))

    def env(self):
        return {
            **{name: it for name, it in super().env().items() if not name.startswith("DBUS")},
            "GSETTINGS_BACKEND": "keyfile",
            "WEBKIT_DISABLE_SANDBOX_THIS_IS_DANGEROUS": "1",
            "SECRET": "" if self.asks else self.password,
        }

    def words(self):
        return ["dbus-run-session", "--", "sh", "-c", SESSION_OF_EVOLUTION]

    def leave(self):
        """Asks it to quit, over the bus of its session."""
        with contextlib.suppress(FileNotFoundError, subprocess.TimeoutExpired):
            with open(f"{self.home}/bus", encoding="ascii") as file:
                env = {**self.env(), "DBUS_SESSION_BUS_ADDRESS": file.read().strip()}
            how = {"stdin": subprocess.DEVNULL, "stdout": self.log, "stderr": self.log}
            subprocess.run(["evolution", "--quit"], env=env, timeout=END, **how)
            self.run.wait(timeout=END)

    def stored(self):
        found = []
        for path in glob.glob(f"{self.home}/.local/share/evolution/mail/local/*/*.*.*:2,*"):
            with open(path, "rb") as file:
                found.append(file.read())
        return sorted(found)


# What Evolution's account is, and what starts it: a bus and a keyring of its own.
ACCOUNT = """[Data Source]
DisplayName=pop
Enabled=true
Parent=

[Mail Account]
BackendName=pop
IdentityUid=identity

[Authentication]
Host=127.0.0.1
Method={method}
Port={port}
User={user}
RememberPassword=true

[Security]
Method=none

[Refresh]
Enabled={stays}
IntervalMinutes=1

[Pop Backend]
KeepOnServer={leaves}
DeleteAfterDays={days}
DeleteExpunged=false
"""
IDENTITY = """[Data Source]
DisplayName=pop
Enabled=true
Parent=pop

[Mail Identity]
Address=clerk@office.test
Name=A Clerk

[Mail Submission]
TransportUid=transport
"""
TRANSPORT = """[Data Source]
DisplayName=pop
Enabled=true
Parent=pop

[Mail Transport]
BackendName=sendmail
"""
EVOLUTION = """[org/gnome/evolution/mail]
send-recv-on-start=true
send-recv-all-on-start=true
prompt-check-if-default-mailer=false
"""
SESSION_OF_EVOLUTION = """
echo "$DBUS_SESSION_BUS_ADDRESS" >"$HOME/bus"
printf x | gnome-keyring-daemon --unlock --components=secrets >/dev/null
[ -z "$SECRET" ] || printf %s "$SECRET" | secret-tool store --label=pop e-source-uid pop \\
    eds-origin evolution-data-server
evolution --component=mail
"""


def leave_by(words, program):
    """Lets a second run of the program tell the first to end, unless that shows a box, which keeps
    it from ending so."""
    if program.titles & {"Error", "Input password"}:
        return
    how = {"stdin": subprocess.DEVNULL, "stdout": program.log, "stderr": program.log}
    run = subprocess.Popen(words, env=program.env(), start_new_session=True, **how)
    with contextlib.suppress(subprocess.TimeoutExpired):
        run.wait(timeout=END)
    end(run)
    with contextlib.suppress(subprocess.TimeoutExpired):
        program.run.wait(timeout=END)
