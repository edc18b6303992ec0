"""What the recipes set up: each proxy, filter and jail is run by its file as printed, in a network
of its own with a clerk's machine beside it."""

import contextlib
import ctypes
import os
import re
import shutil
import socket
import ssl
import subprocess
import tempfile
import threading
import time

from cases import needs
from clients import POLICY, Server, wait_for, wants
from harness import ScriptCase, read_text, run, write

NEWNET = 0x40000000
OFFICE, CLERK, OTHER = "198.51.100.1", "198.51.100.2", "198.51.100.3"
PROXIES = ("stunnel", "nginx", "haproxy", "dovecot")
# A message that no buffer between a server and a slow client holds.
LARGE = (b"x" * 70 + b"\r\n") * 6_000
LIMIT = 150
libc = ctypes.CDLL(None, use_errno=True)


def enter(network):
    """Has this thread, and what it begins from now on, in a network that a file stands for."""
    if libc.setns(network.fileno(), NEWNET):
        raise OSError(ctypes.get_errno(), "setns")


def must(*words):
    """Runs a command that mustn't fail."""
    status, said, why = run(*words)
    wants((words, status, why if status else ""), (words, 0, ""))
    return said


def listen(unit):
    """The sockets that systemd opens for a socket unit."""
    links, known = [], {"KeepAliveTimeSec": "IDLE", "KeepAliveIntervalSec": "INTVL"}
    known["KeepAliveProbes"] = "CNT"
    settings = re.findall(r"^(\w+)=(.*)", unit, re.M)
    for address in [value for name, value in settings if name == "ListenStream"]:
        host, _, port = address.rpartition(":")
        links.append(socket.create_server((host, int(port))))
        keep = ("KeepAlive", "yes") in settings
        links[-1].setsockopt(socket.SOL_SOCKET, socket.SO_KEEPALIVE, keep)
        for name, value in settings:
            if name in known:
                option = getattr(socket, f"TCP_KEEP{known[name]}")
                links[-1].setsockopt(socket.IPPROTO_TCP, option, int(value))
    return links


class Network(ScriptCase):
    """A case in a network of its own, with a clerk's machine beside it, at CLERK and OTHER."""

    def setUp(self):
        super().setUp()
        self.needs_root()
        needs("ip", "nft", "openssl", "unshare", "nsenter")
        # Under HAProxy, stunnel and Dovecot, which give up root, too.
        os.chmod(self.folder, 0o711)
        here = self.enterContext(open("/proc/thread-self/ns/net", "rb"))
        if libc.unshare(NEWNET):
            self.skipTest("no network of its own")
        self.addCleanup(enter, here)
        self.network = self.enterContext(open("/proc/thread-self/ns/net", "rb"))
        self.clerk = self.runs("unshare", "--net", "sleep", "infinity")
        inside = lambda: os.readlink(f"/proc/{self.clerk.pid}/ns/net")
        wait_for(lambda: inside() != os.readlink("/proc/thread-self/ns/net"), "no network", 60)
        must(*f"ip link add office type veth peer name clerk netns {self.clerk.pid}".split())
        for words in ("link set lo up", f"addr add {OFFICE}/24 dev office", "link set office up"):
            must("ip", *words.split())
        for words in (f"addr add {CLERK}/24 dev clerk", f"addr add {OTHER}/24 dev clerk"):
            self.at_clerk("ip", *words.split())
        self.at_clerk("ip", "link", "set", "clerk", "up")

    def runs(self, *words, **how):
        """A process that is ended with the case."""
        log = open(f"{self.folder}/log", "ab")
        it = subprocess.Popen(words, stdout=log, stderr=log, stdin=subprocess.DEVNULL, **how)
        log.close()
        self.addCleanup(it.wait)
        self.addCleanup(it.terminate)
        return it

    def at_clerk(self, *words):
        return must("nsenter", "-t", str(self.clerk.pid), "-n", *words)

    def connect(self, port, source=CLERK):
        """A connection from one of the clerk's addresses, or of the office's own, to a port."""
        with open(f"/proc/{self.clerk.pid}/ns/net", "rb") as network:
            enter(network if source in (CLERK, OTHER) else self.network)
            try:
                it = socket.socket()
            finally:
                enter(self.network)
        self.addCleanup(it.close)
        it.setsockopt(socket.SOL_SOCKET, socket.SO_RCVBUF, 32_768)
        it.settimeout(60)
        it.bind((source, 0))
        it.connect((OFFICE, port))
        return it

    def certificate(self):
        """Makes the certificate as tls.md says."""
        text = read_text(f"{self.packaging}/recipes/tls.md")
        words = re.search(r"    (openssl req .*?)\n\n", text, re.S)[1].replace("\\\n", "").split()
        for k, name in enumerate(words):
            if name.startswith("/etc/ssl"):
                words[k] = f"{self.folder}/{os.path.basename(name)}"
        must(*words)

    def recipe(self, name, ports, *more):
        """A recipe's file with these ports in the place of its own, and this folder's files."""
        text = read_text(f"{self.packaging}/recipes/{name}")
        for path in ("/etc/ssl/certs", "/etc/ssl/private", "/etc/haproxy", "/etc/dovecot"):
            text = text.replace(f"{path}/", f"{self.folder}/")
        text = re.sub(r"\b(995|1110|1111|110)\b", lambda it: str(ports[it[0]]), text)
        return write(f"{self.folder}/{name}", "\n".join([text, *more, ""]))

    def begin_nginx(self, path):
        """nginx with a recipe's file, as its own file includes that."""
        main = "load_module /usr/lib/nginx/modules/ngx_stream_module.so;\ndaemon off;\n"
        main += f"pid {self.folder}/nginx.pid;\nevents {{}}\ninclude {path};\n"
        self.runs("nginx", "-e", "stderr", "-c", write(f"{self.folder}/main.conf", main))


class Proxies(Network):
    """TLS in front, by each of the recipes."""

    def begin_stunnel(self, ports):
        self.runs("stunnel4", self.recipe("stunnel.conf", ports))

    def begin_haproxy(self, ports):
        both = read_text(f"{self.folder}/pop.pem") + read_text(f"{self.folder}/pop.key")
        write(f"{self.folder}/pop.pem.both", both)
        path = self.recipe("haproxy.cfg", ports)
        write(path, read_text(path).replace("/pop.pem", "/pop.pem.both"))
        self.runs("haproxy", "-db", "-f", path)

    def begin_dovecot(self, ports):
        names = [f"{self.folder}/{it}" for it in ("clerks", "routes")]
        write(names[0], "ann:{PLAIN}s3 cret\n")
        form = "{}:::::::nopassword=y proxy=y host=127.0.0.1 port={} destuser=%n/%d\n"
        write(names[1], "".join(form.format(it, ports["1110"]) for it in self.maildrops))
        for it in names:
            os.chmod(it, 0o644)
        more = [f"base_dir = {self.folder}/dovecot", f"log_path = {self.folder}/log"]
        path = self.recipe("dovecot.conf", ports, *more)
        links = listen(read_text(self.recipe("dovecot.socket", ports)))
        # As systemd hands them over, from descriptor 3 on.
        begin = f"LISTEN_PID=$$ LISTEN_FDS={len(links)} exec dovecot -F -c {path}"
        for number, link in enumerate(links, 3):
            begin = f"exec {number}<&{link.fileno()}; {begin}"
        self.runs("sh", "-c", begin, pass_fds=[it.fileno() for it in links])
        for it in links:
            it.close()

    def log_in(self, port, maildrop, source=CLERK):
        """A connection over TLS on which ann has sent her password, and the reply to that."""
        link = self.tls.wrap_socket(self.connect(port, source), server_hostname="pop.office.test")
        self.addCleanup(link.close)
        lines = link.makefile("rb")
        lines.readline()
        for line in (f"USER ann/{maildrop}", "PASS s3 cret"):
            link.sendall(f"{line}\r\n".encode())
            reply = lines.readline()
        return link, reply.decode()

    def serve(self, *words):
        """A server, in a folder of its own, with a maildrop for each proxy and kind of link."""
        with open(f"{self.folder}/events", "ab") as log:
            folder = tempfile.mkdtemp(dir=self.folder)
            server = Server(self.program, folder, "--log", *words, stderr=log)
        self.addCleanup(server.end)
        server.administer("PUT", "/clerks/ann", "pass s3 cret")
        server.administer("PUT", "/policy", POLICY)
        for it in self.maildrops:
            server.administer("PUT", f"/maildrops/{it}")
            if it.startswith("retr"):
                server.drop(f"{it}.note.d1.eml", LARGE)
        server.wait_for_spool()
        return server

    def begin(self):
        """Begins all proxies; gives each one's port."""
        needs("stunnel4", "nginx", "haproxy", "dovecot", "tc")
        self.certificate()
        self.tls = ssl.create_default_context(cafile=f"{self.folder}/pop.pem")
        self.maildrops = [f"{kind}-{it}" for it in PROXIES for kind in ("idle", "retr")]
        with_line, without, found = self.serve("--proxy-protocol"), self.serve(), {}
        for number, name in enumerate(PROXIES):
            server = without if name == "dovecot" else with_line
            found[name] = 9950 + number
            ports = {"995": found[name], "1110": server.pop, "1111": server.admin, "110": 9110}
            if name == "nginx":
                self.begin_nginx(self.recipe("nginx.conf", ports))
            else:
                getattr(self, f"begin_{name}")(ports)
        for name, port in found.items():
            wait_for(lambda: not socket.socket().connect_ex((OFFICE, port)), f"no {name}", 60)
        return found

    def is_free(self, port, maildrop):
        """Whether ann is let in to a maildrop, from another machine."""
        link, reply = self.log_in(port, maildrop, OFFICE)
        if reply.startswith("+OK"):
            link.sendall(b"QUIT\r\n")
            link.recv(100)
        else:
            wants("[IN-USE]" in reply, True)
        link.close()
        return reply.startswith("+OK")

    def test_a_client_that_is_cut_off_is_gone_within_two_minutes(self):
        """Behind each proxy the maildrop of a clerk whose link is cut, idle or in the midst of a
        RETR, is free within 120 s. The log has clients' own addresses, but behind Dovecot."""
        self.set_retries()
        ports = self.begin()
        held = {it: ports[it.partition("-")[2]] for it in self.maildrops}
        links = {it: self.log_in(port, it) for it, port in held.items()}
        wants({it: reply[:3] for it, (_, reply) in links.items()}, dict.fromkeys(held, "+OK"))
        form = r" client=(\S+) clerk=ann maildrop=idle-(\w+) .* answer=accepted"
        seen = {name: it for it, name in re.findall(form, read_text(f"{self.folder}/events"))}
        wants({it for name, it in seen.items() if name != "dovecot"}, {CLERK})
        wants(seen.keys(), set(PROXIES))
        self.read([link for it, (link, _) in links.items() if it.startswith("retr")])
        cut = "table inet cut { chain out { type filter hook output priority 0; policy drop; }\n"
        cut += "chain in { type filter hook input priority 0; policy drop; }\n}\n"
        self.at_clerk("nft", "-f", write(f"{self.folder}/cut", cut))
        start, freed = time.monotonic(), {}
        while held and time.monotonic() < start + LIMIT:
            for maildrop, port in [*held.items()]:
                if self.is_free(port, maildrop):
                    freed[maildrop] = time.monotonic() - start
                    del held[maildrop]
            time.sleep(2)
        wants([*held], [])
        wants({it: after for it, after in freed.items() if after > 120}, {})

    def read(self, links):
        """Has clients in the midst of a RETR over a slow line, each of which goes on reading."""
        got = {link: 0 for link in links}

        def go_on(link):
            with contextlib.suppress(OSError):
                while octets := len(link.recv(4096)):
                    got[link] += octets

        must(*"tc qdisc add dev office root tbf rate 1mbit burst 16kbit latency 400ms".split())
        for link in links:
            link.sendall(b"RETR 1\r\n")
        for link in links:
            threading.Thread(target=go_on, args=[link], daemon=True).start()
        wait_for(lambda: min(got.values()) > 20_000, "no reply", 60)
        wants(max(got.values()) < len(LARGE) - 100_000, True)

    def set_retries(self):
        """Sets what tls.md says of the system's settings, if it does."""
        text = read_text(f"{self.packaging}/recipes/tls.md")
        for it in re.findall(r"net\.ipv4\.tcp_retries2 ?= ?(\d+)", text)[:1]:
            write("/proc/sys/net/ipv4/tcp_retries2", it)


class Limits(Network):
    """What one address may do, and what the office's own may."""

    def ours(self, name, ports=None):
        """A recipe's file in which OTHER is the office's own address."""
        path = self.recipe(name, ports or {it: it for it in ("995", "1110", "1111", "110")})
        return write(path, read_text(path).replace("192.0.2.0/24", OTHER))

    def count(self, source, number, begin):
        """How many of so many connections of an address, held open, are let in, as far as this."""
        links = []
        for _ in range(number):
            with contextlib.suppress(OSError):
                link = self.connect(995, source)
                links += [begin(link), link]
        for it in links:
            it.close()
        return len(links) // 2

    def test_nftables_limits_strangers_and_not_the_office(self):
        """By nftables.conf one address has eight connections at once and 60 new ones a minute;
        the office's own has the 64 that popbox has places for, and 160 in a minute."""
        server = self.enterContext(socket.create_server((OFFICE, 995), backlog=1000))
        must("nft", "-f", self.ours("nftables.conf"))
        count = lambda source, number: self.count(source, number, lambda _: server.accept()[0])
        wants((count(CLERK, 12), count(OTHER, 64)), (8, 64))
        # The kernel looks once a tick which connections are over.
        several = lambda source: sum(time.sleep(0.02) or count(source, 1) for _ in range(160))
        # 12 of the 60 were had above, and a minute brings one a second.
        wants(several(OTHER), 160)
        wants(several(CLERK) in range(45, 80), True)

    def test_nginx_limits_strangers_and_not_the_office(self):
        """By nginx.conf one address has eight connections at once; the office's own has 64."""
        needs("nginx")
        self.certificate()
        tls = ssl.create_default_context(cafile=f"{self.folder}/pop.pem")
        tls.check_hostname = False
        back = self.enterContext(socket.create_server(("127.0.0.1", 1110), backlog=1000))
        self.begin_nginx(self.ours("nginx.conf"))
        wait_for(lambda: not socket.socket().connect_ex((OFFICE, 995)), "no nginx", 60)
        found = [self.count(source, 64, tls.wrap_socket) for source in (CLERK, OTHER)]
        wants((back.fileno() > 0, found), (True, [8, 64]))

    def test_nftables_keeps_the_administration_for_two_users(self):
        """By nftables-admin.conf root and popbox-admin, here `daemon`, reach the administration's
        port, and no other user."""
        needs("setpriv", "curl")
        path = f"{self.packaging}/recipes/nftables-admin.conf"
        own = write(f"{self.folder}/own", read_text(path).replace('"popbox-admin"', '"daemon"'))
        server = Server(self.program, self.folder)
        self.addCleanup(server.end)
        url = f"http://127.0.0.1:{server.admin}/maildrops"
        words = ["--clear-groups", "curl", "-sS", "-o", "/dev/null", "-w", "%{http_code}", url]
        ask = lambda: [
            run("setpriv", f"--reuid={it}", *words)[1] for it in ("root", "daemon", "nobody")
        ]
        wants(ask(), ["200", "200", "200"])
        write(own, read_text(own).replace("1111", str(server.admin)))
        must("nft", "-f", own)
        wants(ask(), ["200", "200", "000"])

    def test_fail2ban_bans_wrong_secrets_alone(self):
        """By the jail twelve wrong secrets in ten minutes shut an address out; neither twelve
        right ones at a maildrop that another program has open, nor any of the office's own."""
        needs("fail2ban-server")
        log = self.enterContext(open(f"{self.folder}/events", "wb"))
        words = ["--log", "--listen", OFFICE]
        server = Server(self.program, self.folder, *words, stderr=log)
        self.addCleanup(server.end)
        for path, body in (("maildrops/orders", None), ("clerks/ann", "pass s3 cret")):
            server.administer("PUT", f"/{path}", body)
        server.administer("PUT", "/policy", POLICY)
        ports = {"995": server.pop, "1110": server.pop, "1111": server.admin, "110": server.pop}
        folder = f"{self.folder}/fail2ban"
        shutil.copytree("/etc/fail2ban", folder)
        shutil.copy(self.recipe("fail2ban.conf", ports), f"{folder}/filter.d/popbox.conf")
        jail = read_text(self.ours("fail2ban-jail.conf", ports))
        more = f"[popbox]\nbackend = auto\nlogpath = {self.folder}/events\n[sshd]\nenabled = no\n"
        write(f"{folder}/jail.d/popbox.conf", jail)
        write(f"{folder}/jail.d/popbox.local", more)
        write(f"{folder}/fail2ban.local", "[Definition]\ndbfile = None\n")
        files = ["-c", folder, "-s", f"{self.folder}/sock", "-p", f"{self.folder}/pid"]
        self.runs("fail2ban-server", "-f", *files, "--logtarget", "stderr", "-x", "start")
        ask = lambda *words: run("fail2ban-client", *files, *words)[1]
        wait_for(lambda: "popbox" in ask("status"), "no jail", 60)
        said = lambda word: int(re.search(rf"{word}:\s*(\d+)", ask("status", "popbox"))[1])
        self.say(server.pop, CLERK, "s3 cret")
        for _ in range(12):
            wants("[IN-USE]" in self.say(server.pop, CLERK, "s3 cret"), True)
            wants(self.say(server.pop, OTHER, "wrong"), "-ERR login failed\r\n")
        time.sleep(5)
        wants((said("Total failed"), said("Currently banned")), (0, 0))
        # Three a connection: the third one's refusal says that the connection is closed.
        for _ in range(4):
            with contextlib.suppress(OSError):
                self.say(server.pop, CLERK, *["wrong"] * 3)
        wait_for(lambda: said("Currently banned"), "no ban", 60)
        wait_for(lambda: self.is_refused(server.pop, CLERK), "it is let in", 60)
        wants("[IN-USE]" in self.say(server.pop, OTHER, "s3 cret"), True)

    def is_refused(self, port, source):
        with contextlib.suppress(ConnectionRefusedError):
            return self.connect(port, source).close()
        return True

    def say(self, port, source, *secrets):
        """The reply to the last of these secrets of ann's; the connection stays open."""
        link = self.connect(port, source)
        lines = link.makefile("rb")
        lines.readline()
        for secret in secrets:
            link.sendall(f"USER ann/orders\r\nPASS {secret}\r\n".encode())
            reply = [lines.readline().decode() for _ in range(2)][1]
        return reply


class Postfix(Network):
    """Mail by postfix.md."""

    def commands(self, folder, port):
        """The first three of its commands, for this office: what sets Postfix up, what lists the
        maildrops, and what makes the sorting."""
        rules = f"{self.folder}/sorting.toml"
        program = f'POPBOX_SORTING={rules} exec {self.packaging}/popbox-deliver "$@"'
        text = read_text(f"{self.packaging}/recipes/postfix.md")
        for old, new in (
            ("/etc/postfix", folder), ("postconf -", f"postconf -c {folder} -"),
            ("user=popbox-spool", "user=nobody"), ("/var/lib/popbox/spool", self.spool),
            ("systemctl restart postfix", f"postfix -c {folder} start"),
            ("/usr/lib/popbox/popbox-deliver", self.command("deliver", program)),
            ("    postmap", f"    postmap -c {folder}"), ("1111", str(port)),
            ("    postfix reload", f"    postfix -c {folder} reload"),
            ("/etc/popbox/sorting.toml", rules),
        ):
            text = text.replace(old, new)
        return re.findall(r"\n\n((?:    .*\n)+)", text)[:3]

    def test_mail_comes_in_sorted_also_to_a_maildrop_that_was_just_added(self):
        """Mail that is sent as soon as the table has a maildrop comes in, by the class that the
        sorting says, and none bounces."""
        needs("postfix", "sendmail", "curl")
        os.chmod(self.folder, 0o755)
        os.chmod(self.spool, 0o777)
        folder, home = f"{self.folder}/postfix", f"{self.folder}/queue"
        shutil.copytree("/etc/postfix", folder)
        for it in (f"{self.folder}/data", home):
            os.mkdir(it)
        shutil.chown(f"{self.folder}/data", "postfix")
        server = self.office()
        setup, listing, sorting = self.commands(folder, server.admin)
        own = f"queue_directory={home} data_directory={self.folder}/data inet_interfaces=127.0.0.1"
        own += f" maillog_file_prefixes={self.folder} maillog_file={self.folder}/log"
        must("postconf", "-c", folder, "-e", *own.split())
        must("postconf", "-c", folder, "-F", "*/*/chroot=n")
        self.addCleanup(run, "postfix", "-c", folder, "stop")
        must("sh", "-ec", setup + listing + sorting)
        for name in ["orders", *(f"m{number}" for number in range(4))]:
            server.administer("PUT", f"/maildrops/{name}")
            must("sh", "-ec", listing)
            for subject in ("Subject:your\tinvoice", "Subject: a chair"):
                words = ["sendmail", "-C", folder, "-f", "a@b.test", f"{name}@office.test"]
                wants(run(*words, said=f"{subject}\n\nx\n"), (0, "", ""))
            held = lambda: sorted(server.administer("GET", f"/maildrops/{name}").split()[::2])
            wait_for(lambda: held() == ["invoice.1", "note.1"], f"no mail for {name}", 20)
