"""What strangers, other sites and broken requests come to at nginx's site, and what the page is
answered. What the companions answer to broken requests, tools/check-scripts tries."""

import contextlib
import os
import ssl
import subprocess
import threading
import time

from clients import stopped, wait_for
from place import COOKIE, DRAFT, OFFICE, OWN, PASSWORD, PageCase, make_key

# What the page asks, with the methods that it uses.
ROUTES = [
    ("GET", "/"), ("GET", "/js/page.js"), ("GET", "/page.css"), ("GET", "/api/policy"),
    ("GET", "/api/maildrops"), ("PUT", "/api/maildrops/sales"), ("DELETE", "/api/clerks/old"),
    ("POST", "/review/written"), ("GET", "/policies"), ("POST", "/policies?old=0"),
]
GUARDED = ROUTES[3:]


class Door(PageCase):
    def setUp(self):
        super().setUp()
        self.place = self.site()

    def now(self):
        return self.place.get("/policy"), self.place.get("/clerks/old")

    @contextlib.contextmanager
    def unchanged(self):
        """Fails unless the policy and the clerk stay as they are, and popbox is asked nothing."""
        before, seen = self.now(), self.place.seen()
        yield
        self.assertEqual((self.place.seen(), self.now()), (seen, before))
        self.assertEqual(self.place.kept(), 0)

    def refuses(self, status, routes, *headers, **how):
        for method, path in routes:
            with self.subTest(f"{method} {path} {headers}"):
                self.assertEqual(self.place.asked(method, path, *headers, **how)[0], status)

    def test_a_stranger_has_no_octet(self):
        """Nothing is answered without the password, and a wrong one a second later."""
        with self.unchanged():
            self.refuses(401, ROUTES, *OWN, user="")
        began = time.monotonic()
        self.refuses(401, ROUTES[:1], user="stranger")
        self.assertGreaterEqual(time.monotonic() - began, 1)

    def test_guesses_are_slowed(self):
        """From one address ten guesses are answered, then one in six seconds, a right one too; who
        had the right password before, and another address, aren't kept waiting."""
        asks, found = ["curl", "-sk", "-o", "/dev/null", "-w", "%{http_code}"], []

        def guess(number, *more, address="127.0.0.9"):
            words = [*asks, "--interface", address, "--user", f"admin:{number}", *more]
            found.append(subprocess.check_output([*words, self.place.url], text=True))

        began = time.monotonic()
        guesses = [threading.Thread(target=guess, args=(n,)) for n in range(60)]
        for it in guesses:
            it.start()
        for it in guesses:
            it.join()
        most = 11 + (time.monotonic() - began) / 6
        self.assertEqual(set(found), {"401", "503"})
        self.assertLessEqual(found.count("401"), most)
        guess(PASSWORD)
        guess(PASSWORD, "--cookie", f"popbox={COOKIE}")
        guess(PASSWORD, "--cookie", "popbox=COOKIE")
        guess(PASSWORD, address="127.0.0.10")
        self.assertEqual(found[-4:], ["503", "200", "503", "200"])
        said = self.place.said(self.place.head("GET", "/", known=False) + b"\r\n")
        self.assertIn(f"Set-Cookie: popbox={COOKIE}; Secure; HttpOnly; SameSite=Strict", said)
        for path in ("/", "/favicon.ico", "/page.css", "/nothing", "/api/policy", "/policies"):
            said = self.place.said(self.place.head("GET", path, known=False, user="") + b"\r\n")
            self.assertNotIn(COOKIE, said)

    def test_another_site_is_refused(self):
        """A request that another site's page has a browser send changes and reads nothing."""
        with self.unchanged():
            for headers in (
                ["Origin: https://evil.test"], ["Origin: null"],
                [f"Origin: {self.place.url}.evil.test"],
                [f"Origin: http://localhost:{self.place.port}"],
                ["Sec-Fetch-Site: cross-site"], ["Sec-Fetch-Site: same-site"],
                ["Sec-Fetch-Site: none"], ["Origin: https://evil.test", *OWN],
            ):
                self.refuses(403, GUARDED, *headers)
            # Without the header that a form, an image or a script can't send.
            self.refuses(403, GUARDED, *OWN, page=False)
            # The preflight of one that would send it.
            ask = ["Access-Control-Request-Method: PUT", "Origin: https://evil.test"]
            self.refuses(403, [("OPTIONS", "/api/policy")], *ask, page=False)
        own = self.place.asked("GET", "/api/policy", f"Origin: {self.place.url}", *OWN)
        self.assertEqual(own, (200, self.now()[0]))

    def test_another_name_gets_nothing(self):
        """A name that somebody binds to this address is answered nothing, and has no handshake."""
        with self.unchanged():
            for host in ("evil.test", "127.0.0.1", "localhost.evil.test"):
                for path in ("/api/policy", "/"):
                    self.assertEqual(self.place.asked("GET", path, host=host), (0, ""))
            with self.assertRaises(ssl.SSLError) as error:
                self.place.said(b"GET / HTTP/1.1\r\nHost: localhost\r\n\r\n", host="evil.test")
            self.assertEqual(error.exception.reason, "TLSV1_UNRECOGNIZED_NAME")

    def test_a_request_that_is_cut_is_none(self):
        """Of a request whose body doesn't come whole nothing is done."""
        force = self.now()[0].encode()
        with self.unchanged():
            for method, path, octets in (
                ("PUT", "/api/clerks/old", b"pass another"),
                ("POST", f"/policies?old={len(force)}", force + DRAFT.encode()),
                ("POST", "/review/written", DRAFT.encode()),
            ):
                head = self.place.head(method, path, f"Content-Length: {len(octets)}") + b"\r\n"
                for much in (0, 1, len(octets) // 2, len(octets) - 1):
                    self.place.said(head + octets[:much], cut=True)
            time.sleep(2)

    def test_a_request_in_chunks_is_made_whole(self):
        """popbox and the companions get a body of chunks as one."""
        for method, path, chunks, found in (
            ("PUT", "/api/clerks/eve", b"5\r\npass \r\n3\r\ne v\r\n", ("201", "added\n")),
            ("POST", "/review/written", b"%x\r\n%s\r\n" % (len(OFFICE), OFFICE.encode()),
             ("200", self.now()[0])),
        ):
            head = self.place.head(method, path, "Transfer-Encoding: chunked")
            said = self.place.said(head + b"\r\n" + chunks + b"0\r\n\r\n")
            self.assertEqual((said.split()[1], said.partition("\r\n\r\n")[2]), found)

    def test_other_paths_and_methods_are_refused(self):
        """Only what the page needs goes through."""
        with self.unchanged():
            for path in (
                "/api/", "/api", "/api/policy?x", "/api/policy/", "/api/../page.js/",
                "/api//policy/x", "/api/clerks/%61nn/x", "/api/clerks/UP", "/api/maildrops/a.b",
                "/api/clerks/a%0aDELETE", f"/api/clerks/{'a' * 33}", "/api/groups",
                "/api/explain/ann/orders/note/read", "/api/sessions/1/2", "/nginx.conf",
                "/../nginx.conf", "/answer-review", "/page/", "/policies/../users", "/js/",
                "/js/../nginx.conf", "/policies/x.toml", f"/policies/{'a' * 16}.toml",
                f"/policies/{'a' * 16}", "/policies/..%2f..%2fusers.toml", "/policies/", "/review/",
                "/review/written/x", "/checks/door.py",
            ):
                with self.subTest(path):
                    self.assertIn(self.place.asked("GET", path)[0], (400, 404))
            for method, path in (
                ("PUT", "/api/policy"), ("DELETE", "/api/policy"), ("POST", "/api/clerks/old"),
                ("PATCH", "/api/clerks/old"), ("PUT", "/api/sessions/1"), ("HEAD", "/api/policy"),
                ("GET", "/review/written"), ("PUT", "/policies"), ("DELETE", "/policies"),
                ("POST", "/review/other"), ("PUT", "/js/page.js"), ("POST", "/"), ("TRACE", "/"),
            ):
                with self.subTest(f"{method} {path}"):
                    self.assertIn(self.place.asked(method, path, body=b"x")[0], (403, 404, 405))
        self.assertEqual(self.place.asked("POST", "/review/written", body=b"#" * 2_100_000)[0], 413)
        self.assertEqual(self.place.asked("POST", "/review/written", body=b"\xff\xfe\x00")[0], 422)

    def test_heads_keep_other_sites_out(self):
        """Each answer forbids scripts of others, frames, and to be kept."""
        for path in ("/", "/js/page.js", "/api/maildrops", "/policies", "/nothing"):
            said = self.place.said(self.place.head("GET", path) + b"\r\n").lower()
            for wanted in (
                "content-security-policy: default-src 'none'; script-src 'self'; ",
                "frame-ancestors 'none'; require-trusted-types-for 'script'; trusted-types 'none'",
                "x-content-type-options: nosniff", "cross-origin-resource-policy: same-origin",
                "cross-origin-opener-policy: same-origin", "cache-control: no-store",
                "strict-transport-security: max-age=", "server: nginx\r\n",
            ):
                self.assertIn(wanted, said)
            self.assertNotIn("access-control", said)

    def test_the_log_has_who_did_what_and_no_password(self):
        """A line says who asked what; no password and no secret is in a log or a file."""
        place = self.place
        place.asked("PUT", "/api/clerks/gil", *OWN, body=b"pass a good one")
        place.asked("DELETE", "/api/clerks/gil", *OWN)
        place.asked("PUT", "/api/clerks/gil", *OWN, body=b"pass " + b"x" * 70000)
        wait_for(lambda: "DELETE" in place.read("access.log"), "the log has no line", 10)
        lines = [it.partition(" 127.0.0.1 ")[2] for it in place.read("access.log").splitlines()]
        told = ["admin PUT /api/clerks/gil 201", "admin DELETE /api/clerks/gil 200"]
        self.assertEqual(lines[:2], told)
        told = place.read("access.log") + place.read("error.log") + place.read("serve.log")
        for word in ("a good one", PASSWORD, "Authorization", "xxxx"):
            self.assertNotIn(word, told)
        self.assertEqual(os.listdir(f"{place.folder}/client_body"), [])

    def test_a_help_desk_may_do_less(self):
        """Who is named in the site's map sets clerks, and changes nothing else."""
        place, seen = self.place, self.place.seen()
        for method, path in (
            ("PUT", "/api/maildrops/sales"), ("DELETE", "/api/maildrops/support"),
            ("DELETE", "/api/sessions/1"), ("POST", "/policies?old=0"),
        ):
            found = place.asked(method, path, *OWN, user="desk")
            self.assertEqual(found, (403, "not yours to change\n"))
        self.assertEqual(place.seen(), seen)
        told = place.asked("PUT", "/api/clerks/gil", *OWN, user="desk", body=b"pass x")
        self.assertEqual(told, (201, "added\n"))
        self.assertEqual(place.asked("GET", "/api/policy", user="desk"), (200, self.now()[0]))

    def at_once(self, count, ask, go_on):
        """The statuses of requests at once; three are refused before `go_on`."""
        found = []
        asks = [threading.Thread(target=lambda: found.append(ask()[0])) for _ in range(count)]
        for it in asks:
            it.start()
        wait_for(lambda: len(found) == 3, "three are not refused", 60)
        self.assertEqual(found, [503, 503, 503])
        go_on()
        for it in asks:
            it.join()
        self.assertEqual(sorted(found), [200] * (count - 3) + [503] * 3)

    def test_six_at_once_reach_popbox(self):
        """popbox has eight places, of which the page takes six at most."""
        with contextlib.ExitStack() as still:
            still.enter_context(stopped(self.place.server))
            self.at_once(9, lambda: self.place.asked("GET", "/api/policy", *OWN), still.close)

    def test_four_reviews_are_made_at_once(self):
        """A fifth review is refused until one of four is done."""
        go = f"{self.folder}/go"
        text = f'#!/bin/bash\nuntil [[ -e {go} ]]; do sleep 0.1; done\nexec {self.program} "$@"\n'
        self.place.reviews = self.write("waits", text, 0o755)
        self.place.stop("review")
        self.place.start_companion("review")
        ask = lambda: self.place.asked("POST", "/review/written", *OWN, body=OFFICE.encode())
        self.at_once(7, ask, lambda: os.mkdir(go))

    def test_an_address_that_asks_without_end_is_refused(self):
        """It gets 503 after 500 requests, and another address is answered meanwhile."""
        url = f"{self.place.url}/page.css"
        words = ["curl", "-k", "--no-progress-meter", "-o", "/dev/null", "-w", "%{http_code}\n"]
        has = ["--cookie", f"popbox={COOKIE}"]
        many = ["--http2", "--parallel", "--parallel-max", "120", f"{url}?[1-2500]"]
        with subprocess.Popen([*words, *has, *many], stdout=subprocess.PIPE, text=True) as asks:
            told = {asks.stdout.readline().strip()}
            while "503" not in told and (line := asks.stdout.readline()):
                told.add(line.strip())
            has = ["--interface", "127.0.0.2", "--user", f"admin:{PASSWORD}", url]
            ran = subprocess.run([*words, *has], capture_output=True, text=True, check=True)
            asks.kill()
        self.assertEqual((told, ran.stdout), ({"401", "503"}, "200\n"))

    def test_an_administrator_has_a_certificate(self):
        """By the site's comment a certificate stands in the password's place."""
        place, text = self.place, self.place.read("nginx.conf")
        make_key(place.folder, "ann", "ann")
        for old, new in (
            ('auth_basic "popbox"', "auth_basic off"), ("$remote_user", "$ssl_client_s_dn"),
            ("#ssl_client_certificate", "ssl_client_certificate"),
            ("/etc/ssl/certs/popbox-admins.pem", f"{place.folder}/ann.pem"),
            ("#ssl_verify_client", "ssl_verify_client"),
        ):
            self.assertIn(old, text)
            text = text.replace(old, new)
        with open(f"{place.folder}/nginx.conf", "w", encoding="utf-8") as file:
            file.write(text)
        place.stop("nginx")
        place.start_nginx()
        words = ["curl", "-sk", "-H", "X-Popbox-Page: 1", "-o", "/dev/null", "-w", "%{http_code}"]
        has = ["--cert", f"{place.folder}/ann.pem", "--key", f"{place.folder}/ann.key"]
        for more, status in (([], "400"), (["--user", f"admin:{PASSWORD}"], "400"), (has, "200")):
            told = subprocess.check_output([*words, *more, f"{place.url}/api/policy"], text=True)
            self.assertEqual(told, status)
        wait_for(lambda: " CN=ann GET " in place.read("access.log"), "the log has no CN", 10)

    def test_of_four_at_once_one_is_put_in_force(self):
        """Who is later is told that another policy is in force, and overwrites nothing."""
        force = self.now()[0]
        drafts = [OFFICE.replace("bob-orders", f"bob-{n}") for n in range(4)]
        runs = []
        for n, draft in enumerate(drafts):
            words = ["curl", "-sk", "--user", f"admin:{PASSWORD}", "-H", "X-Popbox-Page: 1"]
            words += ["-o", "/dev/null", "-w", "%{http_code}"]
            words += ["--data-binary", f"@{self.write(str(n), force + draft)}"]
            words.append(f"{self.place.url}/policies?old={len(force)}")
            runs.append(subprocess.Popen(words, stdout=subprocess.PIPE, text=True))
        told = [run.communicate()[0] for run in runs]
        self.assertEqual(sorted(told), ["200", "409", "409", "409"])
        self.assertIn(f"bob-{told.index('200')}", self.now()[0])
        self.assertEqual(self.place.kept(), 1)
