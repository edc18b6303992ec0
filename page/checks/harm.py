"""What means harm, and what fails: HTML in a policy, other sites, a companion that is down, an
answer that is lost, a full house."""

import http.server
import socket
import ssl
import subprocess
import threading
import time

from browsers import FOREIGN
from clients import stopped, wait_for
from place import DRAFT, OFFICE, TOP, PageCase
from selenium.common.exceptions import WebDriverException

HTML = "<img src=x onerror=alert(1)><script>alert(2)</script>"
# The page itself, which no other site can read, as nginx writes it into its log.
PAGE = ("/", "/index.html", "/js/page.js", "/favicon.ico")
EVIL = """<!doctype html><title>evil</title><body><script>
const U = '%s', out = [];
const later = (ms) => new Promise((go) => setTimeout(go, ms));
const run = (name, f) => Promise.resolve().then(f)
  .then((it) => out.push(name + ': ' + it), (error) => out.push(name + ': ' + error.name));
const ask = (path, how) => fetch(U + path, { credentials: 'include', ...how })
  .then((it) => it.type + it.status);
const send = (path, method, how) => ask(path, { method, body: '#', ...how });
const load = (tag, path) => new Promise((go) => {
  const it = document.createElement(tag);
  // What is refused in a frame is another site's empty page.
  it.onload = () => go(it.contentDocument === null ? 'error' : 'loaded');
  it.onerror = () => go('error');
  it.src = U + path;
  document.body.append(it);
});
const submit = () => {
  const form = document.createElement('form'), frame = document.createElement('iframe');
  Object.assign(form, { method: 'post', action: U + '/policies?old=0&nobody=yes', target: 'w' });
  frame.name = 'w';
  document.body.append(form, frame);
  form.submit();
  return later(1000);
};
(async () => {
  await run('GET', () => ask('/api/policy'));
  await run('GET no-cors', () => ask('/api/policy', { mode: 'no-cors' }));
  await run('PUT', () => send('/api/clerks/old', 'PUT'));
  const headers = { 'X-Popbox-Page': '1' };
  await run('PUT header', () => send('/api/clerks/old', 'PUT', { headers }));
  await run('DELETE', () => ask('/api/clerks/old', { method: 'DELETE' }));
  await run('POST no-cors', () => send('/policies?old=0&nobody=yes', 'POST', { mode: 'no-cors' }));
  await run('review no-cors', () => send('/review/written', 'POST', { mode: 'no-cors' }));
  await run('img', () => load('img', '/api/policy'));
  await run('script', () => load('script', '/js/page.js'));
  await run('frame', () => load('iframe', '/'));
  await run('form', submit);
  window.out = out.slice(0, -1);
})();
</script>"""
REFUSED = [
    "GET: TypeError", "GET no-cors: TypeError", "PUT: TypeError", "PUT header: TypeError",
    "DELETE: TypeError", "POST no-cors: TypeError", "review no-cors: TypeError", "img: error",
    "script: error", "frame: error",
]


def serve_evil(place, over_tls):
    """Another site of this machine; gives its port."""
    text = (EVIL % place.url).encode()

    class Handler(http.server.BaseHTTPRequestHandler):
        def do_GET(self):
            self.send_response(200)
            self.send_header("Content-Type", "text/html")
            self.end_headers()
            self.wfile.write(text)

        def log_message(self, *_):
            pass

    server = http.server.ThreadingHTTPServer(("127.0.0.1", 0), Handler)
    if over_tls:
        context = ssl.SSLContext(ssl.PROTOCOL_TLS_SERVER)
        context.load_cert_chain(f"{place.folder}/page.pem", f"{place.folder}/page.key")
        server.socket = context.wrap_socket(server.socket, server_side=True)
    threading.Thread(target=server.serve_forever, daemon=True).start()
    return server.server_address[1]


class Harm(PageCase):
    def setUp(self):
        super().setUp()
        self.place, self.page = self.office()

    def test_html_in_a_policy_is_text(self):
        """What comes from a policy or an address is shown as text, and runs nothing."""
        page = self.page
        page.js("window.hit = 0; window.alert = () => { window.hit = 1; }")
        page.draft(OFFICE.replace('name = "bob-orders"', f"name = '{HTML}'"))
        self.assertIn(HTML, page.text("fault"))
        page.draft(f"# {HTML}\n" + DRAFT)
        page.wait(page.may_be_put, "it can't be put")
        for part in (HTML, f'table/{HTML}/">{HTML}', "table/%/%zz", "policy/rule/x"):
            page.js("location.hash = arguments[0]", f"#{part}")
            page.reload()
        count = "return document.querySelectorAll('img, main script, [onerror]').length"
        self.assertEqual((page.js(count), page.js("return window.hit")), (0, 0))
        # The browser itself makes no HTML of a text.
        with self.assertRaisesRegex(WebDriverException, "Trusted|Sink type"):
            page.js("document.querySelector('h1').innerHTML = '<b>x</b>'")
        self.assertEqual(page.text("status")[:9], "Signed in")

    def test_other_sites_read_and_change_nothing(self):
        """No way that another site's page has reads or changes anything, of the same host too."""
        place, page = self.place, self.page
        plain, secure = serve_evil(place, False), serve_evil(place, True)
        before, seen = place.get("/policy"), place.seen()
        mark = len(place.read("access.log"))
        # The last is of the same site, with which a browser sends the password.
        for url in (
            f"http://127.0.0.1:{plain}", f"http://localhost:{plain}", f"https://localhost:{secure}"
        ):
            page.driver.get(url)
            wait_for(lambda: page.js("return window.out"), f"{url} isn't done", 60)
            self.assertEqual((url, page.js("return window.out")), (url, REFUSED))
        asked = [line.split()[-2:] for line in place.read("access.log")[mark:].splitlines()]
        self.assertEqual({status for path, status in asked if path not in PAGE}, {"403"})
        now = place.seen(), place.get("/policy"), place.kept()
        self.assertEqual(now, (seen, before, 0))

    def test_a_name_bound_anew_gets_no_page(self):
        """A name that somebody binds to nginx's address shows no page."""
        page, refusal = self.page, self.page.driver.refusal
        try:
            page.driver.get(f"https://{FOREIGN}:{self.place.port}/")
            said = page.driver.title
        except WebDriverException as error:
            said = f"{error} {page.js('return document.body.innerText')}"
        self.assertIn(refusal, said)

    def test_a_name_bound_to_popbox_itself_is_refused(self):
        """Nor does a page of a name that is bound to popbox's own port read or change anything."""
        place, page = self.place, self.page
        paths = ("/policy", "/maildrops", "/clerks/old")
        before = [place.get(it) for it in paths]
        page.driver.get(f"http://{FOREIGN}:{place.admin}/policy")
        self.assertIn("another site's request", page.js("return document.body.innerText"))
        page.js(
            "window.out = []; (async () => { for (const [method, path, body] of ["
            "['GET', '/policy'], ['GET', '/clerks'], ['PUT', '/maildrops/evil'],"
            "['PUT', '/clerks/old', 'x'], ['PUT', '/policy', '# x'], ['DELETE', '/clerks/old']])"
            " { const it = await fetch(path, { method, body });"
            " window.out.push(it.status + ' ' + await it.text()); } })()"
        )
        wait_for(lambda: len(page.js("return window.out")) == 6, "it isn't done", 60)
        self.assertEqual(page.js("return window.out"), ["403 another site's request\n"] * 6)
        self.assertEqual([place.get(it) for it in paths], before)

    def test_nobody_else_is_asked(self):
        """The page asks no other site for anything."""
        place, page = self.place, self.page
        page.draft(DRAFT)
        for view in ("table/bob/orders", "maildrops/orders", "clerks", "history"):
            page.view(view)
        page.reload()
        asked = page.driver.urls()
        own = [it for it in asked if it.split("@")[-1].startswith(place.url.split("//")[1])]
        own += [it for it in asked if it.startswith((place.url, "data:", "about:", "chrome:"))]
        self.assertEqual([it for it in asked if it not in own], [])


class Failures(PageCase):
    def setUp(self):
        super().setUp()
        self.place, self.page = self.office()

    def test_no_companion_means_no_table_and_no_change(self):
        """Without a companion there is no table, or no change; the page says so."""
        place, page = self.place, self.page
        place.stop("review")
        page.draft(DRAFT)
        page.says("draft-of", "can't be had")
        self.assertFalse(page.may_be_put())
        page.reload()
        self.assertIn("There is no table", page.text("table-of"))
        self.assertIn("bob-orders", page.text("force"))
        place.start_companion("review")
        page.reload()
        place.stop("policies")
        page.put_in_force("Read back: what was in force still is")
        self.assertNotIn("eve", place.get("/policy"))

    def test_an_answer_that_is_lost_is_read_back(self):
        """If it isn't known whether a policy was put in force, the page asks, and says it."""
        page = self.page
        page.draft(DRAFT)
        page.js(
            "const real = window.fetch; window.fetch = (path, how) => path.startsWith('/policies?')"
            " ? real(path, how).then(() => { throw new TypeError('lost'); }) : real(path, how);"
        )
        page.put_in_force("Read back: the draft is in force")
        self.assertIn("no answer (lost); it may be done or not: look", page.text("status"))
        self.assertIn("eve", self.place.get("/policy"))

    def test_nginx_that_ends_meanwhile_is_said(self):
        """If it can't be asked either, the page says that it isn't known."""
        place, page = self.place, self.page
        page.draft(DRAFT)
        page.wait(page.may_be_put, "it can't be put")
        with stopped(place.server):
            page.click("d-put")
            page.agree()
            time.sleep(3)
            place.stop("nginx")
            page.says("status", "can't be read now: Reload", "it may be done or not: look")
        place.start_nginx()
        time.sleep(3)
        place.wait_for_policies()
        page.reload()
        page.reviewed()
        is_put = "eve" in place.get("/policy")
        self.assertEqual("says what is in force" in page.text("draft-of"), is_put)

    def test_a_full_house_is_waited_for(self):
        """While all of popbox's places are taken, what only reads is asked again."""
        page = self.page
        strangers = [socket.create_connection(("127.0.0.1", self.place.admin)) for _ in range(8)]
        page.js("document.getElementById('status').textContent = ''")
        page.click("reload")
        page.says("status", "asking")
        time.sleep(1)
        self.assertNotIn("as of", page.text("status"))
        for it in strangers:
            it.close()
        page.loaded()

    def test_a_long_draft_is_kept(self):
        """Of 8,399 lines only those in view have a number of their own, and all are kept."""
        page = self.page
        subprocess.run([f"{TOP}/trials/measure", "policies", "--into", self.folder], check=True)
        with open(f"{self.folder}/new.toml", encoding="utf-8") as file:
            text = file.read()
        self.place.stop("review")
        page.draft(text)
        page.js(
            "const it = document.getElementById('draft'); it.focus();"
            "it.setSelectionRange(9999, 9999);"
            "for (let n = 0; n < 6; n++) document.execCommand('insertText', false, 'x');"
        )
        self.assertLess(page.text("gutter").count("\n"), 200)
        kept = "return JSON.parse(localStorage.getItem('popbox.draft') ?? '\"\"').length"
        page.wait(lambda: page.js(kept) == len(text) + 6, "it isn't kept")
        page.driver.refresh()
        page.loaded()
        self.assertEqual(len(page.value("draft")), len(text) + 6)
