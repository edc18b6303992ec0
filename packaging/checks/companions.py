"""The page's companions, answer-review and answer-policies, as nginx asks them. What nginx and the
page do with them, page/check tries by hand."""

import hashlib
import os

from clients import POLICY, wants
from harness import ScriptCase, run, write

# By this nobody may remove.
READ_ONLY = POLICY.replace(', "remove"', "")
REVIEW, POLICIES = "answer-review", "answer-policies"


def netstring(**headers):
    """The head of an SCGI request."""
    text = b"".join(f"{name}\0{value}\0".encode() for name, value in headers.items())
    return b"%d:%s," % (len(text), text)


class Companions(ScriptCase):
    def setUp(self):
        super().setUp()
        self.port, self.kept, self.work = 1, f"{self.folder}/kept", f"{self.folder}/tmp"
        for folder in (self.kept, self.work):
            os.mkdir(folder)

    def answered(self, name, request):
        """The status and the body that a companion answers, or nothing."""
        env = {"POPBOX_PROGRAM": self.program, "POPBOX_KEEP": self.kept, "TMPDIR": self.work}
        env["POPBOX_ADMIN_PORT"] = str(self.port)
        env["POPBOX_SET_POLICY"] = f"{self.packaging}/popbox-set-policy"
        env["POPBOX_DELIVER"] = f"{self.packaging}/popbox-deliver"
        env["POPBOX_SORTING"] = f"{self.packaging}/sorting.toml"
        _, said, _ = self.script(f"../page/{name}", said=request, env=env)
        wants(os.listdir(self.work), [])
        head, _, body = said.partition("\r\n\r\n")
        return (int(head.split()[1]), body) if head else None

    def ask(self, name, what, *texts, **headers):
        """What a companion answers to a request with one text, or with the one in force and a
        draft."""
        body = "".join(texts).encode()
        headers |= {"OLD": len(texts[0].encode())} if len(texts) > 1 else {}
        request = netstring(CONTENT_LENGTH=len(body), SCGI=1, WHAT=what, **headers) + body
        return self.answered(name, request)

    def test_a_companion_answers_no_broken_request(self):
        """A broken request is refused, and what it names isn't run, read or kept."""
        # An index in bash's arithmetic runs what it names.
        command = f"0+a[$(touch {self.folder}/pwned)]"
        for name, what in ((REVIEW, "written"), (POLICIES, "set")):
            for broken in (
                b"GET / HTTP/1.0\r\n\r\n", b"99999:", b"", b"0:,", b"-1:x,", b"7:SCGI\x001\x00;",
                netstring(CONTENT_LENGTH=99, SCGI=1, WHAT=what) + b"[[rule]]",
            ):
                wants((name, broken, self.answered(name, broken)), (name, broken, None))
            for length in (command, "-1", "1e3", "", "99999999"):
                request = netstring(CONTENT_LENGTH=length, SCGI=1, WHAT=what, OLD=0) + b"x"
                wants((length, self.answered(name, request)), (length, (411, "length required\n")))
            request = netstring(CONTENT_LENGTH=2_097_153, SCGI=1, WHAT=what) + b"x"
            wants(self.answered(name, request), (413, "too large\n"))
            for other in ("../../etc/passwd", command, "", "OLD", ".toml", "*"):
                wants((other, self.ask(name, other, "")), (other, (404, "not found\n")))
        for old in ("2", command, "", "-1", f"$(touch {self.folder}/pwned)"):
            for name, what in ((REVIEW, "changes"), (REVIEW, "table"), (POLICIES, "set")):
                told = self.ask(name, what, "x", OLD=old)
                wants((old, what, told), (old, what, (400, "no OLD\n")))
        wants(os.path.exists(f"{self.folder}/pwned"), False)
        wants(os.listdir(self.kept), [])

    def test_a_companion_reviews_as_popbox_does(self):
        """answer-review answers what review-policy and check-policy print, its faults too, and the
        classes that the sorting gives."""
        write(f"{self.folder}/old", POLICY)
        draft = write(f"{self.folder}/draft", READ_ONLY)
        popbox = lambda *words: "".join(run(self.program, *words, cwd=self.folder)[1:])
        review = lambda *words: self.ask(REVIEW, *words)
        both = ["review-policy", "--against", "old"]
        told = popbox(*both, "--format", "json", "draft")
        wants(review("table", POLICY, READ_ONLY), (200, told))
        told = popbox(*both, "--only", "changes", "--verbose", "draft")
        wants("remove: allow by rule all -> deny by rule default" in told, True)
        wants(review("changes", POLICY, READ_ONLY), (200, f"{told}class note\n"))
        written = popbox("check-policy", "--write", "draft")
        wants(review("written", f"# Nobody may remove.\n{READ_ONLY}"), (200, written))
        # A text that is no policy, with popbox's own words.
        bad = READ_ONLY.replace('"allow"', '"maybe"')
        write(draft, bad)
        wants(review("written", bad), (422, popbox("check-policy", "--verbose", "draft")))
        wants(review("changes", POLICY, bad)[0], 422)
        for text in ("x", "#a\nmaildrop add x\nconnect", "\0"):
            wants((text, review("written", text)[0]), (text, 422))
        wants(review("written", "# a\r\n# b\\\n"), (200, ""))

    def test_a_companion_puts_a_policy_in_force(self):
        """answer-policies sets a policy only in the place of the one that was looked at, keeps
        that, and shows what it kept and nothing else that lies there."""
        server = self.office()
        self.port = server.admin
        policies = lambda *words, **headers: self.ask(POLICIES, *words, **headers)
        in_force = lambda: server.administer("GET", "/policy")
        first = in_force()
        wants(policies("list", ""), (200, ""))
        told = "popbox-set-policy: another policy is in force (nothing was changed)\n"
        for old in ("", READ_ONLY, f"{first}\n"):
            wants((old, policies("set", old, READ_ONLY)), (old, (409, told)))
        for draft, words in (
            (READ_ONLY.replace('"allow"', '"maybe"'), "rule 1: "),
            ("# Nobody.\n", "lets nobody open a maildrop"),
        ):
            status, said = policies("set", first, draft)
            wants((draft, status, words in said, in_force()), (draft, 422, True, first))
        status, said = policies("set", first, f"# Why.\n{READ_ONLY}", WHO="eve")
        kept = f"{self.kept}/port-{server.admin}"
        last = f"in force: 1 rules; what was before: {kept}/"
        wants((status, said.startswith(last)), (200, True))
        second = in_force()
        wants((second == first, '"remove"' in second), (False, False))
        # What somebody else put there isn't shown.
        for it in ("x.toml", "2026.toml", "puts", f"{'a' * 17}.toml"):
            write(f"{kept}/{it}x", "x")
            wants((it, policies(it, "")), (it, (404, "not found\n")))
        status, names = policies("list", "")
        was, put = (line.split() for line in names.splitlines())
        wants((status, was[0], put[0], put[3]), (200, "was", "put", "eve"))
        wants(policies(was[2], ""), (200, first))
        # The text with its comments, by the name of what is in force.
        wants(put[2], hashlib.sha256(second.encode()).hexdigest()[:16])
        wants(policies(put[2], ""), (200, f"# Why.\n{READ_ONLY}"))
        wants(policies("set", second, "# Nobody.\n", NOBODY="yes")[0], 200)
        wants(in_force(), "")
