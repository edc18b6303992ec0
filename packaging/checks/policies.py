"""popbox-set-policy: how an administrator sets a policy, and goes back."""

import concurrent.futures
import glob
import hashlib
import os
import re

from clients import POLICY, wants
from harness import TIME, ScriptCase, fits, read_text, write

# By this nobody may remove; its front is a comment.
READ_ONLY = "# Nobody may remove.\n" + POLICY.replace(', "remove"', "")
NOTHING = "(nothing was changed)\n"
# What set-policy prints of the change to READ_ONLY, and what the server says after it.
CHANGE = "remove: allow by rule all -> deny by rule default"
ALLOWS, DENIES = "allow by rule all\n", "deny by rule default\n"
ANOTHER = f"popbox-set-policy: another policy is in force {NOTHING}"
# A curl that sets another policy after each one that it sets.
MEDDLES = """REAL "$@"
status=$?
case "$*" in
*PUT*) REAL -s -X PUT --data-binary '# None' http://127.0.0.1:{}/policy >/dev/null ;;
esac
exit $status"""
# A program, after which another policy is in force.
OTHER_SETS = """REAL "$@"
curl -s -X PUT --data-binary '# None' http://127.0.0.1:{}/policy >/dev/null"""


def rule(clerk, maildrop, actions):
    """A policy of one rule that allows."""
    lines = [("name", "one"), ("effect", "allow"), ("clerk", clerk), ("maildrop", maildrop)]
    lines = [f'{key} = "{value}"\n' for key, value in lines]
    return "".join(["[[rule]]\n", *lines, f'class = "*"\nactions = {actions}\n'])


def names_of(why):
    """The notes of names that the server doesn't have."""
    return [it for it in why.splitlines() if " on the server: " in it]


class SetPolicy(ScriptCase):
    """The server begins with POLICY in force, which is `before`. A new policy lies in `new`."""

    options = ()

    def setUp(self):
        super().setUp()
        self.server = self.office(words=self.options)
        self.port, self.kept = str(self.server.admin), f"{self.folder}/kept"
        self.of_port, self.before = f"{self.kept}/port-{self.port}", self.in_force()
        self.new = f"{self.folder}/new.toml"
        write(self.new, READ_ONLY)

    def in_force(self):
        return self.server.administer("GET", "/policy")

    def text(self, policy, end=".toml"):
        """Where a policy is kept, under its name."""
        return f"{self.of_port}/{hashlib.sha256(policy.encode()).hexdigest()[:16]}{end}"

    def noted(self, *puts):
        """Fails unless these came into force, of each how, which, and by a form who set it."""
        puts = [(what, os.path.basename(self.text(it, "")), who) for what, it, who in puts]
        form = "".join(f"{what} {TIME} {name} {who}\n" for what, name, who in puts)
        fits(read_text(f"{self.of_port}/puts"), form)

    def decision(self):
        return self.server.administer("GET", "/explain/ann/orders/note/remove")

    def set_policy(self, *words, **how):
        """What popbox-set-policy gives, and the policy that is in force then."""
        where = ["--port", self.port, "--keep", self.kept, "--program", self.program]
        return *self.script("popbox-set-policy", *where, *words, **how), self.in_force()

    def sets(self, *words, said=b"y\n", **how):
        """What it prints, and the policy in force, if it has status 0 and no note."""
        status, said, why, after = self.set_policy(*words, said=said, **how)
        wants((status, why), (0, ""))
        return said, after


class Sets(SetPolicy):
    def test_set_policy_shows_and_asks(self):
        """It shows how the text changes and which decisions do, and sets nothing without a yes."""
        wants(self.set_policy(), (0, self.before, "", self.before))
        for answer in (b"n\n", b"\n", b""):
            status, said, why, after = self.set_policy(self.new, said=answer)
            wants((status, after), (1, self.before))
            wants(why.endswith("popbox-set-policy: nothing was changed\n"), True)
            lines = said.splitlines()
            for wanted in ("--- in force", f"+++ {self.new}"):
                wants([it for it in lines if it == wanted], [wanted])
            changed = [it for it in lines if re.match(r"[-+](?![-+])", it)]
            wants([(it[0], '"remove"' in it) for it in changed], [("-", True), ("+", False)])
            wants(CHANGE in said, True)
        wants(os.path.exists(self.kept), False)
        wants(self.decision(), ALLOWS)

    def test_set_policy_sets_and_goes_back(self):
        """What was in force is kept, and the new one with its comments, also if it is set again
        without them; and it is noted who set it."""
        said, narrow = self.sets(self.new, env={"POPBOX_WHO": "eve\nput"})
        kept = self.text(self.before)
        wants(said.splitlines()[-1], f"in force: 1 rules; what was before: {kept}")
        wants(self.decision(), DENIES)
        wants([read_text(self.text(it)) for it in (self.before, narrow)], [self.before, narrow])
        wants(os.stat(kept).st_mode & 0o777, 0o600)
        # Other comments are kept, too.
        why = write(self.new, f"# Why.\n{READ_ONLY}")
        wants(self.sets(why, said=b""), ("in force already: 1 rules\n", narrow))
        # The way back needs no answer with --yes.
        _, after = self.sets("--yes", "--back", said=b"", env={"SUDO_USER": "ann"})
        wants((after, self.decision()), (self.before, ALLOWS))
        self.sets(self.text(narrow))
        wants(read_text(self.text(narrow, ".source.toml")), read_text(why))
        puts = ("put", narrow, "eve_put"), ("back", self.before, "ann"), ("put", narrow, r"\w+")
        self.noted(("was", self.before, "-"), *puts)

    def test_set_policy_goes_back_step_by_step(self):
        """--back goes back by one policy that was in force, several of one second too; what is
        kept of another server, or wasn't set, is no step."""
        nothing = f"popbox-set-policy: no policy is kept in {self.of_port} {NOTHING}"
        os.makedirs(f"{self.kept}/port-1")
        for folder in (self.kept, f"{self.kept}/port-1"):
            write(f"{folder}/puts", f"put 2099-01-01T00-00-00Z {'0' * 16} ann\n" * 2)
        wants(self.set_policy("--back", said=b"y\n")[:3], (1, "", nothing))
        self.stand_in("date", "echo 2026-11-29T09-15-02Z")
        policies = [self.before]
        for clerk in ("ann", "bob", "cat"):
            new = write(self.new, rule(clerk, "*", ["open"]))
            status, _, _, after = self.set_policy(new, said=b"y\n")
            wants((status, f'"{clerk}"' in after), (0, True))
            policies.append(after)
        # Two that were kept, and then not set.
        self.stand_in("curl", 'case "$*" in *PUT*) exit 7 ;; esac\nexec REAL "$@"')
        in_force = policies.pop()
        for text in (POLICY, rule("dan", "*", ["open"])):
            status, _, why, after = self.set_policy("--yes", write(self.new, text))
            wants((status, after), (1, in_force))
            wants(why.splitlines()[-1][:38], "popbox-set-policy: the server didn't a")
        os.remove(f"{self.folder}/bin/curl")
        status, _, _, after = self.set_policy("--back", said=b"n\n")
        wants((status, f'"cat"' in after), (1, True))
        while policies:
            status, _, _, after = self.set_policy("--back", said=b"y\n")
            wants((status, after), (0, policies.pop()))
        wants(self.set_policy("--back", "--yes")[:3], (1, "", nothing))

    def test_set_policy_sets_nothing_before_the_old_one_is_on_the_disk(self):
        """If the old policy can't be brought to the disk, the new one isn't set."""
        env = self.note_calls()
        for path in (self.text(self.before), f"{self.of_port}/puts"):
            failing = {**env, "FAILS": f"sync {path}"}
            status, _, why, after = self.set_policy("--yes", self.new, env=failing)
            wants((path, status, after), (path, 1, self.before))
            wants(why.endswith(f" {path} can't be written {NOTHING}"), True)
        status, said, _, _ = self.set_policy("--yes", self.new, env=env)
        kept = said.splitlines()[-1].partition("what was before: ")[2]
        wants((status, f"sync {kept}" in self.calls()), (0, True))
        wants(self.decision(), DENIES)

    def test_set_policy_sets_what_it_showed(self):
        """What is set, and kept, is what was shown, if the file is another one by then."""
        other = write(f"{self.folder}/other.toml", rule("eve", "*", ["open"]))
        self.stand_in("diff", f'REAL "$@"\ncp {other} {self.new}')
        said, after = self.sets("--yes", self.new)
        wants((CHANGE in said, '"eve"' in after, self.decision()), (True, False, DENIES))
        wants(read_text(self.text(after, ".source.toml")), READ_ONLY)

    def test_set_policy_follows_no_link_of_what_it_keeps(self):
        """root writes nothing where a link of the folder's owner leads, and says so."""
        other = write(f"{self.folder}/other", "")
        os.makedirs(self.of_port)
        for it in (self.text(self.before), f"{self.of_port}/puts"):
            os.symlink(other, it)
        status, _, why, _ = self.set_policy("--yes", self.new)
        wants((status, why.endswith(f"/puts can't be written {NOTHING}")), (1, True))
        wants((self.decision(), read_text(other)), (ALLOWS, ""))

    def test_set_policy_gives_what_is_kept_to_the_folders_owner(self):
        """What is kept belongs to the owner of the folder, and only he can read it."""
        self.needs_root()
        nobody = 65534
        os.mkdir(self.kept)
        os.chown(self.kept, nobody, nobody)
        wants(self.set_policy("--yes", self.new)[0], 0)
        for path in [self.of_port, *glob.glob(f"{self.of_port}/**/*", recursive=True)]:
            found = os.stat(path)
            wants((path, found.st_uid, found.st_gid), (path, nobody, nobody))
            wants((path, found.st_mode & 0o077), (path, 0))


class Names(SetPolicy):
    def test_set_policy_notes_names_that_the_server_does_not_have(self):
        """A clerk or a maildrop that a rule names and the server doesn't have is noted."""
        self.server.administer("PUT", "/clerks/ann", "pass x")
        for clerk, maildrop, told in (
            ("ann", "orders", []), ("ann", "ordrs", ["note: no maildrop on the server: ordrs"]),
            ("anne", "sales", ["note: no clerk on the server: anne"]), ("*", "*", []),
            ("x", "sales", ["note: no clerk on the server: x"]),
        ):
            new = write(self.new, rule(clerk, maildrop, ["open"]))
            wants(names_of(self.set_policy(new, said=b"n\n")[2]), told)
        # Several of one table's row and of a group, and of several rules.
        group = '[[group]]\nname = "desk"\nmembers = ["dan", "ann", "eve"]\n\n'
        rules = [rule("@desk", "sales", ["open"]), rule("bob", "orders", ["open", "read"])]
        rules = [it.replace('"one"', f'"rule-{at}"') for at, it in enumerate(rules)]
        new = write(self.new, group + "\n".join(rules))
        told = [f"note: no clerk on the server: {it}" for it in ("bob", "dan", "eve")]
        wants(names_of(self.set_policy(new, said=b"n\n")[2]), told)


class ListedNames(SetPolicy):
    options = ["--list-clerks"]

    def test_set_policy_takes_the_servers_list_of_clerks(self):
        """If the server lists its clerks, none is asked for by name."""
        asked = f"{self.folder}/asked"
        self.stand_in("curl", f'for it; do url=$it; done\necho "$url" >>{asked}\nexec REAL "$@"')
        group = '[[group]]\nname = "desk"\nmembers = ["ann", "anne", "bo", "bob"]\n\n'
        self.server.administer("PUT", "/clerks/ann", "pass x")
        self.server.administer("PUT", "/clerks/bob", "apop x")
        new = write(self.new, group + rule("@desk", "orders", ["open"]))
        told = [f"note: no clerk on the server: {it}" for it in ("anne", "bo")]
        wants(names_of(self.set_policy(new, said=b"n\n")[2]), told)
        paths = [it.rpartition(self.port)[2] for it in read_text(asked).splitlines()]
        wants(paths, ["/policy", "/clerks", "/maildrops"])


class Refuses(SetPolicy):
    def test_set_policy_refuses(self):
        """A faulty policy, one that lets nobody in, and a missing file or folder change nothing;
        --yes-nobody sets a policy that lets nobody in, and asks all the same."""
        faulty = write(self.new, POLICY.replace('"allow"', '"maybe"'))
        status, said, why, after = self.set_policy("--yes", faulty)
        wants((status, said, after), (1, "", self.before))
        wants(why.startswith("popbox-set-policy: popbox: rule 1: "), True)
        wants((f"why: {faulty}, rule 1 all: " in why, why.endswith(NOTHING)), (True, True))
        # One that lets nobody in, also by a program that says which build it is.
        speaks = ["--program", self.speaks()]
        for text in ("# No rule.\n", rule("x", "*", ["read", "remove"])):
            for words in (["--yes"], ["--yes", *speaks], speaks):
                new = write(self.new, text)
                status, said, why, after = self.set_policy(*words, new, said=b"y\n")
                wants((text, status, said, after), (text, 1, "", self.before))
                told = f"{new} lets nobody open a maildrop: --yes-nobody sets it {NOTHING}"
                wants(why.endswith(told), True)
        new = write(self.new, READ_ONLY)
        for words in (["--keep", f"{new}/in"], ["--keep", "/proc"]):
            status, _, why, after = self.set_policy("--yes", *words, new)
            wants((words, status, why.endswith(NOTHING), after), (words, 1, True, self.before))
        status, said, why, after = self.set_policy(f"{new}.none", "--yes")
        wants((status, said, why.endswith(NOTHING), after), (1, "", True, self.before))
        wants(os.path.exists(self.kept), False)
        empty = write(self.new, "# No rule.\n")
        status, _, _, after = self.set_policy("--yes-nobody", empty, said=b"n\n")
        wants((status, after), (1, self.before))
        status, _, why, _ = self.set_policy("--yes-nobody", "--yes", empty)
        wants((status, why), (0, "note: rule 1 all is gone\n"))
        wants(self.decision(), DENIES)

    def test_set_policy_sees_what_is_in_force(self):
        """It says if another policy is in force after its own was set, or if no server answers,
        and refuses a wrong command line."""
        # As if another administrator set one right after this.
        self.stand_in("curl", MEDDLES.format(self.port))
        status, _, why, after = self.set_policy("--yes", self.new)
        wants((status, after == self.before), (1, False))
        wants("another policy is in force" in why, True)
        self.server.end()
        status, said, why = self.script("popbox-set-policy", "--port", self.port, self.new)
        wants((status, said), (1, ""))
        wants(why.splitlines()[-1], "popbox-set-policy: the server doesn't tell its policy")
        for words, told in (
            (["--nothing"], "no option --nothing"), ([self.new, self.new], "two files"),
            (["--back", self.new], "--back and a file"), (["--port"], "--port wants a value"),
            (["--port", "abc"], "no port abc"),
        ):
            found = self.script("popbox-set-policy", *words)
            wants(found, (2, "", f"popbox-set-policy: {told}\n"))

    def test_set_policy_replaces_only_what_was_looked_at(self):
        """With --over it sets nothing unless that text is in force; and nothing either, if the
        policy changes while it shows its own."""
        looked = f"{self.folder}/looked"
        for text in ("", self.before[:-1], READ_ONLY):
            write(looked, text)
            found = self.set_policy("--yes", "--over", looked, self.new)
            wants(found, (3, "", ANOTHER, self.before))
        # Another administrator sets one while this shows what changes.
        self.stand_in("diff", OTHER_SETS.format(self.port))
        status, _, why, after = self.set_policy("--yes", self.new)
        wants((status, why.endswith(ANOTHER), after), (3, True, ""))
        wants(os.path.exists(self.kept), False)
        os.remove(f"{self.folder}/bin/diff")
        write(looked, after)
        wants(self.set_policy("--yes", "--over", looked, self.new)[0], 0)
        wants(self.decision(), DENIES)

    def test_one_of_two_set_policies_at_once_sets(self):
        """Of two calls at once one sets its policy, and the other says that another is in force;
        so does one that waits for the lock meanwhile."""
        looked = write(f"{self.folder}/looked", self.before)
        words = ("--yes", "--over", looked, self.new)
        with concurrent.futures.ThreadPoolExecutor() as both:
            ran = [both.submit(self.set_policy, *words) for _ in range(2)]
            wants(sorted(it.result()[0] for it in ran), [0, 3])
        self.noted(("was", self.before, "-"), ("put", self.in_force(), r"\w+"))
        self.stand_in("flock", OTHER_SETS.format(self.port))
        status, _, why, after = self.set_policy("--yes", write(self.new, POLICY))
        wants((status, why.endswith(ANOTHER), after), (3, True, ""))
        wants(len(read_text(f"{self.of_port}/puts").splitlines()), 2)
